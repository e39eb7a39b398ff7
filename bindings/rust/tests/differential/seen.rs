//! Which answers a subject's inputs have met.
use crate::reference::alist::Departures;
use qcldpc::Plan;
use std::collections::BTreeMap;
use std::fmt;

/// The highest number of a refusal.
pub const LAST: u64 = 32;

/// The number that a call returns: 0 where it is no refusal.
pub fn number<T>(answer: &Result<T, qcldpc::Refusal>) -> u64 {
    answer.as_ref().map_or_else(|refusal| refusal.number, |_| 0)
}

#[derive(Clone, Default)]
pub struct Seen {
    pub results: usize,
    /// Those of them with a voltage at or above the lift.
    pub printed: usize,
    /// How often each refusal was met.
    refusals: BTreeMap<u64, usize>,
}

impl Seen {
    pub fn note<T>(&mut self, answer: &Result<T, qcldpc::Refusal>) {
        match answer {
            Ok(_) => self.results += 1,
            Err(refusal) => *self.refusals.entry(refusal.number).or_default() += 1,
        }
    }

    /// The answer of a call that was given a plan.
    pub fn note_on<T>(&mut self, plan: &Plan, answer: &Result<T, qcldpc::Refusal>) {
        self.note_voltages(plan.entries, plan.lift, answer);
    }

    /// The answer of a call that was given voltages and a lift.
    pub fn note_voltages<T>(&mut self, voltages: &[i16], lift: usize, answer: &Result<T, qcldpc::Refusal>) {
        self.note(answer);
        let printed = voltages.iter().any(|&voltage| voltage >= 0 && voltage as usize >= lift);
        self.printed += (answer.is_ok() && printed) as usize;
    }

    pub fn refusals(&self, number: u64) -> usize {
        self.refusals.get(&number).copied().unwrap_or(0)
    }

    /// The refusals that were met, rising.
    pub fn met(&self) -> Vec<u64> {
        self.refusals.keys().copied().collect()
    }
}

impl fmt::Display for Seen {
    fn fmt(&self, f: &mut fmt::Formatter) -> fmt::Result {
        write!(f, "{} results", self.results)?;
        if self.printed > 0 {
            write!(f, " ({} with a voltage at or above the lift)", self.printed)?;
        }
        self.refusals.iter().try_for_each(|(number, times)| write!(f, ", {times} of refusal {number}"))
    }
}

/// How many texts agreed with which forms of an alist, and how many departed from both, in which form later.
#[derive(Default)]
pub struct SeenForms {
    both: usize,
    padded_alone: usize,
    unpadded_alone: usize,
    neither_padded_later: usize,
    neither_unpadded_later: usize,
    neither_same_place: usize,
}

impl SeenForms {
    pub fn note(&mut self, departures: &Departures) {
        let count = match (departures.padded, departures.unpadded) {
            (None, None) => &mut self.both,
            (None, Some(_)) => &mut self.padded_alone,
            (Some(_), None) => &mut self.unpadded_alone,
            (Some(padded), Some(unpadded)) if padded > unpadded => &mut self.neither_padded_later,
            (Some(padded), Some(unpadded)) if padded < unpadded => &mut self.neither_unpadded_later,
            (Some(_), Some(_)) => &mut self.neither_same_place,
        };
        *count += 1;
    }

    // Each count with its name.
    fn counts(&self) -> [(&str, usize); 6] {
        [
            ("with both forms", self.both),
            ("with the padded form alone", self.padded_alone),
            ("with the unpadded form alone", self.unpadded_alone),
            ("with neither, the padded place later", self.neither_padded_later),
            ("with neither, the unpadded place later", self.neither_unpadded_later),
            ("with neither, both at one place", self.neither_same_place),
        ]
    }

    /// The least count and its name.
    pub fn rarest(&self) -> (&str, usize) {
        self.counts().into_iter().min_by_key(|count| count.1).unwrap()
    }
}

impl fmt::Display for SeenForms {
    fn fmt(&self, f: &mut fmt::Formatter) -> fmt::Result {
        let texts: usize = self.counts().iter().map(|count| count.1).sum();
        write!(f, "{texts} texts")?;
        self.counts().iter().try_for_each(|(name, count)| write!(f, ", {count} {name}"))
    }
}
