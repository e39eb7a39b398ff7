//! The proved comparer beside plain ones.
use crate::common::{judge, timed, OwnedPlan};
use crate::lists::{all_lines, digits, lists, Form, Lists, Sink};
use std::hint::black_box;
use std::time::Duration;

// Reads a text token by token, up to the first wrong one. In the unpadded form line feeds are tokens.
struct Reader<'a> {
    text: &'a [u8],
    at: usize,
    form: Form,
}

impl Reader<'_> {
    fn skip_blanks(&mut self) {
        while let Some(b' ' | b'\t' | b'\r' | b'\n') = self.text.get(self.at) {
            if self.text[self.at] == b'\n' && self.form == Form::Unpadded {
                return;
            }
            self.at += 1;
        }
    }

    fn line_end(&mut self) -> Result<(), usize> {
        if self.form == Form::Unpadded {
            self.skip_blanks();
            if self.text.get(self.at) != Some(&b'\n') {
                return Err(self.at);
            }
            self.at += 1;
        }
        Ok(())
    }

    // After the last line nothing but blanks is left.
    fn text_end(&mut self) -> Result<(), usize> {
        self.skip_blanks();
        match self.at == self.text.len() {
            true => Ok(()),
            false => Err(self.at),
        }
    }
}

impl Sink for Reader<'_> {
    type Stop = usize;

    fn number(&mut self, n: u32, ends_line: bool) -> Result<(), usize> {
        self.skip_blanks();
        let (mut end, mut value) = (self.at, 0u32);
        while let Some(digit @ b'0'..=b'9') = self.text.get(end) {
            value = value.wrapping_mul(10).wrapping_add((digit - b'0') as u32);
            end += 1;
        }
        let whole = matches!(self.text.get(end), None | Some(b' ' | b'\t' | b'\r' | b'\n'));
        if !whole || value != n || end - self.at != digits(n) {
            return Err(self.at);
        }
        self.at = end;
        match ends_line {
            true => self.line_end(),
            false => Ok(()),
        }
    }

    fn blank_line(&mut self) -> Result<(), usize> {
        self.line_end()
    }
}

fn read(lists: &Lists, form: Form, text: &[u8]) -> Result<(), usize> {
    let mut reader = Reader { text, at: 0, form };
    all_lines(lists, form, &mut reader)?;
    reader.text_end()
}

// Agrees with either form, or departs from both, at the later place.
fn compare(lists: &Lists, text: &[u8]) -> Result<(), usize> {
    let Err(padded) = read(lists, Form::Padded, text) else { return Ok(()) };
    read(lists, Form::Unpadded, text).map_err(|unpadded| unpadded.max(padded))
}

fn same_work(plan: &OwnedPlan, text: &[u8]) -> Result<(), usize> {
    judge(&plan.lent()).expect("the plan is good");
    compare(&lists(plan), text)
}

// The proved comparer; of a refusal the place.
fn proved(plan: &OwnedPlan, text: &[u8]) -> Result<(), usize> {
    plan.agrees(text).map_err(|refusal| refusal.values[0] as usize)
}

/// All comparers in turn over one text, best of 7 each.
pub fn beside(name: &str, plan: &OwnedPlan, text: &[u8], wanted: Result<(), usize>) {
    let once = &lists(plan);
    let mut best = [Duration::MAX; 3];
    for _ in 0..7 {
        let a = timed(&mut best[0], || proved(black_box(plan), black_box(text)));
        let b = timed(&mut best[1], || same_work(black_box(plan), black_box(text)));
        let c = timed(&mut best[2], || compare(black_box(once), black_box(text)));
        assert!(a == wanted && b == wanted && c == wanted, "{name}: {a:?}, {b:?}, {c:?}, not {wanted:?}");
    }
    let [ours, references @ ..] = best.map(|t| t.as_secs_f64() * 1e3);
    println!("{name} text, {} bytes: qcldpc_alist_compare {ours:.3} ms", text.len());
    for (name, theirs) in ["same work for each text", "plan prepared once"].iter().zip(references) {
        println!("  reference, {name}, {theirs:.3} ms, ratio {:.2}", ours / theirs);
    }
}
