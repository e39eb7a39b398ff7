//! alist text by building strings, and its comparison by splitting into tokens, in both forms of an alist.
use super::graph::graph;
use super::weights::{weights, Weights};
use super::{plan, refused};
use qcldpc::{Plan, Refusal};
use std::fmt::Write;

/// Padded: short lists are filled up with 0, and a line feed is a blank.
/// Unpadded: a short list ends with its line, and each line feed is a token.
#[derive(Clone, Copy, PartialEq, Eq)]
pub enum Form {
    Padded,
    Unpadded,
}

// One space between numbers, none at the line's end.
fn line(numbers: &[usize]) -> String {
    let mut line = String::new();
    for n in numbers {
        write!(line, "{n} ").unwrap();
    }
    line.pop();
    line + "\n"
}

/// A line for each node: its neighbours counted from 1, in the padded form filled up with 0.
fn neighbour_lines(lists: &[Vec<usize>], greatest: usize, form: Form) -> String {
    let numbers = |list: &Vec<usize>| {
        let mut numbers: Vec<usize> = list.iter().map(|n| n + 1).collect();
        if form == Form::Padded {
            numbers.resize(greatest, 0);
        }
        numbers
    };
    lists.iter().map(|list| line(&numbers(list))).collect()
}

/// The text in a form of a plan that is not refused.
pub fn text_in(plan: &Plan, form: Form) -> String {
    let g = graph(plan);
    let degrees = |lists: &[Vec<usize>]| lists.iter().map(Vec::len).collect::<Vec<usize>>();
    let (bits, checks) = (degrees(&g.checks_of), degrees(&g.bits_of));
    let (most_bits, most_checks) = (*bits.iter().max().unwrap(), *checks.iter().max().unwrap());
    [
        line(&[bits.len(), checks.len()]),
        line(&[most_bits, most_checks]),
        line(&bits),
        line(&checks),
        neighbour_lines(&g.checks_of, most_bits, form),
        neighbour_lines(&g.bits_of, most_checks, form),
    ]
    .concat()
}

/// The text that is written: the padded one.
pub fn text(plan: &Plan) -> String {
    text_in(plan, Form::Padded)
}

/// The text, where it fits into a place of some bytes, and the lists beside the plan are its weights.
fn fitting(plan: &Plan, beside: &Weights, places: usize) -> Result<String, Refusal> {
    plan::check(plan)?;
    let text = text(plan);
    if places < text.len() {
        return Err(refused(17, &[text.len()]));
    }
    super::weights::check(&weights(plan), beside)?;
    Ok(text)
}

/// The length of the text or a refusal, and the lent place as it is then.
pub fn write(plan: &Plan, beside: &Weights, lent: &[u8]) -> (Result<usize, Refusal>, Vec<u8>) {
    match fitting(plan, beside, lent.len()) {
        Err(refusal) => (Err(refusal), lent.to_vec()),
        Ok(text) => (Ok(text.len()), [text.as_bytes(), &lent[text.len()..]].concat()),
    }
}

/// How long the token is that begins at a place of a text; 0 where a blank stands there.
fn token_length(text: &[u8], place: usize, form: Form) -> usize {
    match text[place] {
        b'\n' if form == Form::Unpadded => 1,
        _ => text[place..].iter().take_while(|byte| !b" \t\r\n".contains(byte)).count(),
    }
}

/// The tokens of a text in a form, each with the place of its first byte.
fn tokens(text: &[u8], form: Form) -> Vec<(usize, &[u8])> {
    let (mut found, mut place) = (vec![], 0);
    while place < text.len() {
        let length = token_length(text, place, form);
        if length > 0 {
            found.push((place, &text[place..place + length]));
        }
        place += length.max(1);
    }
    found
}

/// Where a text first departs from a form of an alist: at its first wrong or extra token, or at its end if it ends early.
fn departure(alist: &str, text: &[u8], form: Form) -> Option<usize> {
    let (expected, given) = (tokens(alist.as_bytes(), form), tokens(text, form));
    for (k, (place, token)) in given.iter().enumerate() {
        if k == expected.len() || expected[k].1 != *token {
            return Some(*place);
        }
    }
    (given.len() < expected.len()).then_some(text.len())
}

/// A plan's alist in both forms, and its weights.
pub struct Alist {
    padded: String,
    unpadded: String,
    weights: Weights,
}

/// The alist of a plan, or why the plan is refused.
pub fn alist(plan: &Plan) -> Result<Alist, Refusal> {
    plan::check(plan)?;
    let [padded, unpadded] = [Form::Padded, Form::Unpadded].map(|form| text_in(plan, form));
    Ok(Alist { padded, unpadded, weights: weights(plan) })
}

/// Where a text first departs from each form; none where it agrees with that form whole.
pub struct Departures {
    pub padded: Option<usize>,
    pub unpadded: Option<usize>,
}

pub fn departures(alist: &Alist, text: &[u8]) -> Departures {
    Departures {
        padded: departure(&alist.padded, text, Form::Padded),
        unpadded: departure(&alist.unpadded, text, Form::Unpadded),
    }
}

/// A text agrees that departs from one form nowhere; else the later place is shown. Then the lists beside the plan are looked at.
pub fn compare(alist: &Alist, departures: &Departures, beside: &Weights) -> Result<(), Refusal> {
    match (departures.padded, departures.unpadded) {
        (Some(padded), Some(unpadded)) => Err(refused(21, &[padded.max(unpadded)])),
        _ => super::weights::check(&alist.weights, beside),
    }
}
