//! The proved writer beside plain ones.
use crate::common::{judge, timed, OwnedPlan};
use crate::lists::{all_lines, digits, lists, Form, Lists, Sink};
use qcldpc::Refusal;
use std::convert::Infallible;
use std::hint::black_box;
use std::time::Duration;

struct Length(usize);

impl Sink for Length {
    type Stop = Infallible;

    fn number(&mut self, n: u32, _: bool) -> Result<(), Infallible> {
        self.0 += digits(n) + 1;
        Ok(())
    }

    fn blank_line(&mut self) -> Result<(), Infallible> {
        self.0 += 1;
        Ok(())
    }
}

struct Bytes<'a> {
    text: &'a mut [u8],
    at: usize,
}

impl Sink for Bytes<'_> {
    type Stop = Infallible;

    fn number(&mut self, n: u32, ends_line: bool) -> Result<(), Infallible> {
        let end = self.at + digits(n);
        let mut rest = n;
        for byte in self.text[self.at..end].iter_mut().rev() {
            *byte = b'0' + (rest % 10) as u8;
            rest /= 10;
        }
        self.text[end] = if ends_line { b'\n' } else { b' ' };
        self.at = end + 1;
        Ok(())
    }

    fn blank_line(&mut self) -> Result<(), Infallible> {
        self.text[self.at] = b'\n';
        self.at += 1;
        Ok(())
    }
}

fn length(lists: &Lists, form: Form) -> usize {
    let mut length = Length(0);
    let Ok(()) = all_lines(lists, form, &mut length);
    length.0
}

fn write(lists: &Lists, form: Form, text: &mut [u8]) -> usize {
    let mut bytes = Bytes { text, at: 0 };
    let Ok(()) = all_lines(lists, form, &mut bytes);
    bytes.at
}

/// The text of a plan in a form.
pub fn text(plan: &OwnedPlan, form: Form) -> Vec<u8> {
    let lists = lists(plan);
    let mut text = vec![0; length(&lists, form)];
    write(&lists, form, &mut text);
    text
}

fn write_at_once(plan: &OwnedPlan, text: &mut [u8]) -> Result<usize, u64> {
    judge(&plan.lent())?;
    Ok(write(&lists(plan), Form::Padded, text))
}

fn measure_and_write(plan: &OwnedPlan, text: &mut [u8]) -> Result<usize, u64> {
    judge(&plan.lent())?;
    let lists = lists(plan);
    if text.len() < length(&lists, Form::Padded) {
        return Err(17);
    }
    Ok(write(&lists, Form::Padded, text))
}

// The proved writer, with the weights that the plan has counted before.
fn proved(plan: &OwnedPlan, text: &mut [u8]) -> Result<usize, Refusal> {
    qcldpc::alist_write(&plan.lent(), plan.row_weights(), plan.col_weights(), text)
}

/// All writers in turn over a place of their own, best of 7 each.
pub fn beside(name: &str, plan: &OwnedPlan, room: usize) {
    let once = &lists(plan);
    let mut places = [(); 4].map(|_| vec![0; room]);
    let [a, b, c, d] = &mut places;
    let mut best = [Duration::MAX; 4];
    for _ in 0..7 {
        let n = timed(&mut best[0], || proved(black_box(plan), black_box(a))).unwrap();
        let m = timed(&mut best[1], || measure_and_write(black_box(plan), black_box(b))).unwrap();
        let k = timed(&mut best[2], || write_at_once(black_box(plan), black_box(c))).unwrap();
        let p = timed(&mut best[3], || write(black_box(once), Form::Padded, black_box(d)));
        assert!(n == m && n == k && n == p && a == b && a == c && a == d, "the texts differ");
    }
    let [ours, references @ ..] = best.map(|t| t.as_secs_f64() * 1e3);
    println!("{name} place: qcldpc_alist_write {ours:.3} ms");
    for (name, theirs) in ["measures and writes", "writes at once", "plan prepared once"].iter().zip(references) {
        println!("  reference, {name}, {theirs:.3} ms, ratio {:.2}", ours / theirs);
    }
}
