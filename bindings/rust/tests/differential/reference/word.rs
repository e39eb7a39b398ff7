//! Words: refusals 16, 18 and 19, the syndrome by plain sums, and the lost bytes.
use super::graph::graph;
use super::{plan, refused};
use qcldpc::{Plan, Refusal, Syndrome};

/// Refusals 1 to 6, 16 and 18.
pub fn check(plan: &Plan, word: &[u8]) -> Result<(), Refusal> {
    plan::check(plan)?;
    if word.len() != plan.cols * plan.lift {
        return Err(refused(16, &[]));
    }
    match word.iter().position(|&byte| byte > 2) {
        Some(place) => Err(refused(18, &[place])),
        None => Ok(()),
    }
}

/// Whether every check is even, or the lowest odd one.
pub fn syndrome(plan: &Plan, word: &[u8]) -> Result<Syndrome, Refusal> {
    check(plan, word)?;
    if let Some(place) = word.iter().position(|&byte| byte == 2) {
        return Err(refused(19, &[place]));
    }
    let odd = |bits: &Vec<usize>| bits.iter().map(|&b| word[b] as usize).sum::<usize>() % 2 == 1;
    match graph(plan).bits_of.iter().position(odd) {
        Some(check) => Ok(Syndrome::Odd(check)),
        None => Ok(Syndrome::Even),
    }
}

/// The bytes equal to 2.
pub fn lost(word: &[u8]) -> usize {
    word.iter().filter(|&&byte| byte == 2).count()
}
