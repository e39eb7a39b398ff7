//! Promise 3 on real plans: a codeword that lost no more bits than the plan's girth allows comes back whole.
use crate::inputs::Draft;
use crate::passing::{by_girth, passing_column_plan, BOUNDS, PASSING};
use crate::random::Random;
use crate::seen::Seen;
use crate::words::{code, code_word};
use crate::{cages, fill};
use qcldpc::Fill;

fn comes_back(plan: &Draft, word: &[u8], lost: &[usize], seen: &mut Seen) {
    let mut lent = word.to_vec();
    lost.iter().for_each(|&b| lent[b] = 2);
    let whole = Fill { filled: lost.len(), left: 0 };
    assert_eq!(fill::compare(&plan.lent(), &lent, seen), Some(whole));
    assert_eq!(qcldpc::fill(&plan.lent(), &mut lent), Ok(whole));
    assert!(lent == word, "the codeword does not come back");
}

// Every choice of n bits.
fn every_choice(plan: &Draft, word: &[u8], n: usize, chosen: &mut Vec<usize>, seen: &mut Seen) {
    if chosen.len() == n {
        return comes_back(plan, word, chosen, seen);
    }
    for bit in chosen.last().map_or(0, |b| b + 1)..plan.bits() {
        chosen.push(bit);
        every_choice(plan, word, n, chosen, seen);
        chosen.pop();
    }
}

// The bounds are reached at 6, 8, 10, 12 and 16: one bit more can be stuck. At 14 the least such set has 24 bits, not 22.
fn compare_cages(seen: &mut Seen) {
    let more = [1, 1, 1, 1, 3, 1];
    for ((plan, (_, bound)), more) in cages::plans().into_iter().zip(BOUNDS).zip(more) {
        let all = plan.bits();
        assert_eq!((by_girth(plan.clone(), 0).bound, all), (bound, bound + more));
        let stuck = Fill { filled: 0, left: all };
        assert_eq!(fill::compare(&plan.lent(), &vec![2; all], seen), Some(stuck));
    }
}

pub fn compare_all() -> Seen {
    let (random, mut seen) = (Random::new(7), Seen::default());
    for passing in PASSING.iter() {
        passing.each_damage(&random, |word, lost| comes_back(&passing.plan, word, lost, &mut seen));
    }
    compare_cages(&mut seen);
    for (target, n, cols, lift) in [(6, 3, 4, 7), (8, 5, 3, 8)] {
        let plan = passing_column_plan(&random, target, 3, cols, lift);
        let word = code_word(&random, &code(&plan.lent()));
        every_choice(&plan, &word, n, &mut vec![], &mut seen);
    }
    seen
}
