//! What a joined plan has of the two plans that it was made from.
use crate::door::{agree, Short};
use crate::inputs::Draft;
use crate::join::{compare, gcd, pair_of, Met, Pair};
use crate::judged::{likely_plan, TARGETS};
use crate::passing::repeated;
use crate::random::Random;
use crate::reference;
use crate::reference::graph::graph;
use crate::words::{code, code_word, random_word};
use crate::{steiner, table_vi, tables};
use qcldpc::{Girth, Plan, Syndrome};

// Plans with more bits are not written, nor searched by the reference.
const FEW_BITS: usize = 3000;

/// Each entry is in range and leaves both remainders, or is empty where both are. Nothing is wrong with the plan, and it is the
/// same in the other order.
pub fn assert_joined(Pair { first, second, .. }: &Pair, joined: &Draft) {
    let input = &(Short(&first.lent()), Short(&second.lent()));
    for (place, &x) in joined.entries.iter().enumerate() {
        let leaves = |plan: &Draft| match plan.entries[place] {
            -1 => x == -1,
            e => x >= 0 && (x as usize) < joined.lift && x as usize % plan.lift == e as usize % plan.lift,
        };
        assert!(leaves(first) && leaves(second), "{x} at {place}, for {input:?}");
    }
    agree(input, qcldpc::check(&joined.lent()), Ok(()));
    let mut other_order = vec![0; joined.entries.len()];
    agree(input, qcldpc::join(&second.lent(), &first.lent(), &mut other_order), Ok(joined.lift));
    agree(input, &other_order, &joined.entries);
}

// At which targets a plan passes by the girth test, and the girth that this tells, up to 18.
fn verdicts_of(plan: &Plan) -> ([bool; 7], usize) {
    let test = |target| qcldpc::girth(plan, target).expect("a good plan");
    (TARGETS.map(|target| test(target) == Girth::Passed), test(18).girth().unwrap_or(18))
}

// How often, at each target, the two plans and the joined one passed or not.
#[derive(Default)]
struct Verdicts([[[[usize; 2]; 2]; 2]; 7]);

impl Verdicts {
    // Where either plan passes, the joined one passes, and its girth is no less than theirs. Gives it.
    fn compare(&mut self, Pair { first, second, .. }: &Pair, joined: &Draft) -> usize {
        let input = &(Short(&first.lent()), Short(&second.lent()));
        let [(one, girth_one), (other, girth_other), (both, girth)] =
            [first, second, joined].map(|plan| verdicts_of(&plan.lent()));
        assert!(girth >= girth_one.max(girth_other), "girth {girth}, for {input:?}");
        for k in 0..7 {
            assert!(both[k] || !one[k] && !other[k], "the joined plan fails at {}, for {input:?}", TARGETS[k]);
            self.0[k][one[k] as usize][other[k] as usize][both[k] as usize] += 1;
        }
        girth
    }

    // Both plans, one of them or none passed; the joined one too where none did.
    fn assert_all(&self) {
        for (target, [[[none, beyond], [_, second]], [[_, first], [_, both]]]) in TARGETS.iter().zip(self.0) {
            let met = [none, beyond, second, first, both];
            assert!(met.iter().all(|&times| times > 20), "at {target}: {met:?}");
        }
    }
}

// The joined plan has the weights of the first: its alist is written with them.
fn compare_alist(first: &Draft, joined: &Draft) {
    let (plan, weights) = (&joined.lent(), first.weights());
    let text = reference::alist::text(plan).into_bytes();
    let mut place = vec![0; text.len()];
    agree(&Short(plan), qcldpc::alist_write(plan, &weights.rows, &weights.cols, &mut place), Ok(text.len()));
    agree(&Short(plan), &place, &text);
}

// A word of either plan, repeated in each column, has the same odd checks in the joined plan: so a code word is one there too.
fn compare_words(random: &Random, part: &Draft, joined: &Draft, met: &mut [usize; 2]) {
    let mut word = match random.once_in(2) {
        true => code_word(random, &code(&part.lent())),
        false => random_word(random, part.bits()),
    };
    if random.once_in(2) {
        word[random.below(part.bits())] ^= 1;
    }
    let (p, q) = (part.lift, joined.lift);
    let got = qcldpc::syndrome(&joined.lent(), &repeated(joined, p, &word)).expect("a word of the plan's length");
    let wanted = match qcldpc::syndrome(&part.lent(), &word).expect("a word of the plan's length") {
        Syndrome::Even => Syndrome::Even,
        Syndrome::Odd(check) => Syndrome::Odd(check / p * q + check % p),
    };
    agree(&(Short(&part.lent()), Short(&joined.lent()), &word), got, wanted);
    met[(wanted == Syndrome::Even) as usize] += 1;
}

// The lifts that may be joined with a plan's.
fn lifts_beside(plan: &Draft) -> Vec<usize> {
    let most = (4096 / plan.lift).min(65536 / plan.bits());
    (1..=most).filter(|&lift| gcd(plan.lift, lift) == 1).collect()
}

// A plan of which each girth is likely, and one like it; either may be the first.
fn likely_pair(random: &Random) -> Pair {
    let first = likely_plan(random);
    let lifts = lifts_beside(&first);
    let lift = random.choice(&lifts[..random.choice(&[20, lifts.len()]).min(lifts.len())]);
    let pair = pair_of(random, first, lift);
    match random.once_in(2) {
        true => Pair { first: pair.second, second: pair.first, places: pair.places },
        false => pair,
    }
}

fn compare_likely(random: &Random, met: &mut Met, verdicts: &mut Verdicts) {
    let (mut words, mut searched) = ([0; 2], 0);
    for _ in 0..3000 {
        let pair = likely_pair(random);
        let joined = compare(&pair, met).expect("nothing is to be refused");
        let girth = verdicts.compare(&pair, &joined);
        if joined.bits() <= FEW_BITS {
            agree(&Short(&joined.lent()), girth, reference::girth::girth(&graph(&joined.lent()), joined.lift));
            compare_alist(&pair.first, &joined);
            for part in [&pair.first, &pair.second] {
                compare_words(random, part, &joined, &mut words);
            }
            searched += 1;
        }
    }
    assert!(searched > 1000 && words[0].min(words[1]) > 500, "{searched} plans and {words:?} words");
}

// Every two plans of a list that may be joined: the joined one passes at the target that all pass at.
fn compare_list(plans: &[Draft], target: usize, least: usize, met: &mut Met, verdicts: &mut Verdicts) {
    let mut joins = 0;
    for (first, second) in plans.iter().flat_map(|first| plans.iter().map(move |second| (first, second))) {
        let pair = Pair { first: first.clone(), second: second.clone(), places: first.entries.len() };
        if let Ok(joined) = compare(&pair, met) {
            assert!(verdicts.compare(&pair, &joined) >= target);
            joins += 1;
        }
    }
    assert!(joins >= least, "only {joins} plans were joined");
}

// A plan keeps its girth, whatever voltages are joined with it: at every lift beside it, or at some of many.
fn compare_kept(random: &Random, plan: &Draft, girth: usize, met: &mut Met, verdicts: &mut Verdicts) {
    let mut lifts = lifts_beside(plan);
    random.shuffle(&mut lifts);
    for lift in lifts.into_iter().take(12) {
        let pair = pair_of(random, plan.clone(), lift);
        let joined = compare(&pair, met).expect("nothing is to be refused");
        assert!(verdicts.compare(&pair, &joined) >= girth);
    }
}

pub fn compare_all(random: &Random, met: &mut Met) {
    let mut verdicts = Verdicts::default();
    compare_likely(random, met, &mut verdicts);
    let (tables, triples) = (tables::built_plans(random), steiner::built_plans(random));
    compare_list(&tables, 12, 18, met, &mut verdicts);
    compare_list(&triples, 6, 100, met, &mut verdicts);
    tables.iter().for_each(|plan| compare_kept(random, plan, 12, met, &mut verdicts));
    table_vi::plans().iter().for_each(|(plan, girth)| compare_kept(random, plan, *girth, met, &mut verdicts));
    verdicts.assert_all();
}
