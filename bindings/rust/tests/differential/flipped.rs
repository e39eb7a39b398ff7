//! What a round leaves of a codeword (document 02, slip 12): it stays; and by a plan that passes at 6 one wrong bit comes back.
use crate::flip::{compare_by, small_three, Met};
use crate::inputs::Draft;
use crate::passing::PASSING;
use crate::random::Random;
use crate::reference::flip::Flipper;
use crate::reference::graph::Graph;
use crate::seen::Seen;
use crate::words::{code, code_word};
use qcldpc::Girth;

// Of a plan with no more bits, each is tried as the wrong one.
const FEW: usize = 1500;

fn passes_at_6(plan: &Draft) -> bool {
    qcldpc::girth(&plan.lent(), 6) == Ok(Girth::Passed)
}

// The bits that are tried: all, or the first and the last of some columns, some of all columns, and the last of all.
fn tried(random: &Random, plan: &Draft) -> Vec<usize> {
    let Draft { cols, lift, .. } = *plan;
    let bits = plan.bits();
    if bits <= FEW {
        return (0..bits).collect();
    }
    let step = bits / 24;
    let ends = (0..cols).step_by(cols.div_ceil(12)).flat_map(|j| [j * lift, (j + 1) * lift - 1]);
    ends.chain((random.below(step)..bits).step_by(step)).chain([bits - 1]).collect()
}

fn stays(flipper: &Flipper, codeword: &[u8], met: &mut Met) {
    let (answer, after) = compare_by(flipper, codeword, met);
    assert_eq!(answer, Ok(0), "a codeword has a bit turned");
    assert!(after == codeword, "a codeword does not stay");
}

fn with_error(codeword: &[u8], bit: usize) -> Vec<u8> {
    let mut word = codeword.to_vec();
    word[bit] ^= 1;
    word
}

// Codewords of plans that pass at 6: each stays, and comes back where one bit is wrong.
fn compare_passing(random: &Random, met: &mut Met) {
    for passing in PASSING.iter() {
        assert!(passes_at_6(&passing.plan));
        let flipper = Flipper::new(passing.plan.lent());
        for codeword in passing.codewords(random).take(2) {
            stays(&flipper, &codeword, met);
            for bit in tried(random, &passing.plan) {
                let (answer, after) = compare_by(&flipper, &with_error(&codeword, bit), met);
                assert_eq!(answer, Ok(1), "bit {bit} is wrong");
                assert!(after == codeword, "bit {bit} does not come back");
            }
        }
    }
}

// The bits that have two checks or more in common with a bit, itself among them.
fn near(graph: &Graph, bit: usize) -> Vec<usize> {
    let common = |other: &[usize]| graph.checks_of[bit].iter().filter(|check| other.contains(check)).count();
    (0..graph.checks_of.len()).filter(|&other| common(&graph.checks_of[other]) >= 2).collect()
}

// Plans that pass at 6 and plans that fail: with one wrong bit, exactly the bits near it are turned. So every wrong bit comes
// back where the plan passes, and only there. Whether it passes.
fn compare_either(random: &Random, plan: &Draft, met: &mut Met) -> bool {
    let flipper = Flipper::new(plan.lent());
    let codeword = code_word(random, &code(&plan.lent()));
    stays(&flipper, &codeword, met);
    let mut all_come_back = true;
    for bit in 0..plan.bits() {
        let (answer, after) = compare_by(&flipper, &with_error(&codeword, bit), met);
        let near = near(flipper.graph(), bit);
        let mut wanted = with_error(&codeword, bit);
        near.iter().for_each(|&other| wanted[other] ^= 1);
        assert_eq!((answer, &after), (Ok(near.len()), &wanted), "bit {bit} is wrong");
        all_come_back &= after == codeword;
    }
    assert_eq!(all_come_back, passes_at_6(plan), "every wrong bit comes back, or some cycle has 4 edges");
    all_come_back
}

// Bits 0 and 1 have the checks 0 and 1 in common, and each has one of its own.
fn compare_girth_4(met: &mut Met) {
    let plan = Draft { entries: vec![0, 0, 0, 0, 0, -1, -1, 0], rows: 4, cols: 2, lift: 1 };
    assert_eq!(qcldpc::girth(&plan.lent(), 6).map(|girth| girth.girth()), Ok(Some(4)));
    let flipper = Flipper::new(plan.lent());
    stays(&flipper, &[0, 0], met);
    assert_eq!(compare_by(&flipper, &[1, 0], met), (Ok(2), vec![0, 1]));
    assert_eq!(compare_by(&flipper, &[0, 1], met), (Ok(2), vec![1, 0]));
}

pub fn compare_all() -> Seen {
    let (random, mut met) = (Random::new(19), Met::default());
    compare_passing(&random, &mut met);
    compare_girth_4(&mut met);
    let mut plans = [0; 2];
    for _ in 0..600 {
        plans[compare_either(&random, &small_three(&random), &mut met) as usize] += 1;
    }
    assert!(plans[0].min(plans[1]) > 100, "plans that fail at 6, and that pass: {plans:?}");
    println!("plans that fail at 6, and that pass: {plans:?}");
    met.seen
}
