//! alist text: the writer and the comparer.
use crate::door::{agree, left, lend_bytes, lend_places, no_room, reply, with_room, writes, Short};
use crate::inputs::{any_plan, every_entry, holed_plan, limit_plans, regular_plan, small_plan, Draft};
use crate::lent::Lent;
use crate::random::Random;
use crate::reference;
use crate::reference::alist::{Alist, Form};
use crate::reference::weights::Weights;
use crate::seen::{number, Seen, SeenForms};
use crate::tables::built_plans;
use crate::texts::{changed, lines, neighbours, text_of, FORMS};
use crate::weights::{any_weights, wrong_weights, WAYS};
use qcldpc::raw::{qcldpc_alist_compare, qcldpc_alist_write};
use qcldpc::Refusal;

// What the inputs have met, and how often weights were wrong.
#[derive(Default)]
struct Met {
    seen: Seen,
    forms: SeenForms,
    wrong: usize,
}

impl Met {
    // Weights that are wrong in the next way.
    fn wrong(&mut self, right: &Weights) -> Weights {
        self.wrong += 1;
        wrong_weights(right, self.wrong % WAYS)
    }
}

// Gives the number of the answer.
fn compare_write(plan: &Draft, weights: &Weights, lent: &[u8], met: &mut Met) -> u64 {
    let (answer, after) = reference::alist::write(&plan.lent(), weights, lent);
    let input = &(Short(&plan.lent()), weights, lent.len());
    let (rows, cols, lift) = (plan.rows as u64, plan.cols as u64, plan.lift as u64);
    let mut memory = lend_places(&plan.with(weights));
    let (p, n, r, rn, c, cn) = memory.raw();
    let call = |text: &mut Lent<u8>, out, len| unsafe {
        let (t, tn) = (text.pointer(), text.len());
        qcldpc_alist_write(p, n, rows, cols, lift, r, rn, c, cn, t, tn, out, len)
    };
    writes(input, lend_bytes(lent), [lent, &after], &answer.clone().map(|length| vec![length]), call);
    left(input, &memory, &plan.with(weights));
    let mut copy = lent.to_vec();
    agree(input, &qcldpc::alist_write(&plan.lent(), &weights.rows, &weights.cols, &mut copy), &answer);
    agree(input, &copy, &after);
    met.seen.note_on(&plan.lent(), &answer);
    number(&answer)
}

// A plan and its alist.
struct Known<'a> {
    plan: &'a Draft,
    alist: Result<Alist, Refusal>,
}

impl Known<'_> {
    fn new(plan: &Draft) -> Known<'_> {
        Known { plan, alist: reference::alist::alist(&plan.lent()) }
    }

    // The answer that a text should get.
    fn answer(&self, weights: &Weights, text: &[u8], forms: &mut SeenForms) -> Result<(), Refusal> {
        let alist = self.alist.as_ref().map_err(Refusal::clone)?;
        let departures = reference::alist::departures(alist, text);
        forms.note(&departures);
        reference::alist::compare(alist, &departures, weights)
    }
}

// Gives the number of the answer.
fn compare_text(known: &Known, weights: &Weights, text: &[u8], met: &mut Met) -> u64 {
    let wanted = known.answer(weights, text, &mut met.forms);
    let plan = known.plan;
    let input = &(Short(&plan.lent()), weights, String::from_utf8_lossy(&text[..text.len().min(2000)]));
    let (rows, cols, lift) = (plan.rows as u64, plan.cols as u64, plan.lift as u64);
    let (mut memory, mut t) = (lend_places(&plan.with(weights)), lend_bytes(text));
    let mut call = |out, len| unsafe {
        let (p, n, r, rn, c, cn) = memory.raw();
        qcldpc_alist_compare(p, n, rows, cols, lift, r, rn, c, cn, t.pointer(), t.len(), out, len)
    };
    no_room(&mut call);
    agree(input, with_room(&mut call), reply(&wanted.clone().map(|_| vec![])));
    left(input, &memory, &plan.with(weights));
    left(input, &t, text);
    agree(input, &qcldpc::alist_compare(&plan.lent(), &weights.rows, &weights.cols, text), &wanted);
    met.seen.note_on(&plan.lent(), &wanted);
    number(&wanted)
}

// Texts with the plan's weights, and every eighth with wrong ones too.
fn compare_texts(plan: &Draft, texts: &[Vec<u8>], met: &mut Met) {
    let (known, right) = (Known::new(plan), plan.weights());
    for (k, text) in texts.iter().enumerate() {
        compare_text(&known, &right, text, met);
        if k % 8 == 0 {
            let wrong = met.wrong(&right);
            compare_text(&known, &wrong, text, met);
        }
    }
}

// The text itself: a place one byte longer, with the plan's weights and with wrong ones, one byte short, and the comparer in
// both forms.
fn compare_exact(plan: &Draft, met: &mut Met) {
    let texts = FORMS.map(|form| text_of(plan, form));
    let (n, right) = (texts[0].len(), plan.weights());
    let wrong = met.wrong(&right);
    for (weights, places) in [(&right, n + 1), (&right, n - 1), (&wrong, n + 1)] {
        compare_write(plan, weights, &vec![b'x'; places], met);
    }
    compare_texts(plan, &texts, met);
}

// Places of the exact length, one byte short, longer, empty; some with wrong weights.
fn compare_places(random: &Random, plan: &Draft, met: &mut Met) {
    let n = text_of(plan, Form::Padded).len();
    for places in [n, n - 1, n + 1, n + random.below(100), random.below(n), 0] {
        let lent: Vec<u8> = (0..places).map(|_| random.below(256) as u8).collect();
        compare_write(plan, &any_weights(random, plan.weights(), 4), &lent, met);
    }
}

// Weights that are wrong in every way are refused last: where the text has room, and where it agrees.
fn compare_ways(plan: &Draft, met: &mut Met) {
    let (known, right) = (Known::new(plan), plan.weights());
    let [padded, unpadded] = FORMS.map(|form| text_of(plan, form));
    let (n, longer) = (padded.len(), [&padded[..], b"0"].concat());
    for way in 0..WAYS {
        let wrong = wrong_weights(&right, way);
        for (places, wanted) in [(n, 25), (n + 1, 25), (n - 1, 17), (0, 17)] {
            let number = compare_write(plan, &wrong, &vec![b'x'; places], met);
            assert_eq!(number, wanted, "{places} places, {wrong:?}");
        }
        for (text, wanted) in [(&padded, 25), (&unpadded, 25), (&longer, 21)] {
            assert_eq!(compare_text(&known, &wrong, text, met), wanted, "{wrong:?}");
        }
    }
}

// Every text near that of a tiny plan: regular; with an empty row and column; without a block; with lists of 0 to 2 numbers.
fn compare_tiny(met: &mut Met) {
    let tiny = [
        Draft { entries: vec![0, 1], rows: 1, cols: 2, lift: 2 },
        Draft { entries: vec![2, -1, -1, -1], rows: 2, cols: 2, lift: 5 },
        Draft { entries: vec![-1, -1], rows: 1, cols: 2, lift: 1 },
        Draft { entries: vec![-1, 0, 0, -1, 0, -1, -1, -1, -1], rows: 3, cols: 3, lift: 1 },
    ];
    for plan in tiny {
        FORMS.iter().for_each(|&form| compare_texts(&plan, &neighbours(&plan, form), met));
        compare_ways(&plan, met);
    }
}

// Plans at the limits, and built ones.
fn compare_large(random: &Random, met: &mut Met) {
    for plan in limit_plans(random).iter().chain(&built_plans(random)) {
        compare_exact(plan, met);
        if plan.bits() * plan.rows < 1 << 21 {
            compare_places(random, plan, met);
            FORMS.iter().for_each(|&form| compare_texts(plan, &changed(random, plan, form), met));
        }
    }
}

// A small plan, with texts of its own and those of another plan.
fn compare_small(random: &Random, met: &mut Met) {
    let plan = any_plan(random, 10);
    compare_places(random, &plan, met);
    FORMS.iter().for_each(|&form| compare_texts(&plan, &changed(random, &plan, form), met));
    let other = small_plan(random);
    compare_texts(&plan, &FORMS.map(|form| text_of(&other, form)), met);
}

// Small plans of any kind, with empty lists, and with no short list.
fn compare_lines(random: &Random, met: &mut Met) {
    for plan in [any_plan(random, 20), holed_plan(random), regular_plan(random)] {
        compare_texts(&plan, &lines(random, &plan), met);
    }
}

pub fn compare_all() -> Seen {
    let (random, mut met) = (Random::new(6), Met::default());
    compare_tiny(&mut met);
    compare_large(&random, &mut met);
    every_entry(3).for_each(|plan| compare_exact(&plan, &mut met));
    (0..100).for_each(|_| compare_ways(&small_plan(&random), &mut met));
    (0..3000).for_each(|_| compare_small(&random, &mut met));
    (0..1000).for_each(|_| compare_lines(&random, &mut met));
    println!("alist: {}", met.forms);
    let (kind, texts) = met.forms.rarest();
    assert!(texts >= 1000, "only {texts} texts agreed {kind}");
    met.seen
}
