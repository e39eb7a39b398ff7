//! The girth test by sorted pairs.
use crate::door::{agree, left, lend_numbers, lend_work, no_room, reply, some_work, with_room, Short};
use crate::inputs::{every_entry, plan_of, small_plan, Draft};
use crate::judged::{self, empty_plan, likely_plan, put_ring, OTHER_TARGETS, TARGETS};
use crate::lent::Lent;
use crate::random::Random;
use crate::reference;
use crate::reference::graph::graph;
use crate::reference::pairs::{tree_sizes, walks_from};
use crate::seen::{number, Seen};
use qcldpc::raw::qcldpc_girth_pairs;
use qcldpc::{Girth, Plan, Refusal};

// Of a plan with a larger tree no verdict is asked for, but only refusal 26, with so many places.
const MOST: usize = 10_000;

/// What the inputs have met. Of two counts the first is of plans that fail, the second of plans that pass.
#[derive(Default)]
pub struct Met {
    seen: Seen,
    /// At each target, verdicts with exactly the places that the largest tree needs.
    exact: [[usize; 2]; 7],
    /// Those of them of plans whose girth is two below the target, or the target.
    near: [[usize; 2]; 7],
    /// Refusals 26: with one place fewer; with room for the tree of the first column; with room for all trees but that of the
    /// last column; for trees above the limit.
    fewer: [usize; 2],
    first_has_room: [usize; 2],
    last_has_none: [usize; 2],
    beyond: usize,
}

impl Met {
    // The counts of two with their names.
    fn counts(&self) -> Vec<(String, [usize; 2])> {
        let at = |name: &str, counts: [[usize; 2]; 7]| -> Vec<_> {
            TARGETS.into_iter().zip(counts).map(|(target, counts)| (format!("{name} at {target}"), counts)).collect()
        };
        let short = [
            ("one place fewer".into(), self.fewer),
            ("room for the first column".into(), self.first_has_room),
            ("none for the last alone".into(), self.last_has_none),
        ];
        [at("exact", self.exact), at("near", self.near), short.into()].concat()
    }

    // Each kind of input was met many times.
    fn assert_all(&self) {
        let rare = self.counts().into_iter().find(|(_, [fail, pass])| fail.min(pass) < &40);
        assert_eq!(rare, None, "a kind of input that is rarely met");
        assert!(self.beyond > 100, "only {} trees are above the limit", self.beyond);
    }
}

// The raw function over a work list of so many places: what it returns and leaves in `out`, and whether the list is then as it
// was. The plan is, and where `out` is too small the list too.
fn raw_reply(plan: &Plan, target: usize, places: usize) -> ((u64, Vec<u64>), bool) {
    let input = &(Short(plan), target, places);
    let (rows, cols, lift) = (plan.rows as u64, plan.cols as u64, plan.lift as u64);
    let before = some_work(places);
    let (mut lent, mut work) = (lend_numbers(plan.entries), lend_work(&before));
    let (p, n) = (lent.pointer(), lent.len());
    let call = |work: &mut Lent<u64>, out, len| unsafe {
        qcldpc_girth_pairs(p, n, rows, cols, lift, target as u64, work.pointer(), work.len(), out, len)
    };
    no_room(|out, len| call(&mut work, out, len));
    left(input, &work, &before[..]);
    let got = with_room(|out, len| call(&mut work, out, len));
    left(input, &lent, plan.entries);
    let after = work.content().to_vec();
    left(input, &work, &after[..]);
    (got, after == before)
}

// The raw call on a plan of this girth. A refusal leaves the work list as it was. Gives the answer.
fn compare_raw(plan: &Plan, girth: usize, target: usize, places: usize, seen: &mut Seen) -> Result<bool, Refusal> {
    let input = &(Short(plan), target, places);
    let wanted = reference::pairs::answer(plan, girth, target, places);
    let (got, kept) = raw_reply(plan, target, places);
    agree(input, got, reply(&wanted.clone().map(|passes| vec![usize::from(!passes)])));
    assert!(wanted.is_ok() || kept, "a refusal has changed the work list, for {input:?}");
    seen.note_on(plan, &wanted);
    wanted
}

// The same of the safe call.
fn compare_safe(plan: &Plan, girth: usize, target: usize, places: usize, seen: &mut Seen) -> Result<bool, Refusal> {
    let input = &(Short(plan), target, places);
    let wanted = reference::pairs::answer(plan, girth, target, places);
    let mut work = some_work(places);
    agree(input, &qcldpc::girth_pairs(plan, target, &mut work), &wanted);
    assert!(wanted.is_ok() || work == some_work(places), "a refusal has changed the work list, for {input:?}");
    seen.note_on(plan, &wanted);
    wanted
}

// A plan or a target that is refused for itself, whether or not the work list has places.
fn compare_refused(plan: &Plan, target: usize, seen: &mut Seen) {
    for places in [0, 9] {
        let answers = [compare_raw(plan, 0, target, places, seen), compare_safe(plan, 0, target, places, seen)];
        assert!(answers.iter().all(|answer| (1..=14).contains(&number(answer))), "{answers:?}");
    }
}

// Lists that are too short for a plan with trees of these sizes: by all places, with room for the first, and by one place.
fn compare_short(plan: &Plan, girth: usize, target: usize, sizes: &[u128], met: &mut Met) {
    let largest = *sizes.iter().max().expect("a plan has columns");
    let fewer = largest.min(MOST as u128 + 1) - 1;
    let first = sizes[0].min(fewer);
    let raw = [first, fewer].map(|places| compare_raw(plan, girth, target, places as usize, &mut met.seen));
    let safe = [0, fewer].map(|places| compare_safe(plan, girth, target, places as usize, &mut met.seen));
    assert!(raw.iter().chain(&safe).all(|answer| number(answer) == 26), "{raw:?}, {safe:?}");
    let without_room = sizes.iter().filter(|&&size| size > fewer).count();
    let count = |counts: &mut [usize; 2], holds: bool| counts[usize::from(girth >= target)] += usize::from(holds);
    count(&mut met.fewer, fewer + 1 == largest);
    count(&mut met.first_has_room, first == sizes[0]);
    count(&mut met.last_has_none, without_room == 1 && sizes.last() == Some(&largest));
    met.beyond += usize::from(fewer + 1 < largest);
}

// A good plan of this girth at a target, with exactly the places that it needs, with more and with fewer. The other girth test
// of the library says the same.
fn compare_good(plan: &Plan, girth: usize, at: usize, met: &mut Met) {
    let (target, passes) = (TARGETS[at], girth >= TARGETS[at]);
    let sizes = tree_sizes(plan, target / 2 - 1);
    let largest = *sizes.iter().max().expect("a plan has columns");
    if largest <= MOST as u128 {
        let places = largest as usize;
        assert_eq!(compare_raw(plan, girth, target, places, &mut met.seen), Ok(passes));
        assert_eq!(compare_safe(plan, girth, target, places + 1 + places % 40, &mut met.seen), Ok(passes));
        met.exact[at][usize::from(passes)] += 1;
        met.near[at][usize::from(passes)] += usize::from([target - 2, target].contains(&girth));
    }
    compare_short(plan, girth, target, &sizes, met);
    let other = qcldpc::girth(plan, target).map(|answer| answer == Girth::Passed);
    agree(&(Short(plan), target), other, Ok(passes));
}

/// A plan at every target, allowed or not. Gives its girth, up to 18, where it is not refused.
pub fn compare(plan: &Plan, met: &mut Met) -> Option<usize> {
    if reference::plan::check(plan).is_err() {
        TARGETS.iter().for_each(|&target| compare_refused(plan, target, &mut met.seen));
        compare_refused(plan, 7, &mut met.seen);
        return None;
    }
    OTHER_TARGETS.iter().for_each(|&target| compare_refused(plan, target, &mut met.seen));
    let girth = reference::girth::girth(&graph(plan), plan.lift);
    (0..TARGETS.len()).for_each(|at| compare_good(plan, girth, at, met));
    Some(girth)
}

// A tree has as many nodes as there are walks in the expanded graph.
fn compare_sizes(random: &Random) {
    let mut grown = [0; 9];
    for k in 0..1800 {
        let plan = if k % 2 == 0 { small_plan(random) } else { likely_plan(random) };
        let (graph, edges) = (graph(&plan.lent()), k / 2 % 9);
        for (j, &size) in tree_sizes(&plan.lent(), edges).iter().enumerate().filter(|(_, &size)| size <= 1000) {
            agree(&(Short(&plan.lent()), j, edges), walks_from(&graph, j * plan.lift, edges), size);
            grown[edges] += 1;
        }
    }
    assert!(grown.iter().all(|&times| times > 200), "trees of each depth are grown: {grown:?}");
}

// The plan with one more column at a place, which has blocks in 24 more rows alone: its tree has 25 nodes.
fn beside_a_column(plan: &Draft, place: usize) -> Draft {
    let (rows, cols) = (plan.rows + 24, plan.cols + 1);
    let mut entries = vec![];
    for i in 0..rows {
        let mut row = if i < plan.rows { plan.entries[i * plan.cols..][..plan.cols].to_vec() } else { vec![-1; plan.cols] };
        row.insert(place, if i < plan.rows { -1 } else { 0 });
        entries.extend(row);
    }
    Draft { entries, rows, cols, lift: plan.lift }
}

// A pair turns up in columns whose trees have room, and yet another column's tree has none: before them, among them or behind.
fn compare_sooner(seen: &mut Seen) {
    for (n, lift) in (2..9).flat_map(|n| [1, 5].map(|lift| (n, lift))) {
        let mut ring = empty_plan(n, n, lift);
        put_ring(&mut ring, 0, 0, n);
        for target in TARGETS.into_iter().filter(|target| 2 * n < *target) {
            // In a cycle two walks of each length lead away from a bit.
            let room = target - 1;
            let mut compare = |plan: &Draft, places| compare_raw(&plan.lent(), 2 * n, target, places, seen);
            assert_eq!(compare(&ring, room), Ok(false));
            for place in [0, n / 2, n] {
                let plan = beside_a_column(&ring, place);
                let answers = [room, 24, 25].map(|places| number(&compare(&plan, places)));
                assert_eq!(answers, [26, 26, 0], "a column at {place} beside {n} of a cycle");
            }
        }
    }
}

// The plan 0 0 / 0 e for every entry e: by its remainders 0 to 3 the girth is 4, 16, 8, 16. A tree at target t has t - 1 nodes.
fn compare_entries(seen: &mut Seen) {
    for plan in every_entry(4) {
        let (plan, e) = (&plan.lent(), plan.entries[3]);
        let girth = if e < -1 { 0 } else { reference::girth::girth(&graph(plan), plan.lift) };
        for target in [6, 10, 18] {
            let answer = compare_raw(plan, girth, target, target - 1, seen);
            assert_eq!(number(&answer), if e < -1 { 6 } else { 0 });
        }
    }
}

// All blocks of the largest plan are filled: trees at 6 have 1 + 192 + 192 * 511 nodes, trees at 18 more than 64 bits count.
fn compare_full(random: &Random, seen: &mut Seen) {
    let plan = plan_of(random, 192, 512, 1, 8);
    let mut answer = |target, places| number(&compare_raw(&plan.lent(), 4, target, places, seen));
    assert_eq!([answer(6, 98_304), answer(6, 98_305)], [26, 0]);
    assert_eq!([answer(18, 1 << 16), answer(18, 1 << 20)], [26, 26]);
}

// The shifts i j, modulo a prime: two rows have no cycle of 4 edges in common. A tree at 6 has 1 + 150 + 150 * 149 nodes.
fn compare_wide(seen: &mut Seen) {
    let entries = (0..150 * 150).map(|k| (k / 150 * (k % 150) % 151) as i16).collect();
    let plan = Draft { entries, rows: 150, cols: 150, lift: 151 };
    let girth = reference::girth::girth(&graph(&plan.lent()), plan.lift);
    let mut answer = |places| compare_raw(&plan.lent(), girth, 6, places, seen);
    assert_eq!((number(&answer(22_500)), answer(22_501)), (26, Ok(true)));
}

pub fn compare_all() -> Seen {
    let (random, mut met) = (Random::new(12), Met::default());
    compare_sizes(&random);
    judged::go_over(&mut |plan| compare(plan, &mut met));
    met.assert_all();
    compare_sooner(&mut met.seen);
    compare_entries(&mut met.seen);
    compare_full(&random, &mut met.seen);
    compare_wide(&mut met.seen);
    met.seen
}
