//! Lists of changed blocks, each call on the memory that the calls before it have left.
use crate::changes::{any_change, owned_plan, raw_change, Met};
use crate::door::{agree, left, lend_places, reply, with_room, Short};
use crate::inputs::Draft;
use crate::lent::{Holds, LentPlaces};
use crate::owned;
use crate::random::Random;
use crate::reference;
use crate::reference::change::Change;
use crate::reference::refused;
use crate::reference::weights::Places;
use qcldpc::{OwnedPlan, Refusal};

// A plan whose blocks are changed one after the other, in memory that stays lent, with an owned plan beside it.
struct Walk {
    plan: Draft,
    memory: LentPlaces,
    owned: OwnedPlan,
}

// Whether two lists differ nowhere but at a place.
fn same_but_for<T: PartialEq>(a: &[T], b: &[T], place: usize) -> bool {
    a.len() == b.len() && (0..a.len()).all(|k| k == place || a[k] == b[k])
}

impl Walk {
    fn new(plan: &Draft) -> Walk {
        let memory = lend_places(&plan.with(&plan.weights()));
        Walk { plan: plan.clone(), memory, owned: owned_plan(plan).expect("a good plan") }
    }

    // One call: the lists, which the calls before it left, are then those of a new count.
    fn step(&mut self, change: Change, met: &mut Met) -> Result<(), Refusal> {
        let Change { row, col, entry } = change;
        let before = self.plan.with(&self.plan.weights());
        let (answer, after) = reference::change::change(&self.plan.lent(), &before.weights, change);
        let input = &(Short(&self.plan.lent()), change);
        let got = with_room(|out, len| raw_change(&self.plan, change, &mut self.memory, out, len));
        agree(input, got, reply(&answer.clone().map(|_| vec![])));
        left(input, &self.memory, &after);
        agree(input, &self.owned.change(row, col, entry), &answer);
        agree(input, &owned::places(&self.owned), &after);
        match &answer {
            Ok(()) => self.assert_moved(&before, change),
            Err(refusal) => assert!(refusal.number != 25 && before == after, "{refusal} for {input:?}"),
        }
        met.note(&self.plan, change, &answer);
        self.plan.entries = after.plan;
        answer
    }

    // Nothing but the entry and the two weights of its row and column has moved.
    fn assert_moved(&self, Places { plan, weights }: &Places, Change { row, col, .. }: Change) {
        let LentPlaces { plan: p, rows, cols } = &self.memory;
        assert!(same_but_for(p.content(), plan, row * self.plan.cols + col), "an entry beside {row}, {col} has moved");
        assert!(same_but_for(rows.content(), &weights.rows, row), "the weight of a row beside {row} has moved");
        assert!(same_but_for(cols.content(), &weights.cols, col), "the weight of a column beside {col} has moved");
    }

    // A change, and the one that undoes it: all is as it was.
    fn there_and_back(&mut self, change: Change, met: &mut Met) {
        let before = self.plan.with(&self.plan.weights());
        if self.step(change, met).is_ok() {
            let entry = before.plan[change.row * self.plan.cols + change.col];
            assert_eq!(self.step(Change { entry, ..change }, met), Ok(()));
        }
        assert!(self.memory.holds(&before), "{change:?} is not undone");
    }

    // The plan's alist is written with the lists that the calls have left, and agrees; with one token more it does not.
    fn compare_alist(&self) {
        let plan = &self.plan.lent();
        let (rows, cols) = (self.memory.rows.content(), self.memory.cols.content());
        let text = reference::alist::text(plan).into_bytes();
        let mut place = vec![0; text.len()];
        agree(&Short(plan), qcldpc::alist_write(plan, rows, cols, &mut place), Ok(text.len()));
        agree(&Short(plan), &place, &text);
        agree(&Short(plan), &self.owned.alist(), &text);
        let longer = [&text[..], b"0"].concat();
        for (text, wanted) in [(&text, Ok(())), (&longer, Err(refused(21, &[text.len()])))] {
            agree(&Short(plan), &qcldpc::alist_compare(plan, rows, cols, text), &wanted);
            agree(&Short(plan), &self.owned.agrees(text), &wanted);
        }
    }
}

/// A list of changes, some of them refused and some undone at once, and the alist after them.
pub fn compare_list(random: &Random, plan: &Draft, steps: usize, met: &mut Met) {
    let mut walk = Walk::new(plan);
    for _ in 0..steps {
        let change = any_change(random, plan);
        match random.once_in(4) {
            true => walk.there_and_back(change, met),
            false => _ = walk.step(change, met),
        }
    }
    walk.compare_alist();
}
