//! The lists beside a plan, right and wrong.
use qcldpc::OwnedPlan;

/// The weights of a plan's rows, and of its columns.
pub type Weights = [Vec<u16>; 2];

pub fn weights(plan: &OwnedPlan) -> Weights {
    [plan.row_weights().to_vec(), plan.col_weights().to_vec()]
}

/// Lists that are long enough for every plan.
pub fn any_weights() -> Weights {
    [vec![512; 192], vec![192; 512]]
}

/// What is refused for its weights alone: either list without its last number, and with that one wrong.
pub fn wrong_weights(plan: &OwnedPlan) -> [Weights; 4] {
    let shorter = |list: &mut Vec<u16>| list.truncate(list.len() - 1);
    let miscounted = |list: &mut Vec<u16>| *list.last_mut().expect("a plan has rows and columns") += 1;
    let with = |list: usize, damage: &dyn Fn(&mut Vec<u16>)| {
        let mut wrong = weights(plan);
        damage(&mut wrong[list]);
        wrong
    };
    [with(0, &shorter), with(1, &shorter), with(0, &miscounted), with(1, &miscounted)]
}
