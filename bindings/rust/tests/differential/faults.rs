//! Inputs that are right but for one fault or some.
use crate::inputs::Draft;

/// A refusal, and what makes it apply to an input that is right.
pub type Fault<J> = (u64, fn(&mut J));

/// Every fault alone, which gives its refusal, and every two and three of them, in each order.
pub fn compare_faults<J: Clone>(good: &J, faults: &[Fault<J>], mut answer: impl FnMut(&J) -> u64) {
    let with = |job: &J, fault: fn(&mut J)| {
        let mut job = job.clone();
        fault(&mut job);
        job
    };
    assert_eq!(answer(good), 0);
    for &(wanted, fault) in faults {
        let one = with(good, fault);
        assert_eq!(answer(&one), wanted);
        for &(_, fault) in faults {
            let two = with(&one, fault);
            answer(&two);
            faults.iter().for_each(|&(_, fault)| _ = answer(&with(&two, fault)));
        }
    }
}

/// Another value at a place, where the list has that.
pub fn put<T>(list: &mut [T], place: usize, value: T) {
    if let Some(x) = list.get_mut(place) {
        *x = value;
    }
}

/// Lengths up to twice the right one, and two that are right in their low bits.
pub fn lengths(right: usize) -> impl Iterator<Item = usize> {
    (0..2 * right + 2).chain([right + (1 << 8), right + (1 << 16)])
}

// Numbers of up to 64 bits, some right in their low bits.
fn numbers(right: usize) -> Vec<usize> {
    let wrapped = [16, 31, 32, 48, 63].map(|bit| right + (1 << bit));
    let others = [0, 1, 2, 3, 5, 6, 7, 8, 192, 193, 512, 513, 4096, 4097, 1 << 32, 1 << 63, usize::MAX - 1, usize::MAX];
    [&wrapped[..], &others].concat()
}

/// The plan with such numbers for every two of its sizes.
pub fn other_sizes(plan: &Draft) -> Vec<Draft> {
    let right = [plan.rows, plan.cols, plan.lift];
    let mut plans = vec![];
    for (one, other) in (0..3).flat_map(|one| (0..3).map(move |other| (one, other))) {
        for (a, b) in numbers(right[one]).into_iter().flat_map(|a| numbers(right[other]).into_iter().map(move |b| (a, b))) {
            let mut sizes = right;
            (sizes[one], sizes[other]) = (a, b);
            let [rows, cols, lift] = sizes;
            plans.push(Draft { entries: plan.entries.clone(), rows, cols, lift });
        }
    }
    plans
}
