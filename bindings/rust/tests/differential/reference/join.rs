//! Two plans made one, and refusals 27 to 29.
use super::{applying, refused};
use qcldpc::{Plan, Refusal};

/// The product of numbers of 64 bits, or, where it has more than 128, the largest number of so many.
fn product(numbers: &[usize]) -> u128 {
    numbers.iter().fold(1, |product: u128, &number| product.saturating_mul(number as u128))
}

/// All refusals that apply, the lowest first. 27 to 29 are also told where the plans are not valid.
pub fn refusals(first: &Plan, second: &Plan, places: usize) -> Vec<Refusal> {
    let (p, q) = (first.lift, second.lift);
    let either = |fault: &dyn Fn(&Plan) -> bool| fault(first) || fault(second);
    let bad = |plan: &Plan| plan.entries.iter().position(|&e| e < -1);
    let bad = bad(first).or(bad(second));
    let empty = |plan: &Plan| plan.entries.iter().map(|&e| e == -1).collect::<Vec<_>>();
    applying([
        (either(&|plan| !(1..=192).contains(&plan.rows)), refused(1, &[])),
        (either(&|plan| !(1..=512).contains(&plan.cols)), refused(2, &[])),
        (either(&|plan| !(1..=4096).contains(&plan.lift)) || product(&[p, q]) > 4096, refused(3, &[])),
        (either(&|plan| product(&[plan.cols, plan.lift]) > 65536) || product(&[first.cols, p, q]) > 65536, refused(4, &[])),
        (either(&|plan| plan.entries.len() as u128 != product(&[plan.rows, plan.cols])), refused(5, &[])),
        (bad.is_some(), refused(6, &[bad.unwrap_or(0)])),
        ((2..=p.min(q).min(4096)).any(|d| p % d == 0 && q % d == 0), refused(27, &[])),
        ((first.rows, first.cols, empty(first)) != (second.rows, second.cols, empty(second)), refused(28, &[])),
        (either(&|plan| plan.entries.len() != places), refused(29, &[])),
    ])
}

/// Every number from 0 to P × Q − 1, by its remainders by P and by Q. Two numbers never have both in common, so there is one
/// for each two remainders.
fn by_remainders(p: usize, q: usize) -> Vec<Vec<i16>> {
    let mut found = vec![vec![None; q]; p];
    for x in 0..p * q {
        let before = found[x % p][x % q].replace(x as i16);
        assert_eq!(before, None, "{x} has the same remainders by {p} and {q}");
    }
    found.into_iter().map(|row| row.into_iter().map(|x| x.expect("a number for each two")).collect()).collect()
}

/// The answer, and the place for the joined plan as it is then.
pub fn join(first: &Plan, second: &Plan, lent: &[i16]) -> (Result<usize, Refusal>, Vec<i16>) {
    if let Some(lowest) = refusals(first, second, lent.len()).into_iter().next() {
        return (Err(lowest), lent.to_vec());
    }
    let (p, q) = (first.lift, second.lift);
    let numbers = by_remainders(p, q);
    let entry = |(&e, &f): (&i16, &i16)| if e == -1 { -1 } else { numbers[e as usize % p][f as usize % q] };
    (Ok(p * q), first.entries.iter().zip(second.entries).map(entry).collect())
}
