//! Tables, masks and the plans built from them.
use super::refused;
use super::weights::{have_room, laid, Places};
use qcldpc::{Built, Refusal};

fn check_order(order: usize) -> Result<(), Refusal> {
    if !(4..=7).contains(&order) {
        return Err(refused(7, &[]));
    }
    Ok(())
}

/// A table of which each entry is a function of its place; the answer, and the lent list as it is then.
pub fn supply(order: usize, lent: &[i16], entry: impl Fn(usize, usize) -> usize) -> (Result<(), Refusal>, Vec<i16>) {
    if let Err(refusal) = check_order(order) {
        return (Err(refusal), lent.to_vec());
    }
    if lent.len() != order * order {
        return (Err(refused(8, &[])), lent.to_vec());
    }
    let table = (0..order * order).map(|k| entry(k / order, k % order) as i16);
    (Ok(()), table.collect())
}

pub fn array(order: usize, lent: &[i16]) -> (Result<(), Refusal>, Vec<i16>) {
    supply(order, lent, |i, r| i * r % order)
}

pub fn cyclic(order: usize, lent: &[i16]) -> (Result<(), Refusal>, Vec<i16>) {
    supply(order, lent, |i, r| {
        let k = (r + order - i) % order;
        (k * k - k) / 2
    })
}

/// The first i < k, r < t at which differences of rows repeat modulo P.
fn repeat(order: usize, lift: usize, table: &[i16]) -> Option<[usize; 4]> {
    let difference =
        |i: usize, k: usize, r: usize| (table[i * order + r] as i64 - table[k * order + r] as i64).rem_euclid(lift as i64);
    for i in 0..order {
        for k in i + 1..order {
            for r in 0..order {
                for t in r + 1..order {
                    if difference(i, k, r) == difference(i, k, t) {
                        return Some([i, k, r, t]);
                    }
                }
            }
        }
    }
    None
}

/// The number of ones that all rows and columns of a mask have in common.
fn weight(order: usize, mask: &[u8]) -> Option<usize> {
    let row = |j: usize| (0..order).filter(|r| mask[j * order + r] == 1).count();
    let col = |r: usize| (0..order).filter(|j| mask[j * order + r] == 1).count();
    let l = row(0);
    (0..order).all(|k| row(k) == l && col(k) == l).then_some(l)
}

/// The mask's weight, where neither table nor mask is refused. Refusals 3, 7 to 13.
fn check(order: usize, lift: usize, table: &[i16], mask: &[u8]) -> Result<usize, Refusal> {
    if !(1..=4096).contains(&lift) {
        return Err(refused(3, &[]));
    }
    check_order(order)?;
    if table.len() != order * order {
        return Err(refused(8, &[]));
    }
    if let Some(place) = table.iter().position(|&s| s < 0) {
        return Err(refused(9, &[place]));
    }
    if let Some(places) = repeat(order, lift, table) {
        return Err(refused(10, &places));
    }
    if mask.len() != order * order || mask.iter().any(|&byte| byte > 1) {
        return Err(refused(11, &[]));
    }
    let l = weight(order, mask).filter(|l| (4..=order).contains(l)).ok_or(refused(12, &[]))?;
    if order * l * l * lift > 65536 {
        return Err(refused(13, &[]));
    }
    Ok(l)
}

/// The plan with its rows and columns, where neither table nor mask is refused.
pub fn built(order: usize, lift: usize, table: &[i16], mask: &[u8]) -> Result<(Built, Vec<i16>), Refusal> {
    let l = check(order, lift, table, mask)?;
    Ok((Built { rows: 3 * l * order, cols: order * l * l }, plan(order, l, lift, table, mask)))
}

/// The answer, and the lent lists as they are then.
pub fn build(order: usize, lift: usize, table: &[i16], mask: &[u8], lent: &Places) -> (Result<Built, Refusal>, Places) {
    let (sizes, plan) = match built(order, lift, table, mask) {
        Err(refusal) => return (Err(refusal), lent.clone()),
        Ok(built) => built,
    };
    let Built { rows, cols } = sizes;
    if lent.plan.len() != rows * cols {
        return (Err(refused(15, &[])), lent.clone());
    }
    if !have_room(&lent.weights, rows, cols) {
        return (Err(refused(25, &[])), lent.clone());
    }
    (Ok(sizes), laid(plan, rows, cols))
}

/// What a row of a table plan stands for.
#[derive(PartialEq)]
enum Line {
    A { a: usize, j: usize },
    B { a: usize, r: usize },
    C { j: usize, r: usize },
}

/// The plan, by looking up the three lines of each column in the list of all lines.
fn plan(order: usize, l: usize, lift: usize, table: &[i16], mask: &[u8]) -> Vec<i16> {
    let s = |i: usize, r: usize| (table[i * order + r] as usize % lift) as i16;
    let kept = |&(j, r): &(usize, usize)| mask[j * order + r] == 1;
    let pairs = |m: usize, n: usize| (0..m).flat_map(move |x| (0..n).map(move |y| (x, y)));
    let mut lines = vec![];
    lines.extend(pairs(l, order).map(|(a, j)| Line::A { a, j }));
    lines.extend(pairs(l, order).map(|(a, r)| Line::B { a, r }));
    lines.extend(pairs(order, order).filter(kept).map(|(j, r)| Line::C { j, r }));
    let triples = (0..l).flat_map(|a| pairs(order, order).filter(kept).map(move |(j, r)| (a, j, r)));
    let columns: Vec<_> = triples.collect();
    let mut entries = vec![-1; lines.len() * columns.len()];
    for (column, &(a, j, r)) in columns.iter().enumerate() {
        let mut set = |line: Line, e: i16| {
            let row = lines.iter().position(|x| *x == line).unwrap();
            entries[row * columns.len() + column] = e;
        };
        set(Line::A { a, j }, s(j, r));
        set(Line::B { a, r }, 0);
        set(Line::C { j, r }, s(a, (r + j) % order));
    }
    entries
}
