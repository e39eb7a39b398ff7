//! Plans of the bi-diagonal shape.
use crate::inputs::{plan_of, printed, Draft};
use crate::random::Random;
use qcldpc::Plan;

/// What the three blocks of column m − 1 may have: all three the same remainder, or two of them, in each of three ways.
pub const EQUAL: [[usize; 3]; 4] = [[0, 0, 0], [0, 0, 1], [0, 1, 0], [1, 0, 0]];

/// A plan of the shape, with the three blocks of column m − 1 in these rows and with these remainders. In half of the plans all
/// voltages of the bi-diagonal part are below the lift.
pub fn shaped_at(random: &Random, sizes: [usize; 3], density: usize, three: [(usize, usize); 3]) -> Draft {
    let [rows, cols, lift] = sizes;
    let reduced = random.once_in(2);
    let voltage = |remainder| if reduced { remainder as i16 } else { printed(random, remainder, lift) };
    let last = |i| three.iter().find(|(row, _)| *row == i).map_or(-1, |&(_, remainder)| voltage(remainder));
    let carrying = plan_of(random, rows, cols - rows, lift, density);
    let mut entries = vec![];
    for (i, row) in carrying.entries.chunks_exact(cols - rows).enumerate() {
        entries.extend((0..rows - 1).map(|k| if i == k || i == k + 1 { voltage(0) } else { -1 }));
        entries.push(last(i));
        entries.extend(row);
    }
    Draft { entries, rows, cols, lift }
}

/// Three rows, with remainders of which these are equal.
pub fn any_three(random: &Random, rows: usize, lift: usize, equal: [usize; 3]) -> [(usize, usize); 3] {
    let mut places = random.distinct(3, rows);
    places.sort();
    let one = random.choice(&[0, random.below(lift), lift - 1]);
    let remainders = [one, (one + random.between(1, lift.max(2) - 1)) % lift];
    [0, 1, 2].map(|k| (places[k], remainders[equal[k]]))
}

/// Any plan of the shape. Its columns that carry data have each block with the chance `density` in 8.
pub fn shaped(random: &Random, sizes: [usize; 3], density: usize) -> Draft {
    let [rows, _, lift] = sizes;
    let equal = random.choice(&EQUAL);
    shaped_at(random, sizes, density, any_three(random, rows, lift, equal))
}

/// A small plan of the shape.
pub fn small_shaped(random: &Random) -> Draft {
    let rows = random.choice(&[3, 3, 4, random.between(3, 8), random.between(3, 14)]);
    let cols = rows + random.choice(&[1, 2, random.between(1, 9)]);
    let lift = random.choice(&[1, 2, 3, random.between(1, 8), random.between(1, 40)]);
    let density = random.between(0, 8);
    shaped(random, [rows, cols, lift], density)
}

/// How many bits the columns of data have.
pub fn data_bits(plan: &Draft) -> usize {
    (plan.cols - plan.rows) * plan.lift
}

/// Which remainders of column m − 1 are equal, as in `EQUAL`, and whether a voltage there is at or above the lift.
pub fn equal_blocks(plan: &Plan) -> (usize, bool) {
    let column = (0..plan.rows).map(|i| plan.entries[i * plan.cols + plan.rows - 1]);
    let voltages: Vec<usize> = column.filter(|&e| e >= 0).map(|e| e as usize).collect();
    let e: Vec<usize> = voltages.iter().map(|voltage| voltage % plan.lift).collect();
    let equal = match () {
        _ if e[0] == e[1] && e[1] == e[2] => 0,
        _ if e[0] == e[1] => 1,
        _ if e[0] == e[2] => 2,
        _ => 3,
    };
    (equal, voltages.iter().any(|&voltage| voltage >= plan.lift))
}
