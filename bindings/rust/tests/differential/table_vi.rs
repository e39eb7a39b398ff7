//! Table VI of source document 000: plans of girth 14, 16 and 18 from Steiner triple systems, in its own order of triples.
use crate::inputs::Draft;

// Example 3's triples of STS(9), whose points count from 1.
const NINE: [[usize; 3]; 12] = [
    [2, 3, 5],
    [1, 4, 6],
    [1, 3, 7],
    [2, 6, 7],
    [4, 5, 7],
    [1, 2, 8],
    [5, 6, 8],
    [3, 4, 8],
    [1, 5, 9],
    [2, 4, 9],
    [3, 6, 9],
    [7, 8, 9],
];

// Those of STS(13), whose points count from 0. S-STS(13) is without the six last, which have the point 12.
const THIRTEEN: [[usize; 3]; 26] = [
    [0, 3, 6],
    [0, 2, 7],
    [1, 5, 7],
    [3, 4, 7],
    [3, 5, 8],
    [1, 4, 8],
    [2, 6, 8],
    [2, 4, 9],
    [5, 6, 9],
    [0, 1, 9],
    [1, 3, 10],
    [0, 4, 10],
    [6, 7, 10],
    [2, 5, 10],
    [8, 9, 10],
    [7, 8, 11],
    [4, 6, 11],
    [1, 2, 11],
    [0, 5, 11],
    [3, 9, 11],
    [10, 11, 12],
    [7, 9, 12],
    [0, 8, 12],
    [1, 6, 12],
    [4, 5, 12],
    [2, 3, 12],
];

// W' has the first and the second voltage of each column but the first; all other voltages are 0.
fn plan(rows: usize, triples: &[[usize; 3]], lift: usize, w: [&[i16]; 2]) -> Draft {
    let cols = triples.len();
    let mut entries = vec![-1; rows * cols];
    for (j, triple) in triples.iter().enumerate() {
        let voltage = |k: usize| if j > 0 && k < 2 { w[k][j - 1] } else { 0 };
        (0..3).for_each(|k| entries[triple[k] * cols + j] = voltage(k));
    }
    Draft { entries, rows, cols, lift }
}

fn nine(lift: usize, w: [&[i16]; 2]) -> Draft {
    plan(9, &NINE.map(|triple| triple.map(|point| point - 1)), lift, w)
}

fn shortened(lift: usize, w: [&[i16]; 2]) -> Draft {
    plan(12, &THIRTEEN[..20], lift, w)
}

fn thirteen(lift: usize, w: [&[i16]; 2]) -> Draft {
    plan(13, &THIRTEEN, lift, w)
}

fn of_girth_14() -> [Draft; 3] {
    let a: [&[i16]; 2] = [&[0, 123, 36, 3, 2, 79, 4, 7, 52, 4, 1], &[0, 96, 23, 11, 1, 37, 12, 2, 61, 1, 4]];
    let b: [&[i16]; 2] = [
        &[423, 0, 437, 5, 237, 235, 170, 333, 260, 109, 241, 2, 114, 5, 2, 428, 92, 228, 299],
        &[0, 0, 0, 445, 465, 51, 440, 22, 111, 307, 433, 4, 285, 2, 1, 4, 113, 282, 5],
    ];
    let first = [1037, 0, 1051, 1105, 933, 1027, 962, 1000, 665, 805, 646, 2, 906, 5, 2, 1095, 788, 633, 913];
    let second = [0, 0, 0, 1112, 1132, 51, 1107, 22, 807, 921, 1100, 4, 952, 2, 1, 4, 905, 949, 5];
    let more = [[264, 51, 772, 672, 686, 737], [0, 1111, 922, 620, 351, 140]];
    let c = [&[&first[..], &more[0]].concat()[..], &[&second[..], &more[1]].concat()];
    [nine(151, a), shortened(486, b), thirteen(1153, c)]
}

fn of_girth_16() -> [Draft; 2] {
    let a: [&[i16]; 2] = [&[0, 468, 99, 3, 2, 305, 43, 9, 251, 3, 2], &[0, 351, 41, 6, 8, 215, 18, 1, 79, 1, 8]];
    let b: [&[i16]; 2] = [
        &[937, 0, 1551, 1264, 1670, 2119, 1973, 1960, 1848, 1223, 1806, 15, 1761, 1, 2, 2175, 1169, 1768, 548],
        &[0, 0, 0, 2367, 2491, 126, 2296, 66, 1197, 582, 2200, 9, 1836, 2, 1, 0, 1757, 1833, 4],
    ];
    [nine(665, a), shortened(2562, b)]
}

fn of_girth_18() -> Draft {
    nine(2723, [&[0, 853, 217, 6, 2, 1108, 75, 20, 586, 1, 5], &[0, 1797, 97, 3, 4, 485, 33, 37, 246, 1, 5]])
}

/// The plans within the limits, each with its girth.
pub fn plans() -> Vec<(Draft, usize)> {
    let (fourteen, sixteen) = (of_girth_14().map(|plan| (plan, 14)), of_girth_16().map(|plan| (plan, 16)));
    fourteen.into_iter().chain(sixteen).chain([(of_girth_18(), 18)]).collect()
}
