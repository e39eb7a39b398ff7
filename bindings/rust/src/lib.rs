//! Safe calls to the proved library of quasi-cyclic LDPC plans. Nothing is asked of numbers and bytes: whatever is handed
//! in, a call answers, or refuses with the lowest number that applies and leaves lent memory as it was.
//!
//! Stack is asked for: every call returns within 1 MiB of it, also where it refuses (README.md has the figure of each); a
//! thread with less than a call needs is ended by the system. The library keeps no state, so several threads may call at once.
//!
//! The plan of README.md's worked frame has 3 rows, 3 columns and lift 3, so nine bits and nine checks. It passes at 6 and
//! each of its columns has three filled blocks, so any three lost bits of a codeword come back:
//!
//! ```
//! use qcldpc::{fill, girth, preview, syndrome, Fill, Girth, Plan, Refusal, Syndrome};
//!
//! let plan = Plan { entries: &[0, 0, 0, 0, 1, 2, 0, 2, 1], rows: 3, cols: 3, lift: 3 };
//! assert_eq!(girth(&plan, 6), Ok(Girth::Passed));
//! assert_eq!(girth(&plan, 12).unwrap().girth(), Some(6));
//!
//! let mut word = [2, 1, 1, 2, 0, 0, 1, 1, 2];
//! assert_eq!(preview(&plan, &word), Ok(Fill { filled: 3, left: 0 }));
//! assert_eq!(fill(&plan, &mut word), Ok(Fill { filled: 3, left: 0 }));
//! assert_eq!(word, [1, 1, 1, 0, 0, 0, 1, 1, 1]);
//! assert_eq!(syndrome(&plan, &word), Ok(Syndrome::Even));
//!
//! let mut dirty = [1, 1, 1, 0, 0, 0, 1, 1, 7];
//! assert_eq!(fill(&plan, &mut dirty), Err(Refusal { number: 18, values: vec![8] }));
//! ```
//!
//! Where a plan so passes, fewer lost and wrong bits together than one more than the lost bits allowed are never taken for
//! another codeword (README.md, "A scratched frame"). Here that is up to three:
//!
//! ```
//! # use qcldpc::{fill, syndrome, Plan, Refusal, Syndrome};
//! # let plan = Plan { entries: &[0, 0, 0, 0, 1, 2, 0, 2, 1], rows: 3, cols: 3, lift: 3 };
//! assert_eq!(syndrome(&plan, &[1, 1, 1, 0, 0, 0, 1, 1, 0]), Ok(Syndrome::Odd(2))); // bit 8 is wrong
//! let mut word = [2, 1, 1, 2, 0, 0, 1, 1, 0]; // and bits 0 and 3 are lost
//! assert_eq!(fill(&plan, &mut word), Err(Refusal { number: 20, values: vec![] }));
//! ```
//!
//! Where such a plan has exactly three filled blocks in each column, a round of [`flip`] turns one wrong bit back:
//!
//! ```
//! # use qcldpc::{flip, Plan};
//! # let plan = Plan { entries: &[0, 0, 0, 0, 1, 2, 0, 2, 1], rows: 3, cols: 3, lift: 3 };
//! let mut word = [1, 1, 1, 0, 0, 0, 1, 1, 0]; // bit 8 is wrong
//! assert_eq!(flip(&plan, &mut word), Ok(1));
//! assert_eq!(word, [1, 1, 1, 0, 0, 0, 1, 1, 1]);
//! ```
//!
//! By a plan of the bi-diagonal shape [`encode`] makes the codeword of given data bits.
//!
//! Beside a plan lie its weights, two lists: how many filled blocks each row has, and how many each column has. The calls that
//! build a table or triple plan fill them, [`change`] keeps them true, and the calls for alist text read them; those of the
//! first plan are those of a joined one. An [`OwnedPlan`] has its own.

mod owned;
pub mod raw;

pub use owned::OwnedPlan;
use std::fmt;

/// An exponent matrix: `rows × cols` entries, row by row. −1 is a zero block, `e` from 0 to 32,767 the identity with its rows
/// shifted right by the remainder of `e` by `lift`; below −1 there is no block (refusal 6). So voltages may be given as they
/// are printed:
///
/// ```
/// use qcldpc::{alist_compare, alist_write, Plan};
///
/// let printed = Plan { entries: &[0, 3, -1, 12, 4, 32767], rows: 2, cols: 3, lift: 3 };
/// let reduced = Plan { entries: &[0, 0, -1, 0, 1, 1], rows: 2, cols: 3, lift: 3 };
/// let (row_weights, col_weights) = ([2, 3], [2, 2, 1]);
/// let mut text = [0; 200];
/// let length = alist_write(&printed, &row_weights, &col_weights, &mut text).unwrap();
/// assert_eq!(alist_compare(&reduced, &row_weights, &col_weights, &text[..length]), Ok(()));
/// ```
#[derive(Clone, Copy, Debug, PartialEq, Eq)]
pub struct Plan<'a> {
    pub entries: &'a [i16],
    pub rows: usize,
    pub cols: usize,
    pub lift: usize,
}

impl Plan<'_> {
    // A plan as the raw functions take it.
    fn lent(&self) -> (*const i16, usize, u64, u64, u64) {
        (self.entries.as_ptr(), self.entries.len(), self.rows as u64, self.cols as u64, self.lift as u64)
    }
}

/// Why a call gives no result: a number from 1 to 32 (README.md, "Refusals") and its values.
#[derive(Clone, Debug, PartialEq, Eq)]
pub struct Refusal {
    pub number: u64,
    pub values: Vec<u64>,
}

impl fmt::Display for Refusal {
    fn fmt(&self, f: &mut fmt::Formatter) -> fmt::Result {
        write!(f, "refused {}", self.number)?;
        self.values.iter().try_for_each(|value| write!(f, " {value}"))
    }
}

impl std::error::Error for Refusal {}

/// The answer of the girth test.
#[derive(Clone, Debug, PartialEq, Eq)]
pub enum Girth {
    /// No simple cycle has fewer edges than the target.
    Passed,
    /// A shortest simple cycle: check `k` joins bit `k`, bit `k` joins check `k + 1`, the last bit joins check 0.
    Failed { checks: Vec<usize>, bits: Vec<usize> },
}

impl Girth {
    /// The girth of a plan that fails: how many edges the shown cycle has, and no simple cycle has fewer. `None` where the plan
    /// passes; its girth, if it has a cycle, is then the target or more.
    pub fn girth(&self) -> Option<usize> {
        match self {
            Girth::Passed => None,
            Girth::Failed { checks, .. } => Some(2 * checks.len()),
        }
    }
}

/// The answer of the syndrome check.
#[derive(Clone, Copy, Debug, PartialEq, Eq)]
pub enum Syndrome {
    /// Every check is even: the word is a codeword.
    Even,
    /// The lowest odd check.
    Odd(usize),
}

/// How many erasures the decoder filled, or would fill, and how many it leaves: those in the largest stopping set.
#[derive(Clone, Copy, Debug, PartialEq, Eq)]
pub struct Fill {
    pub filled: usize,
    pub left: usize,
}

/// The rows and columns of a plan that was built.
#[derive(Clone, Copy, Debug, PartialEq, Eq)]
pub struct Built {
    pub rows: usize,
    pub cols: usize,
}

/// Whether a plan may be used. Refusals 1 to 6.
pub fn check(plan: &Plan) -> Result<(), Refusal> {
    let (p, n, rows, cols, lift) = plan.lent();
    // SAFETY: in every call of this file each pointer goes with the length of its slice, and slices that are written are
    // borrowed as such, so that they overlap no other. The functions require nothing else.
    call(|out, len| unsafe { raw::qcldpc_check(p, n, rows, cols, lift, out, len) }, |_| ())
}

/// Whether no simple cycle has fewer edges than the target: 6, 8, 10, 12, 14, 16 or 18. Where a plan fails, a shortest cycle is
/// shown, so the answer tells its girth; which of the shortest it is, is free. Refusals 1 to 6, 14.
///
/// The plan here has cycles of 16 edges and none shorter:
///
/// ```
/// use qcldpc::{girth, Girth, Plan};
///
/// let plan = Plan { entries: &[0, 0, 0, 1], rows: 2, cols: 2, lift: 4 };
/// assert_eq!(girth(&plan, 16), Ok(Girth::Passed));
/// assert_eq!(girth(&plan, 18)?.girth(), Some(16));
/// # Ok::<(), qcldpc::Refusal>(())
/// ```
pub fn girth(plan: &Plan, target: usize) -> Result<Girth, Refusal> {
    let (p, n, rows, cols, lift) = plan.lent();
    call(
        |out, len| unsafe { raw::qcldpc_girth(p, n, rows, cols, lift, target as u64, out, len) },
        |out| match out[0] as usize {
            0 => Girth::Passed,
            n => Girth::Failed { checks: usizes(&out[1..1 + n]), bits: usizes(&out[9..9 + n]) },
        },
    )
}

/// Whether no simple cycle has fewer edges than the target, by sorted pairs: `true` where the plan passes. It
/// shows no cycle, and agrees with [`girth`] wherever it gives a verdict.
///
/// The work list is for the tree of one column at a time: all walks of 0 to `target/2 − 1` edges from the column's bit 0 that
/// never step back, the root included. Where columns have `c` and rows `r` filled blocks, or fewer, it has at most
/// `1 + c + c·(r − 1) + c·(r − 1)·(c − 1) + …` nodes, `target/2` terms. After a verdict, what the list holds is free.
///
/// Refusals 1 to 6, 14, and 26 where the tree of some column has more nodes than the list has places, whatever the other trees
/// show; the list is then as it was.
///
/// The plan here has cycles of 16 edges and none shorter. From each column two walks of every length lead away, so that the
/// tree at target 18 has 1 + 8 · 2 nodes:
///
/// ```
/// use qcldpc::{girth_pairs, Plan, Refusal};
///
/// let plan = Plan { entries: &[0, 0, 0, 1], rows: 2, cols: 2, lift: 4 };
/// let mut work = [0; 17];
/// assert_eq!(girth_pairs(&plan, 16, &mut work), Ok(true));
/// assert_eq!(girth_pairs(&plan, 18, &mut work), Ok(false));
/// assert_eq!(girth_pairs(&plan, 18, &mut work[..16]), Err(Refusal { number: 26, values: vec![] }));
/// ```
pub fn girth_pairs(plan: &Plan, target: usize, work: &mut [u64]) -> Result<bool, Refusal> {
    let (p, n, rows, cols, lift) = plan.lent();
    let (w, wn) = place(work);
    call(
        |out, len| unsafe { raw::qcldpc_girth_pairs(p, n, rows, cols, lift, target as u64, w, wn, out, len) },
        |out| out[0] == 0,
    )
}

/// The syndrome check of a word without erasures. Refusals 1 to 6, 16, 18, 19.
pub fn syndrome(plan: &Plan, word: &[u8]) -> Result<Syndrome, Refusal> {
    let (p, n, rows, cols, lift) = plan.lent();
    call(
        |out, len| unsafe { raw::qcldpc_syndrome(p, n, rows, cols, lift, word.as_ptr(), word.len(), out, len) },
        |out| if out[0] == 0 { Syndrome::Even } else { Syndrome::Odd(out[1] as usize) },
    )
}

/// Fills every erasure outside the largest stopping set, in place. Refusals 1 to 6, 16, 18, 20.
pub fn fill(plan: &Plan, word: &mut [u8]) -> Result<Fill, Refusal> {
    let (p, n, rows, cols, lift) = plan.lent();
    call(|out, len| unsafe { raw::qcldpc_fill(p, n, rows, cols, lift, word.as_mut_ptr(), word.len(), out, len) }, counts)
}

/// What [`fill`] would answer for a copy of the word, for every word: the same counts, or the same refusal. The word itself is
/// only read. Refusals 1 to 6, 16, 18, 20.
///
/// The plan here has two checks, one of bits 0 and 3 and one of bits 1 and 2:
///
/// ```
/// use qcldpc::{fill, preview, Fill, Plan, Refusal};
///
/// let plan = Plan { entries: &[0, 1], rows: 1, cols: 2, lift: 2 };
/// let mut scan = [1, 2, 2, 2];
/// assert_eq!(preview(&plan, &scan), Ok(Fill { filled: 1, left: 2 }));
/// assert_eq!(fill(&plan, &mut scan), Ok(Fill { filled: 1, left: 2 }));
/// assert_eq!(preview(&plan, &[1, 2, 2, 0]), Err(Refusal { number: 20, values: vec![] }));
/// ```
pub fn preview(plan: &Plan, word: &[u8]) -> Result<Fill, Refusal> {
    let (p, n, rows, cols, lift) = plan.lent();
    call(|out, len| unsafe { raw::qcldpc_preview(p, n, rows, cols, lift, word.as_ptr(), word.len(), out, len) }, counts)
}

/// A round of bit flipping by Gallager's hard rule, in place: exactly the bits with two or more odd checks are turned, all
/// judged on the word before the round. Gives how many were turned. Each column of the plan has exactly three filled blocks,
/// and the word has no erasures.
///
/// A codeword stays as it is. Where the plan passes at 6 and exactly one bit of a codeword is wrong, a round turns that bit
/// back and no other. Refusals 1 to 6, 16, 18, 19, and 32 where a column has not exactly three filled blocks; the word is then
/// as it was.
///
/// The plan here is that of the worked frame. It passes at 6, and each bit is in three of its nine checks. Bit 8 is in those of
/// bits 2 5 8, 0 4 8 and 1 3 8, of which no other bit has two:
///
/// ```
/// use qcldpc::{flip, girth, syndrome, Girth, Plan, Refusal, Syndrome};
///
/// let plan = Plan { entries: &[0, 0, 0, 0, 1, 2, 0, 2, 1], rows: 3, cols: 3, lift: 3 };
/// assert_eq!(girth(&plan, 6), Ok(Girth::Passed));
///
/// let codeword = [1, 1, 1, 0, 0, 0, 1, 1, 1];
/// let mut word = codeword;
/// assert_eq!(flip(&plan, &mut word), Ok(0));
/// assert_eq!(word, codeword);
///
/// word[8] = 0;
/// assert_eq!(syndrome(&plan, &word), Ok(Syndrome::Odd(2)));
/// assert_eq!(flip(&plan, &mut word), Ok(1));
/// assert_eq!(word, codeword);
///
/// let two_blocks = Plan { entries: &[0, 0, 0, 0, 1, 2, 0, 2, -1], ..plan };
/// assert_eq!(flip(&two_blocks, &mut word), Err(Refusal { number: 32, values: vec![] }));
/// word[8] = 2;
/// assert_eq!(flip(&two_blocks, &mut word), Err(Refusal { number: 19, values: vec![8] }));
/// ```
///
/// By a plan that fails at 6 others may be turned with the wrong bit. Here both bits have the same three checks, and bit 0 of
/// the codeword 0 0 is wrong:
///
/// ```
/// let plan = qcldpc::Plan { entries: &[0; 6], rows: 3, cols: 2, lift: 1 };
/// let mut word = [1, 0];
/// assert_eq!(qcldpc::flip(&plan, &mut word), Ok(2));
/// assert_eq!(word, [0, 1]);
/// ```
pub fn flip(plan: &Plan, word: &mut [u8]) -> Result<usize, Refusal> {
    let (p, n, rows, cols, lift) = plan.lent();
    let (w, wn) = place(word);
    call(|out, len| unsafe { raw::qcldpc_flip(p, n, rows, cols, lift, w, wn, out, len) }, |out| out[0] as usize)
}

/// How many bytes of a word are 2: its erasures. Nothing is refused: a word of any length is counted, and bytes above 2 are not.
///
/// ```
/// assert_eq!(qcldpc::count_erasures(&[2, 0, 1, 2, 130, 3, 1, 0, 2]), 3);
/// ```
pub fn count_erasures(word: &[u8]) -> usize {
    let count = |out, len| unsafe { raw::qcldpc_count_erasures(word.as_ptr(), word.len(), out, len) };
    call(count, |out| out[0] as usize).expect("the count refuses nothing")
}

/// The array table of an order from 4 to 7, in `order × order` places. Refusals 7, 8.
pub fn array_table(order: usize, table: &mut [i16]) -> Result<(), Refusal> {
    call(|out, len| unsafe { raw::qcldpc_array_table(order as u64, table.as_mut_ptr(), table.len(), out, len) }, |_| ())
}

/// The cyclic table of an order from 4 to 7, in `order × order` places. Refusals 7, 8.
pub fn cyclic_table(order: usize, table: &mut [i16]) -> Result<(), Refusal> {
    call(|out, len| unsafe { raw::qcldpc_cyclic_table(order as u64, table.as_mut_ptr(), table.len(), out, len) }, |_| ())
}

/// The plan of a table and a mask with `L` ones in each row and column, in exactly `3·L·order × order·L²` places, and its
/// weights, in a place for each row and each column; what stood there is not read. [`OwnedPlan::build`] makes the places itself.
/// Refusals 3, 7 to 13, 15, 25 where a list of weights has another length.
///
/// ```
/// let mut table = [0; 16];
/// qcldpc::cyclic_table(4, &mut table)?;
/// let (mut entries, mut row_weights, mut col_weights) = (vec![0; 48 * 64], [0; 48], [0; 64]);
/// let built = qcldpc::build(4, 7, &table, &[1; 16], &mut entries, &mut row_weights, &mut col_weights)?;
/// assert_eq!((built.rows, built.cols), (48, 64));
/// assert_eq!((row_weights, col_weights), ([4; 48], [3; 64]));
/// # Ok::<(), qcldpc::Refusal>(())
/// ```
pub fn build(
    order: usize,
    lift: usize,
    table: &[i16],
    mask: &[u8],
    plan: &mut [i16],
    row_weights: &mut [u16],
    col_weights: &mut [u16],
) -> Result<Built, Refusal> {
    let (order, lift, t, m) = (order as u64, lift as u64, table, mask);
    let ((p, n), (r, rn), (c, cn)) = (place(plan), place(row_weights), place(col_weights));
    call(
        |out, len| unsafe {
            raw::qcldpc_build(order, lift, t.as_ptr(), t.len(), m.as_ptr(), m.len(), p, n, r, rn, c, cn, out, len)
        },
        sizes,
    )
}

/// The plan of the supplied Steiner triple system of an order `v`: 7, 9, 13, 15 or 19. Rows are its points from 0, columns its
/// `v·(v − 1)/6` triples, rising by first, second and third point. There is one voltage for each point of each triple, points
/// rising within a triple; an entry is its voltage's remainder by the lift, or −1 where the point is not in the triple. The
/// place has exactly `order × columns` numbers, and those of its weights one for each row and each column; what stood there is
/// not read. [`OwnedPlan::steiner`] makes the places itself.
///
/// Two points have one triple in common, so the plan passes at 6 whatever the voltages. Refusals 3, 4 (of the five orders), 6
/// with the first place of a voltage below 0, 22, 23, 25 where a list of weights has another length.
///
/// ```
/// let voltages: Vec<i16> = (0..3 * 57).collect();
/// let (mut entries, mut row_weights, mut col_weights) = (vec![0; 19 * 57], [0; 19], [0; 57]);
/// let built = qcldpc::steiner(19, 1149, &voltages, &mut entries, &mut row_weights, &mut col_weights)?;
/// assert_eq!((built.rows, built.cols), (19, 57));
/// assert_eq!((row_weights, col_weights), ([9; 19], [3; 57]));
/// # Ok::<(), qcldpc::Refusal>(())
/// ```
pub fn steiner(
    order: usize,
    lift: usize,
    voltages: &[i16],
    plan: &mut [i16],
    row_weights: &mut [u16],
    col_weights: &mut [u16],
) -> Result<Built, Refusal> {
    let (order, lift, v) = (order as u64, lift as u64, voltages);
    let ((p, n), (r, rn), (c, cn)) = (place(plan), place(row_weights), place(col_weights));
    call(|out, len| unsafe { raw::qcldpc_steiner(order, lift, v.as_ptr(), v.len(), p, n, r, rn, c, cn, out, len) }, sizes)
}

/// Changes one block of a plan: the entry at `row` and `col` becomes `entry`, stored as it is given, and the weights stay true.
/// Nothing but that entry, `row_weights[row]` and `col_weights[col]` moves. [`OwnedPlan::change`] has the lists itself.
///
/// Refusals 1 to 5; 6 with the first place of a bad entry of the plan, or else with `rows × cols` where the new entry is below
/// −1; 24 where the row or the column is outside the plan; 25 where a list of weights has another length, or a count that is
/// wrong for the plan before the change.
///
/// ```
/// use qcldpc::{change, Refusal};
///
/// let mut plan = [0, 0, 0, 0, 1, 2, 0, 2, 1];
/// let (mut row_weights, mut col_weights) = ([3; 3], [3; 3]);
/// change(&mut plan, 3, 3, 3, 1, 2, -1, &mut row_weights, &mut col_weights)?;
/// assert_eq!(plan, [0, 0, 0, 0, 1, -1, 0, 2, 1]);
/// assert_eq!((row_weights, col_weights), ([3, 2, 3], [3, 3, 2]));
///
/// let mut refused = |row, col, entry, row_weights: &mut [u16]| {
///     change(&mut plan, 3, 3, 3, row, col, entry, row_weights, &mut col_weights).unwrap_err()
/// };
/// assert_eq!(refused(0, 0, -2, &mut row_weights), Refusal { number: 6, values: vec![9] });
/// assert_eq!(refused(0, 3, 5, &mut row_weights), Refusal { number: 24, values: vec![] });
/// assert_eq!(refused(0, 0, 5, &mut [3; 3]), Refusal { number: 25, values: vec![] });
/// # Ok::<(), Refusal>(())
/// ```
#[allow(clippy::too_many_arguments)] // they are those of the C function
pub fn change(
    plan: &mut [i16],
    rows: usize,
    cols: usize,
    lift: usize,
    row: usize,
    col: usize,
    entry: i16,
    row_weights: &mut [u16],
    col_weights: &mut [u16],
) -> Result<(), Refusal> {
    let (rows, cols, lift, row, col) = (rows as u64, cols as u64, lift as u64, row as u64, col as u64);
    let ((p, n), (r, rn), (c, cn)) = (place(plan), place(row_weights), place(col_weights));
    call(|out, len| unsafe { raw::qcldpc_change(p, n, rows, cols, lift, row, col, entry, r, rn, c, cn, out, len) }, |_| ())
}

/// Joins two plans that have the same rows, columns and empty blocks, and lifts `P` and `Q` without a common divisor above 1,
/// into the plan of lift `P × Q`, and gives that lift. A filled entry is the only number from 0 to `P × Q − 1` that leaves by
/// `P` the remainder of the first plan's entry and by `Q` that of the second's; an empty block is −1. The place has exactly as
/// many numbers as each plan; what stood there is not read. [`OwnedPlan::join`] makes the place itself.
///
/// Where either plan passes at a target, the joined plan passes there too. It has the filled blocks of each plan, so the first
/// plan's lists of weights are its lists too.
///
/// Refusals 1 to 6, the lowest that applies to either plan, and 3 also where `P × Q` is above 4,096, 4 also where the first
/// plan's columns × `P × Q` are above 65,536; 6 has a place of the first plan, or of the second where only that has an entry
/// below −1. Then 27 where the lifts have a common divisor above 1, 28 where the plans differ in rows, columns or empty blocks,
/// 29 where the place is not as long as each plan.
///
/// 9 leaves 0 by 3 and 1 by 4; 4 leaves 1 and 0; 11 leaves 2 and 3, and 7 leaves 3 by 4 too:
///
/// ```
/// use qcldpc::{join, Plan, Refusal};
///
/// let first = Plan { entries: &[0, 1, -1, 2], rows: 2, cols: 2, lift: 3 };
/// let second = Plan { entries: &[1, 0, -1, 7], rows: 2, cols: 2, lift: 4 };
/// let mut joined = [0; 4];
/// assert_eq!(join(&first, &second, &mut joined), Ok(12));
/// assert_eq!(joined, [9, 4, -1, 11]);
///
/// let refused = |number| Err(Refusal { number, values: vec![] });
/// assert_eq!(join(&first, &Plan { lift: 6, ..second }, &mut joined), refused(27));
/// assert_eq!(join(&first, &Plan { entries: &[1, 0, 5, 7], ..second }, &mut joined), refused(28));
/// assert_eq!(join(&first, &second, &mut joined[1..]), refused(29));
/// ```
pub fn join(first: &Plan, second: &Plan, joined: &mut [i16]) -> Result<usize, Refusal> {
    let ((p, n, rows, cols, lift), (p2, n2, rows2, cols2, lift2)) = (first.lent(), second.lent());
    let (j, jn) = place(joined);
    call(
        |out, len| unsafe { raw::qcldpc_join(p, n, rows, cols, lift, p2, n2, rows2, cols2, lift2, j, jn, out, len) },
        |out| out[0] as usize,
    )
}

/// Encodes data bits by a bi-diagonal plan: fills the word with the only codeword that has those data bits. What stood there is
/// not read. [`OwnedPlan::encode`] makes the word itself.
///
/// A bi-diagonal plan has `m` rows, `m` at least 3, and at least `m + 1` columns. Column `k`, for `k` from 0 to `m − 2`, has
/// the remainder 0 by the lift in rows `k` and `k + 1` and no other filled block; column `m − 1` has exactly three filled
/// blocks, of which at least two have the same remainder. The other columns may have any blocks. They carry the data:
/// `(cols − m) × lift` bytes, each 0 or 1, which become the bits from number `m × lift` on, in the same order.
///
/// Refusals 1 to 6; 16 where the word is not `cols × lift` bytes long; 30 where the plan has not this shape; 31 where the data
/// have another length or a byte above 1.
///
/// The plan here has 3 rows and one column of data, at lift 3. In column 2 the remainder 1 stands twice:
///
/// ```text
///  0 −1  1  0
///  0  0  0 −1
/// −1  0  1  2
/// ```
///
/// ```
/// use qcldpc::{encode, syndrome, Plan, Refusal, Syndrome};
///
/// let plan = Plan { entries: &[0, -1, 1, 0, 0, 0, 0, -1, -1, 0, 1, 2], rows: 3, cols: 4, lift: 3 };
/// let mut word = [255; 12];
/// encode(&plan, &[1, 0, 0], &mut word)?;
/// assert_eq!(word, [0, 0, 1, 1, 1, 1, 1, 1, 0, 1, 0, 0]);
/// assert_eq!(syndrome(&plan, &word), Ok(Syndrome::Even));
///
/// let refused = |number| Err(Refusal { number, values: vec![] });
/// assert_eq!(encode(&plan, &[1, 0, 0], &mut word[1..]), refused(16));
/// assert_eq!(encode(&Plan { entries: &[0; 12], ..plan }, &[1, 0, 0], &mut word), refused(30));
/// assert_eq!(encode(&plan, &[1, 0, 2], &mut word), refused(31));
/// # Ok::<(), Refusal>(())
/// ```
pub fn encode(plan: &Plan, data: &[u8], word: &mut [u8]) -> Result<(), Refusal> {
    let (p, n, rows, cols, lift) = plan.lent();
    let ((d, dn), (w, wn)) = (lent(data), place(word));
    call(|out, len| unsafe { raw::qcldpc_encode(p, n, rows, cols, lift, d, dn, w, wn, out, len) }, |_| ())
}

/// Writes the alist text of a plan, in its padded form, and gives its length; bytes past it stay. [`OwnedPlan::alist`] makes the
/// place itself. Refusals 1 to 6; 17 with the length needed, whatever the weights are; 25 where a list of weights has another
/// length or a wrong count.
///
/// ```
/// use qcldpc::{alist_write, Plan, Refusal};
///
/// let plan = Plan { entries: &[0, -1], rows: 1, cols: 2, lift: 1 };
/// let mut text = [b'x'; 21];
/// assert_eq!(alist_write(&plan, &[1], &[1, 0], &mut []), Err(Refusal { number: 17, values: vec![20] }));
/// assert_eq!(alist_write(&plan, &[1], &[1, 1], &mut text), Err(Refusal { number: 25, values: vec![] }));
/// assert_eq!(alist_write(&plan, &[1], &[1, 0], &mut text), Ok(20));
/// assert_eq!(&text, b"2 1\n1 1\n1 0\n1\n1\n0\n1\nx");
/// ```
pub fn alist_write(plan: &Plan, row_weights: &[u16], col_weights: &[u16], text: &mut [u8]) -> Result<usize, Refusal> {
    let (p, n, rows, cols, lift) = plan.lent();
    let ((r, rn), (c, cn), (t, tn)) = (lent(row_weights), lent(col_weights), place(text));
    call(
        |out, len| unsafe { raw::qcldpc_alist_write(p, n, rows, cols, lift, r, rn, c, cn, t, tn, out, len) },
        |out| out[0] as usize,
    )
}

/// Compares a text with the alist of a plan, token by token. It agrees when it agrees whole with either form of the alist:
/// padded, where short lists are filled up with 0 and line feeds are blanks like space, tab and carriage return; or unpadded,
/// where every short list ends with its line and each line feed is a token, those of blank lines and the last one included.
///
/// Refusals 1 to 6, 21, 25 where a list of weights has another length or a wrong count. Where a text agrees with neither form,
/// 21 shows the later of the two places at which it first departs from them: the first byte of a wrong or extra token, or the
/// text's length where it ends early.
///
/// The plan here has one row, with a filled and a zero block, so the second of its two bits has no check:
///
/// ```
/// use qcldpc::{alist_compare, Plan, Refusal};
///
/// let plan = Plan { entries: &[0, -1], rows: 1, cols: 2, lift: 1 };
/// let compare = |text: &[u8]| alist_compare(&plan, &[1], &[1, 0], text);
/// assert_eq!(compare(b"2 1\n1 1\n1 0\n1\n1\n0\n1\n"), Ok(()));
/// assert_eq!(compare(b"2 1\n1 1\n1 0\n1\n1\n\n1\n"), Ok(()));
///
/// let no_last_line_feed = b"2 1\n1 1\n1 0\n1\n1\n\n1";
/// assert_eq!(compare(no_last_line_feed), Err(Refusal { number: 21, values: vec![18] }));
/// ```
pub fn alist_compare(plan: &Plan, row_weights: &[u16], col_weights: &[u16], text: &[u8]) -> Result<(), Refusal> {
    let (p, n, rows, cols, lift) = plan.lent();
    let ((r, rn), (c, cn), (t, tn)) = (lent(row_weights), lent(col_weights), lent(text));
    call(|out, len| unsafe { raw::qcldpc_alist_compare(p, n, rows, cols, lift, r, rn, c, cn, t, tn, out, len) }, |_| ())
}

// A list as the raw functions take it that only read it.
fn lent<T>(list: &[T]) -> (*const T, usize) {
    (list.as_ptr(), list.len())
}

// A list as the raw functions take it that write it.
fn place<T>(list: &mut [T]) -> (*mut T, usize) {
    (list.as_mut_ptr(), list.len())
}

// Lends a function an `out` of 32 places, and reads its answer or its refusal from it.
fn call<T>(function: impl FnOnce(*mut u64, usize) -> u64, answer: impl FnOnce(&[u64]) -> T) -> Result<T, Refusal> {
    let mut out = [0; raw::OUT];
    match function(out.as_mut_ptr(), out.len()) {
        0 => Ok(answer(&out)),
        number => Err(Refusal { number, values: out[..value_count(number)].to_vec() }),
    }
}

// How many values a refusal has.
fn value_count(number: u64) -> usize {
    match number {
        6 | 9 | 17 | 18 | 19 | 21 => 1,
        10 => 4,
        _ => 0,
    }
}

// The rows and columns that a builder tells.
fn sizes(out: &[u64]) -> Built {
    Built { rows: out[0] as usize, cols: out[1] as usize }
}

// The two counts of the decoder and of the preview.
fn counts(out: &[u64]) -> Fill {
    Fill { filled: out[0] as usize, left: out[1] as usize }
}

fn usizes(numbers: &[u64]) -> Vec<usize> {
    numbers.iter().map(|&n| n as usize).collect()
}
