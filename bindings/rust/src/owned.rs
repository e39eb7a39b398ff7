//! A plan that owns its entries and its weights.
use crate::{alist_compare, alist_write, build, change, check, encode, flip, join, steiner, Built, Plan, Refusal};

/// A good plan that owns its entries and, beside them, the weights of its rows and columns, which it keeps true: no call on it
/// is refused for the plan or for its weights.
///
/// A plan is built, one of its blocks is changed, and it is judged again and written. By the new block columns 0 and 1 have
/// rows 0 and 16 in common, so there is a cycle of four edges at the shift 0, and none at a better one:
///
/// ```
/// use qcldpc::{cyclic_table, girth, Girth, OwnedPlan, Refusal};
///
/// let mut table = [0; 16];
/// cyclic_table(4, &mut table)?;
/// let mut plan = OwnedPlan::build(4, 7, &table, &[1; 16])?;
/// assert_eq!(girth(&plan.lent(), 12), Ok(Girth::Passed));
///
/// plan.change(16, 1, 0)?;
/// assert_eq!((plan.row_weights()[16], plan.col_weights()[1]), (5, 4));
/// assert_eq!(girth(&plan.lent(), 12)?.girth(), Some(4));
/// plan.change(16, 1, 3)?;
/// assert_eq!(girth(&plan.lent(), 12)?.girth(), Some(8));
///
/// let text = plan.alist();
/// assert!(text.starts_with(b"448 336\n4 5\n"));
/// assert_eq!(plan.agrees(&text), Ok(()));
/// # Ok::<(), Refusal>(())
/// ```
#[derive(Clone, Debug, PartialEq, Eq)]
pub struct OwnedPlan {
    entries: Vec<i16>,
    rows: usize,
    cols: usize,
    lift: usize,
    row_weights: Vec<u16>,
    col_weights: Vec<u16>,
}

impl OwnedPlan {
    /// The plan of these entries, with its weights counted. Refusals 1 to 6, as [`check`] gives them.
    ///
    /// ```
    /// use qcldpc::{OwnedPlan, Refusal};
    ///
    /// let plan = OwnedPlan::new(vec![0, 3, -1, 12, 4, 32767], 2, 3, 3)?;
    /// assert_eq!((plan.row_weights(), plan.col_weights()), (&[2, 3][..], &[2, 2, 1][..]));
    /// assert_eq!(OwnedPlan::new(vec![0, -2], 1, 2, 3), Err(Refusal { number: 6, values: vec![1] }));
    /// # Ok::<(), Refusal>(())
    /// ```
    pub fn new(entries: Vec<i16>, rows: usize, cols: usize, lift: usize) -> Result<OwnedPlan, Refusal> {
        check(&Plan { entries: &entries, rows, cols, lift })?;
        let mut plan = OwnedPlan { entries, rows, cols, lift, row_weights: vec![0; rows], col_weights: vec![0; cols] };
        for place in (0..rows * cols).filter(|&place| plan.entries[place] >= 0) {
            plan.row_weights[place / cols] += 1;
            plan.col_weights[place % cols] += 1;
        }
        Ok(plan)
    }

    /// The plan of a table and a mask, as [`build`] builds it, in places of its own. Refusals 3, 7 to 13.
    ///
    /// ```
    /// use qcldpc::{cyclic_table, OwnedPlan, Refusal};
    ///
    /// let mut table = [0; 16];
    /// cyclic_table(4, &mut table)?;
    /// let plan = OwnedPlan::build(4, 7, &table, &[1; 16])?;
    /// assert_eq!((plan.rows(), plan.cols(), plan.bits()), (48, 64, 448));
    /// assert_eq!(OwnedPlan::build(4, 6, &table, &[1; 16]), Err(Refusal { number: 10, values: vec![0, 2, 1, 3] }));
    /// # Ok::<(), Refusal>(())
    /// ```
    pub fn build(order: usize, lift: usize, table: &[i16], mask: &[u8]) -> Result<OwnedPlan, Refusal> {
        // The ones of the mask's first row are those of every row, or the mask is refused; so is an order above 7.
        let weight = mask.iter().take(order).filter(|&&byte| byte == 1).count();
        let (rows, cols) = if order <= 7 { (3 * weight * order, order * weight * weight) } else { (0, 0) };
        let built = |plan: &mut [i16], rows: &mut [u16], cols: &mut [u16]| build(order, lift, table, mask, plan, rows, cols);
        OwnedPlan::in_places(rows, cols, lift, built)
    }

    /// The plan of an order (7, 9, 13, 15 or 19), a lift and voltages, as [`steiner`] builds it, in places of its own; so 23 is
    /// about the voltages alone. Refusals 3, 4, 6 with the first place of a voltage below 0, 22, 23.
    ///
    /// The triples of order 7 are 0 1 3, 0 2 6, 0 4 5, 1 2 4, 1 5 6, 2 3 5 and 3 4 6, so point 0 has blocks in three columns,
    /// with the voltages 0, 3 and 6:
    ///
    /// ```
    /// use qcldpc::{girth, Girth, OwnedPlan, Refusal};
    ///
    /// let voltages: Vec<i16> = (0..21).collect();
    /// let plan = OwnedPlan::steiner(7, 5, &voltages)?;
    /// assert_eq!((plan.rows(), plan.cols(), plan.bits()), (7, 7, 35));
    /// assert_eq!(plan.entries()[..7], [0, 3, 1, -1, -1, -1, -1]);
    /// assert_eq!(girth(&plan.lent(), 6), Ok(Girth::Passed));
    /// assert_eq!(OwnedPlan::steiner(8, 5, &voltages), Err(Refusal { number: 22, values: vec![] }));
    /// # Ok::<(), Refusal>(())
    /// ```
    pub fn steiner(order: usize, lift: usize, voltages: &[i16]) -> Result<OwnedPlan, Refusal> {
        let (rows, cols) = if [7, 9, 13, 15, 19].contains(&order) { (order, order * (order - 1) / 6) } else { (0, 0) };
        let built = |plan: &mut [i16], rows: &mut [u16], cols: &mut [u16]| steiner(order, lift, voltages, plan, rows, cols);
        OwnedPlan::in_places(rows, cols, lift, built)
    }

    /// The plan that two plans make, as [`join`] joins them, in a place of its own. Refusals 1 to 6, 27, 28.
    ///
    /// The plan 0 0 / 0 1 closes when its one shift has been gone over as often as the lift says, so that its girth is four
    /// times the lift: 8 at 2, 12 at 3, and 24 at 6:
    ///
    /// ```
    /// use qcldpc::{girth, Girth, OwnedPlan, Plan, Refusal};
    ///
    /// let first = Plan { entries: &[0, 0, 0, 1], rows: 2, cols: 2, lift: 2 };
    /// let second = Plan { lift: 3, ..first };
    /// assert_eq!(girth(&first, 18)?.girth(), Some(8));
    /// assert_eq!(girth(&second, 18)?.girth(), Some(12));
    ///
    /// let plan = OwnedPlan::join(&first, &second)?;
    /// assert_eq!((plan.entries(), plan.lift(), plan.row_weights()), (&[0, 0, 0, 1][..], 6, &[2, 2][..]));
    /// assert_eq!(girth(&plan.lent(), 18), Ok(Girth::Passed));
    /// assert_eq!(OwnedPlan::join(&first, &plan.lent()), Err(Refusal { number: 27, values: vec![] }));
    /// # Ok::<(), Refusal>(())
    /// ```
    pub fn join(first: &Plan, second: &Plan) -> Result<OwnedPlan, Refusal> {
        let mut entries = vec![0; first.entries.len()];
        let lift = join(first, second, &mut entries)?;
        OwnedPlan::new(entries, first.rows, first.cols, lift)
    }

    // What a call builds in places for a plan of so many rows and columns, and for its weights.
    fn in_places(
        rows: usize,
        cols: usize,
        lift: usize,
        build: impl FnOnce(&mut [i16], &mut [u16], &mut [u16]) -> Result<Built, Refusal>,
    ) -> Result<OwnedPlan, Refusal> {
        let (mut entries, mut row_weights, mut col_weights) = (vec![0; rows * cols], vec![0; rows], vec![0; cols]);
        let Built { rows, cols } = build(&mut entries, &mut row_weights, &mut col_weights)?;
        Ok(OwnedPlan { entries, rows, cols, lift, row_weights, col_weights })
    }

    /// Changes one block, as [`change`] does: the entry is stored as it is given, and the weights stay true. Refusals 6, with
    /// `rows × cols`, where the entry is below −1, and 24 where the row or the column is outside the plan.
    ///
    /// ```
    /// use qcldpc::{OwnedPlan, Refusal};
    ///
    /// let mut plan = OwnedPlan::new(vec![0, 1, -1, 2], 2, 2, 3)?;
    /// plan.change(1, 0, 4)?;
    /// assert_eq!((plan.entries(), plan.col_weights()), (&[0, 1, 4, 2][..], &[2, 2][..]));
    /// assert_eq!(plan.change(1, 0, -2), Err(Refusal { number: 6, values: vec![4] }));
    /// assert_eq!(plan.change(2, 0, 4), Err(Refusal { number: 24, values: vec![] }));
    /// # Ok::<(), Refusal>(())
    /// ```
    pub fn change(&mut self, row: usize, col: usize, entry: i16) -> Result<(), Refusal> {
        let OwnedPlan { rows, cols, lift, .. } = *self;
        change(&mut self.entries, rows, cols, lift, row, col, entry, &mut self.row_weights, &mut self.col_weights)
    }

    /// The only codeword with these data bits, as [`encode`] encodes them, in a word of its own. Refusals 30 where the plan has
    /// not the bi-diagonal shape, 31 where the data have another length than `(cols − rows) × lift` or a byte above 1.
    ///
    /// ```
    /// use qcldpc::{syndrome, OwnedPlan, Refusal, Syndrome};
    ///
    /// let plan = OwnedPlan::new(vec![0, -1, 1, 0, 0, 0, 0, -1, -1, 0, 1, 2], 3, 4, 3)?;
    /// let word = plan.encode(&[1, 0, 0])?;
    /// assert_eq!(word, [0, 0, 1, 1, 1, 1, 1, 1, 0, 1, 0, 0]);
    /// assert_eq!(syndrome(&plan.lent(), &word), Ok(Syndrome::Even));
    /// assert_eq!(plan.encode(&[1, 0]), Err(Refusal { number: 31, values: vec![] }));
    /// # Ok::<(), Refusal>(())
    /// ```
    pub fn encode(&self, data: &[u8]) -> Result<Vec<u8>, Refusal> {
        let mut word = vec![0; self.bits()];
        encode(&self.lent(), data, &mut word)?;
        Ok(word)
    }

    /// A round of bit flipping, as [`flip`] does it: turns, in place, exactly the bits with two or more odd checks, and gives
    /// how many. Refusals 16, 18, 19, and 32 where a column has not exactly three filled blocks.
    ///
    /// ```
    /// use qcldpc::{OwnedPlan, Refusal};
    ///
    /// let mut plan = OwnedPlan::new(vec![0, 0, 0, 0, 1, 2, 0, 2, 1], 3, 3, 3)?;
    /// let mut word = [1, 1, 1, 0, 0, 0, 1, 1, 0];
    /// assert_eq!(plan.flip(&mut word), Ok(1));
    /// assert_eq!(word, [1, 1, 1, 0, 0, 0, 1, 1, 1]);
    /// plan.change(2, 2, -1)?;
    /// assert_eq!(plan.flip(&mut word), Err(Refusal { number: 32, values: vec![] }));
    /// # Ok::<(), Refusal>(())
    /// ```
    pub fn flip(&self, word: &mut [u8]) -> Result<usize, Refusal> {
        flip(&self.lent(), word)
    }

    /// The alist text of the plan, in its padded form, as [`alist_write`] writes it.
    ///
    /// ```
    /// let plan = qcldpc::OwnedPlan::new(vec![0, -1], 1, 2, 1)?;
    /// assert_eq!(plan.alist(), b"2 1\n1 1\n1 0\n1\n1\n0\n1\n");
    /// # Ok::<(), qcldpc::Refusal>(())
    /// ```
    pub fn alist(&self) -> Vec<u8> {
        let write = |text: &mut [u8]| alist_write(&self.lent(), &self.row_weights, &self.col_weights, text);
        let needed = write(&mut []).expect_err("no alist is empty").values[0];
        let mut text = vec![0; needed as usize];
        write(&mut text).expect("the place is as long as it needs to be");
        text
    }

    /// Whether a text agrees with the plan's alist, as [`alist_compare`] compares it. Refusal 21.
    ///
    /// ```
    /// use qcldpc::{OwnedPlan, Refusal};
    ///
    /// let plan = OwnedPlan::new(vec![0, -1], 1, 2, 1)?;
    /// assert_eq!(plan.agrees(b"2 1 1 1 1 0 1 1 0 1"), Ok(()));
    /// assert_eq!(plan.agrees(b"2 1 1 1 1 0 1 1 0 2"), Err(Refusal { number: 21, values: vec![18] }));
    /// # Ok::<(), Refusal>(())
    /// ```
    pub fn agrees(&self, text: &[u8]) -> Result<(), Refusal> {
        alist_compare(&self.lent(), &self.row_weights, &self.col_weights, text)
    }

    /// The plan, lent to a call.
    pub fn lent(&self) -> Plan<'_> {
        Plan { entries: &self.entries, rows: self.rows, cols: self.cols, lift: self.lift }
    }

    /// How many bits a word of the plan has.
    pub fn bits(&self) -> usize {
        self.cols * self.lift
    }

    /// The entries, row by row.
    pub fn entries(&self) -> &[i16] {
        &self.entries
    }

    /// How many rows there are.
    pub fn rows(&self) -> usize {
        self.rows
    }

    /// How many columns there are.
    pub fn cols(&self) -> usize {
        self.cols
    }

    /// The size of each block.
    pub fn lift(&self) -> usize {
        self.lift
    }

    /// How many filled blocks each row has.
    pub fn row_weights(&self) -> &[u16] {
        &self.row_weights
    }

    /// How many filled blocks each column has.
    pub fn col_weights(&self) -> &[u16] {
        &self.col_weights
    }
}
