//! Sparse lists of a plan, and a walk over the numbers of its alist.
use crate::common::{shift, OwnedPlan};
use qcldpc::Plan;

/// The filled blocks of each row (its columns, with their shifts) and of each column (its rows), in
/// 32-bit numbers: with 64 bits the references take a tenth longer.
pub struct Lists {
    by_row: Vec<Vec<(u32, u32)>>,
    by_col: Vec<Vec<(u32, u32)>>,
    lift: u32,
}

pub fn lists(plan: &OwnedPlan) -> Lists {
    let Plan { entries, rows, cols, lift } = plan.lent();
    let mut by_row = vec![vec![]; rows];
    let mut by_col = vec![vec![]; cols];
    for (i, row) in entries.chunks_exact(cols).enumerate() {
        for (j, &e) in row.iter().enumerate() {
            if e >= 0 {
                let e = shift(e, lift) as u32;
                by_row[i].push((j as u32, e));
                by_col[j].push((i as u32, e));
            }
        }
    }
    Lists { by_row, by_col, lift: lift as u32 }
}

/// Whether short lists are filled up with 0.
#[derive(Clone, Copy, PartialEq, Eq)]
pub enum Form {
    Padded,
    Unpadded,
}

/// Takes the numbers of a text in their order, or stops the walk.
pub trait Sink {
    type Stop;
    fn number(&mut self, n: u32, ends_line: bool) -> Result<(), Self::Stop>;
    fn blank_line(&mut self) -> Result<(), Self::Stop>;
}

fn greatest(lanes: &[Vec<(u32, u32)>]) -> usize {
    lanes.iter().map(Vec::len).max().unwrap_or(0)
}

fn pair<S: Sink>(a: usize, b: usize, sink: &mut S) -> Result<(), S::Stop> {
    sink.number(a as u32, false)?;
    sink.number(b as u32, true)
}

// The line of degrees: each lane's weight for each of its nodes.
fn degrees<S: Sink>(lanes: &[Vec<(u32, u32)>], lift: u32, sink: &mut S) -> Result<(), S::Stop> {
    for (k, lane) in lanes.iter().enumerate() {
        for z in 0..lift {
            sink.number(lane.len() as u32, k + 1 == lanes.len() && z + 1 == lift)?;
        }
    }
    Ok(())
}

// A line for each node: its neighbours from 1, and in the padded form 0 up to the greatest degree. Bits look back over a
// shift, checks forward.
fn neighbours<S: Sink>(lanes: &[Vec<(u32, u32)>], lift: u32, back: bool, form: Form, sink: &mut S) -> Result<(), S::Stop> {
    let greatest = greatest(lanes);
    for lane in lanes {
        let most = if form == Form::Padded { greatest } else { lane.len() };
        for z in 0..lift {
            for (k, &(other, e)) in lane.iter().enumerate() {
                let sum = if back { z + lift - e } else { z + e };
                let turned = if sum >= lift { sum - lift } else { sum };
                sink.number(other * lift + turned + 1, k + 1 == most)?;
            }
            for k in lane.len()..most {
                sink.number(0, k + 1 == most)?;
            }
            if most == 0 {
                sink.blank_line()?;
            }
        }
    }
    Ok(())
}

pub fn all_lines<S: Sink>(lists: &Lists, form: Form, sink: &mut S) -> Result<(), S::Stop> {
    let Lists { by_row, by_col, lift } = lists;
    let p = *lift as usize;
    pair(by_col.len() * p, by_row.len() * p, sink)?;
    pair(greatest(by_col), greatest(by_row), sink)?;
    degrees(by_col, *lift, sink)?;
    degrees(by_row, *lift, sink)?;
    neighbours(by_col, *lift, true, form, sink)?;
    neighbours(by_row, *lift, false, form, sink)
}

/// How many digits a number has. None of a text is above 192 × 4,096.
pub fn digits(n: u32) -> usize {
    match n {
        0..=9 => 1,
        10..=99 => 2,
        100..=999 => 3,
        1000..=9999 => 4,
        10000..=99999 => 5,
        _ => 6,
    }
}
