//! Memory lent to a call, with a margin on both sides that nobody may touch.
use crate::reference::weights::Places;
use std::fmt::Debug;

const MARGIN: usize = 8;

/// Memory that is held to a content.
pub trait Holds<C: ?Sized>: Debug {
    /// Whether it holds this content, and the margins are as they were.
    fn holds(&self, content: &C) -> bool;
}

#[derive(Debug)]
pub struct Lent<T> {
    memory: Vec<T>,
    mark: T,
}

impl<T: Copy + PartialEq + Debug> Lent<T> {
    pub fn new(content: &[T], mark: T) -> Lent<T> {
        let mut memory = vec![mark; MARGIN];
        memory.extend_from_slice(content);
        memory.extend([mark; MARGIN]);
        Lent { memory, mark }
    }

    pub fn len(&self) -> usize {
        self.memory.len() - 2 * MARGIN
    }

    pub fn pointer(&mut self) -> *mut T {
        self.memory[MARGIN..].as_mut_ptr()
    }

    pub fn content(&self) -> &[T] {
        &self.memory[MARGIN..MARGIN + self.len()]
    }
}

impl<T: Copy + PartialEq + Debug> Holds<[T]> for Lent<T> {
    fn holds(&self, content: &[T]) -> bool {
        let (before, after) = (&self.memory[..MARGIN], &self.memory[MARGIN + self.len()..]);
        self.content() == content && before.iter().chain(after).all(|x| *x == self.mark)
    }
}

/// A plan and the lists beside it.
#[derive(Debug)]
pub struct LentPlaces {
    pub plan: Lent<i16>,
    pub rows: Lent<u16>,
    pub cols: Lent<u16>,
}

impl LentPlaces {
    /// As raw functions take it: plan, row weights and column weights, each a pointer and a length.
    pub fn raw(&mut self) -> (*mut i16, usize, *mut u16, usize, *mut u16, usize) {
        let LentPlaces { plan, rows, cols } = self;
        (plan.pointer(), plan.len(), rows.pointer(), rows.len(), cols.pointer(), cols.len())
    }
}

impl Holds<Places> for LentPlaces {
    fn holds(&self, Places { plan, weights }: &Places) -> bool {
        self.plan.holds(plan) && self.rows.holds(&weights.rows) && self.cols.holds(&weights.cols)
    }
}
