//! Lent memory with guards around it.

/// Elements of guard on each side.
const GUARD: usize = 16;
/// The most that can be lent: more than the longest plan of any make.
pub const MOST: usize = 144;
/// All of it.
const WHOLE: usize = GUARD + MOST + GUARD;

/// Memory to lend, between guards. All that isn't lent is guard.
#[derive(Clone, Copy, PartialEq, Eq)]
pub struct Lent<T> {
    whole: [T; WHOLE],
    length: usize,
}

impl<T: Copy> Lent<T> {
    /// Memory that holds `contents`, with `guard` around.
    pub fn new(contents: &[T], guard: T) -> Lent<T> {
        let mut whole = [guard; WHOLE];
        whole[GUARD..][..contents.len()].copy_from_slice(contents);
        let length = contents.len();
        Lent { whole, length }
    }

    /// What is lent.
    pub fn get(&self) -> &[T] {
        &self.whole[GUARD..][..self.length]
    }

    /// What is lent, to be changed.
    pub fn lend(&mut self) -> &mut [T] {
        &mut self.whole[GUARD..][..self.length]
    }
}
