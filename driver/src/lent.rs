//! Memory as it is lent to a call: an array with marked cells before and after it, so that a call
//! that writes where it must not is seen.

use std::ops::Range;

/// Marked cells on either side, which no call is lent.
const GUARD: usize = 4;

/// A number that lent arrays are made of.
pub trait Cell: Copy {
    /// What stands where nothing was written.
    const MARK: Self;
    fn bits(self) -> u64;
}

impl Cell for f64 {
    /// A NaN with a payload of its own: no answer has it.
    const MARK: f64 = f64::from_bits(0x7ff8_dead_beef_cafe);
    fn bits(self) -> u64 {
        self.to_bits()
    }
}

impl Cell for usize {
    const MARK: usize = 0xdead_beef_cafe;
    fn bits(self) -> u64 {
        self as u64
    }
}

impl Cell for i64 {
    /// Over every limit of the sheet.
    const MARK: i64 = 0x7ead_beef_cafe_d00d;
    fn bits(self) -> u64 {
        self as u64
    }
}

impl Cell for u8 {
    const MARK: u8 = 0xce;
    fn bits(self) -> u64 {
        u64::from(self)
    }
}

/// Equal to the bit. It never leaves early, so that it is quick in an emulator too.
pub(crate) fn same<T: Cell>(ours: &[T], theirs: &[T]) -> bool {
    let differing = |(ours, theirs): (&T, &T)| ours.bits() ^ theirs.bits();
    ours.iter()
        .zip(theirs)
        .map(differing)
        .fold(0, |all, bits| all | bits)
        == 0
}

/// One array as lent.
#[derive(Clone, Debug)]
pub struct Lent<T> {
    cells: Vec<T>,
}

impl<T: Cell> Lent<T> {
    /// An array that is lent with what it holds.
    pub fn holding(vals: &[T]) -> Lent<T> {
        Lent::longer(vals, 0)
    }

    /// The same, with marked cells past the end that are lent too.
    pub fn longer(vals: &[T], extra: usize) -> Lent<T> {
        let mut cells = vec![T::MARK; GUARD];
        cells.extend_from_slice(vals);
        cells.resize(cells.len() + extra + GUARD, T::MARK);
        Lent { cells }
    }

    /// An array of marked cells, lent to be written.
    pub fn marked(len: usize) -> Lent<T> {
        Lent::longer(&[], len)
    }

    pub fn get(&self) -> &[T] {
        &self.cells[GUARD..self.cells.len() - GUARD]
    }

    pub fn lend(&mut self) -> &mut [T] {
        let end = self.cells.len() - GUARD;
        &mut self.cells[GUARD..end]
    }

    /// Whether every cell but the first `written` lent ones is as it was, the guards too.
    pub fn stayed(&self, before: &Lent<T>, written: usize) -> bool {
        let past = (GUARD + written).min(self.cells.len());
        self.cells.len() == before.cells.len()
            && same(&self.cells[..GUARD], &before.cells[..GUARD])
            && same(&self.cells[past..], &before.cells[past..])
    }

    /// Whether the lent cells of a range are as they were.
    pub fn kept(&self, before: &Lent<T>, cells: Range<usize>) -> bool {
        same(&self.get()[cells.clone()], &before.get()[cells])
    }
}

#[cfg(test)]
mod tests {
    use super::*;

    /// A change is seen in either guard, past what was written, and of a NaN's payload alone.
    #[test]
    fn every_change_is_seen() {
        let before = Lent::<f64>::marked(3);
        assert!(before.clone().stayed(&before, 0));
        for at in 0..before.cells.len() {
            let mut after = before.clone();
            after.cells[at] = f64::NAN;
            let lent = at.checked_sub(GUARD).filter(|&lent| lent < 3);
            for written in 0..=3 {
                let seen = lent.is_none_or(|lent| lent >= written);
                assert_eq!(after.stayed(&before, written), !seen, "{at} {written}");
            }
        }
    }

    #[test]
    fn only_the_array_is_lent() {
        let mut lent = Lent::longer(&[1usize, 2], 1);
        assert_eq!(lent.get(), [1, 2, usize::MARK]);
        assert_eq!(lent.lend(), [1, 2, usize::MARK]);
        assert_eq!(Lent::<u8>::marked(0).get(), []);
    }
}
