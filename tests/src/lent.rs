//! Arrays lent to a call, amid cells that are not lent.

use crate::random::Random;

/// So many cells before and after the lent ones are not lent.
const MARGIN: usize = 16;

/// An array whose middle is lent: a call that reads past it meets cells that can pass for more of it,
/// and one that writes past it is seen.
#[derive(Clone, PartialEq, Eq)]
pub struct Lent<T> {
    cells: Vec<T>,
}

impl<T: Copy> Lent<T> {
    /// The array with this content, amid some of the given cells.
    pub fn holding(content: &[T], random: &mut Random, around: &[T]) -> Lent<T> {
        let mut cells = Vec::with_capacity(content.len() + 2 * MARGIN);
        cells.extend((0..MARGIN).map(|_| random.pick(around)));
        cells.extend_from_slice(content);
        cells.extend((0..MARGIN).map(|_| random.pick(around)));
        Lent { cells }
    }

    /// The lent cells.
    pub fn cells(&self) -> &[T] {
        &self.cells[MARGIN..self.cells.len() - MARGIN]
    }

    /// The lent cells and those around them.
    pub fn with_margins(&self) -> &[T] {
        &self.cells
    }

    /// The cells before and after the lent ones.
    pub fn margins(&self) -> [&[T]; 2] {
        [&self.cells[..MARGIN], &self.cells[self.cells.len() - MARGIN..]]
    }

    /// The lent cells, to be written.
    pub fn cells_mut(&mut self) -> &mut [T] {
        let end = self.cells.len() - MARGIN;
        &mut self.cells[MARGIN..end]
    }
}

/// A cell that can be filled with random bits.
pub trait Cell: Copy {
    /// The cells that 64 bits make.
    type Cells: IntoIterator<Item = Self>;

    /// 64 bits as cells.
    fn cells_of(bits: u64) -> Self::Cells;
}

impl Cell for u8 {
    type Cells = [u8; 8];

    fn cells_of(bits: u64) -> [u8; 8] {
        bits.to_le_bytes()
    }
}

impl Cell for u32 {
    type Cells = [u32; 2];

    fn cells_of(bits: u64) -> [u32; 2] {
        [bits as u32, (bits >> 32) as u32]
    }
}

impl<T: Cell> Lent<T> {
    /// A buffer of some length, filled with a random pattern.
    pub fn buffer(len: usize, random: &mut Random) -> Lent<T> {
        let words = ((len + 2 * MARGIN) * size_of::<T>()).div_ceil(8);
        let mut cells: Vec<T> = (0..words).flat_map(|_| T::cells_of(random.bits())).collect();
        cells.truncate(len + 2 * MARGIN);
        Lent { cells }
    }
}
