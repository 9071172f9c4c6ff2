//! A copy of a lent slice between margins, so that a write beside it shows.

/// Odd, so that byte slices begin at unaligned addresses.
const MARGIN: usize = 7;

pub struct Guarded<T> {
    cells: Vec<T>,
}

impl<T: Copy + PartialEq + From<u8>> Guarded<T> {
    pub fn new(content: &[T]) -> Guarded<T> {
        let mut cells = Vec::with_capacity(content.len() + 2 * MARGIN);
        cells.extend(Self::margin());
        cells.extend_from_slice(content);
        cells.extend(Self::margin());
        Guarded { cells }
    }

    fn margin() -> impl Iterator<Item = T> {
        (0..MARGIN as u8).map(|place| T::from(0xa5 ^ place))
    }

    pub fn lent(&mut self) -> &mut [T] {
        let end = self.cells.len() - MARGIN;
        &mut self.cells[MARGIN..end]
    }

    pub fn intact(&self) -> bool {
        let end = self.cells.len() - MARGIN;
        let is_margin = |cells: &[T]| cells.iter().copied().eq(Self::margin());
        is_margin(&self.cells[..MARGIN]) && is_margin(&self.cells[end..])
    }

    pub fn take(mut self) -> Vec<T> {
        self.cells.truncate(self.cells.len() - MARGIN);
        self.cells.drain(..MARGIN);
        self.cells
    }
}
