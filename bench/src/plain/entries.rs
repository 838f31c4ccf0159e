//! Entries in two buffers: all are counted, and as many as there is room for are written.

pub struct Entries<'a> {
    pub codes: &'a mut [u32],
    pub positions: &'a mut [u32],
    pub number: usize,
}

impl Entries<'_> {
    /// One more entry.
    #[inline(always)]
    pub fn put(&mut self, code: u32, position: usize) {
        if let (Some(to_code), Some(to_position)) = (self.codes.get_mut(self.number), self.positions.get_mut(self.number)) {
            *to_code = code;
            *to_position = position as u32;
        }
        self.number += 1;
    }
}
