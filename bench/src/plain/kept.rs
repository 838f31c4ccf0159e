//! Entries and the buffers for those of them that stay, for the fastest strikes.

pub struct Kept<'a> {
    pub codes: &'a [u32],
    pub positions: &'a [u32],
    pub out_codes: &'a mut [u32],
    pub out_positions: &'a mut [u32],
}

impl Kept<'_> {
    fn room(&self) -> usize {
        self.out_codes.len().min(self.out_positions.len())
    }

    /// All entries stay.
    pub fn all(&mut self) -> i32 {
        let n = self.codes.len();
        if self.room() < n {
            return -4;
        }
        self.out_codes[..n].copy_from_slice(self.codes);
        self.out_positions[..n].copy_from_slice(self.positions);
        n as i32
    }

    /// The entries whose codes pass the test stay. They are copied without a branch up to the last of them, so that nothing is written
    /// behind it.
    #[inline(always)]
    pub fn those(&mut self, stays: impl Fn(u32) -> bool) -> i32 {
        let Some(last) = self.codes.iter().rposition(|&code| stays(code)) else { return 0 };
        if self.room() <= last && self.room() < self.codes.iter().filter(|&&code| stays(code)).count() {
            return -4;
        }
        let mut at = 0;
        for (&code, &position) in self.codes[..=last].iter().zip(&self.positions[..=last]) {
            self.out_codes[at] = code;
            self.out_positions[at] = position;
            at += usize::from(stays(code));
        }
        at as i32
    }
}
