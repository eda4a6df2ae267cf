//! The stack of a thread: keys to go on with, and registers to put back.

pub struct Stack<'a> {
    /// How many keys there are; a tag from there on names a register.
    pub keys: usize,
    pub tags: &'a mut [u32],
    pub olds: &'a mut [u32],
    pub frames: usize,
}

impl Stack<'_> {
    /// A key for later, with the registers as they are.
    #[inline(always)]
    pub fn push(&mut self, key: usize) {
        self.tags[self.frames] = key as u32;
        self.frames += 1;
    }

    /// A register is written, and what it held is kept for the keys below.
    #[inline(always)]
    pub fn write(&mut self, registers: &mut [u32], register: usize, value: u32) {
        self.tags[self.frames] = (self.keys + register) as u32;
        self.olds[self.frames] = registers[register];
        self.frames += 1;
        registers[register] = value;
    }

    /// The key on top, with the registers put back to what they were for it.
    #[inline(always)]
    pub fn pop(&mut self, registers: &mut [u32]) -> Option<usize> {
        while self.frames > 0 {
            self.frames -= 1;
            let tag = self.tags[self.frames] as usize;
            if tag < self.keys {
                return Some(tag);
            }
            registers[tag - self.keys] = self.olds[self.frames];
        }
        None
    }
}
