//! The steps: threads in order, one position after the other.

use super::*;

/// The threads of one position: their keys (row and flag) and their registers.
pub struct Threads<'a> {
    pub keys: &'a mut [u32],
    pub registers: &'a mut [u32],
    pub count: usize,
}

impl Threads<'_> {
    #[inline(always)]
    fn push(&mut self, key: usize, registers: &[u32]) {
        let at = self.count * registers.len();
        self.keys[self.count] = key as u32;
        self.registers[at..at + registers.len()].copy_from_slice(registers);
        self.count += 1;
    }
}

/// A position and the bytes beside it.
struct Spot {
    position: usize,
    before: Option<u8>,
    after: Option<u8>,
}

impl Spot {
    fn new(text: &[u8], position: usize) -> Spot {
        let before = position.checked_sub(1).map(|p| text[p]);
        Spot { position, before, after: text.get(position).copied() }
    }

    fn holds(&self, assertion: u32) -> bool {
        match assertion {
            0 => self.before.is_none(),
            1 => self.after.is_none(),
            2 => is_word(self.before) != is_word(self.after),
            _ => is_word(self.before) == is_word(self.after),
        }
    }
}

fn is_word(byte: Option<u8>) -> bool {
    matches!(byte, Some(b) if b.is_ascii_alphanumeric() || b == b'_')
}

/// What comes of a row: a key to go on with, the end of the thread, or the match.
enum Step {
    On(usize),
    Over,
    Won,
}

pub struct Machine<'a> {
    pub code: &'a [u32],
    pub width: usize,
    pub marks: &'a mut [u32],
    pub stack: Stack<'a>,
    pub best: &'a mut [u32],
    pub found: bool,
    pub executed: u64,
}

impl Machine<'_> {
    /// One position after the other, until no thread is queued.
    #[inline(always)]
    pub fn run<'b>(&mut self, text: &[u8], start: usize, now: Threads<'b>, next: Threads<'b>) {
        let (mut now, mut next, mut position) = (now, next, start);
        while now.count > 0 {
            self.settle(Spot::new(text, position), &mut now, &mut next);
            position += 1;
            std::mem::swap(&mut now, &mut next);
            next.count = 0;
        }
    }

    /// Runs the threads of a position, each with all that comes of it before the next.
    #[inline(always)]
    fn settle(&mut self, spot: Spot, now: &mut Threads, next: &mut Threads) {
        let mine = now.registers.chunks_exact_mut(self.width);
        for (&key, registers) in now.keys[..now.count].iter().zip(mine) {
            if self.thread(&spot, key as usize, registers, next) {
                self.best.copy_from_slice(registers);
                self.found = true;
                return;
            }
        }
    }

    /// One thread with all that comes of it. True if it won.
    #[inline(always)]
    fn thread(&mut self, spot: &Spot, key: usize, regs: &mut [u32], next: &mut Threads) -> bool {
        self.stack.frames = 0;
        let mut going = Some(key);
        while let Some(key) = going {
            going = match self.execute(spot, key, regs, next) {
                Step::On(key) => Some(key),
                Step::Over => self.stack.pop(regs),
                Step::Won => return true,
            };
        }
        false
    }

    /// The row of a key, once at a position.
    #[inline(always)]
    fn execute(&mut self, spot: &Spot, key: usize, regs: &mut [u32], next: &mut Threads) -> Step {
        let mark = spot.position as u32 + 1;
        if self.marks[key] == mark {
            return Step::Over;
        }
        self.marks[key] = mark;
        self.executed += 1;
        let flag = key & 1;
        let at = ROW_WORDS * (key / 2 + 1);
        let row = &self.code[at..at + ROW_WORDS];
        let (a, b) = (row[1] as usize, row[2] as usize);
        match row[0] {
            ACCEPT => return Step::Won,
            CONSUME => {
                if matches!(spot.after, Some(byte) if has(row, byte)) {
                    next.push((key | 1) + 2, regs);
                }
                return Step::Over;
            }
            JUMP => return Step::On(a * 2 + flag),
            FORK => {
                self.stack.push(b * 2 + flag);
                return Step::On(a * 2 + flag);
            }
            OPEN => self.stack.write(regs, a * 2, spot.position as u32),
            CLOSE => self.stack.write(regs, a * 2 + 1, spot.position as u32),
            RESET => (a * 2..b * 2 + 2).for_each(|r| self.stack.write(regs, r, NOWHERE)),
            BEGIN => return Step::On((key & !1) + 2),
            END if flag == 1 => return Step::On(a * 2 + flag),
            ASSERT if spot.holds(row[1]) => {}
            _ => return Step::Over,
        }
        Step::On(key + 2)
    }
}

/// Whether a byte is in the set of a row.
#[inline(always)]
fn has(row: &[u32], byte: u8) -> bool {
    row[4 + usize::from(byte / 32)] >> (byte % 32) & 1 == 1
}
