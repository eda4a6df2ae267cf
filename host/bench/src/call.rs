//! A call, what it is lent and what it answers.

/// 1 for found, 0 for none or a refusal's number, and the rows executed.
#[derive(Clone, Copy, Debug, PartialEq, Eq)]
pub struct Answer {
    pub number: u32,
    pub rows: u64,
}

/// A run of code on a text from a start, at row 0 a search and at row 5 a match.
#[derive(Debug)]
pub struct Call<'a> {
    pub code: &'a [u32],
    pub text: &'a [u8],
    pub start: usize,
    pub row: usize,
}

/// One of the machines.
pub type Run = fn(&Call, &mut [i32], &mut [u32]) -> Answer;

/// Registers and words for many calls; the words are never cleared.
pub struct Lent {
    pub registers: Vec<i32>,
    pub workspace: Vec<u32>,
}

impl Lent {
    pub fn new(registers: usize, workspace: usize) -> Lent {
        Lent { registers: vec![7; registers], workspace: vec![5; workspace] }
    }

    pub fn run(&mut self, run: Run, call: &Call) -> Answer {
        run(call, &mut self.registers, &mut self.workspace)
    }
}

/// The words that a run of passed code needs.
pub fn words_needed(code: &[u32]) -> usize {
    16 * code[0] as usize * (code[1] as usize + 2)
}
