//! An ordinary backtracking search over the rows, in the order of the Forks,
//! that remembers which row and flag were tried at which position and never
//! tries them twice. What was tried before has failed, or is being tried now
//! and led back to itself; registers decide nothing, so trying it again could
//! find nothing new.

use super::{holds, register, Spans};
use crate::rows::{Program, Row, MATCH_ROW, SEARCH_ROW};
use crate::sets;

/// The first match that begins at the start.
pub fn match_at(program: &Program, text: &[u8], start: usize) -> Spans {
    Search::new(program, text, start)?.run(MATCH_ROW)
}

/// The first match that begins at the start or later.
pub fn search(program: &Program, text: &[u8], start: usize) -> Spans {
    Search::new(program, text, start)?.run(SEARCH_ROW)
}

/// A row, the flag "has consumed since Begin", and a position.
#[derive(Clone, Copy)]
struct Place {
    row: u32,
    flag: bool,
    position: usize,
}

/// What is left to do when the current way has failed.
enum Later {
    /// Try another way.
    Try(Place),
    /// Put a register back to what it was.
    Restore(usize, i32),
}

/// A search: what was tried, what is left, and the registers.
struct Search<'a> {
    rows: &'a [Row],
    text: &'a [u8],
    start: usize,
    tried: Vec<u64>,
    later: Vec<Later>,
    registers: Vec<i32>,
}

impl<'a> Search<'a> {
    /// A search that has tried nothing; none if the start is beyond the text.
    fn new(program: &'a Program, text: &'a [u8], start: usize) -> Option<Self> {
        let positions = text.len().checked_sub(start)? + 1;
        let places = 2 * program.n() * positions;
        Some(Search {
            rows: program.rows(),
            text,
            start,
            tried: vec![0; places / 64 + 1],
            later: Vec::new(),
            registers: program.registers(),
        })
    }

    /// Tries one way after another until one is accepted or none is left.
    fn run(mut self, row: u32) -> Spans {
        let first = Place { row, flag: true, position: self.start };
        self.later.push(Later::Try(first));
        while let Some(later) = self.later.pop() {
            match later {
                Later::Restore(index, value) => self.registers[index] = value,
                Later::Try(place) if self.try_way(place) => return Some(self.registers),
                Later::Try(_) => {}
            }
        }
        None
    }

    /// Follows one way from a place: is it accepted?
    fn try_way(&mut self, from: Place) -> bool {
        let mut next = Some(from);
        while let Some(place) = next {
            if self.was_tried(place) {
                return false;
            }
            let row = self.rows[place.row as usize];
            if row == Row::Accept {
                return true;
            }
            next = self.follow(row, place);
        }
        false
    }

    /// The place that the row leads to, if the way goes on.
    fn follow(&mut self, row: Row, place: Place) -> Option<Place> {
        let Place { row: number, flag, position } = place;
        let on = Place { row: number + 1, flag, position };
        match row {
            Row::Accept => None,
            Row::Consume(set) => {
                let byte = *self.text.get(position)?;
                let eaten = Place { flag: true, position: position + 1, ..on };
                sets::has(&set, byte).then_some(eaten)
            }
            Row::Jump(target) => Some(Place { row: target, ..place }),
            Row::Fork(first, second) => {
                self.later.push(Later::Try(Place { row: second, ..place }));
                Some(Place { row: first, ..place })
            }
            Row::Open(group) => {
                self.write(2 * group as usize, register(position));
                Some(on)
            }
            Row::Close(group) => {
                self.write(2 * group as usize + 1, register(position));
                Some(on)
            }
            Row::Reset(lowest, highest) => {
                for group in lowest..=highest {
                    self.write(2 * group as usize, -1);
                    self.write(2 * group as usize + 1, -1);
                }
                Some(on)
            }
            Row::Begin => Some(Place { flag: false, ..on }),
            Row::End(target) => flag.then_some(Place { row: target, ..place }),
            Row::Assert(number) => holds(number, self.text, position).then_some(on),
        }
    }

    /// Writes a register, to be put back if this way fails.
    fn write(&mut self, index: usize, value: i32) {
        let old = std::mem::replace(&mut self.registers[index], value);
        self.later.push(Later::Restore(index, old));
    }

    /// Was this place tried before? It is from now on.
    fn was_tried(&mut self, place: Place) -> bool {
        let keys = 2 * self.rows.len();
        let key = 2 * place.row as usize + usize::from(place.flag);
        let bit = (place.position - self.start) * keys + key;
        let word = &mut self.tried[bit / 64];
        let old = *word;
        *word |= 1 << (bit % 64);
        *word == old
    }
}
