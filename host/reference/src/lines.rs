//! The lines whose answers are known: the files of the program `lines`, which asks the proved calls
//! in memory that it lends them. The tests put the same questions to whatever else answers.

use crate::fields::{Gate, Reading};
use crate::refusal::{Refusal, LIST_TOO_SHORT};
use crate::rows::ROW_WORDS;
use crate::steps::Entry;
use std::fs;
use std::path::Path;

/// A question, its text, and the line that the program writes for it.
#[derive(Clone, Debug)]
pub struct Line {
    /// What is asked, as in the file `stdin`.
    pub question: String,
    /// The text.
    pub text: String,
    /// Question, text and answer, as in the file `stdout`.
    pub written: String,
}

/// What the questions are put to.
pub trait Answers {
    /// The code words of a pattern, plain or tidied.
    fn compile(&self, pattern: &[u8], tidied: bool) -> Result<Vec<u32>, Refusal>;

    /// A run with four registers, found or none and the count of rows executed.
    fn run(&self, code: &[u32], run: Run, registers: &mut [i32; 4])
        -> Result<(bool, u64), Refusal>;

    /// Every match from a start on, into a list: how many, and the count of rows executed; or the
    /// words needed.
    fn list(&self, code: &[u32], text: &[u8], start: usize, list: &mut [i32]) -> Listed;

    /// A span of a text, read as a number.
    fn number(&self, text: &[u8], start: i32, end: i32) -> Result<Reading, Refusal>;

    /// Whether a gate passes a value.
    fn passes(&self, gate: Gate, value: f64) -> Result<bool, Refusal>;

    /// The same by the second engine.
    fn second(
        &self,
        code: &[u32],
        run: Run,
        registers: &mut [i32; 4],
    ) -> Result<(bool, u64), Refusal>;
}

/// What a call for every match answers: matches and count, or the refusal with the words needed.
pub type Listed = Result<(usize, u64), (Refusal, usize)>;

/// What a run is lent besides code and registers.
#[derive(Clone, Copy, Debug)]
pub struct Run<'a> {
    /// Searched, or matched at the start.
    pub entry: Entry,
    /// The text.
    pub text: &'a [u8],
    /// The start.
    pub start: usize,
}

/// The program's questions, in order, each with its line.
pub fn lines() -> Vec<Line> {
    let folder = Path::new(env!("CARGO_MANIFEST_DIR")).join("../../crates/lines");
    let file = |name: &str| {
        let bytes = fs::read(folder.join(name)).unwrap_or_else(|error| panic!("{name}: {error}"));
        bytes.into_iter().map(char::from).collect::<String>()
    };
    let (asked, written) = (file("stdin"), file("stdout"));
    let asked: Vec<&str> = asked.lines().collect();
    let line = |(pair, written): (&[&str], &str)| Line {
        question: pair[0].to_string(),
        text: pair[1].to_string(),
        written: written.to_string(),
    };
    asked.chunks_exact(2).zip(written.lines()).map(line).collect()
}

impl Line {
    /// The text's bytes, each of which is read as the character of its number.
    pub fn bytes(&self) -> Vec<u8> {
        self.text.chars().map(|byte| byte as u8).collect()
    }

    /// The question without the word for the second engine.
    fn question(&self) -> &str {
        self.question.strip_prefix("plain ").unwrap_or(&self.question)
    }

    /// Whether the second engine is asked.
    fn second(&self) -> bool {
        self.question() != self.question
    }

    /// The word that says what is asked.
    fn asks(&self) -> &str {
        self.question().split(' ').next().unwrap_or_default()
    }

    /// What stands behind that word, and behind the start of a run.
    fn behind(&self, bytes: usize) -> &str {
        self.question().get(self.asks().len() + bytes..).unwrap_or_default()
    }

    /// The pattern that is asked about; nothing if rows are.
    pub fn pattern(&self) -> Option<&str> {
        match self.asks() {
            "match" | "search" | "find" => Some(self.behind(3)),
            "all" => Some(self.behind(5)),
            "compile" | "tidied" => Some(self.behind(1)),
            _ => None,
        }
    }

    /// The line that is written where this answers.
    pub fn answered_by(&self, answers: &dyn Answers) -> String {
        let pattern = self.pattern().unwrap_or_default().as_bytes();
        let plain = || answers.compile(pattern, false);
        let on = format!("{} on \"{}\"", self.question, self.text);
        match self.asks() {
            "compile" => format!("{}: {}", self.question, size(plain())),
            "tidied" => format!("{}: {}", self.question, size(answers.compile(pattern, true))),
            "match" => format!("{on}: {}", self.run(answers, plain(), Entry::MatchAt)),
            "search" | "find" => format!("{on}: {}", self.run(answers, plain(), Entry::Search)),
            "all" => format!("{on}: {}", self.list(answers, plain())),
            "every" => format!("{on}: {}", self.list(answers, Ok(self.rows(0)))),
            "rows" => format!("{on}: {}", self.run(answers, Ok(self.rows(0)), Entry::MatchAt)),
            "unused" => format!("{on}: {}", self.run(answers, Ok(self.rows(1)), Entry::MatchAt)),
            "number" => format!("{on}: {}", self.number(answers)),
            "at" | "between" => format!("{on}: {}", self.passing(answers)),
            _ => panic!("no question: {}", self.question),
        }
    }

    /// The number that two registers' span holds.
    fn number(&self, answers: &dyn Answers) -> String {
        let register = |from: usize| self.question[from..from + 2].parse().unwrap_or(-1);
        match answers.number(self.text.as_bytes(), register(7), register(10)) {
            Ok(reading) => {
                format!("bits {:016x}, decimals {}", reading.value.to_bits(), reading.decimals)
            }
            Err(refusal) => refused(refusal),
        }
    }

    /// Whether a gate passes the whole text. A limit that is not written as a number is none.
    fn passing(&self, answers: &dyn Answers) -> String {
        let words: Vec<&str> = self.question.split(' ').collect();
        let limit = |word: &str| word.parse().unwrap_or(f64::NAN);
        let gate = match words[..] {
            ["at", "most", high] => Gate::AtMost(limit(high)),
            ["at", "least", low] => Gate::AtLeast(limit(low)),
            ["between", low, high] => Gate::Between(limit(low), limit(high)),
            _ => panic!("no gate: {}", self.question),
        };
        let read = answers.number(self.text.as_bytes(), 0, self.text.len() as i32);
        match read.and_then(|reading| answers.passes(gate, reading.value)) {
            Ok(true) => "passes".to_string(),
            Ok(false) => "stopped".to_string(),
            Err(refusal) => refused(refusal),
        }
    }

    /// The answer of a run and the registers, which all held 7.
    fn run(&self, answers: &dyn Answers, code: Result<Vec<u32>, Refusal>, entry: Entry) -> String {
        let start = self.behind(1).get(..1).and_then(|digit| digit.parse().ok()).unwrap_or(0);
        let start = if self.pattern().is_some() { start } else { 0 };
        let mut registers = [7; 4];
        let run = Run { entry, text: &self.bytes(), start };
        let ran = code.and_then(|code| match self.second() {
            true => answers.second(&code, run, &mut registers),
            false => answers.run(&code, run, &mut registers),
        });
        let answer = match ran {
            Ok((true, count)) => format!("found, rows {count}"),
            Ok((false, count)) => format!("none, rows {count}"),
            Err(refusal) if self.asks() == "find" => refused(refusal),
            Err(refusal) => format!("refused {}", refusal.number),
        };
        let [a, b, c, d] = registers;
        format!("{answer}: {a} {b} {c} {d}")
    }

    /// The answer of a call for every match, and eight words of the list, which all held 7.
    fn list(&self, answers: &dyn Answers, code: Result<Vec<u32>, Refusal>) -> String {
        let digit = |at: usize| self.behind(at).get(..1).and_then(|digit| digit.parse().ok());
        let asked = if self.pattern().is_some() { (digit(1), digit(3)) } else { (None, None) };
        let (start, words) = (asked.0.unwrap_or(0), asked.1.unwrap_or(8));
        let mut list = [7; 8];
        let code = code.unwrap_or_else(|refusal| panic!("{refusal:?}"));
        let lent = &mut list[..words];
        let answer = match answers.list(&code, self.text.as_bytes(), start, lent) {
            Ok((matches, count)) => format!("matches {matches}, rows {count}"),
            Err((refusal, _)) if refusal.number != LIST_TOO_SHORT => {
                format!("refused {}", refusal.number)
            }
            Err((refusal, needed)) => format!("refused {}, needed {needed}", refusal.number),
        };
        let list: Vec<String> = list.iter().map(i32::to_string).collect();
        format!("{answer}: {}", list.join(" "))
    }

    /// Nine rows, all Accept but those that are given, with a number in the words that are not used.
    fn rows(&self, unused: u32) -> Vec<u32> {
        let mut code = vec![unused; ROW_WORDS * 10];
        code[..2].copy_from_slice(&[9, 0]);
        for row in 1..10 {
            code[ROW_WORDS * row] = kind("Accept");
        }
        for row in self.behind(0).split_terminator(';') {
            let words: Vec<&str> = row.split_whitespace().collect();
            let at = ROW_WORDS * (number(words[0]) as usize + 1);
            let row = [kind(words[1]), number(words[2]), number(words[3])];
            code[at..at + 3].copy_from_slice(&row);
            if words[1] == "Consume" {
                // The bytes 60 to 7F hex.
                code[at + 7] = u32::MAX;
            }
        }
        code
    }
}

fn number(digits: &str) -> u32 {
    digits.parse().unwrap_or_else(|_| panic!("no number: {digits}"))
}

/// The number of a row's kind.
fn kind(name: &str) -> u32 {
    let kinds =
        ["Accept", "Consume", "Jump", "Fork", "Open", "Close", "Reset", "Begin", "End", "Assert"];
    match kinds.iter().position(|&kind| kind == name) {
        Some(place) => place as u32 + 1,
        None => panic!("no kind of row: {name}"),
    }
}

fn refused(refusal: Refusal) -> String {
    format!("refused {} at {}", refusal.number, refusal.place)
}

/// What compiling answers.
fn size(code: Result<Vec<u32>, Refusal>) -> String {
    match code {
        Ok(code) => format!("rows {}", code[0]),
        Err(refusal) => refused(refusal),
    }
}
