//! A compiled pattern, and runs of it.

use crate::raw::{self, Compiled, Ran};
use crate::words;
use crate::{Answer, Match, Matches, PatternError, RunError, SecondOpinion};
use std::ops::Range;

/// The match that a run found, if there is one, or why it was turned away.
pub type Found<'t> = Result<Option<Match<'t>>, RunError>;

/// Where a run looks for a match.
#[derive(Clone, Copy, Debug, PartialEq, Eq)]
pub enum Entry {
    /// At the start only.
    MatchAt,
    /// At the start, or else at the first later position that has one.
    Search,
}

/// A compiler on bytes, and the same on words.
type Compilers = (fn(&[u8], &mut [u8]) -> Compiled, fn(&[u8], &mut [u32], &mut [u32]) -> Compiled);

/// What the surface on bytes refuses for want of room.
const TABLE_TOO_SMALL: u32 = 2;
const CODE_TOO_SMALL: u32 = 16;

/// The workspace words of the surface on bytes.
const WORKSPACE_WORDS: usize = 8_000;

/// The words of a list that are lent at first, at most: more are lent if more are needed.
const LIST_WORDS: usize = 1 << 20;

/// A list that is too short.
const LIST_TOO_SHORT: u32 = 25;

/// A compiled pattern.
///
/// A pattern has at most 2,048 bytes, 15 groups and 1,024 rows. What is beyond the sizes of
/// [`raw`] is compiled and run by [`words`], with memory from the heap.
///
/// ```
/// use millkettle::Pattern;
///
/// let pattern = Pattern::new(b"a{2,4}")?;
/// assert_eq!((pattern.rows(), pattern.groups()), (22, 0));
/// # Ok::<(), millkettle::PatternError>(())
/// ```
#[derive(Clone, Debug, PartialEq, Eq)]
pub struct Pattern {
    bytes: Vec<u8>,
    code: Vec<u8>,
    words: Vec<u32>,
    rows: u32,
    groups: u32,
}

impl Pattern {
    /// Compiles a pattern.
    pub fn new(pattern: &[u8]) -> Result<Pattern, PatternError> {
        Pattern::compiled_by((raw::compile, words::compile), pattern)
    }

    /// Tidies a pattern by the laws T1 to T10 and compiles what is left: the same answers from no
    /// more rows.
    ///
    /// ```
    /// use millkettle::Pattern;
    ///
    /// let (plain, tidied) = (Pattern::new(b"(?:a*)*")?, Pattern::tidied(b"(?:a*)*")?);
    /// assert_eq!((plain.rows(), tidied.rows()), (17, 13));
    /// # Ok::<(), millkettle::PatternError>(())
    /// ```
    #[cfg(feature = "tidied")]
    pub fn tidied(pattern: &[u8]) -> Result<Pattern, PatternError> {
        Pattern::compiled_by((raw::compile_tidied, words::compile_tidied), pattern)
    }

    fn compiled_by(compilers: Compilers, pattern: &[u8]) -> Result<Pattern, PatternError> {
        let mut code = vec![0; raw::CODE_BYTES];
        let compiled = (compilers.0)(pattern, &mut code);
        if compiled.number == TABLE_TOO_SMALL || compiled.number == CODE_TOO_SMALL {
            return Pattern::compiled_whole(compilers, pattern);
        }
        let words = code
            .chunks_exact(4)
            .map(|four| u32::from_le_bytes([four[0], four[1], four[2], four[3]]));
        Pattern::of(compiled, words.collect(), pattern)
    }

    /// Compiles a pattern with room for any.
    fn compiled_whole(compilers: Compilers, pattern: &[u8]) -> Result<Pattern, PatternError> {
        let mut table = vec![0; words::TABLE_WORDS * (pattern.len() + 1)];
        let mut code = vec![0; words::CODE_WORDS];
        let compiled = (compilers.1)(pattern, &mut table, &mut code);
        Pattern::of(compiled, code, pattern)
    }

    fn of(answer: Compiled, mut code: Vec<u32>, pattern: &[u8]) -> Result<Pattern, PatternError> {
        let Compiled { number, rows, groups, place } = answer;
        if number != 0 {
            return Err(PatternError::new(number, place, pattern));
        }
        // A header and n rows of 12 words.
        code.truncate(12 * (rows as usize + 1));
        let bytes = code.iter().flat_map(|word| word.to_le_bytes()).collect();
        Ok(Pattern { bytes: pattern.to_vec(), code: bytes, words: code, rows, groups })
    }

    /// The pattern's bytes, as they were given.
    pub fn bytes(&self) -> &[u8] {
        &self.bytes
    }

    /// n, the number of rows.
    pub fn rows(&self) -> u32 {
        self.rows
    }

    /// g, the number of groups.
    pub fn groups(&self) -> u32 {
        self.groups
    }

    /// The code: a header and n rows of 12 words, each four bytes, low byte first.
    pub fn code(&self) -> &[u8] {
        &self.code
    }

    /// The code as words.
    pub fn words(&self) -> &[u32] {
        &self.words
    }

    /// The match that begins at `start`, if there is one.
    ///
    /// ```
    /// use millkettle::Pattern;
    ///
    /// let pattern = Pattern::new(b"ab?")?;
    /// assert_eq!(pattern.match_at(b"cab", 0)?, None);
    /// assert_eq!(pattern.match_at(b"cab", 1)?.map(|found| found.end()), Some(3));
    /// assert_eq!(pattern.match_at(b"cab", 4).unwrap_err().number(), 22);
    /// # Ok::<(), Box<dyn std::error::Error>>(())
    /// ```
    pub fn match_at<'t>(&self, text: &'t [u8], start: usize) -> Found<'t> {
        Ok(self.run(Entry::MatchAt, text, start)?.found)
    }

    /// The match that begins at `start`, or else at the first later position that has one.
    ///
    /// ```
    /// use millkettle::Pattern;
    ///
    /// let pattern = Pattern::new(b"^a|b")?;
    /// assert_eq!(pattern.search(b"aab", 1)?.map(|found| found.start()), Some(2));
    /// # Ok::<(), Box<dyn std::error::Error>>(())
    /// ```
    pub fn search<'t>(&self, text: &'t [u8], start: usize) -> Found<'t> {
        Ok(self.run(Entry::Search, text, start)?.found)
    }

    /// The whole answer of a run: the match or none, and the count of rows executed.
    ///
    /// ```
    /// use millkettle::{Entry, Pattern};
    ///
    /// let answer = Pattern::new(b"a")?.run(Entry::Search, b"b", 0)?;
    /// assert_eq!((answer.found, answer.rows_executed), (None, 13));
    /// # Ok::<(), Box<dyn std::error::Error>>(())
    /// ```
    pub fn run<'t>(
        &self,
        entry: Entry,
        text: &'t [u8],
        start: usize,
    ) -> Result<Answer<'t>, RunError> {
        if self.is_beyond() {
            return self.run_whole(entry, text, start);
        }
        let mut buffer = [0; raw::REGISTER_BYTES];
        let registers = &mut buffer[..4 * self.width()];
        let ran = match entry {
            Entry::MatchAt => raw::match_at(&self.code, text, start, registers),
            Entry::Search => raw::search(&self.code, text, start, registers),
        };
        answered(ran, || Match::of_registers(text, registers, ran.count))
    }

    /// The same on words.
    fn run_whole<'t>(
        &self,
        entry: Entry,
        text: &'t [u8],
        start: usize,
    ) -> Result<Answer<'t>, RunError> {
        let mut registers = vec![0; self.width()];
        let mut workspace = self.workspace();
        let run = match entry {
            Entry::MatchAt => words::match_at,
            Entry::Search => words::search,
        };
        let ran = run(&self.words, text, start, &mut registers, &mut workspace);
        answered(ran, || Match::of_spans(text, &registers, ran.count))
    }

    /// Every match from `start` on, in order, as repeated execution with the global flag finds
    /// them, and the count of rows executed by all runs together.
    ///
    /// ```
    /// use millkettle::Pattern;
    ///
    /// let all = Pattern::new(b"(a)|b")?.search_all(b"ab", 0)?;
    /// let spans: Vec<_> = all.matches.iter().map(|found| found.spans()).collect();
    /// assert_eq!(spans, [[0, 1, 0, 1], [1, 2, -1, -1]]);
    /// assert_eq!(all.rows_executed, 33);
    /// # Ok::<(), Box<dyn std::error::Error>>(())
    /// ```
    pub fn search_all<'t>(&self, text: &'t [u8], start: usize) -> Result<Matches<'t>, RunError> {
        let mut workspace = self.workspace();
        // With a list for as many matches as there can be, one pass is enough.
        let most = self.width() * (text.len().saturating_sub(start) + 1);
        let mut list = vec![0; most.min(LIST_WORDS)];
        let mut listed = words::search_all(&self.words, text, start, &mut list, &mut workspace);
        if listed.number == LIST_TOO_SHORT {
            list = vec![0; listed.needed];
            listed = words::search_all(&self.words, text, start, &mut list, &mut workspace);
        }
        if listed.number != 0 {
            return Err(RunError::new(listed.number));
        }
        let spans = list.chunks_exact(self.width()).take(listed.matches);
        let matches = spans.map(|spans| Match::of_spans(text, spans, listed.count)).collect();
        Ok(Matches { matches, rows_executed: listed.count })
    }

    /// Where every match starts and ends, in order.
    ///
    /// ```
    /// use millkettle::Pattern;
    ///
    /// let words = Pattern::new(br"\w+")?;
    /// let found: Vec<_> = words.find_iter(b"level 1.42 m")?.collect();
    /// assert_eq!(found, [0..5, 6..7, 8..10, 11..12]);
    /// # Ok::<(), Box<dyn std::error::Error>>(())
    /// ```
    pub fn find_iter<'t>(
        &self,
        text: &'t [u8],
    ) -> Result<impl Iterator<Item = Range<usize>> + 't, RunError> {
        Ok(self.captures_iter(text)?.map(|found| found.start()..found.end()))
    }

    /// Every match with its groups, in order.
    ///
    /// ```
    /// use millkettle::Pattern;
    ///
    /// let links = Pattern::new(br"L(\d\d)")?;
    /// let groups: Vec<_> = links.captures_iter(b"L03 L14")?.map(|link| link.group(1)).collect();
    /// assert_eq!(groups, [Some((1, 3)), Some((5, 7))]);
    /// # Ok::<(), Box<dyn std::error::Error>>(())
    /// ```
    pub fn captures_iter<'t>(
        &self,
        text: &'t [u8],
    ) -> Result<impl Iterator<Item = Match<'t>> + 't, RunError> {
        Ok(self.search_all(text, 0)?.matches.into_iter())
    }

    /// The registers of a match.
    fn width(&self) -> usize {
        2 * (self.groups as usize + 1)
    }

    /// Whether the surface on bytes has no room for the code or for its runs.
    fn is_beyond(&self) -> bool {
        self.code.len() > raw::CODE_BYTES || self.workspace_words() > WORKSPACE_WORDS
    }

    fn workspace_words(&self) -> usize {
        words::workspace_words(self.rows, self.groups)
    }

    fn workspace(&self) -> Vec<u32> {
        vec![0; self.workspace_words()]
    }

    /// The answers of both engines: the main one and the plain second one, which takes texts of
    /// 4,096 bytes (21 refuses longer ones) and some memory from the heap for each byte of text.
    ///
    /// ```
    /// use millkettle::{Entry, Pattern};
    ///
    /// let opinion = Pattern::new(b"a|ab")?.second_opinion(Entry::MatchAt, b"ab", 0)?;
    /// assert!(opinion.agrees());
    /// assert_eq!(opinion.second.found.map(|found| found.end()), Some(1));
    /// assert_eq!((opinion.first.rows_executed, opinion.second.rows_executed), (7, 6));
    /// # Ok::<(), Box<dyn std::error::Error>>(())
    /// ```
    pub fn second_opinion<'t>(
        &self,
        entry: Entry,
        text: &'t [u8],
        start: usize,
    ) -> Result<SecondOpinion<'t>, RunError> {
        let first = self.run(entry, text, start)?;
        let second = self.second(entry, text, start)?;
        Ok(SecondOpinion { first, second })
    }

    /// The answer of the second engine alone.
    fn second<'t>(
        &self,
        entry: Entry,
        text: &'t [u8],
        start: usize,
    ) -> Result<Answer<'t>, RunError> {
        let (rows, groups) = (self.rows as usize, self.groups as usize);
        let bytes = text.len().min(raw::SECOND_TEXT_BYTES);
        let mut workspace = vec![0; raw::second_workspace_words(rows, groups, bytes)];
        let mut registers = vec![0; 2 * (groups + 1)];
        let run = match entry {
            Entry::MatchAt => raw::second_match,
            Entry::Search => raw::second_search,
        };
        let ran = run(&self.words, text, start, &mut registers, &mut workspace);
        answered(ran, || Match::of_spans(text, &registers, ran.count))
    }
}

/// A run's answer, with the match if there is one.
fn answered<'t>(ran: Ran, found: impl FnOnce() -> Match<'t>) -> Result<Answer<'t>, RunError> {
    if ran.number != 0 {
        return Err(RunError::new(ran.number));
    }
    Ok(Answer { found: (ran.found == 1).then(found), rows_executed: ran.count })
}
