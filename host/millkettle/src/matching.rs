//! What a run answers.

use crate::{FieldError, Reading};

/// Found or none, and the count of rows executed.
#[derive(Clone, Debug, PartialEq, Eq)]
pub struct Answer<'t> {
    /// The match, if there is one.
    pub found: Option<Match<'t>>,
    /// How many rows were executed: at most twice the pattern's rows for each position.
    pub rows_executed: u64,
}

/// Every match, in order, and the count of rows executed.
#[derive(Clone, Debug, PartialEq, Eq)]
pub struct Matches<'t> {
    /// The matches.
    pub matches: Vec<Match<'t>>,
    /// How many rows all runs executed together. It can grow with the square of the text's length.
    pub rows_executed: u64,
}

/// What both engines answer to the same question.
#[derive(Clone, Debug, PartialEq, Eq)]
pub struct SecondOpinion<'t> {
    /// The main engine's answer.
    pub first: Answer<'t>,
    /// The second engine's; its count of rows executed is its own.
    pub second: Answer<'t>,
}

impl SecondOpinion<'_> {
    /// Whether both found nothing, or the same with every group: it is proved that they do.
    pub fn agrees(&self) -> bool {
        let spans = |answer: &Answer| answer.found.as_ref().map(|found| found.spans.clone());
        spans(&self.first) == spans(&self.second)
    }
}

/// A match in a text: where the whole and each group start and end.
///
/// ```
/// use millkettle::Pattern;
///
/// let pattern = Pattern::new(b"(a)|(b)")?;
/// let found = pattern.match_at(b"b", 0)?.expect("it is there");
/// assert_eq!(found.group(0), Some((0, 1)));
/// assert_eq!(found.group(1), None);
/// assert_eq!(found.group(2), Some((0, 1)));
/// assert_eq!(found.spans(), [0, 1, -1, -1, 0, 1]);
/// # Ok::<(), Box<dyn std::error::Error>>(())
/// ```
#[derive(Clone, Debug, PartialEq, Eq)]
pub struct Match<'t> {
    text: &'t [u8],
    spans: Vec<i32>,
    rows_executed: u64,
}

impl<'t> Match<'t> {
    /// The match that these registers hold, as bytes.
    pub(crate) fn of_registers(text: &'t [u8], registers: &[u8], rows_executed: u64) -> Self {
        let word = |bytes: &[u8]| i32::from_le_bytes([bytes[0], bytes[1], bytes[2], bytes[3]]);
        Match { text, spans: registers.chunks_exact(4).map(word).collect(), rows_executed }
    }

    /// The match of these registers.
    pub(crate) fn of_spans(text: &'t [u8], spans: &[i32], rows_executed: u64) -> Self {
        Match { text, spans: spans.to_vec(), rows_executed }
    }

    /// Where the match starts.
    pub fn start(&self) -> usize {
        self.group(0).map_or(0, |(start, _)| start)
    }

    /// Where the match ends: the position behind its last byte.
    pub fn end(&self) -> usize {
        self.group(0).map_or(0, |(_, end)| end)
    }

    /// Where a group starts and ends; nothing if it took no part, or if the pattern has no such
    /// group. Groups are numbered by their opening parenthesis from 1; 0 is the whole match.
    pub fn group(&self, group: usize) -> Option<(usize, usize)> {
        let (start, end) = self.span(group)?;
        Some((usize::try_from(start).ok()?, usize::try_from(end).ok()?))
    }

    /// A group's two registers, -1 and -1 if it took no part; nothing if the pattern has no such
    /// group.
    pub fn span(&self, group: usize) -> Option<(i32, i32)> {
        let mut spans = self.spans.chunks_exact(2).map(|span| (span[0], span[1]));
        spans.nth(group)
    }

    /// What a group captured; nothing if it took no part, or if the pattern has no such group.
    pub fn bytes(&self, group: usize) -> Option<&'t [u8]> {
        let (start, end) = self.group(group)?;
        self.text.get(start..end)
    }

    /// What a group captured, read as a number: an optional minus, one or more digits, optionally
    /// a point and one or more digits, 15 digits at most in all. A group that captured anything
    /// else, that took no part or that the pattern does not have, is refused as 28.
    ///
    /// ```
    /// use millkettle::Pattern;
    ///
    /// let pattern = Pattern::new(br"(-?[\d.]+)( dB)?")?;
    /// let found = pattern.search(b"level -48.25", 0)?.expect("it is there");
    /// let level = found.number(1)?;
    /// assert_eq!((level.value, level.decimals), (-48.25, 2));
    /// assert_eq!(found.number(2).unwrap_err().number(), 28);
    /// # Ok::<(), Box<dyn std::error::Error>>(())
    /// ```
    pub fn number(&self, group: usize) -> Result<Reading, FieldError> {
        let (start, end) = self.span(group).unwrap_or((-1, -1));
        Reading::of_span(self.text, start, end)
    }

    /// All registers: a start and an end for the whole and for each group.
    pub fn spans(&self) -> &[i32] {
        &self.spans
    }

    /// How many rows were executed to find it; with every other match if it is one of all.
    pub fn rows_executed(&self) -> u64 {
        self.rows_executed
    }
}
