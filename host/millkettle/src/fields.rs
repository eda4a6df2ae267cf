//! What a group captured, read as a number, and gates on it.

use crate::raw;
use crate::FieldError;

/// A number that was read: its value, and how many decimals it was written with.
///
/// ```
/// use millkettle::Reading;
///
/// let reading = Reading::of_span(b"level -48.25 dB", 6, 12)?;
/// assert_eq!((reading.value, reading.decimals), (-48.25, 2));
/// # Ok::<(), millkettle::FieldError>(())
/// ```
#[derive(Clone, Copy, Debug, PartialEq)]
pub struct Reading {
    /// The digits as a whole number, divided by a power of ten: the float nearest to the number.
    pub value: f64,
    /// How many digits stood behind the point.
    pub decimals: u32,
}

impl Reading {
    /// Reads the span of a text between two registers: an optional minus, one or more digits,
    /// optionally a point and one or more digits, 15 digits at most in all. Any other span is
    /// refused as 28, -1 and -1, a reversed one and one past the text included.
    pub fn of_span(text: &[u8], start: i32, end: i32) -> Result<Reading, FieldError> {
        let read = raw::read_field(text, start, end);
        if read.number != 0 {
            return Err(FieldError::new(read.number));
        }
        Ok(Reading { value: read.value, decimals: read.decimals })
    }
}

/// A gate: at most, at least, or between two limits, ends included.
///
/// One whose limit is no number is refused as 29, and one whose lower limit is above its upper
/// passes nothing.
///
/// ```
/// use millkettle::{Gate, Reading};
///
/// let reading = Reading::of_span(b"-40.0", 0, 5)?;
/// assert!(Gate::AtMost(-40.0).passes(reading)?);
/// assert!(!Gate::Between(0.0, f64::INFINITY).passes(reading)?);
/// assert_eq!(Gate::AtLeast(f64::NAN).passes(reading).unwrap_err().number(), 29);
/// # Ok::<(), millkettle::FieldError>(())
/// ```
#[derive(Clone, Copy, Debug, PartialEq)]
pub enum Gate {
    /// What is at most the limit passes.
    AtMost(f64),
    /// What is at least the limit passes.
    AtLeast(f64),
    /// What is at least the first and at most the second passes.
    Between(f64, f64),
}

impl Gate {
    /// Both limits, an infinity where there is none.
    fn limits(self) -> (f64, f64) {
        match self {
            Gate::AtMost(limit) => (f64::NEG_INFINITY, limit),
            Gate::AtLeast(limit) => (limit, f64::INFINITY),
            Gate::Between(low, high) => (low, high),
        }
    }

    /// Whether what was read passes.
    pub fn passes(self, reading: Reading) -> Result<bool, FieldError> {
        let (low, high) = self.limits();
        let passed = raw::pass(low, high, reading.value);
        if passed.number != 0 {
            return Err(FieldError::new(passed.number));
        }
        Ok(passed.passes == 1)
    }
}
