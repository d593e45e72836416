use std::fmt;

/// Why a call was refused. A refused call changes nothing: every lent buffer, every list and the cursor keep their values.
///
/// ```
/// use loes::Refusal;
///
/// assert_eq!(Refusal::Descending.number(), 12);
/// assert_eq!(Refusal::Descending.to_string(), "refused 12: a key of the batch is smaller than the one before it");
/// ```
#[derive(Clone, Copy, Debug, PartialEq, Eq, Hash, PartialOrd, Ord)]
#[non_exhaustive]
pub enum Refusal {
    /// The encoding ends inside a field.
    Truncated = 1,
    /// A tag outside 1 to 6, or out of its turn.
    WrongTag = 2,
    /// A field length other than the one laid down.
    WrongLength = 3,
    /// A width of 0 or above 256.
    BadWidth = 4,
    /// More than 524,280 edge bits.
    TooLarge = 5,
    /// Bytes after the sixth field.
    TrailingBytes = 6,
    /// Well-formed fields that are the encoding of no set.
    NotAnEncoding = 7,
    /// A key or a prefix of the wrong length, or with an unused bit set.
    BadKey = 8,
    /// A member index not below the count, an edge offset above the edge bits, or more prefix bits than the width.
    OutOfRange = 9,
    /// A batch whose byte count is no multiple of a key's.
    RaggedBatch = 10,
    /// A key of a batch with an unused bit set.
    UnusedBitSet = 11,
    /// A key of a batch smaller than the one before it.
    Descending = 12,
    /// Two encodings of different widths.
    TwoWidths = 13,
    /// An output buffer or an output list shorter than the result.
    ShortBuffer = 14,
    /// A cursor that is neither before, nor after, nor at a member of this encoding.
    BadCursor = 15,
    /// A list of weights that is not as long as its encoding has members.
    WrongList = 16,
    /// A sum of weights that leaves 32 signed bits.
    Overflow = 17,
}

use Refusal::*;

impl Refusal {
    /// All refusals, by rising number.
    ///
    /// ```
    /// # use loes::Refusal;
    /// assert!(Refusal::ALL.iter().map(|refusal| refusal.number()).eq(1..=17));
    /// ```
    #[rustfmt::skip]
    pub const ALL: &'static [Refusal] = &[
        Truncated, WrongTag, WrongLength, BadWidth, TooLarge, TrailingBytes, NotAnEncoding, BadKey,
        OutOfRange, RaggedBatch, UnusedBitSet, Descending, TwoWidths, ShortBuffer, BadCursor, WrongList,
        Overflow,
    ];

    /// The refusal's number, 1 to 17.
    ///
    /// ```
    /// # use loes::Refusal;
    /// assert_eq!(Refusal::Truncated.number(), 1);
    /// assert_eq!(Refusal::Overflow.number(), 17);
    /// ```
    pub const fn number(self) -> u8 {
        self as u8
    }

    /// The refusal of a number.
    ///
    /// ```
    /// # use loes::Refusal;
    /// assert_eq!(Refusal::from_number(7), Some(Refusal::NotAnEncoding));
    /// assert_eq!(Refusal::from_number(0), None);
    /// ```
    pub fn from_number(number: u64) -> Option<Refusal> {
        Refusal::ALL.iter().copied().find(|refusal| u64::from(refusal.number()) == number)
    }

    /// What is wrong, in words.
    ///
    /// ```
    /// # use loes::Refusal;
    /// assert_eq!(Refusal::TwoWidths.message(), "the two encodings have keys of different widths");
    /// ```
    pub const fn message(self) -> &'static str {
        match self {
            Truncated => "the encoding ends inside a field",
            WrongTag => "a field's tag is outside 1 to 6 or out of its turn",
            WrongLength => "a field's length is not the one laid down",
            BadWidth => "the width is 0 or above 256",
            TooLarge => "the set has more than 524,280 edge bits",
            TrailingBytes => "bytes follow the sixth field",
            NotAnEncoding => "the fields are well formed, but are the encoding of no set",
            BadKey => "the key or the prefix is not as long as its bits take, or has an unused bit set",
            OutOfRange => {
                "the member index is not below the count, the edge offset is above the edge bits, or the prefix is longer than a key"
            }
            RaggedBatch => "the batch's byte count is no multiple of a key's",
            UnusedBitSet => "a key of the batch has an unused bit set",
            Descending => "a key of the batch is smaller than the one before it",
            TwoWidths => "the two encodings have keys of different widths",
            ShortBuffer => "the output buffer or the output list is shorter than the result",
            BadCursor => "the cursor is neither before, nor after, nor at a member of this encoding",
            WrongList => "a list of weights is not as long as its encoding has members",
            Overflow => "a sum of weights leaves 32 signed bits",
        }
    }
}

impl fmt::Display for Refusal {
    fn fmt(&self, f: &mut fmt::Formatter<'_>) -> fmt::Result {
        write!(f, "refused {}: {}", self.number(), self.message())
    }
}

impl std::error::Error for Refusal {}
