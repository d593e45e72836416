//! What the C interface answers, as Rust values.

use crate::ffi::{Answer, Lengths, Range};
use crate::{Posting, PrefixRange, Refusal, Split};

pub(crate) fn refusal(number: u32) -> Refusal {
    match Refusal::from_number(u64::from(number)) {
        Some(refusal) => refusal,
        None => panic!("the static library answered refusal {number}: it is not the one this crate was made for"),
    }
}

/// A value, or none.
pub(crate) fn option(answer: Answer) -> Result<Option<u64>, Refusal> {
    match answer.refusal {
        0 => Ok((answer.found != 0).then_some(answer.value)),
        number => Err(refusal(number)),
    }
}

/// A value; there is always one.
pub(crate) fn value(answer: Answer) -> Result<u64, Refusal> {
    option(answer).map(|value| value.expect("this call has no answer without a value"))
}

/// A number of bytes.
pub(crate) fn length(answer: Answer) -> Result<usize, Refusal> {
    value(answer).map(|length| length as usize)
}

/// The numbers of bytes of a split.
pub(crate) fn lengths(lengths: Lengths) -> Result<Split<usize>, Refusal> {
    match lengths {
        Lengths { refusal: 0, both, only_first, only_second } => {
            Ok(Split { both: both as usize, only_first: only_first as usize, only_second: only_second as usize })
        }
        Lengths { refusal: number, .. } => Err(refusal(number)),
    }
}

/// The member indexes of a prefix.
pub(crate) fn range(range: Range) -> Result<PrefixRange, Refusal> {
    match range {
        Range { refusal: 0, first, count } => Ok(PrefixRange { first, count }),
        Range { refusal: number, .. } => Err(refusal(number)),
    }
}

/// Whether the key was there to be posted to.
pub(crate) fn posting(answer: Answer) -> Result<Posting, Refusal> {
    option(answer).map(|posted| posted.map_or(Posting::Absent, |_| Posting::Posted))
}

/// The bytes that a step wrote; 0 if it went to after.
pub(crate) fn stepped(answer: Answer) -> Result<usize, Refusal> {
    option(answer).map(|length| length.unwrap_or(0) as usize)
}
