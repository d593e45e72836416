//! The static library's functions, with slices in place of pointers: those of `include/loes.h`, and those behind the check, which
//! stand in no header.
//!
//! The only file with `unsafe`. What makes it sound:
//!
//! - a slice's pointer is never null and its length is right; what is written is borrowed mutably, so it shares no byte with
//!   anything else that is lent;
//! - the functions behind the check require the numbers that `loes_open` told of the same bytes: an `OpenedBytes` is made by `open` only
//!   and borrows those bytes, so they cannot change while it lives;
//! - the steps that do not test their cursor require a right one: a `Walk` starts before the first member, and only its own
//!   steps change its cursor, none of which is refused 15.

use crate::{EdgeOffset, Encoding, MemberIndex};

#[cfg(not(target_arch = "x86_64"))]
compile_error!("the static library is made for x86-64");

/// The states of a cursor.
pub const BEFORE: u64 = 0;
/// At a member.
pub const AT: u64 = 1;
/// After the last member.
pub const AFTER: u64 = 2;

/// The offsets of a cursor, one for each level that there can be.
pub const OFFSETS: usize = Encoding::MAX_WIDTH as usize;

/// The refusal's number or 0, whether what was asked for is there, and the value, 0 if not.
#[repr(C)]
#[derive(Clone, Copy, Debug, PartialEq, Eq)]
pub struct Answer {
    pub refusal: u32,
    pub found: u32,
    pub value: u64,
}

/// The refusal's number or 0, and the numbers of an encoding.
#[repr(C)]
#[derive(Clone, Copy, Debug, PartialEq, Eq)]
pub struct Opened {
    pub refusal: u32,
    pub width: u32,
    pub count: u64,
    pub bits: u64,
}

/// The refusal's number or 0, and the member indexes of a prefix.
#[repr(C)]
#[derive(Clone, Copy, Debug, PartialEq, Eq)]
pub struct Range {
    pub refusal: u32,
    pub first: MemberIndex,
    pub count: u64,
}

/// The refusal's number or 0, and the lengths of the encodings of a split.
#[repr(C)]
#[derive(Clone, Copy, Debug, PartialEq, Eq)]
pub struct Lengths {
    pub refusal: u32,
    pub both: u64,
    pub only_first: u64,
    pub only_second: u64,
}

/// A cursor in numbers.
#[repr(C)]
#[derive(Clone, Debug, PartialEq, Eq)]
pub struct Cursor {
    pub state: u64,
    pub offsets: [EdgeOffset; OFFSETS],
}

/// A step over lent offsets: its answer, and the state that it leaves.
#[repr(C)]
#[derive(Clone, Copy)]
struct StateAnswer {
    answer: Answer,
    state: u64,
}

#[rustfmt::skip]
extern "C" {
    fn loes_open(l: *const u8, n: usize) -> Opened;
    fn loes_pack(width: u64, batch: *const u8, n: usize, out: *mut u8, m: usize) -> Answer;
    fn loes_union(a: *const u8, an: usize, b: *const u8, bn: usize, out: *mut u8, m: usize) -> Answer;
    fn loes_difference(a: *const u8, an: usize, b: *const u8, bn: usize, out: *mut u8, m: usize) -> Answer;
    fn loes_split(a: *const u8, an: usize, b: *const u8, bn: usize, both: *mut u8, both_m: usize, only_first: *mut u8, only_first_m: usize, only_second: *mut u8, only_second_m: usize) -> Lengths;
    fn loes_contains(l: *const u8, n: usize, key: *const u8, k: usize) -> Answer;
    fn loes_index_of(l: *const u8, n: usize, key: *const u8, k: usize) -> Answer;
    fn loes_lower_bound(l: *const u8, n: usize, key: *const u8, k: usize) -> Answer;
    fn loes_key_at(l: *const u8, n: usize, index: MemberIndex, out: *mut u8, m: usize) -> Answer;
    fn loes_rank(l: *const u8, n: usize, offset: EdgeOffset) -> Answer;
    fn loes_prefix(l: *const u8, n: usize, prefix_bits: u64, prefix: *const u8, k: usize) -> Range;
    fn loes_advance(l: *const u8, n: usize, cursor: *mut Cursor, out: *mut u8, m: usize) -> Answer;
    fn loes_post(l: *const u8, n: usize, weights: *mut i32, w: usize, key: *const u8, k: usize, amount: i32) -> Answer;
    fn loes_pack_weighted(width: u64, batch: *const u8, n: usize, out: *mut u8, m: usize, weights: *mut i32, w: usize) -> Answer;
    fn loes_union_weighted(a: *const u8, an: usize, a_weights: *const i32, aw: usize, b: *const u8, bn: usize, b_weights: *const i32, bw: usize, out: *mut u8, m: usize, weights: *mut i32, w: usize) -> Answer;
    fn loes_difference_weighted(a: *const u8, an: usize, a_weights: *const i32, aw: usize, b: *const u8, bn: usize, out: *mut u8, m: usize, weights: *mut i32, w: usize) -> Answer;
    // behind the check: width, members and edge bits as loes_open told them of these bytes
    fn loes_unchecked_contains(width: u64, count: u64, bits: u64, l: *const u8, n: usize, key: *const u8, k: usize) -> Answer;
    fn loes_unchecked_index_of(width: u64, count: u64, bits: u64, l: *const u8, n: usize, key: *const u8, k: usize) -> Answer;
    fn loes_unchecked_lower_bound(width: u64, count: u64, bits: u64, l: *const u8, n: usize, key: *const u8, k: usize) -> Answer;
    fn loes_unchecked_key_at(width: u64, count: u64, bits: u64, l: *const u8, n: usize, index: MemberIndex, out: *mut u8, m: usize) -> Answer;
    fn loes_unchecked_rank(width: u64, count: u64, bits: u64, l: *const u8, n: usize, offset: EdgeOffset) -> Answer;
    fn loes_unchecked_prefix(width: u64, count: u64, bits: u64, l: *const u8, n: usize, prefix_bits: u64, prefix: *const u8, k: usize) -> Range;
    fn loes_unchecked_advance(width: u64, count: u64, bits: u64, l: *const u8, n: usize, state: u64, offsets: *mut EdgeOffset, offset_count: usize, out: *mut u8, m: usize) -> StateAnswer;
    fn loes_unchecked_post(width: u64, count: u64, bits: u64, l: *const u8, n: usize, weights: *mut i32, w: usize, key: *const u8, k: usize, amount: i32) -> Answer;
    // and with a right cursor
    fn loes_unchecked_next(width: u64, count: u64, bits: u64, l: *const u8, n: usize, state: u64, offsets: *mut EdgeOffset, offset_count: usize, out: *mut u8, m: usize) -> StateAnswer;
    fn loes_unchecked_walk(width: u64, count: u64, bits: u64, l: *const u8, n: usize, state: u64, offsets: *mut EdgeOffset, offset_count: usize, out: *mut u8, m: usize) -> StateAnswer;
}

/// Bytes that have been opened, and their numbers.
#[derive(Clone, Copy)]
pub struct OpenedBytes<'a> {
    bytes: &'a [u8],
    width: u64,
    count: u64,
    bits: u64,
}

pub fn opened(bytes: &[u8]) -> Opened {
    unsafe { loes_open(bytes.as_ptr(), bytes.len()) }
}

/// The checked bytes, or the refusal's number.
pub fn open(bytes: &[u8]) -> Result<OpenedBytes<'_>, u32> {
    match opened(bytes) {
        Opened { refusal: 0, width, count, bits } => Ok(OpenedBytes { bytes, width: u64::from(width), count, bits }),
        Opened { refusal, .. } => Err(refusal),
    }
}

pub fn pack(width: u64, batch: &[u8], out: &mut [u8]) -> Answer {
    unsafe { loes_pack(width, batch.as_ptr(), batch.len(), out.as_mut_ptr(), out.len()) }
}

pub fn union(a: &[u8], b: &[u8], out: &mut [u8]) -> Answer {
    unsafe { loes_union(a.as_ptr(), a.len(), b.as_ptr(), b.len(), out.as_mut_ptr(), out.len()) }
}

pub fn difference(a: &[u8], b: &[u8], out: &mut [u8]) -> Answer {
    unsafe { loes_difference(a.as_ptr(), a.len(), b.as_ptr(), b.len(), out.as_mut_ptr(), out.len()) }
}

#[rustfmt::skip]
pub fn split(a: &[u8], b: &[u8], both: &mut [u8], only_first: &mut [u8], only_second: &mut [u8]) -> Lengths {
    unsafe {
        loes_split(
            a.as_ptr(), a.len(), b.as_ptr(), b.len(), both.as_mut_ptr(), both.len(),
            only_first.as_mut_ptr(), only_first.len(), only_second.as_mut_ptr(), only_second.len(),
        )
    }
}

pub fn contains(l: &[u8], key: &[u8]) -> Answer {
    unsafe { loes_contains(l.as_ptr(), l.len(), key.as_ptr(), key.len()) }
}

pub fn index_of(l: &[u8], key: &[u8]) -> Answer {
    unsafe { loes_index_of(l.as_ptr(), l.len(), key.as_ptr(), key.len()) }
}

pub fn lower_bound(l: &[u8], key: &[u8]) -> Answer {
    unsafe { loes_lower_bound(l.as_ptr(), l.len(), key.as_ptr(), key.len()) }
}

pub fn key_at(l: &[u8], index: MemberIndex, out: &mut [u8]) -> Answer {
    unsafe { loes_key_at(l.as_ptr(), l.len(), index, out.as_mut_ptr(), out.len()) }
}

pub fn rank(l: &[u8], offset: EdgeOffset) -> Answer {
    unsafe { loes_rank(l.as_ptr(), l.len(), offset) }
}

pub fn prefix(l: &[u8], prefix_bits: u64, prefix: &[u8]) -> Range {
    unsafe { loes_prefix(l.as_ptr(), l.len(), prefix_bits, prefix.as_ptr(), prefix.len()) }
}

pub fn advance(l: &[u8], cursor: &mut Cursor, out: &mut [u8]) -> Answer {
    unsafe { loes_advance(l.as_ptr(), l.len(), cursor, out.as_mut_ptr(), out.len()) }
}

pub fn post(l: &[u8], weights: &mut [i32], key: &[u8], amount: i32) -> Answer {
    unsafe { loes_post(l.as_ptr(), l.len(), weights.as_mut_ptr(), weights.len(), key.as_ptr(), key.len(), amount) }
}

#[rustfmt::skip]
pub fn pack_weighted(width: u64, batch: &[u8], out: &mut [u8], weights: &mut [i32]) -> Answer {
    unsafe {
        loes_pack_weighted(
            width, batch.as_ptr(), batch.len(), out.as_mut_ptr(), out.len(), weights.as_mut_ptr(), weights.len(),
        )
    }
}

#[rustfmt::skip]
pub fn union_weighted(a: &[u8], a_weights: &[i32], b: &[u8], b_weights: &[i32], out: &mut [u8], weights: &mut [i32]) -> Answer {
    unsafe {
        loes_union_weighted(
            a.as_ptr(), a.len(), a_weights.as_ptr(), a_weights.len(), b.as_ptr(), b.len(), b_weights.as_ptr(), b_weights.len(),
            out.as_mut_ptr(), out.len(), weights.as_mut_ptr(), weights.len(),
        )
    }
}

#[rustfmt::skip]
pub fn difference_weighted(a: &[u8], a_weights: &[i32], b: &[u8], out: &mut [u8], weights: &mut [i32]) -> Answer {
    unsafe {
        loes_difference_weighted(
            a.as_ptr(), a.len(), a_weights.as_ptr(), a_weights.len(), b.as_ptr(), b.len(),
            out.as_mut_ptr(), out.len(), weights.as_mut_ptr(), weights.len(),
        )
    }
}

/// A step behind the check, over lent offsets.
type StepBehind = unsafe extern "C" fn(u64, u64, u64, *const u8, usize, u64, *mut EdgeOffset, usize, *mut u8, usize) -> StateAnswer;

impl<'a> OpenedBytes<'a> {
    pub fn bytes(&self) -> &'a [u8] {
        self.bytes
    }

    /// Width, members and edge bits.
    pub fn numbers(&self) -> [u64; 3] {
        [self.width, self.count, self.bits]
    }

    pub fn contains(&self, key: &[u8]) -> Answer {
        let OpenedBytes { bytes, width, count, bits } = *self;
        unsafe { loes_unchecked_contains(width, count, bits, bytes.as_ptr(), bytes.len(), key.as_ptr(), key.len()) }
    }

    pub fn index_of(&self, key: &[u8]) -> Answer {
        let OpenedBytes { bytes, width, count, bits } = *self;
        unsafe { loes_unchecked_index_of(width, count, bits, bytes.as_ptr(), bytes.len(), key.as_ptr(), key.len()) }
    }

    pub fn lower_bound(&self, key: &[u8]) -> Answer {
        let OpenedBytes { bytes, width, count, bits } = *self;
        unsafe { loes_unchecked_lower_bound(width, count, bits, bytes.as_ptr(), bytes.len(), key.as_ptr(), key.len()) }
    }

    pub fn key_at(&self, index: MemberIndex, out: &mut [u8]) -> Answer {
        let OpenedBytes { bytes, width, count, bits } = *self;
        unsafe { loes_unchecked_key_at(width, count, bits, bytes.as_ptr(), bytes.len(), index, out.as_mut_ptr(), out.len()) }
    }

    pub fn rank(&self, offset: EdgeOffset) -> Answer {
        let OpenedBytes { bytes, width, count, bits } = *self;
        unsafe { loes_unchecked_rank(width, count, bits, bytes.as_ptr(), bytes.len(), offset) }
    }

    #[rustfmt::skip]
    pub fn prefix(&self, prefix_bits: u64, prefix: &[u8]) -> Range {
        let OpenedBytes { bytes, width, count, bits } = *self;
        unsafe {
            loes_unchecked_prefix(
                width, count, bits, bytes.as_ptr(), bytes.len(), prefix_bits, prefix.as_ptr(), prefix.len(),
            )
        }
    }

    #[rustfmt::skip]
    pub fn post(&self, weights: &mut [i32], key: &[u8], amount: i32) -> Answer {
        let OpenedBytes { bytes, width, count, bits } = *self;
        unsafe {
            loes_unchecked_post(
                width, count, bits, bytes.as_ptr(), bytes.len(), weights.as_mut_ptr(), weights.len(), key.as_ptr(), key.len(), amount,
            )
        }
    }

    pub fn advance(&self, cursor: &mut Cursor, out: &mut [u8]) -> Answer {
        // any cursor may be given to this step
        unsafe { self.step(loes_unchecked_advance, cursor, out) }
    }

    pub fn walk(&self) -> Walk<'a> {
        Walk { checked: *self, cursor: Cursor { state: BEFORE, offsets: [EdgeOffset(0); OFFSETS] } }
    }

    /// # Safety
    ///
    /// The cursor is one that the step takes.
    #[rustfmt::skip]
    unsafe fn step(&self, by: StepBehind, cursor: &mut Cursor, out: &mut [u8]) -> Answer {
        let OpenedBytes { bytes, width, count, bits } = *self;
        let step = by(
            width, count, bits, bytes.as_ptr(), bytes.len(), cursor.state, cursor.offsets.as_mut_ptr(), OFFSETS, out.as_mut_ptr(), out.len(),
        );
        cursor.state = step.state;
        step.answer
    }
}

/// A walk over checked bytes from before the first member, with a cursor of its own.
#[derive(Clone)]
pub struct Walk<'a> {
    checked: OpenedBytes<'a>,
    cursor: Cursor,
}

impl Walk<'_> {
    pub fn cursor(&self) -> &Cursor {
        &self.cursor
    }

    pub fn next(&mut self, out: &mut [u8]) -> Answer {
        // the cursor is right: only this function and the next one change it
        unsafe { self.checked.step(loes_unchecked_next, &mut self.cursor, out) }
    }

    /// A step, and as many more as the buffer has room for.
    pub fn fill(&mut self, out: &mut [u8]) -> Answer {
        unsafe { self.checked.step(loes_unchecked_walk, &mut self.cursor, out) }
    }
}
