//! Sets of keys of one width in a succinct byte encoding.
//!
//! A key has 1 to 256 bits. It takes width/8 bytes, rounded up; bit 0 is the most significant bit of the first byte, and unused
//! low bits of the last byte are zero. A set of such keys has exactly one encoding: the levels of its binary trie as two bits a
//! node, with counts beside them, so that membership, order and position are answered from the bytes as they are.
//!
//! ```
//! # #[cfg(feature = "linked")]
//! # fn main() -> Result<(), loes::Refusal> {
//! use loes::{Encoding, MemberIndex, Refusal};
//!
//! // three keys of 16 bits, laid end to end in rising order
//! let harbour = loes::pack_to_vec(16, &[0x01, 0x00, 0x01, 0x07, 0x2A, 0x00])?;
//! let depot = loes::pack_to_vec(16, &[0x01, 0x07, 0xFF, 0xFF])?;
//!
//! // sets are joined encoding by encoding
//! let both = loes::union_to_vec(&harbour, &depot)?;
//! let rest = loes::difference_to_vec(&both, &depot)?;
//!
//! // or parted in three: the keys in both, only in the first, only in the second
//! let parts = loes::split_to_vec(&harbour, &depot)?;
//! assert_eq!(parts.both, loes::pack_to_vec(16, &[0x01, 0x07])?);
//! assert_eq!((&parts.only_first, parts.only_second), (&rest, loes::pack_to_vec(16, &[0xFF, 0xFF])?));
//!
//! // open once: the bytes are checked whole; then ask
//! let set = Encoding::open(&both)?;
//! assert_eq!((set.width(), set.len()), (16, 4));
//! assert!(set.contains(&[0x2A, 0x00])?);
//! assert_eq!(set.index_of(&[0xFF, 0xFF])?, Some(MemberIndex(3)));
//! assert_eq!(set.lower_bound(&[0x01, 0x01])?, Some(MemberIndex(1)));
//!
//! // how many keys begin with the eight bits 0x01, and where they stand
//! let range = set.prefix(8, &[0x01])?;
//! assert_eq!((range.first, range.count), (MemberIndex(0), 2));
//!
//! // keys come back in order
//! let keys: Vec<Vec<u8>> = Encoding::open(&rest)?.keys().collect();
//! assert_eq!(keys, [[0x01, 0x00], [0x2A, 0x00]]);
//!
//! // damaged bytes are refused, with the reason
//! let refusal = Encoding::open(&both[..10]).unwrap_err();
//! assert_eq!(refusal, Refusal::Truncated);
//! assert_eq!(refusal.to_string(), "refused 1: the encoding ends inside a field");
//! # Ok(())
//! # }
//! # #[cfg(not(feature = "linked"))]
//! # fn main() {}
//! ```
//!
//! Keys may have weights: signed numbers of 32 bits in a list beside the encoding, entry i for the key with member index i.
//!
//! ```
//! # #[cfg(feature = "linked")]
//! # fn main() -> Result<(), loes::Refusal> {
//! use loes::Posting;
//!
//! // a new list has a zero for each member; then amounts are added, and negative ones taken off
//! let (harbour, mut landed) = loes::pack_weighted_to_vec(16, &[0x01, 0x00, 0x01, 0x07])?;
//! assert_eq!(loes::post(&harbour, &mut landed, &[0x01, 0x07], 24_000)?, Posting::Posted);
//! assert_eq!(loes::post(&harbour, &mut landed, &[0x01, 0x07], -500)?, Posting::Posted);
//! assert_eq!(loes::post(&harbour, &mut landed, &[0x2A, 0x00], 24_000)?, Posting::Absent);
//!
//! // in a union the weights of a key that both have are added
//! let depot = loes::pack_to_vec(16, &[0x01, 0x07, 0xFF, 0xFF])?;
//! let (both, weights) = loes::union_weighted_to_vec(&harbour, &landed, &depot, &[1_000, 70])?;
//! assert_eq!(weights, [0, 24_500, 70]);
//!
//! // in a difference the others keep theirs
//! let (_, weights) = loes::difference_weighted_to_vec(&both, &weights, &harbour)?;
//! assert_eq!(weights, [70]);
//! # Ok(())
//! # }
//! # #[cfg(not(feature = "linked"))]
//! # fn main() {}
//! ```
//!
//! Every call works in lent memory and is total: whatever bytes it is given, it answers or names the [`Refusal`]; refused, it
//! changes nothing. What a call works with is on the stack: allow it 704 KiB. The calls and their refusals are proved of the static
//! library that this crate links; this crate adds the types.

#![deny(missing_docs)]
#![deny(unsafe_code)]
#![cfg_attr(not(feature = "linked"), allow(rustdoc::broken_intra_doc_links))]

// the examples of the README, to be tested
#[cfg(all(doctest, feature = "linked"))]
#[doc = include_str!("../../README.md")]
struct Readme;

mod refusal;
pub use refusal::Refusal;

#[cfg(feature = "linked")]
mod answers;
#[cfg(feature = "linked")]
mod calls;
#[cfg(feature = "linked")]
mod counts;
#[cfg(feature = "linked")]
mod cursor;
#[cfg(feature = "linked")]
mod encoding;
/// The C interface with slices in place of pointers, for the tests of it.
#[cfg(feature = "linked")]
#[doc(hidden)]
#[allow(missing_docs, unsafe_code)]
pub mod ffi;
#[cfg(feature = "linked")]
mod posting;
#[cfg(feature = "linked")]
mod prefix;
#[cfg(feature = "linked")]
mod split;

#[cfg(feature = "linked")]
pub use calls::{
    advance, contains, difference, difference_to_vec, difference_weighted, difference_weighted_to_vec, index_of, key_at,
    lower_bound, pack, pack_to_vec, pack_weighted, pack_weighted_to_vec, post, prefix, rank, split, split_to_vec, union,
    union_to_vec, union_weighted, union_weighted_to_vec,
};
#[cfg(feature = "linked")]
pub use counts::{EdgeOffset, MemberIndex};
#[cfg(feature = "linked")]
pub use cursor::{Cursor, State};
#[cfg(feature = "linked")]
pub use encoding::{Encoding, Keys};
#[cfg(feature = "linked")]
pub use posting::Posting;
#[cfg(feature = "linked")]
pub use prefix::PrefixRange;
#[cfg(feature = "linked")]
pub use split::Split;
