//! The calls on bytes. Each checks the encodings it is lent, every time.

use crate::{answers, ffi, Cursor, EdgeOffset, Encoding, MemberIndex, Posting, PrefixRange, Refusal, Split};

/// Writes the encoding of a batch's keys to the front of the buffer and tells its length. A batch is keys of `width` bits laid
/// end to end in rising order; equal neighbours are one key.
///
/// ```
/// use loes::Refusal;
///
/// let mut out = [0; 100];
/// assert_eq!(loes::pack(3, &[0x00, 0x60, 0xC0], &mut out), Ok(48));
/// assert_eq!(loes::pack(3, &[0x60, 0x00], &mut out), Err(Refusal::Descending));
/// assert_eq!(loes::pack(3, &[0x00, 0x60, 0xC0], &mut out[..47]), Err(Refusal::ShortBuffer));
/// ```
pub fn pack(width: u64, batch: &[u8], out: &mut [u8]) -> Result<usize, Refusal> {
    answers::length(ffi::pack(width, batch, out))
}

/// Writes the encoding of the keys in either set to the front of the buffer and tells its length.
///
/// ```
/// let (a, b) = (loes::pack_to_vec(3, &[0x00, 0x60])?, loes::pack_to_vec(3, &[0x60, 0xC0])?);
/// let mut out = [0; 100];
/// let length = loes::union(&a, &b, &mut out)?;
/// assert_eq!(out[..length], loes::pack_to_vec(3, &[0x00, 0x60, 0xC0])?);
/// # Ok::<(), loes::Refusal>(())
/// ```
pub fn union(first: &[u8], second: &[u8], out: &mut [u8]) -> Result<usize, Refusal> {
    answers::length(ffi::union(first, second, out))
}

/// Writes the encoding of the keys in the first set but not in the second to the front of the buffer and tells its length.
///
/// ```
/// let (a, b) = (loes::pack_to_vec(3, &[0x00, 0x60])?, loes::pack_to_vec(3, &[0x60, 0xC0])?);
/// let mut out = [0; 100];
/// let length = loes::difference(&a, &b, &mut out)?;
/// assert_eq!(out[..length], loes::pack_to_vec(3, &[0x00])?);
/// # Ok::<(), loes::Refusal>(())
/// ```
pub fn difference(first: &[u8], second: &[u8], out: &mut [u8]) -> Result<usize, Refusal> {
    answers::length(ffi::difference(first, second, out))
}

/// Writes the encodings of three sets to the fronts of three buffers and tells their lengths: of the keys in both sets, of those
/// only in the first, of those only in the second. If one of the buffers is too short, none changes.
///
/// A part of a set has no longer encoding than the set: where the first encoding fits, `both` and `only_first` fit, and where the
/// second fits, `only_second` fits.
///
/// ```
/// use loes::{Refusal, Split};
///
/// let (a, b) = (loes::pack_to_vec(3, &[0x00, 0x60])?, loes::pack_to_vec(3, &[0x60, 0xC0])?);
/// let (mut both, mut first, mut second) = ([0; 100], [0; 100], [0; 100]);
/// let lengths = loes::split(&a, &b, &mut both, &mut first, &mut second)?;
/// assert_eq!(lengths, Split { both: 47, only_first: 47, only_second: 47 });
/// assert_eq!(both[..47], loes::pack_to_vec(3, &[0x60])?);
/// assert_eq!(first[..47], loes::pack_to_vec(3, &[0x00])?);
/// assert_eq!(second[..47], loes::pack_to_vec(3, &[0xC0])?);
/// assert_eq!(loes::split(&a, &b, &mut both, &mut first, &mut second[..46]), Err(Refusal::ShortBuffer));
/// # Ok::<(), Refusal>(())
/// ```
pub fn split(
    first: &[u8],
    second: &[u8],
    both: &mut [u8],
    only_first: &mut [u8],
    only_second: &mut [u8],
) -> Result<Split<usize>, Refusal> {
    answers::lengths(ffi::split(first, second, both, only_first, only_second))
}

/// [`pack`] into a new vector.
///
/// ```
/// assert_eq!(loes::pack_to_vec(3, &[])?.len(), 36);
/// # Ok::<(), loes::Refusal>(())
/// ```
pub fn pack_to_vec(width: u64, batch: &[u8]) -> Result<Vec<u8>, Refusal> {
    to_vec(|out| pack(width, batch, out))
}

/// [`union`] into a new vector.
///
/// ```
/// let set = loes::pack_to_vec(3, &[0x60])?;
/// assert_eq!(loes::union_to_vec(&set, &set)?, set);
/// # Ok::<(), loes::Refusal>(())
/// ```
pub fn union_to_vec(first: &[u8], second: &[u8]) -> Result<Vec<u8>, Refusal> {
    to_vec(|out| union(first, second, out))
}

/// [`difference`] into a new vector.
///
/// ```
/// let set = loes::pack_to_vec(3, &[0x60])?;
/// assert_eq!(loes::difference_to_vec(&set, &set)?, loes::pack_to_vec(3, &[])?);
/// # Ok::<(), loes::Refusal>(())
/// ```
pub fn difference_to_vec(first: &[u8], second: &[u8]) -> Result<Vec<u8>, Refusal> {
    to_vec(|out| difference(first, second, out))
}

/// [`split`] into new vectors.
///
/// ```
/// use loes::Split;
///
/// let (set, empty) = (loes::pack_to_vec(3, &[0x60])?, loes::pack_to_vec(3, &[])?);
/// let itself = Split { both: set.clone(), only_first: empty.clone(), only_second: empty };
/// assert_eq!(loes::split_to_vec(&set, &set)?, itself);
/// # Ok::<(), loes::Refusal>(())
/// ```
pub fn split_to_vec(first: &[u8], second: &[u8]) -> Result<Split<Vec<u8>>, Refusal> {
    // where an encoding fits, those of its set's parts fit; bytes that are longer than every encoding are refused
    let [mut both, mut only_first, mut only_second] =
        [first, first, second].map(|whole| vec![0; whole.len().min(Encoding::MAX_BYTES)]);
    let lengths = split(first, second, &mut both, &mut only_first, &mut only_second)?;
    Ok(Split {
        both: cut(both, lengths.both),
        only_first: cut(only_first, lengths.only_first),
        only_second: cut(only_second, lengths.only_second),
    })
}

/// What a call writes into a buffer that every encoding fits into.
fn to_vec(call: impl FnOnce(&mut [u8]) -> Result<usize, Refusal>) -> Result<Vec<u8>, Refusal> {
    let mut out = vec![0; Encoding::MAX_BYTES];
    let length = call(&mut out)?;
    Ok(cut(out, length))
}

/// The first bytes of a vector, and no room for more.
fn cut(mut out: Vec<u8>, length: usize) -> Vec<u8> {
    out.truncate(length);
    out.shrink_to_fit();
    out
}

/// Whether the key is a member. [`Encoding::contains`] asks without checking the encoding again.
///
/// ```
/// let bytes = loes::pack_to_vec(3, &[0x60])?;
/// assert!(loes::contains(&bytes, &[0x60])?);
/// # Ok::<(), loes::Refusal>(())
/// ```
pub fn contains(encoding: &[u8], key: &[u8]) -> Result<bool, Refusal> {
    Ok(answers::option(ffi::contains(encoding, key))?.is_some())
}

/// The key's member index, if it is a member. [`Encoding::index_of`] asks without checking the encoding again.
///
/// ```
/// use loes::MemberIndex;
///
/// let bytes = loes::pack_to_vec(3, &[0x60])?;
/// assert_eq!(loes::index_of(&bytes, &[0x60])?, Some(MemberIndex(0)));
/// # Ok::<(), loes::Refusal>(())
/// ```
pub fn index_of(encoding: &[u8], key: &[u8]) -> Result<Option<MemberIndex>, Refusal> {
    Ok(answers::option(ffi::index_of(encoding, key))?.map(MemberIndex))
}

/// The member index of the smallest member not below the key, if there is one. [`Encoding::lower_bound`] asks without checking
/// the encoding again.
///
/// ```
/// use loes::MemberIndex;
///
/// let bytes = loes::pack_to_vec(3, &[0x60])?;
/// assert_eq!(loes::lower_bound(&bytes, &[0x00])?, Some(MemberIndex(0)));
/// # Ok::<(), loes::Refusal>(())
/// ```
pub fn lower_bound(encoding: &[u8], key: &[u8]) -> Result<Option<MemberIndex>, Refusal> {
    Ok(answers::option(ffi::lower_bound(encoding, key))?.map(MemberIndex))
}

/// Writes the key at a member index to the front of the buffer and tells its length. [`Encoding::key_at`] asks without checking
/// the encoding again.
///
/// ```
/// use loes::MemberIndex;
///
/// let bytes = loes::pack_to_vec(3, &[0x60])?;
/// let mut key = [0];
/// assert_eq!(loes::key_at(&bytes, MemberIndex(0), &mut key)?, 1);
/// assert_eq!(key, [0x60]);
/// # Ok::<(), loes::Refusal>(())
/// ```
pub fn key_at(encoding: &[u8], index: MemberIndex, out: &mut [u8]) -> Result<usize, Refusal> {
    answers::length(ffi::key_at(encoding, index, out))
}

/// The set bits of the edge sequence strictly before an offset, which is at most its length. [`Encoding::rank`] asks without
/// checking the encoding again.
///
/// ```
/// use loes::EdgeOffset;
///
/// let bytes = loes::pack_to_vec(3, &[0x60])?;
/// assert_eq!(loes::rank(&bytes, EdgeOffset(6))?, 3);
/// # Ok::<(), loes::Refusal>(())
/// ```
pub fn rank(encoding: &[u8], offset: EdgeOffset) -> Result<u64, Refusal> {
    answers::value(ffi::rank(encoding, offset))
}

/// The members that begin with the prefix, by their member indexes. A prefix is `prefix_bits` bits, 0 to the width, in
/// prefix_bits/8 bytes, rounded up, with unused low bits of the last byte zero. [`Encoding::prefix`] asks without checking the
/// encoding again.
///
/// ```
/// use loes::MemberIndex;
///
/// let bytes = loes::pack_to_vec(3, &[0x00, 0x60, 0xC0])?;
/// let range = loes::prefix(&bytes, 1, &[0x80])?;
/// assert_eq!((range.first, range.count), (MemberIndex(2), 1));
/// # Ok::<(), loes::Refusal>(())
/// ```
pub fn prefix(encoding: &[u8], prefix_bits: u64, prefix: &[u8]) -> Result<PrefixRange, Refusal> {
    answers::range(ffi::prefix(encoding, prefix_bits, prefix))
}

/// Moves a cursor on to the next member and writes that member to the front of the buffer. [`Encoding::advance`] does it without
/// checking the encoding again.
///
/// ```
/// use loes::Cursor;
///
/// let bytes = loes::pack_to_vec(3, &[0x60])?;
/// let (mut cursor, mut key) = (Cursor::new(), [0]);
/// assert_eq!(loes::advance(&bytes, &mut cursor, &mut key)?, 1);
/// assert_eq!(key, [0x60]);
/// assert_eq!(loes::advance(&bytes, &mut cursor, &mut key)?, 0);
/// # Ok::<(), loes::Refusal>(())
/// ```
pub fn advance(encoding: &[u8], cursor: &mut Cursor, out: &mut [u8]) -> Result<usize, Refusal> {
    answers::stepped(ffi::advance(encoding, &mut cursor.numbers, out))
}

// ---- Weights

/// Adds an amount to the key's weight. [`Encoding::post`] does it without checking the encoding again.
///
/// ```
/// use loes::Posting;
///
/// let (bytes, mut weights) = loes::pack_weighted_to_vec(3, &[0x60])?;
/// assert_eq!(loes::post(&bytes, &mut weights, &[0x60], -5)?, Posting::Posted);
/// assert_eq!(weights, [-5]);
/// # Ok::<(), loes::Refusal>(())
/// ```
pub fn post(encoding: &[u8], weights: &mut [i32], key: &[u8], amount: i32) -> Result<Posting, Refusal> {
    answers::posting(ffi::post(encoding, weights, key, amount))
}

/// [`pack`], and a zero for each member to the front of the list. Tells the length of the encoding.
///
/// The list has as many entries as the encoding has members ([`Encoding::len`]): at most one for each key of the batch.
///
/// ```
/// use loes::Refusal;
///
/// let (mut out, mut weights) = ([0; 100], [7; 4]);
/// assert_eq!(loes::pack_weighted(3, &[0x00, 0x60, 0xC0], &mut out, &mut weights), Ok(48));
/// assert_eq!(weights, [0, 0, 0, 7]);
/// assert_eq!(loes::pack_weighted(3, &[0x00, 0x60, 0xC0], &mut out, &mut weights[..2]), Err(Refusal::ShortBuffer));
/// ```
pub fn pack_weighted(width: u64, batch: &[u8], out: &mut [u8], weights: &mut [i32]) -> Result<usize, Refusal> {
    answers::length(ffi::pack_weighted(width, batch, out, weights))
}

/// [`union`], and its keys' weights to the front of the list: of a key in both sets the sum, of any other its own. Tells the
/// length of the encoding.
///
/// The list has as many entries as the encoding has members ([`Encoding::len`]): at most as many as both lists have together.
///
/// ```
/// use loes::Refusal;
///
/// let (a, b) = (loes::pack_to_vec(3, &[0x00, 0x60])?, loes::pack_to_vec(3, &[0x60, 0xC0])?);
/// let (mut out, mut weights) = ([0; 100], [0; 3]);
/// loes::union_weighted(&a, &[1, 20], &b, &[-5, 300], &mut out, &mut weights)?;
/// assert_eq!(weights, [1, 15, 300]);
/// let refused = loes::union_weighted(&a, &[1, i32::MAX], &b, &[1, 300], &mut out, &mut weights);
/// assert_eq!(refused, Err(Refusal::Overflow));
/// # Ok::<(), Refusal>(())
/// ```
pub fn union_weighted(
    first: &[u8],
    first_weights: &[i32],
    second: &[u8],
    second_weights: &[i32],
    out: &mut [u8],
    weights: &mut [i32],
) -> Result<usize, Refusal> {
    answers::length(ffi::union_weighted(first, first_weights, second, second_weights, out, weights))
}

/// [`difference`], and its keys' weights to the front of the list. Tells the length of the encoding.
///
/// The list has as many entries as the encoding has members ([`Encoding::len`]): at most as many as the first list has.
///
/// ```
/// let (a, b) = (loes::pack_to_vec(3, &[0x00, 0x60])?, loes::pack_to_vec(3, &[0x60, 0xC0])?);
/// let (mut out, mut weights) = ([0; 100], [0; 1]);
/// loes::difference_weighted(&a, &[1, 20], &b, &mut out, &mut weights)?;
/// assert_eq!(weights, [1]);
/// # Ok::<(), loes::Refusal>(())
/// ```
pub fn difference_weighted(
    first: &[u8],
    first_weights: &[i32],
    second: &[u8],
    out: &mut [u8],
    weights: &mut [i32],
) -> Result<usize, Refusal> {
    answers::length(ffi::difference_weighted(first, first_weights, second, out, weights))
}

/// [`pack_weighted`] into new vectors.
///
/// ```
/// let (bytes, weights) = loes::pack_weighted_to_vec(3, &[0x00, 0x60])?;
/// assert_eq!((bytes, weights), (loes::pack_to_vec(3, &[0x00, 0x60])?, vec![0, 0]));
/// # Ok::<(), loes::Refusal>(())
/// ```
pub fn pack_weighted_to_vec(width: u64, batch: &[u8]) -> Result<(Vec<u8>, Vec<i32>), Refusal> {
    // at most one entry for each key of the batch; width 0 is refused
    let key_bytes = width.div_ceil(8).max(1) as usize;
    to_vecs(batch.len() / key_bytes, |out, weights| pack_weighted(width, batch, out, weights))
}

/// [`union_weighted`] into new vectors.
///
/// ```
/// let set = loes::pack_to_vec(3, &[0x60])?;
/// assert_eq!(loes::union_weighted_to_vec(&set, &[5], &set, &[-7])?, (set, vec![-2]));
/// # Ok::<(), loes::Refusal>(())
/// ```
pub fn union_weighted_to_vec(
    first: &[u8],
    first_weights: &[i32],
    second: &[u8],
    second_weights: &[i32],
) -> Result<(Vec<u8>, Vec<i32>), Refusal> {
    to_vecs(first_weights.len() + second_weights.len(), |out, weights| {
        union_weighted(first, first_weights, second, second_weights, out, weights)
    })
}

/// [`difference_weighted`] into new vectors.
///
/// ```
/// let (a, b) = (loes::pack_to_vec(3, &[0x00, 0x60])?, loes::pack_to_vec(3, &[0x00])?);
/// assert_eq!(loes::difference_weighted_to_vec(&a, &[5, 6], &b)?, (loes::pack_to_vec(3, &[0x60])?, vec![6]));
/// # Ok::<(), loes::Refusal>(())
/// ```
pub fn difference_weighted_to_vec(first: &[u8], first_weights: &[i32], second: &[u8]) -> Result<(Vec<u8>, Vec<i32>), Refusal> {
    to_vecs(first_weights.len(), |out, weights| difference_weighted(first, first_weights, second, out, weights))
}

/// The members of an encoding that was just written, as its second field has them: open would check it whole to tell the same.
fn count_in(encoding: &[u8]) -> usize {
    let field = encoding[8..12].try_into().expect("four bytes");
    u32::from_be_bytes(field) as usize
}

/// What a call writes into a buffer that every encoding fits into and a list of so many entries, which its list fits into. No set has
/// more members than edge bits, so more are not asked for.
fn to_vecs(
    entries: usize,
    call: impl FnOnce(&mut [u8], &mut [i32]) -> Result<usize, Refusal>,
) -> Result<(Vec<u8>, Vec<i32>), Refusal> {
    let mut weights = vec![0; entries.min(Encoding::MAX_EDGES as usize)];
    let encoding = to_vec(|out| call(out, &mut weights))?;
    weights.truncate(count_in(&encoding));
    weights.shrink_to_fit();
    Ok((encoding, weights))
}
