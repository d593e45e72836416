use std::fmt;
use std::iter::FusedIterator;

use crate::{answers, ffi, Cursor, EdgeOffset, MemberIndex, Posting, PrefixRange, Refusal};

/// An opened encoding: bytes that have been checked whole, once, and their numbers. Every question is asked behind that check.
///
/// ```
/// use loes::{Encoding, MemberIndex, Refusal};
///
/// let bytes = loes::pack_to_vec(3, &[0x00, 0x60, 0xC0])?;
/// let set = Encoding::open(&bytes)?;
/// assert_eq!((set.width(), set.len(), set.bits()), (3, 3, 12));
/// assert!(set.contains(&[0x60])?);
/// assert_eq!(set.lower_bound(&[0x80])?, Some(MemberIndex(2)));
/// assert_eq!(Encoding::open(&bytes[1..]).unwrap_err(), Refusal::WrongTag);
/// # Ok::<(), Refusal>(())
/// ```
#[derive(Clone, Copy)]
pub struct Encoding<'a> {
    checked: ffi::OpenedBytes<'a>,
}

impl<'a> Encoding<'a> {
    /// The greatest width of a key, in bits.
    ///
    /// ```
    /// # use loes::{Encoding, Refusal};
    /// assert_eq!(loes::pack_to_vec(Encoding::MAX_WIDTH + 1, &[]), Err(Refusal::BadWidth));
    /// ```
    pub const MAX_WIDTH: u64 = 256;

    /// The most bits that an edge sequence may have.
    ///
    /// ```
    /// assert_eq!(loes::Encoding::MAX_EDGES, 524_280);
    /// ```
    pub const MAX_EDGES: u64 = 524_280;

    /// The edge bits of a block, which has one entry in field 5.
    ///
    /// ```
    /// assert_eq!(loes::Encoding::BLOCK_BITS, 65_536);
    /// ```
    pub const BLOCK_BITS: u64 = 65_536;

    /// The edge bits of a sub-block, which has one entry in field 6.
    ///
    /// ```
    /// assert_eq!(loes::Encoding::SUB_BLOCK_BITS, 512);
    /// ```
    pub const SUB_BLOCK_BITS: u64 = 512;

    /// The length of the longest encoding: a buffer so long always fits.
    ///
    /// ```
    /// assert_eq!(loes::Encoding::MAX_BYTES, 68_695);
    /// ```
    pub const MAX_BYTES: usize = Encoding::bytes_for(Encoding::MAX_WIDTH, Encoding::MAX_EDGES);

    /// The length of an encoding of this width with so many edge bits.
    ///
    /// ```
    /// # use loes::Encoding;
    /// assert_eq!(Encoding::bytes_for(3, 0), 36);
    /// assert_eq!(Encoding::bytes_for(3, 12), 48);
    /// ```
    pub const fn bytes_for(width: u64, bits: u64) -> usize {
        let heads = 6 * 3;
        let index = 8 * bits.div_ceil(Encoding::BLOCK_BITS) + 2 * bits.div_ceil(Encoding::SUB_BLOCK_BITS);
        (heads + 2 + 4 + 4 * width + bits.div_ceil(8) + index) as usize
    }

    /// Checks the bytes whole and opens them.
    ///
    /// ```
    /// # use loes::{Encoding, Refusal};
    /// let mut bytes = loes::pack_to_vec(3, &[0x60])?;
    /// assert_eq!(Encoding::open(&bytes)?.len(), 1);
    /// bytes.push(0);
    /// assert_eq!(Encoding::open(&bytes).unwrap_err(), Refusal::TrailingBytes);
    /// # Ok::<(), Refusal>(())
    /// ```
    pub fn open(bytes: &'a [u8]) -> Result<Encoding<'a>, Refusal> {
        match ffi::open(bytes) {
            Ok(checked) => Ok(Encoding { checked }),
            Err(number) => Err(answers::refusal(number)),
        }
    }

    /// The bytes that were opened.
    ///
    /// ```
    /// # use loes::Encoding;
    /// let bytes = loes::pack_to_vec(3, &[0x60])?;
    /// assert_eq!(Encoding::open(&bytes)?.as_bytes(), bytes);
    /// # Ok::<(), loes::Refusal>(())
    /// ```
    pub fn as_bytes(&self) -> &'a [u8] {
        self.checked.bytes()
    }

    /// The width of its keys, in bits.
    ///
    /// ```
    /// # use loes::Encoding;
    /// assert_eq!(Encoding::open(&loes::pack_to_vec(17, &[])?)?.width(), 17);
    /// # Ok::<(), loes::Refusal>(())
    /// ```
    pub fn width(&self) -> u64 {
        self.checked.numbers()[0]
    }

    /// The bytes that a key takes.
    ///
    /// ```
    /// # use loes::Encoding;
    /// assert_eq!(Encoding::open(&loes::pack_to_vec(17, &[])?)?.key_len(), 3);
    /// # Ok::<(), loes::Refusal>(())
    /// ```
    pub fn key_len(&self) -> usize {
        self.width().div_ceil(8) as usize
    }

    /// How many keys it has.
    ///
    /// ```
    /// # use loes::Encoding;
    /// assert_eq!(Encoding::open(&loes::pack_to_vec(8, &[3, 3, 4])?)?.len(), 2);
    /// # Ok::<(), loes::Refusal>(())
    /// ```
    pub fn len(&self) -> u64 {
        self.checked.numbers()[1]
    }

    /// Whether it has no key.
    ///
    /// ```
    /// # use loes::Encoding;
    /// assert!(Encoding::open(&loes::pack_to_vec(8, &[])?)?.is_empty());
    /// # Ok::<(), loes::Refusal>(())
    /// ```
    pub fn is_empty(&self) -> bool {
        self.len() == 0
    }

    /// How many bits its edge sequence has.
    ///
    /// ```
    /// # use loes::Encoding;
    /// assert_eq!(Encoding::open(&loes::pack_to_vec(1, &[0x00, 0x80])?)?.bits(), 2);
    /// # Ok::<(), loes::Refusal>(())
    /// ```
    pub fn bits(&self) -> u64 {
        self.checked.numbers()[2]
    }

    /// Whether the key is a member.
    ///
    /// ```
    /// # use loes::{Encoding, Refusal};
    /// let bytes = loes::pack_to_vec(3, &[0x00, 0x60])?;
    /// let set = Encoding::open(&bytes)?;
    /// assert_eq!(set.contains(&[0x60]), Ok(true));
    /// assert_eq!(set.contains(&[0xA0]), Ok(false));
    /// assert_eq!(set.contains(&[0x61]), Err(Refusal::BadKey));
    /// # Ok::<(), Refusal>(())
    /// ```
    pub fn contains(&self, key: &[u8]) -> Result<bool, Refusal> {
        Ok(answers::option(self.checked.contains(key))?.is_some())
    }

    /// The key's member index, if it is a member.
    ///
    /// ```
    /// # use loes::{Encoding, MemberIndex};
    /// let bytes = loes::pack_to_vec(3, &[0x00, 0x60])?;
    /// let set = Encoding::open(&bytes)?;
    /// assert_eq!(set.index_of(&[0x60]), Ok(Some(MemberIndex(1))));
    /// assert_eq!(set.index_of(&[0x40]), Ok(None));
    /// # Ok::<(), loes::Refusal>(())
    /// ```
    pub fn index_of(&self, key: &[u8]) -> Result<Option<MemberIndex>, Refusal> {
        Ok(answers::option(self.checked.index_of(key))?.map(MemberIndex))
    }

    /// The member index of the smallest member not below the key, if there is one.
    ///
    /// ```
    /// # use loes::{Encoding, MemberIndex};
    /// let bytes = loes::pack_to_vec(3, &[0x00, 0x60])?;
    /// let set = Encoding::open(&bytes)?;
    /// assert_eq!(set.lower_bound(&[0x40]), Ok(Some(MemberIndex(1))));
    /// assert_eq!(set.lower_bound(&[0x80]), Ok(None));
    /// # Ok::<(), loes::Refusal>(())
    /// ```
    pub fn lower_bound(&self, key: &[u8]) -> Result<Option<MemberIndex>, Refusal> {
        Ok(answers::option(self.checked.lower_bound(key))?.map(MemberIndex))
    }

    /// Writes the key at a member index to the front of the buffer and tells its length. Bytes behind it keep their values.
    ///
    /// ```
    /// # use loes::{Encoding, MemberIndex, Refusal};
    /// let bytes = loes::pack_to_vec(3, &[0x00, 0x60])?;
    /// let set = Encoding::open(&bytes)?;
    /// let mut out = [7, 7];
    /// assert_eq!(set.key_at(MemberIndex(1), &mut out), Ok(1));
    /// assert_eq!(out, [0x60, 7]);
    /// assert_eq!(set.key_at(MemberIndex(2), &mut out), Err(Refusal::OutOfRange));
    /// assert_eq!(set.key_at(MemberIndex(1), &mut []), Err(Refusal::ShortBuffer));
    /// # Ok::<(), Refusal>(())
    /// ```
    pub fn key_at(&self, index: MemberIndex, out: &mut [u8]) -> Result<usize, Refusal> {
        answers::length(self.checked.key_at(index, out))
    }

    /// The set bits of the edge sequence strictly before an offset, which is at most [`bits`](Encoding::bits).
    ///
    /// ```
    /// # use loes::{EdgeOffset, Encoding, Refusal};
    /// let bytes = loes::pack_to_vec(3, &[0x00, 0x60, 0xC0])?;
    /// let set = Encoding::open(&bytes)?;
    /// assert_eq!(set.rank(EdgeOffset(0)), Ok(0));
    /// assert_eq!(set.rank(EdgeOffset(10)), Ok(7));
    /// assert_eq!(set.rank(EdgeOffset(12)), Ok(8));
    /// assert_eq!(set.rank(EdgeOffset(13)), Err(Refusal::OutOfRange));
    /// # Ok::<(), Refusal>(())
    /// ```
    pub fn rank(&self, offset: EdgeOffset) -> Result<u64, Refusal> {
        answers::value(self.checked.rank(offset))
    }

    /// The members that begin with the prefix, by their member indexes. A prefix is `prefix_bits` bits, 0 to the width, in
    /// prefix_bits/8 bytes, rounded up, with unused low bits of the last byte zero. Every key begins with the prefix of 0 bits,
    /// which takes no bytes.
    ///
    /// ```
    /// # use loes::{Encoding, MemberIndex, PrefixRange, Refusal};
    /// let bytes = loes::pack_to_vec(3, &[0x00, 0x60, 0xC0])?;
    /// let set = Encoding::open(&bytes)?;
    /// assert_eq!(set.prefix(1, &[0x00]), Ok(PrefixRange { first: MemberIndex(0), count: 2 }));
    /// assert_eq!(set.prefix(2, &[0x80]), Ok(PrefixRange { first: MemberIndex(2), count: 0 }));
    /// assert_eq!(set.prefix(0, &[])?.count, set.len());
    /// assert_eq!(set.prefix(1, &[0x40]), Err(Refusal::BadKey));
    /// assert_eq!(set.prefix(4, &[0x40]), Err(Refusal::OutOfRange));
    /// # Ok::<(), Refusal>(())
    /// ```
    pub fn prefix(&self, prefix_bits: u64, prefix: &[u8]) -> Result<PrefixRange, Refusal> {
        answers::range(self.checked.prefix(prefix_bits, prefix))
    }

    /// Moves a cursor on to the next member, writes that member to the front of the buffer and tells its length; 0 if the cursor
    /// is now after, and nothing written. Refused, the cursor and the buffer keep their values.
    ///
    /// ```
    /// # use loes::{Cursor, Encoding, Refusal};
    /// let bytes = loes::pack_to_vec(16, &[1, 2])?;
    /// let set = Encoding::open(&bytes)?;
    /// let mut cursor = Cursor::new();
    /// assert_eq!(set.advance(&mut cursor, &mut [0]), Err(Refusal::ShortBuffer));
    /// let mut key = [0, 0];
    /// assert_eq!(set.advance(&mut cursor, &mut key), Ok(2));
    /// assert_eq!(key, [1, 2]);
    /// assert_eq!(set.advance(&mut cursor, &mut []), Ok(0));
    /// # Ok::<(), Refusal>(())
    /// ```
    pub fn advance(&self, cursor: &mut Cursor, out: &mut [u8]) -> Result<usize, Refusal> {
        answers::stepped(self.checked.advance(&mut cursor.numbers, out))
    }

    /// Adds an amount to the key's weight in the list beside the encoding, which has an entry for each member. A negative amount
    /// is taken off.
    ///
    /// ```
    /// # use loes::{Encoding, Posting, Refusal};
    /// let (bytes, mut weights) = loes::pack_weighted_to_vec(3, &[0x00, 0x60])?;
    /// let set = Encoding::open(&bytes)?;
    /// assert_eq!(set.post(&mut weights, &[0x60], 40), Ok(Posting::Posted));
    /// assert_eq!(set.post(&mut weights, &[0x60], -15), Ok(Posting::Posted));
    /// assert_eq!(set.post(&mut weights, &[0xA0], 40), Ok(Posting::Absent));
    /// assert_eq!(set.post(&mut weights, &[0x60], i32::MAX), Err(Refusal::Overflow));
    /// assert_eq!(set.post(&mut weights[..1], &[0x60], 1), Err(Refusal::WrongList));
    /// assert_eq!(weights, [0, 25]);
    /// # Ok::<(), Refusal>(())
    /// ```
    pub fn post(&self, weights: &mut [i32], key: &[u8], amount: i32) -> Result<Posting, Refusal> {
        answers::posting(self.checked.post(weights, key, amount))
    }

    /// Its keys in rising order.
    ///
    /// ```
    /// # use loes::Encoding;
    /// let bytes = loes::pack_to_vec(3, &[0x00, 0x60])?;
    /// let keys: Vec<Vec<u8>> = Encoding::open(&bytes)?.keys().collect();
    /// assert_eq!(keys, [[0x00], [0x60]]);
    /// # Ok::<(), loes::Refusal>(())
    /// ```
    pub fn keys(&self) -> Keys<'a> {
        Keys { encoding: *self, walk: self.checked.walk(), left: self.len() as usize }
    }
}

impl fmt::Debug for Encoding<'_> {
    fn fmt(&self, f: &mut fmt::Formatter<'_>) -> fmt::Result {
        f.debug_struct("Encoding").field("width", &self.width()).field("len", &self.len()).field("bits", &self.bits()).finish()
    }
}

impl<'a> IntoIterator for &Encoding<'a> {
    type Item = Vec<u8>;
    type IntoIter = Keys<'a>;

    fn into_iter(self) -> Keys<'a> {
        self.keys()
    }
}

/// The keys of an encoding in rising order, by a cursor of its own: no step tests it, so a step is much cheaper than
/// [`Encoding::advance`].
///
/// ```
/// use loes::Encoding;
///
/// let bytes = loes::pack_to_vec(8, &[1, 5, 9])?;
/// let mut keys = Encoding::open(&bytes)?.keys();
/// assert_eq!(keys.next(), Some(vec![1]));
/// assert_eq!(keys.len(), 2);
/// assert_eq!(keys.last(), Some(vec![9]));
/// # Ok::<(), loes::Refusal>(())
/// ```
#[derive(Clone)]
pub struct Keys<'a> {
    encoding: Encoding<'a>,
    walk: ffi::Walk<'a>,
    left: usize,
}

impl Keys<'_> {
    /// Writes the next key to the front of the buffer and tells its length; 0 at the end, and nothing written. Refused, the
    /// next key is still to come.
    ///
    /// ```
    /// # use loes::{Encoding, Refusal};
    /// let bytes = loes::pack_to_vec(16, &[1, 2])?;
    /// let mut keys = Encoding::open(&bytes)?.keys();
    /// let mut key = [0; 2];
    /// assert_eq!(keys.next_into(&mut key[..1]), Err(Refusal::ShortBuffer));
    /// assert_eq!((keys.next_into(&mut key), key), (Ok(2), [1, 2]));
    /// assert_eq!(keys.next_into(&mut key), Ok(0));
    /// # Ok::<(), Refusal>(())
    /// ```
    pub fn next_into(&mut self, out: &mut [u8]) -> Result<usize, Refusal> {
        let written = answers::stepped(self.walk.next(out))?;
        if written > 0 {
            self.left -= 1;
        }
        Ok(written)
    }

    /// Writes the next keys, one behind the other, as many as the buffer has room for, and tells how many bytes that are; 0 at
    /// the end, and nothing written. Refused if a key is left and there is room for none; it is then still to come. The
    /// fastest way over many keys: one call of the library for a buffer full of them.
    ///
    /// ```
    /// # use loes::{Encoding, Refusal};
    /// let bytes = loes::pack_to_vec(8, &[1, 5, 9])?;
    /// let mut keys = Encoding::open(&bytes)?.keys();
    /// let mut two = [0; 2];
    /// assert_eq!((keys.fill(&mut two), two), (Ok(2), [1, 5]));
    /// assert_eq!(keys.fill(&mut []), Err(Refusal::ShortBuffer));
    /// assert_eq!((keys.fill(&mut two), two), (Ok(1), [9, 5]));
    /// assert_eq!(keys.fill(&mut two), Ok(0));
    /// # Ok::<(), Refusal>(())
    /// ```
    pub fn fill(&mut self, out: &mut [u8]) -> Result<usize, Refusal> {
        let written = answers::stepped(self.walk.fill(out))?;
        self.left -= written / self.encoding.key_len();
        Ok(written)
    }
}

impl Iterator for Keys<'_> {
    type Item = Vec<u8>;

    fn next(&mut self) -> Option<Vec<u8>> {
        let mut key = vec![0; self.encoding.key_len()];
        match self.next_into(&mut key).expect("the buffer fits") {
            0 => None,
            _ => Some(key),
        }
    }

    fn size_hint(&self) -> (usize, Option<usize>) {
        (self.left, Some(self.left))
    }
}

impl fmt::Debug for Keys<'_> {
    fn fmt(&self, f: &mut fmt::Formatter<'_>) -> fmt::Result {
        f.debug_struct("Keys").field("encoding", &self.encoding).field("left", &self.left).finish()
    }
}

impl ExactSizeIterator for Keys<'_> {}
impl FusedIterator for Keys<'_> {}
