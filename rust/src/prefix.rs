use std::iter::FusedIterator;

use crate::MemberIndex;

/// The members that begin with a prefix, by their member indexes. Members are in order, so these stand side by side.
///
/// ```
/// use loes::{Encoding, MemberIndex, PrefixRange};
///
/// let bytes = loes::pack_to_vec(8, &[0x12, 0x34, 0x36, 0x80])?;
/// let set = Encoding::open(&bytes)?;
/// // two keys begin with the bits 0011; none with 0111, and three are smaller
/// assert_eq!(set.prefix(4, &[0x30])?, PrefixRange { first: MemberIndex(1), count: 2 });
/// assert_eq!(set.prefix(4, &[0x70])?, PrefixRange { first: MemberIndex(3), count: 0 });
/// # Ok::<(), loes::Refusal>(())
/// ```
#[derive(Clone, Copy, Debug, PartialEq, Eq, Hash)]
pub struct PrefixRange {
    /// How many members' own first bits are smaller than the prefix: the member index of the first that begins with it, if one
    /// does.
    pub first: MemberIndex,
    /// How many members begin with the prefix.
    pub count: u64,
}

impl PrefixRange {
    /// The member indexes in rising order.
    ///
    /// ```
    /// # use loes::Encoding;
    /// let bytes = loes::pack_to_vec(8, &[0x12, 0x34, 0x36, 0x80])?;
    /// let set = Encoding::open(&bytes)?;
    /// let mut key = [0];
    /// for index in set.prefix(4, &[0x30])?.indexes() {
    ///     set.key_at(index, &mut key)?;
    ///     assert_eq!(key[0] >> 4, 3);
    /// }
    /// # Ok::<(), loes::Refusal>(())
    /// ```
    pub fn indexes(&self) -> impl DoubleEndedIterator<Item = MemberIndex> + ExactSizeIterator + FusedIterator + Clone {
        let first = self.first.0;
        (0..self.count as usize).map(move |i| MemberIndex(first + i as u64))
    }
}
