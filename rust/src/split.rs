/// Two sets parted in three: the keys in both, those only in the first, those only in the second; of each its encoding
/// ([`split_to_vec`](crate::split_to_vec)), or that encoding's length ([`split`](crate::split)).
///
/// Each key of either set is in exactly one of the three, so twice the count of the first and the counts of the other two are the
/// counts of both sets together.
///
/// ```
/// use loes::{Encoding, Split};
///
/// let entered = loes::pack_to_vec(8, &[0x12, 0x34, 0x36])?;
/// let left = loes::pack_to_vec(8, &[0x34, 0x36, 0x80])?;
/// let Split { both, only_first, only_second } = loes::split_to_vec(&entered, &left)?;
/// assert!(Encoding::open(&both)?.keys().eq([[0x34], [0x36]]));
/// assert!(Encoding::open(&only_first)?.keys().eq([[0x12]]));
/// assert!(Encoding::open(&only_second)?.keys().eq([[0x80]]));
/// # Ok::<(), loes::Refusal>(())
/// ```
#[derive(Clone, Copy, Debug, PartialEq, Eq, Hash)]
pub struct Split<T> {
    /// Of the keys in both sets.
    pub both: T,
    /// Of the keys in the first set but not in the second.
    pub only_first: T,
    /// Of the keys in the second set but not in the first.
    pub only_second: T,
}
