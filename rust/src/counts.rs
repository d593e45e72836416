/// An offset in the edge sequence, counted in bits.
///
/// ```
/// use loes::{Encoding, EdgeOffset};
///
/// let bytes = loes::pack_to_vec(3, &[0x00, 0x60, 0xC0])?;
/// assert_eq!(Encoding::open(&bytes)?.rank(EdgeOffset(10))?, 7);
/// # Ok::<(), loes::Refusal>(())
/// ```
#[repr(C)]
#[derive(Clone, Copy, Debug, Default, PartialEq, Eq, Hash, PartialOrd, Ord)]
pub struct EdgeOffset(pub u64);

/// A key's index among the members in order: how many members are smaller.
///
/// ```
/// use loes::{Encoding, MemberIndex};
///
/// let bytes = loes::pack_to_vec(3, &[0x00, 0x60, 0xC0])?;
/// assert_eq!(Encoding::open(&bytes)?.index_of(&[0x60])?, Some(MemberIndex(1)));
/// # Ok::<(), loes::Refusal>(())
/// ```
#[repr(C)]
#[derive(Clone, Copy, Debug, Default, PartialEq, Eq, Hash, PartialOrd, Ord)]
pub struct MemberIndex(pub u64);
