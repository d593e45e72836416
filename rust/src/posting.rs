/// What became of an amount that was posted to a key.
///
/// ```
/// use loes::Posting;
///
/// let (bytes, mut weights) = loes::pack_weighted_to_vec(3, &[0x60])?;
/// assert_eq!(loes::post(&bytes, &mut weights, &[0x60], 5)?, Posting::Posted);
/// assert_eq!(loes::post(&bytes, &mut weights, &[0xA0], 5)?, Posting::Absent);
/// assert_eq!(weights, [5]);
/// # Ok::<(), loes::Refusal>(())
/// ```
#[must_use = "an amount for an absent key is not posted"]
#[derive(Clone, Copy, Debug, PartialEq, Eq, Hash)]
pub enum Posting {
    /// It was added to the key's weight.
    Posted,
    /// The key is no member; nothing was changed.
    Absent,
}
