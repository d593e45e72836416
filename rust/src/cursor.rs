use crate::{ffi, EdgeOffset};

/// Where a [`Cursor`] stands.
///
/// ```
/// use loes::{Cursor, State};
///
/// assert_eq!(Cursor::new().state(), State::Before);
/// ```
#[derive(Clone, Copy, Debug, PartialEq, Eq, Hash)]
pub enum State {
    /// Before the first member.
    Before = ffi::BEFORE as isize,
    /// At a member.
    At = ffi::AT as isize,
    /// After the last member.
    After = ffi::AFTER as isize,
}

/// A place in a walk over an encoding's members: before, at a member with one edge offset for each level, or after.
///
/// ```
/// use loes::{Cursor, Encoding, State};
///
/// let bytes = loes::pack_to_vec(3, &[0x00, 0x60])?;
/// let encoding = Encoding::open(&bytes)?;
/// let (mut cursor, mut key) = (Cursor::new(), [0]);
/// assert_eq!(encoding.advance(&mut cursor, &mut key)?, 1);
/// assert_eq!((cursor.state(), key), (State::At, [0x00]));
/// assert_eq!(encoding.advance(&mut cursor, &mut key)?, 1);
/// assert_eq!(key, [0x60]);
/// assert_eq!(encoding.advance(&mut cursor, &mut key)?, 0);
/// assert_eq!(cursor.state(), State::After);
/// # Ok::<(), loes::Refusal>(())
/// ```
#[derive(Clone, Debug, PartialEq, Eq)]
pub struct Cursor {
    pub(crate) numbers: ffi::Cursor,
}

impl Cursor {
    /// A cursor before the first member.
    ///
    /// ```
    /// # use loes::{Cursor, EdgeOffset, State};
    /// let cursor = Cursor::new();
    /// assert_eq!(cursor, Cursor::from_parts(State::Before, [EdgeOffset(0); 256]));
    /// ```
    pub const fn new() -> Cursor {
        Cursor::from_parts(State::Before, [EdgeOffset(0); ffi::OFFSETS])
    }

    /// A cursor of a state and offsets, as [`state`](Cursor::state) and [`offsets`](Cursor::offsets) tell them. Anything may be
    /// given: a cursor that is not one of the encoding it is used with is refused there.
    ///
    /// ```
    /// # use loes::{Cursor, EdgeOffset, Encoding, Refusal, State};
    /// let bytes = loes::pack_to_vec(3, &[0x00, 0x60])?;
    /// let mut cursor = Cursor::from_parts(State::At, [EdgeOffset(1); 256]);
    /// assert_eq!(Encoding::open(&bytes)?.advance(&mut cursor, &mut [0]), Err(Refusal::BadCursor));
    /// # Ok::<(), loes::Refusal>(())
    /// ```
    pub const fn from_parts(state: State, offsets: [EdgeOffset; ffi::OFFSETS]) -> Cursor {
        Cursor { numbers: ffi::Cursor { state: state as u64, offsets } }
    }

    /// Where it stands.
    ///
    /// ```
    /// # use loes::{Cursor, State};
    /// assert_eq!(Cursor::new().state(), State::Before);
    /// ```
    pub const fn state(&self) -> State {
        match self.numbers.state {
            ffi::BEFORE => State::Before,
            ffi::AT => State::At,
            ffi::AFTER => State::After,
            _ => panic!("the static library left a state that is none: it is not the one this crate was made for"),
        }
    }

    /// Its edge offsets, one for each level; those that it doesn't use are 0.
    ///
    /// ```
    /// # use loes::{Cursor, EdgeOffset, Encoding};
    /// let bytes = loes::pack_to_vec(3, &[0x60])?;
    /// let mut cursor = Cursor::new();
    /// Encoding::open(&bytes)?.advance(&mut cursor, &mut [0])?;
    /// assert_eq!(cursor.offsets()[..4], [0, 3, 5, 0].map(EdgeOffset));
    /// # Ok::<(), loes::Refusal>(())
    /// ```
    pub const fn offsets(&self) -> &[EdgeOffset; ffi::OFFSETS] {
        &self.numbers.offsets
    }
}

impl Default for Cursor {
    fn default() -> Cursor {
        Cursor::new()
    }
}
