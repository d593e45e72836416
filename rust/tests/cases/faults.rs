//! Several faults in one call.

use crate::plain::{Answer, Weighed};

/// The faults of a call that a mask names, by their places in the call's order.
pub struct Faults(pub usize);

impl Faults {
    pub fn has(&self, place: usize) -> bool {
        self.0 >> place & 1 == 1
    }

    /// The refusal of the first of them, if there is one.
    pub fn first(&self, order: &[u64]) -> Option<u64> {
        (0..order.len()).find(|place| self.has(*place)).map(|place| order[place])
    }

    /// That refusal, or the right result written.
    pub fn write(&self, order: &[u64], right: &Weighed, out: &mut [u8], list: &mut [i32]) -> Answer {
        self.first(order).map_or_else(|| right.write(out, list), Err)
    }
}
