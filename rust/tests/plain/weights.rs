//! Weights: document 02's slip 1 read sentence by sentence. A key's weight is a plain number beside it; a list is made only
//! where one is written.

use std::collections::BTreeMap;

use super::{batch, difference, union, unless, write, Answer, Key, Laid, Set, MAX_EDGES};

/// A set, and what each of its keys holds.
#[derive(Clone, Debug, PartialEq, Eq)]
pub struct Weighed {
    pub laid: Laid,
    pub held: BTreeMap<Key, i64>,
}

fn leaves_32_bits(sum: i64) -> bool {
    i32::try_from(sum).is_err()
}

/// 5.
fn within_limits(set: Set) -> Result<Laid, u64> {
    let laid = set.lay();
    unless(laid.bits() > MAX_EDGES, 5)?;
    Ok(laid)
}

impl Weighed {
    /// An encoding with its list: 16.
    pub fn listed(laid: &Laid, list: &[i32]) -> Result<Weighed, u64> {
        unless(list.len() != laid.count(), 16)?;
        let held = laid.set.keys.iter().cloned().zip(list.iter().map(|weight| i64::from(*weight))).collect();
        Ok(Weighed { laid: laid.clone(), held })
    }

    /// A batch's keys, which hold nothing: as pack, up to 5.
    pub fn packed(width: u64, bytes: &[u8]) -> Result<Weighed, u64> {
        let laid = within_limits(batch(width, bytes)?)?;
        let held = laid.set.keys.iter().map(|key| (key.clone(), 0)).collect();
        Ok(Weighed { laid, held })
    }

    /// 8; absent; 17.
    pub fn post(&mut self, key: &[u8], amount: i32) -> Answer {
        self.laid.key_fits(key)?;
        let Some(weight) = self.held.get_mut(key) else { return Ok(None) };
        let sum = *weight + i64::from(amount);
        unless(leaves_32_bits(sum), 17)?;
        *weight = sum;
        Ok(Some(1))
    }

    /// 13, 5. The sums are not tested yet.
    pub fn union(&self, other: &Weighed) -> Result<Weighed, u64> {
        let laid = within_limits(union(&self.laid.set, &other.laid.set)?)?;
        let mut held = self.held.clone();
        for (key, weight) in &other.held {
            *held.entry(key.clone()).or_insert(0) += weight;
        }
        Ok(Weighed { laid, held })
    }

    /// 13, 5.
    pub fn difference(&self, other: &Set) -> Result<Weighed, u64> {
        let laid = within_limits(difference(&self.laid.set, other)?)?;
        let mut held = self.held.clone();
        held.retain(|key, _| !other.keys.contains(key));
        Ok(Weighed { laid, held })
    }

    /// The entries in order, where none leaves 32 bits.
    pub fn list(&self) -> Vec<i32> {
        self.held.values().map(|weight| i32::try_from(*weight).unwrap()).collect()
    }

    /// 14 for either output, 17; then the encoding and the list stand at the front of their outputs.
    pub fn write(&self, out: &mut [u8], list: &mut [i32]) -> Answer {
        let encoding = self.laid.encode();
        unless(out.len() < encoding.len() || list.len() < self.held.len(), 14)?;
        unless(self.held.values().any(|sum| leaves_32_bits(*sum)), 17)?;
        list[..self.held.len()].copy_from_slice(&self.list());
        write(&encoding, out)
    }
}

// ---- The joins of opened encodings and their lists

/// 13, 16, 5.
pub fn union_weighted(a: &Laid, a_list: &[i32], b: &Laid, b_list: &[i32]) -> Result<Weighed, u64> {
    unless(a.width() != b.width(), 13)?;
    Weighed::listed(a, a_list)?.union(&Weighed::listed(b, b_list)?)
}

/// 13, 16, 5.
pub fn difference_weighted(a: &Laid, a_list: &[i32], b: &Laid) -> Result<Weighed, u64> {
    unless(a.width() != b.width(), 13)?;
    Weighed::listed(a, a_list)?.difference(&b.set)
}

// ---- The ledger

/// What is written down of one list from the accepted calls alone.
#[derive(Clone, Debug)]
pub struct Account {
    pub weighed: Weighed,
    /// all that was posted to it, and to what it was made from before it was used for it
    pub posted: i128,
    /// all that keys held when they were dropped on that way
    pub dropped: i128,
}

impl Account {
    pub fn packed(width: u64, bytes: &[u8]) -> Result<Account, u64> {
        Ok(Account { weighed: Weighed::packed(width, bytes)?, posted: 0, dropped: 0 })
    }

    pub fn post(&mut self, key: &[u8], amount: i32) -> Answer {
        let answer = self.weighed.post(key, amount)?;
        if answer.is_some() {
            self.posted += i128::from(amount);
        }
        Ok(answer)
    }

    /// Each use brings what was posted and what was dropped by then.
    pub fn union(&self, other: &Account) -> Result<Account, u64> {
        let weighed = self.weighed.union(&other.weighed)?;
        Ok(Account { weighed, posted: self.posted + other.posted, dropped: self.dropped + other.dropped })
    }

    /// What the other's keys hold at this moment is dropped.
    pub fn difference(&self, other: &Account) -> Result<Account, u64> {
        let other = &other.weighed.laid.set;
        let weighed = self.weighed.difference(other)?;
        let shared = self.weighed.held.iter().filter(|(key, _)| other.keys.contains(*key));
        let now: i128 = shared.map(|(_, weight)| i128::from(*weight)).sum();
        Ok(Account { weighed, posted: self.posted, dropped: self.dropped + now })
    }
}
