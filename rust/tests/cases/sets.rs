//! Sets of many shapes and widths.

use super::Rng;
use crate::plain::{self, key_len, Key, Set};

pub const WIDTHS: [usize; 15] = [1, 7, 8, 9, 15, 16, 17, 31, 32, 33, 63, 64, 65, 255, 256];

pub fn random_width(rng: &mut Rng) -> usize {
    if rng.one_in(2) {
        *rng.pick(&WIDTHS)
    } else {
        rng.between(1, 256)
    }
}

/// A key with its unused bits cleared.
pub fn trimmed(mut key: Key, width: usize) -> Key {
    if width % 8 != 0 {
        key[width / 8] &= !(0xFF >> (width % 8));
    }
    key
}

pub fn random_key(rng: &mut Rng, width: usize) -> Key {
    trimmed(rng.bytes(key_len(width)), width)
}

pub fn flip(key: &mut [u8], i: usize) {
    key[i / 8] ^= 0x80 >> (i % 8);
}

/// The next key, or the first after the last.
pub fn after(key: &[u8], width: usize) -> Key {
    let mut next = key.to_vec();
    for i in (0..width).rev() {
        flip(&mut next, i);
        if plain::bit(&next, i) {
            break;
        }
    }
    next
}

/// The bits of a key from d on, at random.
pub fn random_tail(rng: &mut Rng, key: &[u8], width: usize, d: usize) -> Key {
    let mut other = random_key(rng, width);
    for i in 0..d {
        if plain::bit(&other, i) != plain::bit(key, i) {
            flip(&mut other, i);
        }
    }
    other
}

pub fn number_key(width: usize, number: usize) -> Key {
    let mut key = vec![0; key_len(width)];
    for i in 0..width.min(40) {
        if number >> i & 1 == 1 {
            plain::set_bit(&mut key, width - 1 - i);
        }
    }
    key
}

pub fn full_set(width: usize) -> Set {
    Set::new(width, (0..1 << width).map(|number| number_key(width, number)))
}

/// All keys of 19 bits with one first bit but six: 262,140 records, and as many members as they can have.
pub fn half_set(first: usize) -> Set {
    Set::new(19, (6..1 << 18).map(|number| number_key(19, (first << 18) + number)))
}

/// About so many keys at most, in one of many shapes.
pub fn random_set(rng: &mut Rng, width: usize, most: usize) -> Set {
    let n = match rng.below(4) {
        0 => rng.below(4),
        1 => rng.below(most / 8 + 2),
        _ => rng.below(most + 1),
    };
    let mut keys: Vec<Key> = Vec::new();
    match rng.below(7) {
        // sparse
        0 => keys.extend((0..n).map(|_| random_key(rng, width))),
        // dense: numbers from one on, some left out
        1 => {
            let mut key = random_key(rng, width);
            let out = rng.between(2, 9);
            for _ in 0..n {
                if !rng.one_in(out) {
                    keys.push(key.clone());
                }
                key = after(&key, width);
            }
        }
        // clustered: a few prefixes
        2 => {
            let bases: Vec<Key> = (0..rng.between(1, 5)).map(|_| random_key(rng, width)).collect();
            let d = rng.below(width + 1);
            for _ in 0..n {
                let base = rng.pick(&bases).clone();
                keys.push(random_tail(rng, &base, width, d));
            }
        }
        // a chain: each key leaves one path at another level
        3 => {
            let base = random_key(rng, width);
            for _ in 0..n.min(2 * width) {
                let d = rng.below(width);
                let mut key = base.clone();
                flip(&mut key, d);
                keys.push(if rng.one_in(2) { key } else { random_tail(rng, &key, width, d + 1) });
            }
            keys.push(base);
        }
        // every key under a few prefixes
        4 => {
            let low = rng.below(width.min(7) + 1);
            for _ in 0..(n >> low).max(1) {
                let mut key = random_key(rng, width);
                for _ in 0..1 << low {
                    keys.push(key.clone());
                    key = after(&key, width);
                }
            }
        }
        // the ends
        5 => {
            keys.push(vec![0; key_len(width)]);
            keys.push(trimmed(vec![0xFF; key_len(width)], width));
            keys.extend((0..n / 2).map(|_| random_key(rng, width)));
        }
        // full, if it can be
        _ if width <= 9 => return full_set(width),
        _ => keys.extend((0..n).map(|i| number_key(width, i))),
    }
    Set::new(width, keys)
}

/// Two sets that share keys, most often; of one width.
pub fn operands(rng: &mut Rng, width: usize, most: usize) -> [Set; 2] {
    let a = random_set(rng, width, most);
    let mut b = random_set(rng, width, most);
    match rng.below(4) {
        0 => b = a.clone(),
        1 => b.keys.extend(a.keys.iter().filter(|_| rng.one_in(2)).cloned()),
        2 => b.keys = a.keys.iter().filter(|_| !rng.one_in(3)).cloned().collect(),
        _ => (),
    }
    [a, b]
}

/// Such operands of a random width, in one pair of `long` long ones; in one pair of twelve the second has a width of its own.
pub fn any_operands(rng: &mut Rng, long: usize) -> [Set; 2] {
    let width = random_width(rng);
    let most = if rng.one_in(long) { 40_000 / width + 1 } else { 60 };
    let [a, b] = operands(rng, width, most);
    let other = random_width(rng);
    let b = if rng.one_in(12) { random_set(rng, other, 20) } else { b };
    [a, b]
}

/// A random part of a set: one key in so many.
pub fn random_part(rng: &mut Rng, set: &Set, many: usize) -> Set {
    Set::new(set.width, set.keys.iter().filter(|_| rng.one_in(many)).cloned())
}

/// A set with exactly so many records: it has twice as many edge bits.
pub fn set_with_records(rng: &mut Rng, width: usize, records: usize) -> Set {
    assert!(records >= width && (width >= 30 || records < 1 << width));
    let mut set = Set::new(width, [random_key(rng, width)]);
    let mut list: Vec<Key> = set.keys.iter().cloned().collect();
    let mut have = width;
    let mut tries = 0;
    while have < records {
        tries += 1;
        if tries > 100 * records {
            // the last few records have no room: start over
            return set_with_records(rng, width, records);
        }
        // a key that leaves one of the set at level d has width - 1 - d records of its own, or fewer
        let most = (records - have).min(width - 1);
        let own = if rng.one_in(3) { most } else { rng.between(1, most) };
        let mut key = rng.pick(&list).clone();
        let d = width - 1 - own;
        flip(&mut key, d);
        let key = random_tail(rng, &key, width, d + 1);
        let shared = |other: Option<&Key>| {
            other.map_or(0, |other| (0..width).take_while(|i| plain::bit(other, *i) == plain::bit(&key, *i)).count())
        };
        let level = shared(set.keys.range(..key.clone()).next_back()).max(shared(set.keys.range(key.clone()..).next()));
        if level < width && have + width - 1 - level <= records {
            have += width - 1 - level;
            list.push(key.clone());
            set.keys.insert(key);
        }
    }
    set
}

pub fn batch_of(set: &Set) -> Vec<u8> {
    set.keys.iter().flatten().copied().collect()
}
