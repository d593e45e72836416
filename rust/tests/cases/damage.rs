//! Batches, encodings and cursors with something wrong.

use super::{batch_of, flip, Rng};
use crate::plain::{self, key_len, Cursor, Laid, Set};

// ---- Batches

/// A batch of a set with something wrong, or with equal neighbours.
pub fn damaged_batch(rng: &mut Rng, set: &Set) -> (u64, Vec<u8>) {
    let (width, t) = (set.width, key_len(set.width));
    let mut batch = batch_of(set);
    let n = set.keys.len();
    for _ in 0..rng.between(1, 3) {
        match rng.below(7) {
            0 => batch.extend(rng.bytes(1)),
            1 if !batch.is_empty() => {
                let at = rng.below(batch.len());
                batch.truncate(at);
            }
            // unused bits
            2 if n > 0 && width % 8 != 0 => {
                let at = rng.below(n) * t + t - 1;
                if at < batch.len() {
                    batch[at] |= 1 << rng.below(8 - width % 8);
                }
            }
            // two keys change places
            3 if n > 1 => {
                let at = rng.below(n - 1) * t;
                if at + 2 * t <= batch.len() {
                    let (x, y) = batch[at..at + 2 * t].split_at_mut(t);
                    x.swap_with_slice(y);
                }
            }
            // equal neighbours
            4 if n > 0 => {
                let at = rng.below(n) * t;
                if at + t <= batch.len() {
                    let key = batch[at..at + t].to_vec();
                    for _ in 0..rng.between(1, 3) {
                        batch.splice(at..at, key.iter().copied());
                    }
                }
            }
            // any bit
            5 if !batch.is_empty() => {
                let at = rng.below(8 * batch.len());
                flip(&mut batch, at);
            }
            _ => {
                let width = *rng.pick(&[0, 1, 3, 256, 257, 512, 65_536 + 3, (1 << 32) + 3, 1 << 63, u64::MAX]);
                return (width, batch);
            }
        }
    }
    (width as u64, batch)
}

// ---- Encodings

pub type Damage = fn(&mut Vec<u8>);

/// Ways to damage an encoding, each with its refusal.
pub const DAMAGES: [(u64, Damage); 8] = [
    (1, |bytes| bytes.truncate(bytes.len() - 1)),
    (1, |bytes| bytes.clear()),
    (2, |bytes| bytes[0] = 9),
    (3, |bytes| bytes[2] = 3),
    (4, |bytes| bytes[3..5].fill(0)),
    (5, |bytes| bytes[15..].fill(0xFF)),
    (6, |bytes| bytes.push(0)),
    (7, |bytes| bytes[11] ^= 1),
];

/// Where the fields begin: six starts, and the end.
pub fn field_starts(bytes: &[u8]) -> Vec<usize> {
    let mut starts = vec![0];
    for _ in 0..6 {
        let at = *starts.last().unwrap();
        starts.push(at + 3 + 256 * usize::from(bytes[at + 1]) + usize::from(bytes[at + 2]));
    }
    starts
}

pub fn nudge(rng: &mut Rng, number: &mut [u8]) {
    let mut value = number.iter().fold(0u64, |n, byte| n << 8 | u64::from(*byte));
    value = match rng.below(6) {
        0 => value.wrapping_add(1),
        1 => value.wrapping_sub(1),
        2 => value.wrapping_add(2),
        3 => value.wrapping_sub(2),
        4 => 0,
        _ => rng.next(),
    };
    let bytes = value.to_be_bytes();
    number.copy_from_slice(&bytes[8 - number.len()..]);
}

/// An encoding with something wrong, most often one thing.
pub fn damaged(rng: &mut Rng, laid: &Laid) -> Vec<u8> {
    let mut bytes = laid.encode();
    let starts = field_starts(&bytes);
    let f = rng.below(6);
    let (at, body, end) = (starts[f], starts[f] + 3, starts[f + 1]);
    match rng.below(15) {
        // a tag
        0 => bytes[at] = *rng.pick(&[0, 1, 2, 3, 4, 5, 6, 7, 255]),
        // a length
        1 => nudge(rng, &mut bytes[at + 1..at + 3]),
        // a byte of a body, a bit of a body
        2 if body < end => {
            let i = rng.between(body, end - 1);
            bytes[i] = rng.next() as u8;
        }
        3 if body < end => {
            let i = rng.between(body, end - 1);
            bytes[i] ^= 1 << rng.below(8);
        }
        // a field less, a field more, two fields changed
        4 => drop(bytes.drain(at..end)),
        5 => {
            let field = bytes[at..end].to_vec();
            let i = starts[rng.below(7)];
            bytes.splice(i..i, field);
        }
        6 => {
            let g = rng.below(6);
            let (x, y) = (f.min(g), f.max(g));
            let mut other = bytes[..starts[x]].to_vec();
            other.extend(&bytes[starts[y]..starts[y + 1]]);
            if x < y {
                other.extend(&bytes[starts[x + 1]..starts[y]]);
                other.extend(&bytes[starts[x]..starts[x + 1]]);
            }
            other.extend(&bytes[starts[y + 1]..]);
            bytes = other;
        }
        // bytes less, bytes more
        7 => {
            let n = rng.below(bytes.len());
            bytes.truncate(n);
        }
        8 => {
            let n = rng.between(1, 9);
            bytes.extend(rng.bytes(n));
        }
        // the numbers: width, count, a level's, an entry of the index
        9 => nudge(rng, &mut bytes[3..5]),
        10 => nudge(rng, &mut bytes[8..12]),
        11 => {
            let i = starts[2] + 3 + 4 * rng.below(laid.width());
            nudge(rng, &mut bytes[i..i + 4]);
        }
        12 if starts[5] > starts[4] + 3 => {
            let (size, at, end) = if rng.one_in(2) { (8, starts[4] + 3, starts[5]) } else { (2, starts[5] + 3, starts[6]) };
            let i = at + size * rng.below((end - at) / size);
            nudge(rng, &mut bytes[i..i + size]);
        }
        // a block's entry too small and its sub-blocks' entries too great by as much: the sums are right
        13 if starts[5] > starts[4] + 3 => {
            let more = *rng.pick(&[1, 2, 700]);
            let block = rng.below((starts[5] - starts[4] - 3) / 8);
            let entry: &mut [u8] = &mut bytes[starts[4] + 3 + 8 * block..][..8];
            let value = u64::from_be_bytes(entry.try_into().unwrap()).wrapping_sub(more);
            entry.copy_from_slice(&value.to_be_bytes());
            for entry in bytes[starts[5] + 3..].chunks_mut(2).skip(128 * block).take(128) {
                let value = u16::from_be_bytes([entry[0], entry[1]]).wrapping_add(more as u16);
                entry.copy_from_slice(&value.to_be_bytes());
            }
        }
        // a record emptied, edges changed, left-over bits; the index as the edges have it
        _ => {
            let mut edges = laid.edges.clone();
            let n = edges.len();
            if n > 0 {
                match rng.below(3) {
                    0 => {
                        let record = rng.below(n / 2);
                        edges[2 * record] = false;
                        edges[2 * record + 1] = false;
                    }
                    1 => {
                        let o = rng.below(n);
                        edges[o] = !edges[o];
                    }
                    _ => {
                        let (o, p) = (rng.below(n), rng.below(n));
                        edges.swap(o, p);
                    }
                }
            }
            let (blocks, sub_blocks) = plain::index_bodies(&edges);
            let mut packed = plain::pack_bits(&edges);
            if n % 8 != 0 && rng.one_in(3) {
                *packed.last_mut().unwrap() |= 1 << rng.below(8 - n % 8);
            }
            let count = laid.count() + *rng.pick(&[0, 0, 0, 1]);
            bytes = plain::fields(laid.width(), count, &laid.ends, &packed, &blocks, &sub_blocks);
        }
    }
    bytes
}

/// Fields made from random edges, consistent as far as they can be: some are encodings, the others fail in one respect only.
pub fn nearly(rng: &mut Rng) -> Vec<u8> {
    let width = rng.between(1, 12);
    let empty = rng.between(3, 60);
    let mut edges: Vec<bool> = Vec::new();
    let mut ends = Vec::new();
    let mut records = usize::from(!rng.one_in(20));
    let mut count = 0;
    for _ in 0..width {
        count = 0;
        for _ in 0..records {
            let record =
                if rng.one_in(empty * 4) { [false, false] } else { *rng.pick(&[[false, true], [true, false], [true, true]]) };
            count += usize::from(record[0]) + usize::from(record[1]);
            edges.extend(record);
        }
        ends.push(edges.len());
        records = count.min(400);
        if rng.one_in(empty) {
            records = (records + rng.below(3)).saturating_sub(1);
        }
    }
    if rng.one_in(20) {
        count += 1;
    }
    if rng.one_in(20) {
        let i = rng.below(width);
        ends[i] = (ends[i] + rng.below(5)).saturating_sub(2);
    }
    if rng.one_in(10) {
        edges.push(rng.one_in(2));
        *ends.last_mut().unwrap() += 1;
    }
    let bits = *ends.last().unwrap();
    edges.resize(bits, false);
    let (blocks, sub_blocks) = plain::index_bodies(&edges);
    plain::fields(width, count, &ends, &plain::pack_bits(&edges), &blocks, &sub_blocks)
}

// ---- Cursors

pub fn damaged_cursor(rng: &mut Rng, laid: &Laid, places: &[&Cursor]) -> Cursor {
    let mut cursor = (*rng.pick(places)).clone();
    let m = laid.width();
    match rng.below(8) {
        // an offset
        0 => {
            let i = rng.below(m);
            cursor.offsets[i] = match rng.below(7) {
                0 => cursor.offsets[i] ^ 1,
                1 => cursor.offsets[i] + 2,
                2 => cursor.offsets[i].wrapping_sub(2),
                3 => rng.next() % (laid.bits() as u64 + 2),
                4 => laid.bits() as u64 + rng.next() % 9,
                5 => *rng.pick(&[1 << 32, 1 << 61, 1 << 63, u64::MAX, u64::MAX - 1]),
                _ => 0,
            };
        }
        // an unused offset
        1 => {
            let i = if m < 256 { rng.between(m, 255) } else { rng.below(256) };
            cursor.offsets[i] = *rng.pick(&[1, 2, u64::MAX]);
        }
        // a state
        2 => cursor.state = *rng.pick(&[0, 1, 2, 3, 1 << 32, u64::MAX]),
        // two prefixes mixed
        3 | 4 => {
            let other = (*rng.pick(places)).clone();
            let d = rng.below(m + 1);
            cursor.offsets[d..].copy_from_slice(&other.offsets[d..]);
        }
        // a record's other edge
        5 => {
            let i = rng.below(m);
            cursor.offsets[i] ^= 1;
        }
        6 => cursor.offsets = (0..256).map(|_| rng.next() % (laid.bits() as u64 + 1)).collect(),
        // none
        _ => (),
    }
    cursor
}
