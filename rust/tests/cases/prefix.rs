//! Prefixes: the call compared with the reference, and with what the subject's other calls say of the same members.

use super::*;
use crate::plain::{self, key_len, Key, Laid, PrefixRange, Set};

/// A prefix as it is given: how many bits, and bytes, which may not fit.
#[derive(Clone, Debug)]
pub struct Prefix {
    pub bits: u64,
    pub bytes: Vec<u8>,
}

impl Prefix {
    /// The first p bits of a key.
    fn of(key: &[u8], p: usize) -> Prefix {
        Prefix { bits: p as u64, bytes: plain::prefix(key, p) }
    }

    fn with(&self, bytes: Vec<u8>) -> Prefix {
        Prefix { bits: self.bits, bytes }
    }

    /// The same bits and one more.
    fn and(&self, bit: bool) -> Prefix {
        let p = self.bits as usize;
        let mut bytes = self.bytes.clone();
        bytes.resize(key_len(p + 1), 0);
        if bit {
            plain::set_bit(&mut bytes, p);
        }
        Prefix { bits: self.bits + 1, bytes }
    }

    /// Whether a key begins with it.
    fn begins(&self, key: &[u8]) -> bool {
        plain::prefix(key, self.bits as usize) == self.bytes
    }
}

/// How many bits a prefix may have: at both ends, around bytes, and in the middle.
fn lengths(width: usize) -> Vec<usize> {
    let mut lengths = vec![0, 1, 7, 8, 9, 15, 16, 17, width / 2, width - 1, width];
    lengths.retain(|p| *p <= width);
    lengths.sort();
    lengths.dedup();
    lengths
}

/// How many bits none may have: just above the width, and where a number of fewer bits would be within it.
fn lengths_beyond(width: usize) -> Vec<u64> {
    let m = width as u64;
    let mut lengths = vec![m + 1, m + 2, m + 7, m + 8, 9, 255, 257, 264, 512, (1 << 16) + m];
    lengths.extend([1 << 32, (1 << 32) + 1, (1 << 32) + m, 1 << 61, 1 << 63, (1 << 63) + m, u64::MAX - 7, u64::MAX - 6, u64::MAX]);
    lengths.retain(|p| *p > m);
    lengths
}

/// Prefixes of so many bits that fit: of members and beside them, of keys that are absent, and at both ends.
fn fitting(rng: &mut Rng, laid: &Laid, p: usize, times: usize) -> Vec<Prefix> {
    let mut keys = keys_near(rng, laid, times);
    keys.retain(|key| key.len() == key_len(laid.width()));
    let members = keys.iter().filter(|key| laid.set.keys.contains(*key));
    let beside: Vec<Key> = members.map(|member| after(&plain::prefix(member, p), p)).collect();
    keys.iter().chain(&beside).map(|key| Prefix::of(key, p)).collect()
}

/// The same bits in bytes that do not fit: of another length, with each unused bit set, and both.
fn unfitting(rng: &mut Rng, prefix: &Prefix) -> Vec<Prefix> {
    let bytes = &prefix.bytes;
    let mut wrong = vec![[&bytes[..], &[0]].concat(), [&bytes[..], &rng.bytes(1)].concat(), [&bytes[..], &[0; 40]].concat()];
    if let Some((_, shorter)) = bytes.split_last() {
        wrong.extend([Vec::new(), shorter.to_vec()]);
    }
    for i in prefix.bits as usize..8 * bytes.len() {
        let mut unused = bytes.clone();
        plain::set_bit(&mut unused, i);
        wrong.extend([[&unused[..], &[0]].concat(), unused]);
    }
    wrong.into_iter().map(|bytes| prefix.with(bytes)).collect()
}

/// Prefixes of more bits than a key has: in the bytes that they take, in those of a part of the bits, and in others.
fn beyond(rng: &mut Rng, laid: &Laid, prefix_bits: u64) -> Vec<Prefix> {
    let width = laid.width();
    let key = laid.set.keys.first().cloned().unwrap_or_else(|| random_key(rng, width));
    let mut all = vec![Vec::new(), vec![0], key.clone(), [&key[..], &[0xFF]].concat()];
    for low in [8, 16, 32, 63].map(|kept| prefix_bits % (1 << kept)) {
        if low <= width as u64 {
            all.push(plain::prefix(&key, low as usize));
        }
    }
    if prefix_bits <= 600 {
        let taken = key_len(prefix_bits as usize);
        all.extend([vec![0; taken], vec![0xFF; taken]]);
    }
    all.into_iter().map(|bytes| Prefix { bits: prefix_bits, bytes }).collect()
}

/// Prefixes of every kind for each of these lengths, and of every length that none may have.
fn prefixes(rng: &mut Rng, laid: &Laid, lengths: impl IntoIterator<Item = usize>, times: usize) -> Vec<Prefix> {
    let mut all = Vec::new();
    for p in lengths {
        let fits = fitting(rng, laid, p, times);
        for prefix in [&fits[0], &fits[1], rng.pick(&fits)] {
            all.extend(unfitting(rng, prefix));
        }
        all.extend(fits);
    }
    for prefix_bits in lengths_beyond(laid.width()) {
        all.extend(beyond(rng, laid, prefix_bits));
    }
    all
}

/// A few of them.
pub fn some_prefixes(rng: &mut Rng, laid: &Laid, times: usize) -> Vec<Prefix> {
    let mut some = vec![Prefix { bits: 0, bytes: Vec::new() }];
    for _ in 0..times {
        let p = if rng.one_in(2) { *rng.pick(&lengths(laid.width())) } else { rng.below(laid.width() + 1) };
        let prefix_bits = *rng.pick(&lengths_beyond(laid.width()));
        let (fits, many) = (fitting(rng, laid, p, 1), beyond(rng, laid, prefix_bits));
        let wrong = unfitting(rng, &fits[0]);
        some.extend([&fits, &fits, &fits, &wrong, &many].map(|prefixes| rng.pick(prefixes).clone()));
    }
    some
}

// ---- Against the reference

/// One prefix, behind the check and, unless the check is dear, with it.
pub fn check_prefix<S: Subject>(bytes: &[u8], opened: &S::Opened<'_>, laid: &Laid, prefix: &Prefix, checked: bool) {
    let (right, kept) = (laid.prefix(prefix.bits, &prefix.bytes), prefix.bytes.clone());
    let what = || format!("{prefix:X?} of {}", shown(bytes));
    assert_eq!(S::prefix_opened(opened, prefix.bits, &prefix.bytes), right, "{}", what());
    if checked {
        assert_eq!(S::prefix(bytes, prefix.bits, &prefix.bytes), right, "{}, with the check", what());
    }
    assert_eq!(prefix.bytes, kept, "a question changed the prefix");
}

fn check_all<S: Subject>(laid: &Laid, prefixes: &[Prefix]) {
    let bytes = laid.encode();
    let (kept, (opened, _)) = (bytes.clone(), S::open(&bytes).expect("an encoding opens"));
    for (i, prefix) in prefixes.iter().enumerate() {
        check_prefix::<S>(&bytes, &opened, laid, prefix, bytes.len() < 2_000 || i % (bytes.len() / 1_000) == 0);
    }
    assert_eq!(bytes, kept, "a question changed the encoding");
}

pub fn prefix_shapes<S: Subject>(rng: &mut Rng) {
    let width = random_width(rng);
    let most = if rng.one_in(10) { 1_500 } else { 120 };
    let laid = random_set(rng, width, most.min(80_000 / width)).lay();
    check_all::<S>(&laid, &prefixes(rng, &laid, lengths(width), 3));
}

/// Every prefix that there is of a small width, of every length.
pub fn every_prefix<S: Subject>(rng: &mut Rng) {
    for width in 1..=9 {
        let mut sets = vec![Set::new(width, []), Set::new(width, [random_key(rng, width)]), full_set(width)];
        sets.extend((0..4).map(|_| random_set(rng, width, 1 << width)));
        for set in sets {
            let laid = set.lay();
            let all: Vec<Prefix> = (0..=width)
                .flat_map(|p| (0..1 << p).map(move |number| Prefix { bits: p as u64, bytes: number_key(p, number) }))
                .collect();
            check_all::<S>(&laid, &all);
        }
    }
}

/// Every length, of the least and the greatest widths and those around a byte: empty, one key, full, and others.
fn every_length<S: Subject>(rng: &mut Rng) {
    for width in [1, 7, 8, 9, 255, 256] {
        let mut sets = vec![Set::new(width, []), Set::new(width, [random_key(rng, width)])];
        sets.push(Set::new(width, [vec![0; key_len(width)], trimmed(vec![0xFF; key_len(width)], width)]));
        if width <= 9 {
            sets.push(full_set(width));
        }
        sets.extend(operands(rng, width, 60));
        for set in sets {
            let laid = set.lay();
            check_all::<S>(&laid, &prefixes(rng, &laid, 0..=width, 1));
            check_laws::<S>(rng, &laid);
        }
    }
}

/// Every length where a sub-block or a block is just filled, or the edge sequence is as long as it can be: the last prefix of each
/// level ends at the last offset.
fn filled_blocks<S: Subject>(rng: &mut Rng) {
    for bits in [510, 512, 514, 1_022, 1_024, 1_026, 65_534, 65_536, 65_538, 131_070, 131_072, 131_074, 524_278, 524_280] {
        let widths: &[usize] = if bits < 5_000 { &[12, 17, 64, 255] } else { &[18, 33, 256] };
        for width in widths.iter().filter(|width| **width > 18 || bits < 1 << **width) {
            let laid = set_with_records(rng, *width, bits / 2).lay();
            assert_eq!(laid.bits(), bits);
            check_all::<S>(&laid, &prefixes(rng, &laid, lengths(*width), 2));
            let every: Vec<Prefix> = (0..=*width).flat_map(|p| fitting(rng, &laid, p, 0)).collect();
            check_all::<S>(&laid, &every);
            check_neighbours::<S>(rng, &laid, 10);
        }
    }
    // as many members as there can be
    let laid = half_set(rng.below(2)).lay();
    check_all::<S>(&laid, &(0..=19).flat_map(|p| fitting(rng, &laid, p, 1)).collect::<Vec<_>>());
    check_neighbours::<S>(rng, &laid, 10);
}

pub fn prefix_boundaries<S: Subject>(rng: &mut Rng) {
    every_length::<S>(rng);
    filled_blocks::<S>(rng);
}

// ---- Refusals

/// Every choice of faults: the refusal of the first in order. The encoding's own comes before them, whichever it is.
pub fn prefix_refusals<S: Subject>(rng: &mut Rng) {
    for width in [1, 3, 8, 15, 16, 19, 255, 256] {
        let laid = random_set(rng, width, 12).lay();
        let mut encodings = vec![(None, laid.encode())];
        for (refusal, damage) in DAMAGES {
            let mut bytes = laid.encode();
            damage(&mut bytes);
            encodings.push((Some(refusal), bytes));
        }
        for (refusal, bytes) in &encodings {
            let opened = S::open(bytes).map(|(opened, _)| opened);
            assert_eq!(opened.as_ref().err(), refusal.as_ref());
            for faults in (0..8).map(Faults) {
                let right = refusal.or(faults.first(&[9, 8, 8]));
                for prefix in faulty(rng, width, &faults) {
                    let what = || format!("{prefix:X?} with faults {:03b} of {}", faults.0, shown(bytes));
                    assert_eq!(S::prefix(bytes, prefix.bits, &prefix.bytes).err(), right, "{}", what());
                    if let Ok(opened) = &opened {
                        assert_eq!(S::prefix_opened(opened, prefix.bits, &prefix.bytes).err(), right, "{}", what());
                    }
                }
            }
        }
    }
}

/// Prefixes with these faults and no other: more bits than a key has, another length, an unused bit set.
fn faulty(rng: &mut Rng, width: usize, faults: &Faults) -> Vec<Prefix> {
    let numbers = if faults.has(0) { vec![width + 1, width + 2, width + 9, 260, 300] } else { lengths(width) };
    let mut prefixes = Vec::new();
    // whole bytes have no unused bit
    for p in numbers.into_iter().filter(|p| !faults.has(2) || p % 8 != 0) {
        let mut bytes = trimmed(rng.bytes(key_len(p)), p);
        if faults.has(2) {
            plain::set_bit(&mut bytes, rng.between(p, 8 * key_len(p) - 1));
        }
        // a byte less and a byte more in front, so that the unused bit stays in the last one
        let others = [bytes.get(1..).map(<[u8]>::to_vec), Some([&[0], &bytes[..]].concat())];
        let given = if faults.has(1) { others.into_iter().flatten().collect() } else { vec![bytes] };
        prefixes.extend(given.into_iter().map(|bytes| Prefix { bits: p as u64, bytes }));
    }
    assert!(!prefixes.is_empty());
    prefixes
}

// ---- Laws of the subject's own answers

/// What a question of a prefix that fits answers.
fn ranged<S: Subject>(opened: &S::Opened<'_>, prefix: &Prefix) -> PrefixRange {
    S::prefix_opened(opened, prefix.bits, &prefix.bytes).unwrap_or_else(|refusal| panic!("refused {refusal}: {prefix:X?}"))
}

/// The key of a member index.
fn member<S: Subject>(opened: &S::Opened<'_>, width: usize, index: u64) -> Key {
    let mut key = vec![0; key_len(width)];
    assert_eq!(S::ask_opened(opened, &Question::KeyAt(index), &mut key), Ok(Some(key.len() as u64)), "key {index}");
    key
}

pub fn prefix_laws<S: Subject>(rng: &mut Rng) {
    let width = random_width(rng);
    let laid = random_set(rng, width, 80).lay();
    check_laws::<S>(rng, &laid);
}

/// A range against the subject's other answers: none of them is the reference's.
fn check_laws<S: Subject>(rng: &mut Rng, laid: &Laid) {
    let bytes = laid.encode();
    let (opened, [width, n, _]) = S::open(&bytes).expect("an encoding opens");
    let width = width as usize;
    let members: Vec<Key> = (0..n).map(|index| member::<S>(&opened, width, index)).collect();
    for p in lengths(width) {
        for prefix in fitting(rng, laid, p, 2) {
            let what = || format!("{prefix:X?} of {}", shown(&bytes));
            let PrefixRange { first, count } = ranged::<S>(&opened, &prefix);
            // its indexes are those of the members that begin with it, and the members before them are smaller
            let indexes = first..first + count;
            for (index, key) in (0..).zip(&members) {
                assert_eq!(indexes.contains(&index), prefix.begins(key), "{}: member {index}", what());
                assert_eq!(index < first, plain::prefix(key, p) < prefix.bytes, "{}: member {index}", what());
            }
            assert!(first + count <= n, "{}", what());
            if p < width {
                // one bit more parts it in two
                let [low, high] = [false, true].map(|bit| ranged::<S>(&opened, &prefix.and(bit)));
                assert_eq!((low.first, high.first), (first, first + low.count), "{}", what());
                assert_eq!(low.count + high.count, count, "{}", what());
            } else {
                // all bits are a key
                let asked = |question: fn(Key) -> Question| S::ask_opened(&opened, &question(prefix.bytes.clone()), &mut []);
                assert_eq!(asked(Question::Contains), Ok((count == 1).then_some(1)), "{}", what());
                assert_eq!(asked(Question::IndexOf), Ok((count == 1).then_some(first)), "{}", what());
                assert_eq!(asked(Question::LowerBound), Ok((first < n).then_some(first)), "{}", what());
            }
        }
    }
    // all prefixes of a few bits in order: each begins where the one before it ends
    let few = width.min(5);
    let mut end = 0;
    for number in 0..1 << few {
        let range = ranged::<S>(&opened, &Prefix { bits: few as u64, bytes: number_key(few, number) });
        assert_eq!(range.first, end, "number {number} of {few} bits of {}", shown(&bytes));
        end += range.count;
    }
    assert_eq!(end, n, "all prefixes of {few} bits of {}", shown(&bytes));
}

/// The same where there are many members: those at both ends of a range, and those beside it.
fn check_neighbours<S: Subject>(rng: &mut Rng, laid: &Laid, times: usize) {
    let bytes = laid.encode();
    let (opened, [width, n, _]) = S::open(&bytes).expect("an encoding opens");
    let width = width as usize;
    for p in 0..=width {
        for prefix in fitting(rng, laid, p, times.min(300 / width)) {
            let what = || format!("{prefix:X?} of {}", shown(&bytes));
            let PrefixRange { first, count } = ranged::<S>(&opened, &prefix);
            let key = |index: u64| plain::prefix(&member::<S>(&opened, width, index), p);
            assert!(first == 0 || key(first - 1) < prefix.bytes, "{}: the member before", what());
            assert!(first + count == n || key(first + count) > prefix.bytes, "{}: the member behind", what());
            assert!(count == 0 || key(first) == prefix.bytes, "{}: the first member", what());
            assert!(count == 0 || key(first + count - 1) == prefix.bytes, "{}: the last member", what());
        }
    }
}

// ---- Examples: the members 000, 011 and 110

pub fn check_prefix_examples<S: Subject>() {
    let asked = |encoding: &[u8], prefix_bits: u64, bytes: &[u8]| {
        let answer = S::prefix(encoding, prefix_bits, bytes).map(|range| (range.first, range.count));
        if let Ok((opened, _)) = S::open(encoding) {
            assert_eq!(S::prefix_opened(&opened, prefix_bits, bytes).map(|range| (range.first, range.count)), answer);
        }
        answer
    };
    assert_eq!(asked(&P2, 0, &[]), Ok((0, 3)));
    assert_eq!((asked(&P2, 1, &[0x00]), asked(&P2, 1, &[0x80])), (Ok((0, 2)), Ok((2, 1))));
    assert_eq!([0x00, 0x40, 0x80, 0xC0].map(|byte| asked(&P2, 2, &[byte])), [Ok((0, 1)), Ok((1, 1)), Ok((2, 0)), Ok((2, 1))]);
    assert_eq!([0x60, 0xA0, 0xE0].map(|byte| asked(&P2, 3, &[byte])), [Ok((1, 1)), Ok((2, 0)), Ok((3, 0))]);
    assert_eq!((asked(&P2, 0, &[0]), asked(&P2, 1, &[]), asked(&P2, 1, &[0x40])), (Err(8), Err(8), Err(8)));
    assert_eq!(asked(&P2, 2, &[0x60]), Err(8));
    assert_eq!((asked(&P2, 4, &[0x60]), asked(&P2, 4, &[0x61]), asked(&P2, u64::MAX, &[])), (Err(9), Err(9), Err(9)));
    assert_eq!(asked(&P2, 4, &[0x61, 0x00]), Err(9));
    assert_eq!((asked(&P2[..47], 4, &[0x61]), asked(&[], 0, &[])), (Err(1), Err(1)));
    let empty = Set::new(3, []).lay().encode();
    assert_eq!((asked(&empty, 0, &[]), asked(&empty, 3, &[0x60])), (Ok((0, 0)), Ok((0, 0))));
    assert_eq!((asked(&empty, 3, &[0x61]), asked(&empty, 4, &[0x61])), (Err(8), Err(9)));
}
