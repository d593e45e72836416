//! The tests: what each round does.

use super::*;
use crate::plain::{self, key_len, Answer, Laid, Set};

/// Pack, open, ask, walk.
pub fn shapes<S: Subject>(rng: &mut Rng) {
    let width = random_width(rng);
    let most = if rng.one_in(10) { 1_500 } else { 120 };
    let set = random_set(rng, width, most.min(80_000 / width));
    check_set::<S>(rng, &set, 12, 20);
}

pub fn check_set<S: Subject>(rng: &mut Rng, set: &Set, times: usize, damage: usize) -> Laid {
    let bytes = check_pack::<S>(rng, set.width as u64, &batch_of(set)).expect("a small set has an encoding");
    let laid = check_bytes::<S>(rng, &bytes, times).expect("an encoding is read");
    assert_eq!(laid.set, *set, "the reference reads what it wrote");
    check_walk::<S>(rng, &laid, damage);
    laid
}

pub fn every_width<S: Subject>(rng: &mut Rng) {
    for width in 1..=256 {
        let set = random_set(rng, width, 12);
        check_set::<S>(rng, &set, 3, 3);
    }
    for width in 1..=11 {
        let set = full_set(width);
        check_set::<S>(rng, &set, 10, 10);
    }
}

pub fn batches<S: Subject>(rng: &mut Rng) {
    let width = random_width(rng);
    let set = random_set(rng, width, 40);
    let (width, batch) = damaged_batch(rng, &set);
    check_pack::<S>(rng, width, &batch);
}

pub fn encodings<S: Subject>(rng: &mut Rng) {
    let width = if rng.one_in(4) { random_width(rng) } else { rng.between(1, 24) };
    let laid = random_set(rng, width, 40).lay();
    let bytes = damaged(rng, &laid);
    let _ = check_bytes::<S>(rng, &bytes, 2);
}

/// Cut at every place, every byte changed in many ways, bytes behind.
pub fn everywhere<S: Subject>(rng: &mut Rng) {
    let width = *rng.pick(&[1, 3, 8, 9, 17]);
    let bytes = random_set(rng, width, 12).lay().encode();
    for n in 0..bytes.len() {
        assert_eq!(check_bytes::<S>(rng, &bytes[..n], 1).err(), Some(1), "cut at {n}");
    }
    for i in 0..bytes.len() {
        let mut values: Vec<u8> = (0..8).map(|bit| bytes[i] ^ (1 << bit)).collect();
        values.extend([0, 255, bytes[i].wrapping_add(1), bytes[i].wrapping_sub(1), rng.next() as u8]);
        for value in values {
            let mut other = bytes.clone();
            other[i] = value;
            let _ = check_bytes::<S>(rng, &other, 1);
        }
    }
    for n in 1..5 {
        let mut other = bytes.clone();
        other.extend(rng.bytes(n));
        assert_eq!(check_bytes::<S>(rng, &other, 1).err(), Some(6));
    }
}

pub fn any_bytes<S: Subject>(rng: &mut Rng) {
    let n = rng.below(60);
    let mut bytes = rng.bytes(n);
    // heads that are right, so far
    for (at, value) in [(0, 1), (1, 0), (2, 2), (3, 0), (5, 2), (6, 0), (7, 4), (12, 3)] {
        if at < bytes.len() && !rng.one_in(20) {
            bytes[at] = value;
        }
    }
    let _ = check_bytes::<S>(rng, &bytes, 1);
}

pub fn walks<S: Subject>(rng: &mut Rng) {
    let width = random_width(rng);
    let laid = random_set(rng, width, 40).lay();
    check_walk::<S>(rng, &laid, 150);
}

pub fn joins<S: Subject>(rng: &mut Rng) {
    let [a, b] = any_operands(rng, 10);
    check_join::<S>(rng, &a.lay(), &b.lay());
}

/// Operands of just so many edge bits or bytes that a join begins to use tables or larger rooms.
pub fn join_limits<S: Subject>(rng: &mut Rng) {
    for width in [9, 33, 100] {
        // of a split, of a difference, of a union
        for bits in [8 * width + 64, 8 * width + 256, 16 * width + 256] {
            for records in bits / 2 - 2..=bits / 2 + 2 {
                let first = rng.between(width, records - width);
                let [a, b] = [first, records - first].map(|records| set_with_records(rng, width, records).lay());
                assert_eq!(a.bits() + b.bits(), 2 * records);
                check_join::<S>(rng, &a, &b);
                check_join_weighted::<S>(rng, &a, &b);
                check_split::<S>(rng, &a, &b);
            }
            // a set twice
            for records in bits / 4 - 1..=bits / 4 + 1 {
                let laid = set_with_records(rng, width, records).lay();
                assert_eq!(2 * laid.bits(), 4 * records);
                check_join::<S>(rng, &laid, &laid);
                check_split::<S>(rng, &laid, &laid);
            }
        }
    }
    let length = |width: usize, bits: usize| 24 + 4 * width + bits.div_ceil(8) + 8 * bits.div_ceil(65_536) + 2 * bits.div_ceil(512);
    for (width, limit) in [(12, 512), (60, 512), (17, 2_048), (64, 2_048), (20, 16_384), (256, 16_384)] {
        let bits = (0..).step_by(2).take_while(|bits| length(width, *bits) <= limit).last().unwrap();
        let [below, above] = [bits, bits + 2].map(|bits| set_with_records(rng, width, bits / 2).lay());
        assert!(below.encode().len() <= limit && limit < above.encode().len());
        check_join::<S>(rng, &below, &below);
        check_join::<S>(rng, &below, &above);
        check_join::<S>(rng, &above, &below);
        check_join::<S>(rng, &above, &above);
        check_join_weighted::<S>(rng, &below, &below);
        check_join_weighted::<S>(rng, &below, &above);
        check_join_weighted::<S>(rng, &above, &below);
        check_split::<S>(rng, &below, &below);
        check_split::<S>(rng, &below, &above);
        check_split::<S>(rng, &above, &above);
        for whole in [&below, &above] {
            let part = random_part(rng, &whole.set, 2).lay();
            check_split::<S>(rng, whole, &part);
        }
    }
}

/// So many keys that share their first bits and are then numbered: behind that each level has a record for each, of one edge.
fn numbered(rng: &mut Rng, width: usize, shared: usize, n: usize) -> Set {
    let (first, digits) = (random_key(rng, width), n.next_power_of_two().ilog2() as usize);
    let keys = (0..n).map(|number| {
        let mut key = random_tail(rng, &first, width, shared);
        for d in 0..digits {
            if plain::bit(&key, shared + d) != (number >> (digits - 1 - d) & 1 == 1) {
                flip(&mut key, shared + d);
            }
        }
        key
    });
    Set::new(width, keys)
}

/// A few keys more: each gives a second edge to a record at this place of a block of sixteen.
fn branched(rng: &mut Rng, set: &Set, place: usize) -> Set {
    let (mut set, mut from) = (set.clone(), 0);
    for _ in 0..rng.between(1, 3) {
        let laid = set.clone().lay();
        let single = |i: &usize| i % 16 == place && laid.edges[2 * i] != laid.edges[2 * i + 1];
        let singles: Vec<usize> = (from..laid.bits() / 2).filter(single).collect();
        if singles.is_empty() {
            break;
        }
        let i = *rng.pick(&singles);
        let d = laid.ends.iter().position(|end| 2 * i < *end).unwrap();
        let start = if d == 0 { 0 } else { laid.ends[d - 1] / 2 };
        let (prefix, edges) = set.level(d).into_iter().nth(i - start).unwrap();
        let mut key = random_tail(rng, &prefix, set.width, d);
        if plain::bit(&key, d) == edges[1] {
            flip(&mut key, d);
        }
        set.keys.insert(key);
        // the records so far keep their places
        from = i + 1;
    }
    set
}

/// Each key in the first of two sets, in the second or in both.
fn parted(rng: &mut Rng, set: &Set) -> [Laid; 2] {
    let mut sets = [(); 2].map(|()| Set::new(set.width, []));
    for key in &set.keys {
        let (one, only) = (rng.below(2), !rng.one_in(3));
        sets[one].keys.insert(key.clone());
        if !only {
            sets[1 - one].keys.insert(key.clone());
        }
    }
    sets.map(Set::lay)
}

/// Long runs of records of one edge, and a few of two at each place of a block of sixteen: levels of about one, two and three
/// blocks, which end inside blocks, between them and beside.
pub fn block_limits<S: Subject>(rng: &mut Rng) {
    for width in [9, 32, 255, 256] {
        for n in [15, 16, 17, 31, 32, 33, 47, 48, 49] {
            for place in 0..16 {
                let shared = rng.below((width - 7).min(16));
                let set = numbered(rng, width, shared, n);
                for set in [branched(rng, &set, place), set] {
                    let [a, b] = parted(rng, &set);
                    check_join::<S>(rng, &a, &b);
                    check_split::<S>(rng, &a, &b);
                    check_difference_list::<S>(rng, &a, &b);
                }
            }
        }
    }
}

/// An edge moved to the record beside it leaves an empty record and every number right: at each place of a word and of a
/// sub-block, and in the bytes behind the last whole word.
pub fn emptied<S: Subject>(rng: &mut Rng) {
    for records in (12..330).step_by(3) {
        let laid = set_with_records(rng, 9, records).lay();
        let single = |i: usize| laid.edges[2 * i] != laid.edges[2 * i + 1];
        for i in 0..records - 1 {
            if !single(i) || !single(i + 1) || laid.ends.contains(&(2 * i + 2)) {
                continue;
            }
            for moved in [[true, true, false, false], [false, false, true, true]] {
                let mut edges = laid.edges.clone();
                edges[2 * i..2 * i + 4].copy_from_slice(&moved);
                let (blocks, sub_blocks) = plain::index_bodies(&edges);
                let packed = plain::pack_bits(&edges);
                let bytes = plain::fields(9, laid.count(), &laid.ends, &packed, &blocks, &sub_blocks);
                assert_eq!(plain::read(&bytes).err(), Some(7));
                assert_eq!(S::open(&bytes).err(), Some(7), "record {i} of {records} and the next");
            }
        }
    }
}

/// Every member found by its index, and its index by it.
pub fn check_members<S: Subject>(laid: &Laid) {
    let bytes = laid.encode();
    let (opened, _) = S::open(&bytes).unwrap();
    let mut key = vec![0; key_len(laid.width())];
    for (i, member) in laid.set.keys.iter().enumerate() {
        let answer = S::ask_opened(&opened, &Question::KeyAt(i as u64), &mut key);
        assert_eq!((answer, &key), (Ok(Some(key.len() as u64)), member), "key {i}");
        assert_eq!(S::ask_opened(&opened, &Question::IndexOf(member.clone()), &mut []), Ok(Some(i as u64)));
    }
}

/// The offsets at which a byte, a word, a sub-block or a block ends, and those beside.
const RANK_LIMITS: [u64; 14] = [0, 1, 7, 8, 9, 63, 64, 65, 511, 512, 513, 65_535, 65_536, 65_537];

/// The rank at every offset from 0 to the end, which is how many set bits were before it, and at none above.
fn check_ranks<S: Subject>(laid: &Laid) {
    let bytes = laid.encode();
    let (opened, [_, n, b]) = S::open(&bytes).unwrap();
    assert_eq!(b, laid.bits() as u64);
    // a check of many bytes is made at few offsets
    let checked = |offset: u64| bytes.len() < 400 || RANK_LIMITS.contains(&offset) || offset.abs_diff(b) <= 1;
    let check = |offset: u64, right: Answer| {
        let question = Question::Rank(offset);
        assert_eq!(S::ask_opened(&opened, &question, &mut []), right, "rank {offset} of {b}");
        if checked(offset) {
            assert_eq!(S::ask(&bytes, &question, &mut []), right, "rank {offset} of {b}, with the check");
        }
    };
    let mut before = 0;
    for (offset, set) in laid.edges.iter().enumerate() {
        check(offset as u64, Ok(Some(before)));
        before += u64::from(*set);
    }
    check(b, Ok(Some(before)));
    // one for each record but the first, and one for each member
    assert_eq!(before + u64::from(n > 0), b / 2 + n);
    for above in [b + 1, b + 2, b + 7, b + 8, b + 512, b + 65_536, 1 << 32, (1 << 32) + b, 1 << 63, (1 << 63) + b, u64::MAX] {
        check(above, Err(9));
    }
}

/// The edge at offset o leads to record rank(o + 1), and a member's index is that of its last edge, less the set bits of the levels
/// above, less 1: the ranks against the walk, both the subject's own.
fn check_edges<S: Subject>(laid: &Laid) {
    let bytes = laid.encode();
    let (opened, [width, n, _]) = S::open(&bytes).unwrap();
    let rank = |offset: u64| S::ask_opened(&opened, &Question::Rank(offset), &mut []).unwrap().unwrap();
    let (mut state, mut offsets, mut key) = (0, vec![0; 256], vec![0; key_len(laid.width())]);
    let last = width as usize - 1;
    let above = if last == 0 { 0 } else { laid.ends[last - 1] as u64 };
    for index in 0..n {
        state = S::advance_opened(&opened, state, &mut offsets, &mut key).1;
        for d in 0..last {
            assert_eq!(rank(offsets[d] + 1), offsets[d + 1] / 2, "level {d} of member {index}");
        }
        assert_eq!(rank(offsets[last] + 1) - rank(above) - 1, index);
    }
}

/// Empty, small and full sets, and where a byte, or a later sub-block or block, is just filled.
pub fn ranks<S: Subject>(rng: &mut Rng) {
    for width in WIDTHS {
        let mut sets = vec![Set::new(width, []), Set::new(width, [random_key(rng, width)])];
        sets.extend((0..3).map(|_| random_set(rng, width, 60)));
        if width <= 9 {
            sets.push(full_set(width));
        }
        for laid in sets.into_iter().map(Set::lay) {
            check_ranks::<S>(&laid);
            check_edges::<S>(&laid);
        }
    }
    for bits in (24..80).step_by(2).chain([1_022, 1_024, 1_026, 131_072, 131_074]) {
        let width = if bits < 5_000 { 12 } else { *rng.pick(&[18, 256]) };
        let laid = set_with_records(rng, width, bits / 2).lay();
        assert_eq!(laid.bits(), bits);
        check_ranks::<S>(&laid);
        check_edges::<S>(&laid);
    }
}

/// All keys that go on behind one prefix: a record for each of its bits, and as many as so many other bits can have.
fn set_behind(rng: &mut Rng, prefix_bits: usize, others: usize) -> Set {
    let (width, first) = (prefix_bits + others, rng.below(1 << prefix_bits) << others);
    Set::new(width, (first..first + (1 << others)).map(|number| number_key(width, number)))
}

/// Sets of many widths with so many edge bits: of few keys, of many, and of all behind one prefix.
fn sets_with_bits(rng: &mut Rng, bits: usize) -> Vec<Set> {
    let records = bits / 2;
    match bits {
        0 => WIDTHS.map(|width| Set::new(width, [])).to_vec(),
        2 => [&[0x00][..], &[0x80], &[0x00, 0x80]].map(|keys| Set::new(1, keys.iter().map(|key| vec![*key]))).to_vec(),
        plain::MAX_EDGES => vec![half_set(rng.below(2)), set_with_records(rng, 64, records), set_with_records(rng, 256, records)],
        _ => {
            let others = (records + 1).ilog2() as usize;
            let mut sets = vec![set_behind(rng, records + 1 - (1 << others), others)];
            let widths = if bits < 5_000 { [9, 12, 17, 64, 129, records.min(256)] } else { [17, 18, 33, 64, 129, 256] };
            sets.extend(widths.map(|width| set_with_records(rng, width, records)));
            sets
        }
    }
}

/// Where the last sub-block or block is filled, and one record before and behind; no edges, the fewest and the most.
pub fn rank_limits<S: Subject>(rng: &mut Rng) {
    for bits in [0, 2, 510, 512, 514, 65_534, 65_536, 65_538, plain::MAX_EDGES] {
        for set in sets_with_bits(rng, bits) {
            let laid = set.lay();
            assert_eq!(laid.bits(), bits);
            check_ranks::<S>(&laid);
            if bits < plain::MAX_EDGES {
                check_edges::<S>(&laid);
            }
        }
    }
}

/// Levels of just so many records that a search begins elsewhere or a level is counted otherwise, and levels of many sub-blocks
/// and blocks: all of one size, growing, and with most keys behind one prefix.
pub fn search_limits<S: Subject>(rng: &mut Rng) {
    for n in [63, 64, 65, 126, 127, 128, 129, 130, 131, 255, 257, 700, 3_000] {
        for width in [13, 24, 61] {
            let spread = (0..n).map(|i| number_key(width, (i << (width.min(40) - 1)) / n)).collect::<Vec<_>>();
            let dense = (0..n).map(|i| number_key(width, i)).collect::<Vec<_>>();
            let uneven = (0..n).map(|i| if i % 9 == 0 { random_key(rng, width) } else { number_key(width, i) }).collect::<Vec<_>>();
            for keys in [spread, dense, uneven] {
                let set = Set::new(width, keys);
                let bytes = check_pack::<S>(rng, width as u64, &batch_of(&set)).unwrap();
                let laid = set.lay();
                check_read::<S>(rng, &bytes, &Ok(laid.clone()), 4);
                check_members::<S>(&laid);
                check_keys::<S>(&laid);
            }
        }
    }
}

/// Batches of just so many bytes that pack takes a larger room; and neighbours that differ first in each bit.
pub fn batch_limits<S: Subject>(rng: &mut Rng) {
    for width in [8, 9, 24, 32, 64, 65, 200, 256] {
        let t = key_len(width);
        for n in 1_024 / t - 1..=1_024 / t + 2 {
            let mut keys: Vec<_> = (0..n).map(|_| random_key(rng, width)).collect();
            keys.sort();
            check_pack::<S>(rng, width as u64, &keys.concat());
        }
    }
    for width in [7, 55, 56, 57, 63, 64, 65, 72, 127, 128, 129, 193, 255, 256] {
        for d in 0..width {
            let key = random_key(rng, width);
            let mut other = random_tail(rng, &key, width, d);
            if plain::bit(&other, d) == plain::bit(&key, d) {
                flip(&mut other, d);
            }
            for keys in [[&key, &other], [&other, &key], [&key, &key]] {
                check_pack::<S>(rng, width as u64, &[&keys[0][..], &keys[1][..]].concat());
            }
        }
    }
}

/// Where a sub-block, a block or a byte is just filled.
pub fn boundaries<S: Subject>(rng: &mut Rng) {
    for bits in [510, 512, 514, 1_022, 1_024, 1_026, 4_096, 65_024, 65_534, 65_536, 65_538, 66_048, 131_072, 131_074] {
        let widths: &[usize] = if bits < 5_000 { &[12, 17, 64, 255] } else { &[18, 33, 256] };
        for width in widths {
            let set = set_with_records(rng, *width, bits / 2);
            let laid = set.clone().lay();
            assert_eq!(laid.bits(), bits);
            if bits < 5_000 {
                check_set::<S>(rng, &set, 10, 20);
                continue;
            }
            let bytes = check_pack::<S>(rng, *width as u64, &batch_of(&set)).unwrap();
            check_read::<S>(rng, &bytes, &Ok(laid.clone()), 12);
            check_members::<S>(&laid);
            check_keys::<S>(&laid);
            let part = random_part(rng, &set, 2).lay();
            check_join::<S>(rng, &laid, &part);
        }
    }
}

/// No set has an odd number of edge bits: well-formed fields with one are refused, also where an index entry more is started.
pub fn odd_bits<S: Subject>(rng: &mut Rng) {
    for bits in [1, 3, 511, 513, 65_535, 65_537, 131_073, 524_279] {
        let edges = vec![true; bits];
        let (blocks, sub_blocks) = plain::index_bodies(&edges);
        for ends in [[2, 6, bits], [bits, bits, bits], [0, 0, bits]] {
            let count = rng.below(bits + 1);
            let bytes = plain::fields(3, count, &ends, &plain::pack_bits(&edges), &blocks, &sub_blocks);
            assert_eq!(check_bytes::<S>(rng, &bytes, 1).err(), Some(7), "{bits} edge bits");
        }
    }
}

/// The whole walk, keys only.
pub fn check_keys<S: Subject>(laid: &Laid) {
    let bytes = laid.encode();
    let (opened, _) = S::open(&bytes).unwrap();
    let (mut state, mut offsets, mut key) = (0, vec![0; 256], vec![0; key_len(laid.width())]);
    for member in &laid.set.keys {
        let (answer, next) = S::advance_opened(&opened, state, &mut offsets, &mut key);
        assert_eq!((answer, next, &key), (Ok(Some(key.len() as u64)), 1, member));
        state = next;
    }
    assert_eq!(S::advance_opened(&opened, state, &mut offsets, &mut []), (Ok(Some(0)), 2));
    assert_eq!(offsets, vec![0; 256]);
}

/// Edge sequences of 524,280 bits, and of more.
pub fn at_the_limit<S: Subject>(rng: &mut Rng) {
    for width in [19, 256] {
        let set = set_with_records(rng, width, 262_140);
        let laid = set.clone().lay();
        assert_eq!(laid.bits(), plain::MAX_EDGES);
        let bytes = laid.encode();
        let batch = batch_of(&set);
        check_writes(rng, &|| format!("pack to the limit, width {width}"), &Ok(bytes.clone()), |out| {
            S::pack(width as u64, &batch, out)
        });
        check_read::<S>(rng, &bytes, &Ok(laid.clone()), 20);
        check_members::<S>(&laid);
        check_keys::<S>(&laid);
        // one record more
        let more = set_with_records(rng, width, 262_141);
        assert_eq!(check_pack::<S>(rng, width as u64, &batch_of(&more)), None);
        // the union passes the limit, the difference does not
        for records in [150_000, 262_140] {
            let other = set_with_records(rng, width, records).lay();
            check_join::<S>(rng, &laid, &other);
        }
        let part = random_part(rng, &set, 3).lay();
        check_join::<S>(rng, &laid, &part);
        check_join::<S>(rng, &laid, &laid);
    }
    // two halves that share only their root: the union's records and its members fill the queue of a join
    let halves = [0, 1].map(|first| half_set(first).lay());
    assert_eq!(halves.each_ref().map(Laid::bits), [plain::MAX_EDGES; 2]);
    let [x, y] = halves.map(|laid| laid.encode());
    for (a, b) in [(&x, &y), (&y, &x)] {
        check_writes(rng, &|| "union of two halves".to_string(), &Err(5), |out| S::union(a, b, out));
        check_writes(rng, &|| "difference of two halves".to_string(), &Ok(a.clone()), |out| S::difference(a, b, out));
    }
    // the widest full sets
    let full = full_set(17);
    check_pack::<S>(rng, 17, &batch_of(&full));
    let bytes = full.clone().lay().encode();
    check_read::<S>(rng, &bytes, &Ok(full.lay()), 10);
    let too_many: Vec<u8> = (0..1 << 18).flat_map(|number| number_key(18, number)).collect();
    assert_eq!(S::pack(18, &too_many, &mut []), Err(5));
    // far more keys than an encoding can have, and one key many times
    let keys: Vec<u8> = (0..700_000).flat_map(|number| number_key(40, 1_000 * number)).collect();
    assert_eq!(S::pack(40, &keys, &mut []), Err(5));
    let key = random_key(rng, 255);
    let batch = key.repeat(30_000);
    let one = Set::new(255, [key]).lay().encode();
    check_writes(rng, &|| "pack of equal keys".to_string(), &Ok(one), |out| S::pack(255, &batch, out));
}

/// Damage beyond the first block.
pub fn large_damaged<S: Subject>(rng: &mut Rng) {
    let (width, records) = *rng.pick(&[(17, 70_000), (20, 40_000), (64, 36_000), (200, 33_000)]);
    let laid = set_with_records(rng, width, records).lay();
    for _ in 0..2 {
        let mut bytes = damaged(rng, &laid);
        if rng.one_in(3) {
            // an entry of the index, in the last block
            bytes = laid.encode();
            let sub_blocks = laid.bits().div_ceil(plain::SUB_BLOCK);
            let back = 2 * rng.between(1, sub_blocks - 128);
            let at = bytes.len() - back;
            nudge(rng, &mut bytes[at..at + 2]);
        }
        let _ = check_bytes::<S>(rng, &bytes, 2);
    }
    // sub-blocks counted from the start of the sequence
    let (blocks, mut sub_blocks) = plain::index_bodies(&laid.edges);
    let first = u16::from_be_bytes([blocks[14], blocks[15]]);
    for entry in sub_blocks[256..].chunks_mut(2) {
        let wrong = u16::from_be_bytes([entry[0], entry[1]]).wrapping_add(first);
        entry.copy_from_slice(&wrong.to_be_bytes());
    }
    let bytes = plain::fields(width, laid.count(), &laid.ends, &plain::pack_bits(&laid.edges), &blocks, &sub_blocks);
    assert_eq!(check_bytes::<S>(rng, &bytes, 1).err(), Some(7));
}
