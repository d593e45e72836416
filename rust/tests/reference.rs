//! The reference against document 01's examples and refusals, and against worked examples of prefixes, of splits and of weights.
//! Needs no library.

#[allow(dead_code)]
mod plain;

use plain::{pack, read, Account, Answer, Cursor, Laid, PrefixRange, RangeAnswer, Set, Walk, Weighed};

fn of(width: usize, keys: &[u8]) -> Laid {
    Set::new(width, keys.iter().map(|key| vec![*key])).lay()
}

fn hex(text: &str) -> Vec<u8> {
    text.split_whitespace().map(|byte| u8::from_str_radix(byte, 16).unwrap()).collect()
}

fn packed(width: u64, batch: &[u8]) -> Result<Vec<u8>, u64> {
    let mut out = vec![0; 70_000];
    let n = pack(width, batch, &mut out).0?.unwrap();
    out.truncate(n as usize);
    Ok(out)
}

fn p2() -> Laid {
    of(3, &[0x00, 0x60, 0xC0])
}

fn p2_bytes() -> Vec<u8> {
    hex("01 00 02 00 03 02 00 04 00 00 00 03 03 00 0C 00 00 00 02 00 00 00 06 00 00 00 0C 04 00 02 F6 60 05 00 08 00 00 00 00 00 00 00 00 06 00 02 00 00")
}

#[test]
fn p1() {
    let bytes = hex("01 00 02 00 03 02 00 04 00 00 00 00 03 00 0C 00 00 00 00 00 00 00 00 00 00 00 00 04 00 00 05 00 00 06 00 00");
    assert_eq!(bytes.len(), 36);
    assert_eq!(packed(3, &[]), Ok(bytes.clone()));
    assert_eq!(read(&bytes).map(|laid| (laid.width(), laid.count(), laid.bits())), Ok((3, 0, 0)));
}

#[test]
fn p2_to_p4() {
    let edges: String = p2().edges.iter().map(|set| if *set { '1' } else { '0' }).collect();
    assert_eq!(edges, "111101100110");
    assert_eq!(p2().encode(), p2_bytes());
    assert_eq!(packed(3, &[0x00, 0x60, 0xC0]), Ok(p2_bytes()));
    assert_eq!(read(&p2_bytes()), Ok(p2()));
    assert_eq!(p2().rank(10), Ok(Some(7)));
    assert_eq!(p2().index_of(&[0x60]), Ok(Some(1)));
    assert_eq!(p2().contains(&[0xA0]), Ok(None));
    assert!(!p2().edges[4]);
    assert_eq!(p2().contains(&[0xC0]), Ok(Some(1)));
}

#[test]
fn p5() {
    let both = of(1, &[0x00, 0x80]);
    assert_eq!((both.encode()[22], both.count()), (0xC0, 2));
    assert_eq!(of(1, &[0x80]).encode()[22], 0x40);
}

#[test]
fn p6_p7() {
    let union = plain::union(&of(3, &[0x00, 0x60]).set, &of(3, &[0x60, 0xC0]).set).unwrap();
    assert_eq!(union.lay().encode(), p2_bytes());
    let difference = plain::difference(&p2().set, &p2().set).unwrap();
    assert_eq!(Ok(difference.lay().encode()), packed(3, &[]));
    assert_eq!(plain::union(&p2().set, &of(4, &[]).set), Err(13));
}

#[test]
fn p8() {
    assert_eq!(packed(3, &[0x00, 0x00, 0x60]), Ok(of(3, &[0x00, 0x60]).encode()));
    assert_eq!(packed(3, &[0x60, 0x00]), Err(12));
}

#[test]
fn p9() {
    assert_eq!(p2().contains(&[0x61]), Err(8));
    let mut out = [7, 7];
    assert_eq!(p2().key_at(2, &mut out), Ok(Some(1)));
    assert_eq!(out, [0xC0, 7]);
    assert_eq!(p2().key_at(3, &mut out), Err(9));
}

#[test]
fn p10() {
    let all = of(3, &[0x00, 0x20, 0x40, 0x60, 0x80, 0xA0, 0xC0, 0xE0]);
    assert_eq!((&all.encode()[30..32], all.bits()), (&[0xFF, 0xFC][..], 14));
}

#[test]
fn others() {
    assert_eq!(packed(0, &[]), Err(4));
    assert_eq!(packed(257, &[]), Err(4));
    assert!(packed(1, &[]).is_ok() && packed(256, &[]).is_ok());
    assert_eq!(pack(3, &[0x00, 0x60, 0xC0], &mut [0; 47]).0, Err(14));
    assert_eq!(pack(3, &[0x00, 0x60, 0xC0], &mut [0; 48]).0, Ok(Some(48)));
    let mut bytes = p2_bytes();
    bytes[23..27].copy_from_slice(&524_281u32.to_be_bytes());
    assert_eq!(read(&bytes), Err(5));
    bytes[23..27].copy_from_slice(&524_280u32.to_be_bytes());
    assert_eq!(read(&bytes), Err(3));
}

/// One damage of P2 for each refusal of an encoding, and what comes first where two hold.
#[test]
fn refusals_of_encodings_in_order() {
    let damaged = |edits: &[(usize, u8)], cut: usize| {
        let mut bytes = p2_bytes();
        for (at, value) in edits {
            bytes[*at] = *value;
        }
        bytes.truncate(cut);
        read(&bytes).err()
    };
    assert_eq!(damaged(&[], 48), None);
    for cut in 0..48 {
        assert_eq!(damaged(&[], cut), Some(1), "cut at {cut}");
    }
    // 1 for a head comes before 2, 2 before 3, 3 before 1 for a body
    assert_eq!(damaged(&[(0, 2)], 2), Some(1));
    assert_eq!(damaged(&[(0, 2), (2, 3)], 4), Some(2));
    assert_eq!(damaged(&[(2, 3)], 4), Some(3));
    for tag in [0, 1, 3, 4, 5, 6, 7, 255] {
        assert_eq!(damaged(&[(5, tag)], 48), Some(2));
    }
    // 4 follows field 1, 5 follows field 3
    assert_eq!(damaged(&[(4, 0), (5, 9)], 48), Some(4));
    assert_eq!(damaged(&[(3, 1), (4, 0), (5, 9)], 48), Some(2), "width 256");
    assert_eq!(damaged(&[(3, 1), (4, 1)], 48), Some(4), "width 257");
    assert_eq!(damaged(&[(24, 8), (27, 9)], 48), Some(5), "b of 524,300");
    // 7: a wrong count, a wrong level, an empty record, a left-over bit, a wrong entry in either index
    for edit in [(11, 2), (11, 4), (18, 4), (22, 4), (30, 0xF4), (31, 0x61), (31, 0x64), (42, 1), (47, 1)] {
        assert_eq!(damaged(&[edit], 48), Some(7), "{edit:?}");
    }
    // 6 comes before 7
    let mut bytes = p2_bytes();
    bytes.push(0);
    assert_eq!(read(&bytes), Err(6));
    bytes[11] = 9;
    assert_eq!(read(&bytes), Err(6));
}

#[test]
fn refusals_of_batches_in_order() {
    let refused = |width, batch: &[u8], room: usize| pack(width, batch, &mut vec![0; room]).0;
    assert_eq!(refused(0, &[1], 0), Err(4));
    assert_eq!(refused(9, &[1], 0), Err(10));
    assert_eq!(refused(9, &[1, 1, 0], 0), Err(10));
    assert_eq!(refused(3, &[0x60, 0x01, 0x00], 0), Err(11), "an unused bit, and the next is smaller");
    assert_eq!(refused(3, &[0x60, 0x40, 0x01], 0), Err(12), "smaller, and the next has an unused bit");
    assert_eq!(refused(3, &[0x60, 0x41], 0), Err(11), "both in one key");
    assert_eq!(refused(3, &[0x60], 0), Err(14));
    let key = |number: u32| (number << 14).to_be_bytes()[..3].to_vec();
    let full: Vec<u8> = (0..1 << 18).flat_map(key).collect();
    assert_eq!(refused(18, &full, 0), Err(5));
}

/// b is even, so that 512 bits have one sub-block and 514 two; block two starts over.
#[test]
fn index_entries() {
    let level = |n: usize| plain::index_bodies(&vec![true; n]);
    assert_eq!(level(0), (vec![], vec![]));
    assert_eq!(level(512), (vec![0; 8], vec![0; 2]));
    assert_eq!(level(513), (vec![0; 8], vec![0, 0, 2, 0]));
    assert_eq!(level(65_536).0.len(), 8);
    let (blocks, sub_blocks) = level(65_537);
    assert_eq!(blocks, [0, 0, 0, 0, 0, 0, 0, 0, 0, 0, 0, 0, 0, 1, 0, 0]);
    assert_eq!(sub_blocks.len(), 2 * 129);
    assert_eq!(sub_blocks[2 * 127..], [0xFE, 0x00, 0x00, 0x00]);
}

/// P2's edges are 111101100110: every offset from 0 to b, and the first above it.
#[test]
fn ranks() {
    let ranks: Vec<Answer> = (0..14).map(|offset| p2().rank(offset)).collect();
    let right = [0, 1, 2, 3, 4, 4, 5, 6, 6, 6, 7, 8, 8];
    assert_eq!(ranks[..13], right.map(|count| Ok(Some(count))));
    assert_eq!((ranks[13], p2().rank(u64::MAX)), (Err(9), Err(9)));
    let empty = of(3, &[]);
    assert_eq!((empty.rank(0), empty.rank(1)), (Ok(Some(0)), Err(9)));
}

/// P2 is {000, 011, 110}: every prefix of each length, counted by hand.
#[test]
fn prefixes() {
    let range = |first, count| -> RangeAnswer { Ok(PrefixRange { first, count }) };
    let asked = |prefix_bits, bytes: &[u8]| p2().prefix(prefix_bits, bytes);
    assert_eq!(asked(0, &[]), range(0, 3));
    assert_eq!([0x00, 0x80].map(|byte| asked(1, &[byte])), [range(0, 2), range(2, 1)]);
    assert_eq!([0x00, 0x40, 0x80, 0xC0].map(|byte| asked(2, &[byte])), [range(0, 1), range(1, 1), range(2, 0), range(2, 1)]);
    let threes = [0x00, 0x20, 0x40, 0x60, 0x80, 0xA0, 0xC0, 0xE0].map(|byte| asked(3, &[byte]));
    let right = [(0, 1), (1, 0), (1, 0), (1, 1), (2, 0), (2, 0), (2, 1), (3, 0)];
    assert_eq!(threes, right.map(|(first, count)| range(first, count)));
    // 8: another length, an unused bit set
    for (bits, bytes) in [(0, &[0][..]), (1, &[]), (1, &[0, 0]), (1, &[0x40]), (1, &[0x81]), (2, &[0x20]), (3, &[0x61])] {
        assert_eq!(asked(bits, bytes), Err(8), "{bits} bits {bytes:02X?}");
    }
    // 9, also where 8 holds
    for (bits, bytes) in [(4, &[0x60][..]), (4, &[0x61]), (4, &[]), (8, &[0xFF]), (u64::MAX, &[]), (1 << 32, &[])] {
        assert_eq!(asked(bits, bytes), Err(9), "{bits} bits {bytes:02X?}");
    }
    // bit and byte order agree across a byte; only the first bits are compared
    let wide = Set::new(12, [[0x0F, 0xF0], [0x10, 0x00], [0x10, 0x10], [0x1F, 0xF0]].map(|key| key.to_vec())).lay();
    assert_eq!((wide.prefix(8, &[0x10]), wide.prefix(9, &[0x10, 0x00])), (range(1, 2), range(1, 2)));
    assert_eq!((wide.prefix(9, &[0x10, 0x80]), wide.prefix(7, &[0x10])), (range(3, 0), range(1, 2)));
    assert_eq!((wide.prefix(8, &[0x10, 0x00]), wide.prefix(9, &[0x10])), (Err(8), Err(8)));
    // the empty set has none, of any length
    assert_eq!([0, 1, 3].map(|bits| of(3, &[]).prefix(bits, &[0][..usize::from(bits > 0)])), [range(0, 0); 3]);
}

/// {000, 011} and {011, 110}, by hand: one key in each of the three.
#[test]
fn splits() {
    let [a, b] = left_and_right();
    let parts = |a: &Laid, b: &Laid| plain::split_laid(&a.set, &b.set);
    let three = |sets: [&[u8]; 3]| Ok(sets.map(|keys| of(3, keys)));
    assert_eq!(parts(&a, &b), three([&[0x60], &[0x00], &[0xC0]]));
    assert_eq!(parts(&b, &a), three([&[0x60], &[0xC0], &[0x00]]));
    assert_eq!(parts(&p2(), &b), three([&[0x60, 0xC0], &[0x00], &[]]));
    assert_eq!(parts(&p2(), &p2()), three([&[0x00, 0x60, 0xC0], &[], &[]]));
    assert_eq!(parts(&of(3, &[]), &p2()), three([&[], &[], &[0x00, 0x60, 0xC0]]));
    assert_eq!(parts(&p2(), &of(4, &[])), Err(13));
    // each at the front of its own buffer, or none
    let encodings = parts(&a, &b).unwrap().map(|laid| laid.encode());
    let written = |rooms: [usize; 3]| {
        let mut outs = rooms.map(|room| vec![0xEE; room]);
        (plain::write_three(&encodings, outs.each_mut().map(|out| &mut out[..])), outs)
    };
    let [both, only_first, only_second] = encodings.clone();
    let right = [both, [&only_first[..], &[0xEE; 2]].concat(), [&only_second[..], &[0xEE]].concat()];
    assert_eq!(written([47, 49, 48]), (Ok([47; 3]), right));
    for rooms in [[46, 47, 47], [47, 46, 47], [47, 47, 46], [0, 99, 99], [0; 3]] {
        assert_eq!(written(rooms), (Err(14), rooms.map(|room| vec![0xEE; room])));
    }
}

/// P2's walk: each member's edges are set, and its last edge has the rank that its index asks for.
#[test]
fn walk() {
    let laid = p2();
    assert_eq!(laid.paths(), [[0, 2, 6], [0, 3, 9], [1, 5, 10]]);
    let walk = Walk::over(&laid);
    let mut cursor = Cursor::before();
    let mut steps: Vec<(Answer, u8, u64)> = Vec::new();
    let mut out = [0xEE];
    assert_eq!(walk.advance(&mut cursor, &mut []), Err(14));
    assert_eq!(cursor, Cursor::before());
    for _ in 0..5 {
        let answer = walk.advance(&mut cursor, &mut out);
        steps.push((answer, out[0], cursor.state));
    }
    let wrote = Ok(Some(1));
    let none = Ok(Some(0));
    assert_eq!(steps, [(wrote, 0x00, 1), (wrote, 0x60, 1), (wrote, 0xC0, 1), (none, 0xC0, 2), (none, 0xC0, 2)]);
    assert_eq!(walk.advance(&mut cursor, &mut []), Ok(Some(0)));
    cursor.offsets[255] = 1;
    assert_eq!(walk.advance(&mut cursor, &mut out), Err(15));
    let mut mixed = Cursor::before();
    mixed.state = 1;
    mixed.offsets[..3].copy_from_slice(&[0, 3, 6]);
    assert_eq!(walk.advance(&mut mixed, &mut []), Err(15));
    assert_eq!(Walk::over(&of(3, &[])).advance(&mut Cursor::before(), &mut []), Ok(Some(0)));
}

// ---- Weights

const HIGH: i32 = i32::MAX;
const LOW: i32 = i32::MIN;

/// {000, 011} and {011, 110}; P2 is their union.
fn left_and_right() -> [Laid; 2] {
    [of(3, &[0x00, 0x60]), of(3, &[0x60, 0xC0])]
}

/// What is written to outputs of these lengths, if it is.
fn written(weighed: Result<Weighed, u64>, room: usize, list_room: usize) -> (Answer, Vec<u8>, Vec<i32>) {
    let (mut out, mut list) = (vec![0xEE; room], vec![77; list_room]);
    let answer = weighed.and_then(|weighed| weighed.write(&mut out, &mut list));
    (answer, out, list)
}

/// A refused call's answer: its outputs have their values.
fn refused(number: u64, room: usize, list_room: usize) -> (Answer, Vec<u8>, Vec<i32>) {
    (Err(number), vec![0xEE; room], vec![77; list_room])
}

#[test]
fn packs_with_a_list() {
    let packed = |width, batch: &[u8], room, list_room| written(Weighed::packed(width, batch), room, list_room);
    let keys = [0x00, 0x60, 0x60, 0xC0];
    assert_eq!(packed(3, &keys, 49, 5), (Ok(Some(48)), [p2_bytes(), vec![0xEE]].concat(), vec![0, 0, 0, 77, 77]));
    assert_eq!(packed(3, &keys, 49, 2), refused(14, 49, 2));
    assert_eq!(packed(3, &keys, 47, 5), refused(14, 47, 5));
    assert_eq!(packed(3, &[], 36, 0), (Ok(Some(36)), of(3, &[]).encode(), vec![]));
    assert_eq!(packed(3, &[0x60, 0x00], 0, 0), refused(12, 0, 0));
}

#[test]
fn posts() {
    let post = |list: &[i32], key: u8, amount: i32| -> Result<(Option<u64>, Vec<i32>), u64> {
        let mut weighed = Weighed::listed(&p2(), list)?;
        let answer = weighed.post(&[key], amount)?;
        Ok((answer, weighed.list()))
    };
    assert_eq!(post(&[1, 2, 3], 0x60, -5), Ok((Some(1), vec![1, -3, 3])));
    assert_eq!(post(&[1, 2, 3], 0xC0, 0), Ok((Some(1), vec![1, 2, 3])));
    assert_eq!(post(&[HIGH; 3], 0xA0, HIGH), Ok((None, vec![HIGH; 3])));
    for (before, amount, after) in [(HIGH - 1, 1, Some(HIGH)), (HIGH, 1, None), (LOW + 1, -1, Some(LOW)), (LOW, -1, None)] {
        let right = after.map(|after| (Some(1), vec![0, after, 0])).ok_or(17);
        assert_eq!(post(&[0, before, 0], 0x60, amount), right);
    }
    // 16, 8, 17
    assert_eq!(post(&[HIGH; 4], 0x61, 1), Err(16));
    assert_eq!(post(&[HIGH; 2], 0x60, 1), Err(16));
    assert_eq!(post(&[HIGH; 3], 0x61, 1), Err(8));
}

#[test]
fn unions_with_lists() {
    let [a, b] = left_and_right();
    let unite = |v: &[i32], w: &[i32], room, list_room| written(plain::union_weighted(&a, v, &b, w), room, list_room);
    assert_eq!(unite(&[1, 20], &[-5, 300], 48, 4), (Ok(Some(48)), p2_bytes(), vec![1, 15, 300, 77]));
    assert_eq!(unite(&[HIGH, HIGH - 1], &[1, LOW], 48, 3), (Ok(Some(48)), p2_bytes(), vec![HIGH, HIGH, LOW]));
    assert_eq!(unite(&[LOW, LOW + 1], &[-1, HIGH], 48, 3), (Ok(Some(48)), p2_bytes(), vec![LOW, LOW, HIGH]));
    assert_eq!(unite(&[0, HIGH], &[1, 0], 48, 3), refused(17, 48, 3));
    assert_eq!(unite(&[0, LOW], &[-1, 0], 48, 3), refused(17, 48, 3));
    // 13, 16, 5, 14, 17
    assert_eq!(unite(&[0, HIGH], &[1, 0], 47, 3), refused(14, 47, 3));
    assert_eq!(unite(&[0, HIGH], &[1, 0], 48, 2), refused(14, 48, 2));
    assert_eq!(unite(&[HIGH], &[1, 0], 0, 0), refused(16, 0, 0));
    assert_eq!(unite(&[0, HIGH], &[1, 0, 0], 0, 0), refused(16, 0, 0));
    assert_eq!(plain::union_weighted(&a, &[], &of(1, &[]), &[1]), Err(13));
    let key = |number: u32| (number << 14).to_be_bytes()[..3].to_vec();
    let [even, odd] = [0, 1].map(|first| Set::new(18, (0..1 << 17).map(|number| key(2 * number + first))).lay());
    let (n, zeros) = (even.count(), vec![0; even.count()]);
    assert_eq!(plain::union_weighted(&even, &zeros, &odd, &zeros[1..]), Err(16));
    assert_eq!(plain::union_weighted(&even, &zeros, &odd, &vec![HIGH; n]), Err(5));
}

#[test]
fn differences_with_lists() {
    let [_, b] = left_and_right();
    let subtract = |v: &[i32], other: &Laid, room, list_room| written(plain::difference_weighted(&p2(), v, other), room, list_room);
    let one = of(3, &[0x00]).encode();
    assert_eq!(subtract(&[LOW, 2, 3], &b, 47, 2), (Ok(Some(47)), one, vec![LOW, 77]));
    assert_eq!(subtract(&[1, 2, 3], &p2(), 36, 1), (Ok(Some(36)), of(3, &[]).encode(), vec![77]));
    assert_eq!(subtract(&[1, 2, 3], &b, 46, 2), refused(14, 46, 2));
    assert_eq!(subtract(&[1, 2, 3], &b, 47, 0), refused(14, 47, 0));
    assert_eq!(subtract(&[1, 2], &b, 0, 0), refused(16, 0, 0));
    assert_eq!(subtract(&[], &of(1, &[]), 0, 0), refused(13, 0, 0));
}

/// What is posted after a use does not reach what was made; each use brings what was dropped on the way to it.
#[test]
fn ledger() {
    let told = |account: &Account| (account.weighed.list(), account.posted, account.dropped);
    let [mut a, mut b] = [[0x00, 0x60], [0x60, 0xC0]].map(|batch| Account::packed(3, &batch).unwrap());
    assert_eq!(a.post(&[0x60], 10), Ok(Some(1)));
    assert_eq!(b.post(&[0x60], -3), Ok(Some(1)));
    assert_eq!(b.post(&[0xC0], 5), Ok(Some(1)));
    assert_eq!(b.post(&[0x00], 1_000), Ok(None));
    assert_eq!(b.post(&[0x01], 1_000), Err(8));
    assert_eq!(b.post(&[0xC0], HIGH), Err(17));
    let mut both = a.union(&b).unwrap();
    assert_eq!(a.post(&[0x60], 100), Ok(Some(1)));
    assert_eq!((told(&a), told(&b), told(&both)), ((vec![0, 110], 110, 0), (vec![-3, 5], 2, 0), (vec![0, 7, 5], 12, 0)));
    assert_eq!(both.post(&[0x00], 1), Ok(Some(1)));
    let twice = both.union(&both).unwrap();
    assert_eq!(told(&twice), (vec![2, 14, 10], 26, 0));
    let rest = twice.difference(&b).unwrap();
    assert_eq!(told(&rest), (vec![2], 26, 24));
    assert_eq!(told(&rest.union(&rest).unwrap()), (vec![4], 52, 48));
    assert_eq!(told(&rest.union(&twice).unwrap()), (vec![4, 14, 10], 52, 24));
}
