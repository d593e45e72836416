//! The library against the reference, and the Rust interface over it.

#[macro_use]
mod cases;
mod plain;

use loes::{ffi, Cursor, EdgeOffset, Encoding, MemberIndex, Posting, PrefixRange, Refusal, Split, State};
use plain::{key_len, Answer, LengthsAnswer, RangeAnswer, Set};

struct Library;

fn answer(answer: ffi::Answer) -> Answer {
    match answer {
        ffi::Answer { refusal: 0, found: 1, value } => Ok(Some(value)),
        ffi::Answer { refusal: 0, found: 0, value: 0 } => Ok(None),
        ffi::Answer { refusal: 1.., found: 0, value: 0 } => Err(u64::from(answer.refusal)),
        other => panic!("{other:?}"),
    }
}

/// The bytes that a step wrote.
fn written(step: ffi::Answer) -> Answer {
    answer(step).map(|bytes| bytes.or(Some(0)))
}

/// A step from a cursor in parts, and the state that it leaves.
fn stepped(state: u64, offsets: &mut [u64], step: impl FnOnce(&mut ffi::Cursor) -> ffi::Answer) -> (Answer, u64) {
    let mut cursor = ffi::Cursor { state, offsets: std::array::from_fn(|level| EdgeOffset(offsets[level])) };
    let answer = written(step(&mut cursor));
    offsets.copy_from_slice(&cursor.offsets.map(|offset| offset.0));
    (answer, cursor.state)
}

fn number<T>(result: Result<T, Refusal>) -> Result<T, u64> {
    result.map_err(|refusal| u64::from(refusal.number()))
}

fn length(result: Result<usize, Refusal>) -> Answer {
    number(result).map(|n| Some(n as u64))
}

fn index(result: Result<Option<MemberIndex>, Refusal>) -> Answer {
    number(result).map(|index| index.map(|index| index.0))
}

fn posting(result: Result<Posting, Refusal>) -> Answer {
    number(result).map(|posting| (posting == Posting::Posted).then_some(1))
}

/// The Rust answer, which has the numbers of the C one; refused, that one has no other.
fn range(result: Result<PrefixRange, Refusal>, numbers: ffi::Range) -> RangeAnswer {
    let answer = number(result);
    let right = match answer {
        Ok(PrefixRange { first, count }) => ffi::Range { refusal: 0, first, count },
        Err(refusal) => ffi::Range { refusal: refusal as u32, first: MemberIndex(0), count: 0 },
    };
    assert_eq!(numbers, right);
    answer.map(|range| plain::PrefixRange { first: range.first.0, count: range.count })
}

/// The Rust answer, which has the numbers of the C one; refused, that one has no other.
fn lengths(result: Result<Split<usize>, Refusal>, numbers: ffi::Lengths) -> LengthsAnswer {
    let answer = number(result).map(|split| [split.both, split.only_first, split.only_second].map(|length| length as u64));
    let right = match answer {
        Ok([both, only_first, only_second]) => ffi::Lengths { refusal: 0, both, only_first, only_second },
        Err(refusal) => ffi::Lengths { refusal: refusal as u32, both: 0, only_first: 0, only_second: 0 },
    };
    assert_eq!(numbers, right);
    answer
}

/// Encodings are built, opened and asked through the Rust interface; cursors in numbers, so that any can be given.
impl Subject for Library {
    type Opened<'a> = (ffi::OpenedBytes<'a>, Encoding<'a>);
    type Walk<'a> = ffi::Walk<'a>;

    fn pack(width: u64, batch: &[u8], out: &mut [u8]) -> Answer {
        length(loes::pack(width, batch, out))
    }

    fn union(a: &[u8], b: &[u8], out: &mut [u8]) -> Answer {
        length(loes::union(a, b, out))
    }

    fn difference(a: &[u8], b: &[u8], out: &mut [u8]) -> Answer {
        length(loes::difference(a, b, out))
    }

    fn split(a: &[u8], b: &[u8], outs: [&mut [u8]; 3]) -> LengthsAnswer {
        // the C interface in copies of the buffers
        let [mut both, mut only_first, mut only_second] = outs.each_ref().map(|out| out.to_vec());
        let numbers = ffi::split(a, b, &mut both, &mut only_first, &mut only_second);
        let [x, y, z] = outs;
        let answer = lengths(loes::split(a, b, x, y, z), numbers);
        assert!((&both[..], &only_first[..], &only_second[..]) == (x, y, z));
        answer
    }

    fn open(l: &[u8]) -> Result<(Self::Opened<'_>, [u64; 3]), u64> {
        let encoding = number(Encoding::open(l))?;
        Ok(((ffi::open(l).map_err(u64::from)?, encoding), [encoding.width(), encoding.len(), encoding.bits()]))
    }

    fn ask(l: &[u8], question: &Question, out: &mut [u8]) -> Answer {
        match question {
            Question::Contains(key) => number(loes::contains(l, key)).map(|found| found.then_some(1)),
            Question::IndexOf(key) => index(loes::index_of(l, key)),
            Question::LowerBound(key) => index(loes::lower_bound(l, key)),
            Question::KeyAt(index) => length(loes::key_at(l, MemberIndex(*index), out)),
            Question::Rank(offset) => number(loes::rank(l, EdgeOffset(*offset))).map(Some),
        }
    }

    fn ask_opened((_, encoding): &Self::Opened<'_>, question: &Question, out: &mut [u8]) -> Answer {
        match question {
            Question::Contains(key) => number(encoding.contains(key)).map(|found| found.then_some(1)),
            Question::IndexOf(key) => index(encoding.index_of(key)),
            Question::LowerBound(key) => index(encoding.lower_bound(key)),
            Question::KeyAt(index) => length(encoding.key_at(MemberIndex(*index), out)),
            Question::Rank(offset) => number(encoding.rank(EdgeOffset(*offset))).map(Some),
        }
    }

    fn prefix(l: &[u8], prefix_bits: u64, prefix: &[u8]) -> RangeAnswer {
        range(loes::prefix(l, prefix_bits, prefix), ffi::prefix(l, prefix_bits, prefix))
    }

    fn prefix_opened((checked, encoding): &Self::Opened<'_>, prefix_bits: u64, prefix: &[u8]) -> RangeAnswer {
        range(encoding.prefix(prefix_bits, prefix), checked.prefix(prefix_bits, prefix))
    }

    fn advance(l: &[u8], state: u64, offsets: &mut [u64], out: &mut [u8]) -> (Answer, u64) {
        stepped(state, offsets, |cursor| ffi::advance(l, cursor, out))
    }

    fn advance_opened((checked, _): &Self::Opened<'_>, state: u64, offsets: &mut [u64], out: &mut [u8]) -> (Answer, u64) {
        stepped(state, offsets, |cursor| checked.advance(cursor, out))
    }

    fn walk<'a>((checked, _): &Self::Opened<'a>) -> ffi::Walk<'a> {
        checked.walk()
    }

    fn next(walk: &mut ffi::Walk<'_>, out: &mut [u8]) -> Answer {
        written(walk.next(out))
    }

    fn fill(walk: &mut ffi::Walk<'_>, out: &mut [u8]) -> Answer {
        written(walk.fill(out))
    }

    fn place(walk: &ffi::Walk<'_>) -> (u64, Vec<u64>) {
        (walk.cursor().state, walk.cursor().offsets.map(|offset| offset.0).to_vec())
    }

    fn pack_weighted(width: u64, batch: &[u8], out: &mut [u8], list: &mut [i32]) -> Answer {
        length(loes::pack_weighted(width, batch, out, list))
    }

    fn union_weighted(a: &[u8], a_list: &[i32], b: &[u8], b_list: &[i32], out: &mut [u8], list: &mut [i32]) -> Answer {
        length(loes::union_weighted(a, a_list, b, b_list, out, list))
    }

    fn difference_weighted(a: &[u8], a_list: &[i32], b: &[u8], out: &mut [u8], list: &mut [i32]) -> Answer {
        length(loes::difference_weighted(a, a_list, b, out, list))
    }

    fn post(l: &[u8], list: &mut [i32], key: &[u8], amount: i32) -> Answer {
        posting(loes::post(l, list, key, amount))
    }

    fn post_opened((_, encoding): &Self::Opened<'_>, list: &mut [i32], key: &[u8], amount: i32) -> Answer {
        posting(encoding.post(list, key, amount))
    }
}

differential_tests!(Library);

/// The C answers field by field, as the header says: a refused one has no value, an absent key is not the first one.
#[test]
fn answers_in_numbers() {
    let value = |value| ffi::Answer { refusal: 0, found: 1, value };
    let none = ffi::Answer { refusal: 0, found: 0, value: 0 };
    let refused = |refusal| ffi::Answer { refusal, found: 0, value: 0 };
    assert_eq!(ffi::contains(&P2, &[0x60]), value(1));
    assert_eq!([ffi::contains(&P2, &[0xA0]), ffi::index_of(&P2, &[0xA0]), ffi::lower_bound(&P2, &[0xE0])], [none; 3]);
    assert_eq!((ffi::index_of(&P2, &[0x00]), ffi::lower_bound(&P2, &[0xA0])), (value(0), value(2)));
    assert_eq!((ffi::contains(&P2, &[0x61]), ffi::index_of(&P2, &[0x61])), (refused(8), refused(8)));
    assert_eq!((ffi::rank(&P2, EdgeOffset(0)), ffi::rank(&P2, EdgeOffset(12))), (value(0), value(8)));
    assert_eq!(ffi::rank(&P2, EdgeOffset(13)), refused(9));
    let range = |refusal, first, count| ffi::Range { refusal, first: MemberIndex(first), count };
    assert_eq!((ffi::prefix(&P2, 0, &[]), ffi::prefix(&P2, 2, &[0x80])), (range(0, 0, 3), range(0, 2, 0)));
    assert_eq!((ffi::prefix(&P2, 2, &[0xA0]), ffi::prefix(&P2, 4, &[0xA0])), (range(8, 0, 0), range(9, 0, 0)));
    assert_eq!(ffi::prefix(&P2[..47], 4, &[0xA0]), range(1, 0, 0));
    let split = |first: &[u8], rooms: [usize; 3]| {
        let [mut both, mut only_first, mut only_second] = rooms.map(|room| vec![0; room]);
        let lengths = ffi::split(first, &P2, &mut both, &mut only_first, &mut only_second);
        (lengths.refusal, [lengths.both, lengths.only_first, lengths.only_second])
    };
    assert_eq!((split(&P2, [48, 36, 36]), split(&P2, [48, 36, 35])), ((0, [48, 36, 36]), (14, [0; 3])));
    assert_eq!(split(&P2[..47], [0; 3]), (1, [0; 3]));
    assert_eq!(ffi::pack(0, &[], &mut []), refused(4));
    assert_eq!(ffi::opened(&P2), ffi::Opened { refusal: 0, width: 3, count: 3, bits: 12 });
    assert_eq!(ffi::opened(&P2[..47]), ffi::Opened { refusal: 1, width: 0, count: 0, bits: 0 });
    let before = ffi::Cursor { state: 0, offsets: [EdgeOffset(0); 256] };
    let mut cursor = before.clone();
    assert_eq!(ffi::advance(&P2, &mut cursor, &mut []), refused(14));
    assert_eq!(cursor, before);
    for _ in 0..3 {
        assert_eq!(ffi::advance(&P2, &mut cursor, &mut [0]), value(1));
    }
    assert_eq!(ffi::advance(&P2, &mut cursor, &mut [0]), none);
    let mut list = [0, i32::MAX, 0];
    assert_eq!((ffi::post(&P2, &mut list, &[0x00], -5), list), (value(1), [-5, i32::MAX, 0]));
    assert_eq!(ffi::post(&P2, &mut list, &[0xA0], 1), none);
    assert_eq!(ffi::post(&P2, &mut list, &[0x60], 1), refused(17));
    assert_eq!(ffi::post(&P2, &mut list[..2], &[0x61], 1), refused(16));
    assert_eq!(ffi::pack_weighted(3, &[0x00], &mut [0; 47], &mut []), refused(14));
    assert_eq!(ffi::pack_weighted(3, &[0x00], &mut [0; 47], &mut list), value(47));
    let mut out = [0; 48];
    assert_eq!(ffi::union_weighted(&P2, &[1; 3], &P2, &[2; 3], &mut out, &mut list), value(48));
    assert_eq!(ffi::union_weighted(&P2, &[i32::MIN; 3], &P2, &[-1; 3], &mut out, &mut list), refused(17));
    assert_eq!(ffi::difference_weighted(&P2, &[1; 3], &P2, &mut out, &mut []), value(36));
    assert_eq!(ffi::difference_weighted(&P2, &[1; 4], &P2, &mut out, &mut []), refused(16));
}

/// The iterator gives the keys, knows how many are left, and stays at its end.
#[test]
fn keys_in_order() {
    rounds("keys_in_order", 100, |rng| {
        let width = random_width(rng);
        let set = random_set(rng, width, 100);
        let bytes = loes::pack_to_vec(width as u64, &batch_of(&set)).unwrap();
        let encoding = Encoding::open(&bytes).unwrap();
        assert!(encoding.keys().eq(set.keys.iter().cloned()));
        let mut keys = encoding.keys();
        for left in (0..set.keys.len()).rev() {
            assert!(keys.next().is_some());
            assert_eq!(keys.len(), left);
        }
        assert_eq!((keys.next(), keys.next()), (None, None));
        // a buffer full at a time
        let mut many = vec![0; key_len(width) * rng.between(1, 7) + rng.below(key_len(width))];
        let (mut keys, mut all) = (encoding.keys(), Vec::new());
        while let Ok(written @ 1..) = if rng.one_in(3) { keys.next_into(&mut many) } else { keys.fill(&mut many) } {
            all.extend_from_slice(&many[..written]);
            assert_eq!(keys.len(), set.keys.len() - all.len() / key_len(width));
        }
        assert_eq!((all, keys.fill(&mut [])), (batch_of(&set), Ok(0)));
        assert_eq!((encoding.is_empty(), encoding.key_len()), (set.keys.is_empty(), key_len(width)));
    });
}

/// A range's indexes are those of the members that begin with the prefix, from either end, and their number is known.
#[test]
fn indexes_of_a_prefix() {
    rounds("indexes_of_a_prefix", 100, |rng| {
        let width = random_width(rng);
        let laid = random_set(rng, width, 60).lay();
        let bytes = laid.encode();
        let encoding = Encoding::open(&bytes).unwrap();
        for Prefix { bits, bytes: prefix } in some_prefixes(rng, &laid, 6) {
            if laid.prefix(bits, &prefix).is_err() {
                continue;
            }
            let range = encoding.prefix(bits, &prefix).unwrap();
            let begins = |key: &[u8]| plain::prefix(key, bits as usize) == prefix;
            let right = (0..).zip(&laid.set.keys).filter(|(_, key)| begins(key)).map(|(i, _)| MemberIndex(i));
            let right: Vec<MemberIndex> = right.collect();
            assert_eq!(range.indexes().collect::<Vec<_>>(), right);
            assert!(range.indexes().rev().eq(right.iter().rev().copied()));
            assert_eq!((range.indexes().len(), range.indexes().next()), (right.len(), right.first().copied()));
        }
    });
}

/// The vectors are the encodings, no longer and no shorter.
#[test]
fn into_vectors() {
    rounds("into_vectors", 100, |rng| {
        let width = random_width(rng);
        let (a, b) = (random_set(rng, width, 60), random_set(rng, width, 60));
        let pack = |set: &Set| loes::pack_to_vec(width as u64, &batch_of(set)).unwrap();
        let laid = a.clone().lay();
        assert_eq!(pack(&a), laid.encode());
        assert_eq!(pack(&a).len(), Encoding::bytes_for(width as u64, laid.bits() as u64));
        let (x, y) = (pack(&a), pack(&b));
        assert_eq!(loes::union_to_vec(&x, &y).unwrap(), plain::union(&a, &b).unwrap().lay().encode());
        assert_eq!(loes::difference_to_vec(&x, &y).unwrap(), plain::difference(&a, &b).unwrap().lay().encode());
        assert_eq!(loes::union_to_vec(&x, &y[1..]), Err(Refusal::WrongTag));
        let [both, only_first, only_second] = plain::split_laid(&a, &b).unwrap().map(|laid| laid.encode());
        assert_eq!(loes::split_to_vec(&x, &y), Ok(Split { both, only_first, only_second }));
        assert_eq!(loes::split_to_vec(&x, &y[1..]), Err(Refusal::WrongTag));
        // longer than every encoding
        let long = [&x[..], &vec![0; Encoding::MAX_BYTES]].concat();
        assert_eq!(
            (loes::split_to_vec(&long, &y), loes::split_to_vec(&x, &long)),
            (Err(Refusal::TrailingBytes), Err(Refusal::TrailingBytes))
        );
    });
}

/// The same with lists; also of a batch with equal neighbours, and where a sum leaves the range.
#[test]
fn into_vectors_with_lists() {
    rounds("into_vectors_with_lists", 100, |rng| {
        let width = random_width(rng);
        let [a, b] = operands(rng, width, 60).map(Set::lay);
        let (x, y) = (a.encode(), b.encode());
        let batch: Vec<u8> = a.set.keys.iter().flat_map(|key| key.repeat(2)).collect();
        assert_eq!(loes::pack_weighted_to_vec(width as u64, &batch), Ok((x.clone(), vec![0; a.count()])));
        let (v, w) = (list(rng, a.count()), list(rng, b.count()));
        let right = |weighed: Result<plain::Weighed, u64>| {
            let weighed = weighed.unwrap();
            let (mut out, mut list) = (vec![0; weighed.laid.encode().len()], vec![0; weighed.laid.count()]);
            weighed.write(&mut out, &mut list).map(|_| (out, list))
        };
        let union = loes::union_weighted_to_vec(&x, &v, &y, &w);
        assert_eq!(number(union), right(plain::union_weighted(&a, &v, &b, &w)));
        let difference = loes::difference_weighted_to_vec(&x, &v, &y);
        assert_eq!(number(difference), right(plain::difference_weighted(&a, &v, &b)));
        assert_eq!(loes::difference_weighted_to_vec(&x, &[&v[..], &[0]].concat(), &y), Err(Refusal::WrongList));
    });
}

/// A cursor through the Rust interface, checked and behind the check.
#[test]
fn cursors() {
    rounds("cursors", 60, |rng| {
        let width = random_width(rng);
        let laid = random_set(rng, width, 30).lay();
        let bytes = laid.encode();
        let encoding = Encoding::open(&bytes).unwrap();
        let (mut one, mut two) = (Cursor::new(), Cursor::default());
        let mut key = vec![0; key_len(width)];
        for (member, path) in laid.set.keys.iter().zip(laid.paths()) {
            assert_eq!(encoding.advance(&mut one, &mut key[..0]), Err(Refusal::ShortBuffer));
            assert_eq!(encoding.advance(&mut one, &mut key), Ok(member.len()));
            assert_eq!(&key, member);
            assert_eq!(loes::advance(&bytes, &mut two, &mut key), Ok(member.len()));
            assert_eq!((&key, &one), (member, &two));
            assert_eq!((one.state(), one.offsets()[..width].to_vec()), (State::At, path.into_iter().map(EdgeOffset).collect()));
            assert_eq!(Cursor::from_parts(one.state(), *one.offsets()), one);
        }
        assert_eq!(encoding.advance(&mut one, &mut []), Ok(0));
        assert_eq!(one, Cursor::from_parts(State::After, [EdgeOffset(0); 256]));
        assert_eq!(encoding.advance(&mut one, &mut []), Ok(0));
        let mut wrong = Cursor::from_parts(State::After, [EdgeOffset(1); 256]);
        assert_eq!(loes::advance(&bytes, &mut wrong, &mut key), Err(Refusal::BadCursor));
        assert_eq!(wrong, Cursor::from_parts(State::After, [EdgeOffset(1); 256]));
    });
}

/// The bytes of stack that a text allows a call.
fn allowed(text: &str) -> usize {
    let (_, rest) = text.split_once("allow it ").expect("stack is allowed");
    let (number, _) = rest.split_once(" KiB").expect("in KiB");
    number.parse::<usize>().unwrap() << 10
}

/// No call needs more stack than the header allows it, on the largest sets.
#[test]
fn stack() {
    let header = allowed(include_str!("../../include/loes.h"));
    assert_eq!(allowed(include_str!("../src/lib.rs")), header, "the crate's documentation allows the same");
    let halves = [0, 1].map(|first| half_set(first).lay());
    let (key, count) = (halves[0].set.keys.first().unwrap().clone(), halves[0].count() as u64);
    let batch = batch_of(&halves[0].set);
    let [a, b] = halves.map(|laid| laid.encode());
    let (mut out, mut cursor) = (vec![0; Encoding::MAX_BYTES], Cursor::new());
    let (mut only_first, mut only_second) = (out.clone(), out.clone());
    let (mut list, zeros) = (vec![0; count as usize], vec![0; count as usize]);
    let calls = move || {
        assert_eq!(loes::pack(19, &batch, &mut out), Ok(a.len()));
        assert_eq!(loes::union(&a, &b, &mut out), Err(Refusal::TooLarge));
        assert_eq!(loes::difference(&a, &b, &mut out), Ok(a.len()));
        let lengths = Split { both: 100, only_first: a.len(), only_second: b.len() };
        assert_eq!(loes::split(&a, &b, &mut out, &mut only_first, &mut only_second), Ok(lengths));
        assert_eq!(loes::contains(&a, &key), Ok(true));
        assert_eq!(loes::index_of(&a, &key), Ok(Some(MemberIndex(0))));
        assert_eq!(loes::lower_bound(&a, &key), Ok(Some(MemberIndex(0))));
        assert_eq!(loes::key_at(&a, MemberIndex(count - 1), &mut out), Ok(key.len()));
        assert_eq!(loes::rank(&a, EdgeOffset(1)), Ok(1));
        assert_eq!(loes::prefix(&a, 0, &[]), Ok(PrefixRange { first: MemberIndex(0), count }));
        assert_eq!(loes::advance(&a, &mut cursor, &mut out), Ok(key.len()));
        assert_eq!(Encoding::open(&a).map(|encoding| encoding.len()), Ok(count));
        assert_eq!(loes::pack_weighted(19, &batch, &mut out, &mut list), Ok(a.len()));
        assert_eq!(loes::union_weighted(&a, &zeros, &a, &zeros, &mut out, &mut list), Ok(a.len()));
        assert_eq!(loes::union_weighted(&a, &zeros, &b, &zeros, &mut out, &mut list), Err(Refusal::TooLarge));
        assert_eq!(loes::difference_weighted(&a, &zeros, &b, &mut out, &mut list), Ok(a.len()));
        assert_eq!(loes::post(&a, &mut list, &key, 1), Ok(Posting::Posted));
    };
    std::thread::Builder::new().stack_size(header).spawn(calls).unwrap().join().unwrap();
}
