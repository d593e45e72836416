//! One call, or one list of calls, compared with the reference.

use super::*;
use crate::plain::{self, key_len, Answer, Cursor, Key, Laid, Set, Walk};

// ---- Pack

pub fn check_pack<S: Subject>(rng: &mut Rng, width: u64, batch: &[u8]) -> Option<Vec<u8>> {
    let result = plain::batch(width, batch).and_then(within_limits);
    let kept = batch.to_vec();
    check_writes(rng, &|| format!("pack {width} {batch:02X?}"), &result, |out| S::pack(width, batch, out));
    assert_eq!(batch, kept, "pack changed its batch");
    result.ok()
}

pub fn within_limits(set: Set) -> Result<Vec<u8>, u64> {
    let laid = set.lay();
    if laid.bits() > plain::MAX_EDGES {
        return Err(5);
    }
    Ok(laid.encode())
}

// ---- Opening and the questions

/// Members, keys near them, keys at the ends, and keys that do not fit.
pub fn keys_near(rng: &mut Rng, laid: &Laid, times: usize) -> Vec<Key> {
    let (width, t) = (laid.width(), key_len(laid.width()));
    let members: Vec<&Key> = laid.set.keys.iter().collect();
    let mut keys = vec![vec![0; t], trimmed(vec![0xFF; t], width), Vec::new(), rng.bytes(t + 1), rng.bytes(t - 1), vec![0; 33]];
    for _ in 0..times {
        keys.push(random_key(rng, width));
        if let Some(member) = (!members.is_empty()).then(|| members[rng.below(members.len())]) {
            keys.push(member.clone());
            keys.push(after(member, width));
            let mut other = member.clone();
            flip(&mut other, rng.below(width));
            keys.push(other);
            let d = rng.below(width);
            keys.push(random_tail(rng, member, width, d));
            if width % 8 != 0 {
                let mut unused = member.clone();
                unused[t - 1] |= 1 << rng.below(8 - width % 8);
                keys.push(unused);
            }
        }
    }
    keys.extend(members.first().map(|key| key.to_vec()));
    keys.extend(members.last().map(|key| key.to_vec()));
    keys.extend(members.last().map(|key| after(key, width)));
    keys
}

/// Questions at, near and beyond everything that the encoding has.
pub fn questions(rng: &mut Rng, laid: &Laid, times: usize) -> Vec<Question> {
    let mut questions = Vec::new();
    for key in keys_near(rng, laid, times) {
        questions.extend([Question::Contains(key.clone()), Question::IndexOf(key.clone()), Question::LowerBound(key)]);
    }
    let around = |n: usize, rng: &mut Rng| {
        let n = n as u64;
        let mut numbers = vec![0, 1, n.wrapping_sub(1), n, n + 1, 1 << 32, 1 << 61, 1 << 63, u64::MAX];
        if n > 0 {
            numbers.extend((0..times).map(|_| rng.next() % n));
        }
        numbers
    };
    questions.extend(around(laid.count(), rng).into_iter().map(Question::KeyAt));
    questions.extend(around(laid.bits(), rng).into_iter().map(Question::Rank));
    for edge in [
        8,
        plain::SUB_BLOCK,
        2 * plain::SUB_BLOCK,
        plain::BLOCK,
        plain::BLOCK + plain::SUB_BLOCK,
        2 * plain::BLOCK,
        7 * plain::BLOCK,
    ] {
        if edge < laid.bits() + 1000 {
            questions.extend([edge - 1, edge, edge + 1].map(|offset| Question::Rank(offset as u64)));
        }
    }
    questions
}

/// Any bytes: opened and asked as the reference says, or refused by every call.
pub fn check_bytes<S: Subject>(rng: &mut Rng, bytes: &[u8], times: usize) -> Result<Laid, u64> {
    let read = plain::read(bytes);
    check_read::<S>(rng, bytes, &read, times);
    read
}

/// The same, with the reading given.
pub fn check_read<S: Subject>(rng: &mut Rng, bytes: &[u8], read: &Result<Laid, u64>, times: usize) {
    let kept = bytes.to_vec();
    match (S::open(bytes), read) {
        (Ok((opened, numbers)), Ok(laid)) => {
            assert_eq!(numbers, [laid.width(), laid.count(), laid.bits()].map(|n| n as u64), "open {}", shown(bytes));
            for question in questions(rng, laid, times) {
                let what = || format!("{question:X?} of {}", shown(bytes));
                let t = key_len(laid.width());
                let rooms = match question {
                    Question::KeyAt(_) => vec![0, t - 1, t, t + 1, t + rng.below(40)],
                    _ => vec![0],
                };
                for room in rooms {
                    let right = |out: &mut [u8]| expected(laid, &question, out);
                    same(rng, room, &what, right, |out| S::ask_opened(&opened, &question, out));
                    // the check is dear where the encoding is long
                    if bytes.len() < 2_000 || rng.one_in(bytes.len() / 1_000) {
                        same(rng, room, &what, right, |out| S::ask(bytes, &question, out));
                    }
                }
            }
            for prefix in some_prefixes(rng, laid, times) {
                let checked = bytes.len() < 2_000 || rng.one_in(bytes.len() / 1_000);
                check_prefix::<S>(bytes, &opened, laid, &prefix, checked);
            }
        }
        (Err(number), Err(right)) => {
            assert_eq!(number, *right, "open {}", shown(bytes));
            check_refused::<S>(rng, bytes, *right);
        }
        (Ok(_), Err(right)) => panic!("opened, but refused {right} by the reference: {}", shown(bytes)),
        (Err(number), Ok(_)) => panic!("refused {number}, but opened by the reference: {}", shown(bytes)),
    }
    assert_eq!(bytes, kept, "a question changed the encoding");
}

/// Every call refuses bytes that are refused, whatever else it is given, and changes nothing.
pub fn check_refused<S: Subject>(rng: &mut Rng, bytes: &[u8], number: u64) {
    let what = || format!("a call on {}", shown(bytes));
    let key = rng.bytes(3);
    for question in [
        Question::Contains(key.clone()),
        Question::IndexOf(key.clone()),
        Question::LowerBound(key),
        Question::KeyAt(*rng.pick(&[0, u64::MAX])),
        Question::Rank(*rng.pick(&[0, u64::MAX])),
    ] {
        let room = rng.below(40);
        same(rng, room, &what, |_| Err(number), |out| S::ask(bytes, &question, out));
    }
    for (prefix_bits, prefix) in [(0, vec![]), (0, rng.bytes(1)), (9, vec![0; 2]), (u64::MAX, vec![]), (rng.next(), rng.bytes(3))] {
        assert_eq!(S::prefix(bytes, prefix_bits, &prefix), Err(number), "{}", what());
    }
    let right = Set::new(3, [vec![0x60]]).lay().encode();
    let room = rng.below(100);
    same(rng, room, &what, |_| Err(number), |out| S::union(bytes, &right, out));
    same(rng, room, &what, |_| Err(number), |out| S::difference(bytes, &right, out));
    same(rng, room, &what, |_| Err(number), |out| S::union(&right, bytes, out));
    same(rng, room, &what, |_| Err(number), |out| S::difference(&right, bytes, out));
    same(rng, room, &what, |_| Err(2), |out| S::union(&[9, 9, 9], bytes, out));
    let rooms = [(); 3].map(|()| rng.below(100));
    let _ = same_three(rng, rooms, &what, |_| Err(number), |outs| S::split(bytes, &right, outs));
    let _ = same_three(rng, rooms, &what, |_| Err(number), |outs| S::split(&right, bytes, outs));
    let _ = same_three(rng, rooms, &what, |_| Err(2), |outs| S::split(&[9, 9, 9], bytes, outs));
    check_refused_weighted::<S>(rng, bytes, number);
    let state = *rng.pick(&[0, 1, 2, 3]);
    let mut offsets: Vec<u64> = (0..256).map(|_| if state == 1 { rng.next() } else { 0 }).collect();
    let before = offsets.clone();
    same(rng, room, &what, |_| (Err(number), state), |out| S::advance(bytes, state, &mut offsets, out));
    assert_eq!(offsets, before, "{}: a refused step changed the cursor", what());
}

pub fn shown(bytes: &[u8]) -> String {
    match bytes.len() {
        0..=400 => format!("{bytes:02X?}"),
        n => format!("{n} bytes {:02X?}…", &bytes[..100]),
    }
}

// ---- Walking

/// One step from a cursor, both ways of calling, in a buffer of this length.
pub fn check_step<S: Subject>(
    rng: &mut Rng,
    bytes: &[u8],
    opened: &S::Opened<'_>,
    cursor: &Cursor,
    step: &dyn Fn(&mut Cursor, &mut [u8]) -> Answer,
    room: usize,
) {
    let mut right = cursor.clone();
    let mut answer = Ok(None);
    let what = || format!("advance from {cursor:?} of {}", shown(bytes));
    let checked = bytes.len() < 2_000 || rng.one_in(bytes.len() / 1_000);
    for behind in [true, false] {
        if !behind && !checked {
            continue;
        }
        let mut got = cursor.clone();
        right = cursor.clone();
        let expected = |out: &mut [u8]| {
            answer = step(&mut right, out);
            answer
        };
        same(rng, room, &what, expected, |out| {
            let (answer, state) = match behind {
                true => S::advance_opened(opened, got.state, &mut got.offsets, out),
                false => S::advance(bytes, got.state, &mut got.offsets, out),
            };
            got.state = state;
            answer
        });
        assert_eq!(got, right, "{}: the cursor after it", what());
    }
    if answer.is_err() {
        assert_eq!(&right, cursor, "the reference moved a refused cursor");
    }
}

/// The whole walk from before to after and two steps more, with short and long buffers on the way; then damaged cursors.
pub fn check_walk<S: Subject>(rng: &mut Rng, laid: &Laid, damage: usize) {
    let bytes = laid.encode();
    let (opened, _) = S::open(&bytes).expect("an encoding opens");
    let walk = Walk::over(laid);
    let t = key_len(laid.width());
    let places: Vec<&Cursor> = walk.places().collect();
    let members: Vec<&Key> = laid.set.keys.iter().collect();
    // the walk with a cursor of its own goes along
    let (mut own, mut place) = (S::walk(&opened), places[0].clone());
    // place by place: place i leads to place i + 1
    for i in 0..places.len() + 1 {
        let here = i.min(places.len() - 1);
        let (next, key): (&Cursor, &[u8]) = match members.get(i) {
            Some(key) => (places[i + 1], key),
            None => (places[places.len() - 1], &[]),
        };
        let step = |cursor: &mut Cursor, out: &mut [u8]| {
            let answer = plain::write(key, out)?;
            *cursor = next.clone();
            Ok(answer)
        };
        let mut rooms = vec![t + rng.below(3)];
        if rng.one_in(4) {
            rooms.extend([0, t - 1, t, t + 30]);
        }
        for room in rooms {
            check_step::<S>(rng, &bytes, &opened, places[here], &step, room);
        }
        let mut rooms = vec![t + rng.below(3)];
        if rng.one_in(4) {
            rooms.splice(..0, [0, t - 1]);
        }
        for room in rooms {
            let what = || format!("step {i} of the walk over {}", shown(&bytes));
            same(rng, room, &what, |out| step(&mut place, out), |out| S::next(&mut own, out));
            assert_eq!(S::place(&own), (place.state, place.offsets.clone()), "{}: the cursor after it", what());
        }
    }
    check_filled::<S>(rng, laid, &bytes, &opened, &places);
    for _ in 0..damage {
        let cursor = damaged_cursor(rng, laid, &places);
        let step = |cursor: &mut Cursor, out: &mut [u8]| walk.advance(cursor, out);
        let room = *rng.pick(&[0, t - 1, t, t + 5]);
        check_step::<S>(rng, &bytes, &opened, &cursor, &step, room);
    }
}

/// A walk with a cursor of its own, until it was at its end twice: each call writes as many keys as have room, one behind the
/// other, and goes to after where there is room for more than are left; 14 where a key is left and none has room.
fn check_filled<S: Subject>(rng: &mut Rng, laid: &Laid, bytes: &[u8], opened: &S::Opened<'_>, places: &[&Cursor]) {
    let t = key_len(laid.width());
    let (mut walk, mut from, mut ends) = (S::walk(opened), 0, 0);
    while ends < 2 {
        let room = *rng.pick(&[0, t - 1, t, t, t + 1, 2 * t - 1, 2 * t, 3 * t + 2, 20 * t, 1_024]);
        let left: Vec<&Key> = laid.set.keys.iter().skip(from).collect();
        let keys = left.len().min(room / t);
        let what = || format!("{room} bytes of keys from place {from} of the walk over {}", shown(bytes));
        let fill = |out: &mut [u8]| match keys == 0 && !left.is_empty() {
            true => Err(14),
            false => plain::write(&left[..keys].iter().flat_map(|key| key.iter().copied()).collect::<Key>(), out),
        };
        same(rng, room, &what, fill, |out| S::fill(&mut walk, out));
        let to = if left.is_empty() || left.len() < room / t { places.len() - 1 } else { from + keys };
        assert_eq!(S::place(&walk), (places[to].state, places[to].offsets.clone()), "{}: the cursor after it", what());
        ends += usize::from(left.is_empty());
        from = to;
    }
}

// ---- Joining

pub fn check_join<S: Subject>(rng: &mut Rng, a: &Laid, b: &Laid) {
    let (x, y) = (a.encode(), b.encode());
    let kept = (x.clone(), y.clone());
    let union = plain::union(&a.set, &b.set).and_then(within_limits);
    check_writes(rng, &|| format!("union of {} and {}", shown(&x), shown(&y)), &union, |out| S::union(&x, &y, out));
    let difference = plain::difference(&a.set, &b.set).and_then(within_limits);
    check_writes(rng, &|| format!("difference of {} and {}", shown(&x), shown(&y)), &difference, |out| S::difference(&x, &y, out));
    if x == y {
        // the same bytes twice
        check_writes(rng, &|| format!("union of {} with itself", shown(&x)), &union, |out| S::union(&x, &x, out));
        check_writes(rng, &|| format!("difference of {} with itself", shown(&x)), &difference, |out| S::difference(&x, &x, out));
    }
    assert_eq!((x, y), kept, "a join changed an operand");
}

// ---- Histories

/// One list of calls over a store of encodings, against the same list over a model of plain sets.
pub fn check_history<S: Subject>(rng: &mut Rng, calls: usize) {
    let widths: Vec<usize> =
        (0..rng.between(1, 2)).map(|_| if rng.one_in(2) { rng.between(1, 10) } else { random_width(rng) }).collect();
    let mut model: Vec<Laid> = Vec::new();
    let mut store: Vec<Vec<u8>> = Vec::new();
    for _ in 0..calls {
        let width = *rng.pick(&widths);
        let room = if rng.one_in(5) { rng.below(1_500) } else { 68_695 + rng.below(50) };
        let place = rng.below(model.len() + 1);
        let other = rng.below(model.len() + 1);
        let mut right = rng.bytes(room + 2 * GUARD);
        let mut got = right.clone();
        let (right_out, out) = (&mut right[GUARD..GUARD + room], &mut got[GUARD..GUARD + room]);
        match rng.below(14) {
            0 | 1 => {
                let set = random_set(rng, width, 60);
                let (width, batch) = if rng.one_in(3) { damaged_batch(rng, &set) } else { (width as u64, batch_of(&set)) };
                let (answer, added) = plain::pack(width, &batch, right_out);
                assert_eq!(S::pack(width, &batch, out), answer, "pack {width} {batch:02X?}");
                store.extend(answer.ok().flatten().map(|n| out[..n as usize].to_vec()));
                model.extend(added);
            }
            2..=4 => {
                // a place not yet filled is no call
                let (Some(a), Some(b)) = (model.get(place), model.get(other)) else { continue };
                let union = rng.one_in(2);
                let joined = if union { plain::union(&a.set, &b.set) } else { plain::difference(&a.set, &b.set) };
                let (answer, added) = match joined {
                    Err(refusal) => (Err(refusal), None),
                    Ok(set) => plain::written(set, right_out),
                };
                let (x, y) = (&store[place], &store[other]);
                let said = if union { S::union(x, y, out) } else { S::difference(x, y, out) };
                assert_eq!(said, answer, "union {union} of {} and {}", shown(x), shown(y));
                store.extend(answer.ok().flatten().map(|n| out[..n as usize].to_vec()));
                model.extend(added);
            }
            5 | 6 => {
                // three more, in that order, or none
                let (Some(a), Some(b)) = (model.get(place), model.get(other)) else { continue };
                let parts = plain::split_laid(&a.set, &b.set);
                let rooms = [(); 3].map(|()| if rng.one_in(12) { rng.below(1_500) } else { 68_695 });
                if let Ok(written) = check_split_into::<S>(rng, rooms, [&store[place], &store[other]], &parts) {
                    store.extend(written);
                    model.extend(parts.into_iter().flatten());
                }
            }
            7 | 8 => {
                let Some(laid) = model.get(place) else { continue };
                let asked = some_prefixes(rng, laid, 1);
                let Prefix { bits, bytes } = rng.pick(&asked);
                let said = S::prefix(&store[place], *bits, bytes);
                assert_eq!(said, laid.prefix(*bits, bytes), "prefix {bits} {bytes:02X?} of {}", shown(&store[place]));
            }
            _ => {
                let Some(laid) = model.get(place) else { continue };
                let asked = questions(rng, laid, 1);
                let question = rng.pick(&asked);
                let answer = expected(laid, question, right_out);
                assert_eq!(S::ask(&store[place], question, out), answer, "{question:X?} of {}", shown(&store[place]));
            }
        }
        assert!(got == right, "the buffers differ");
    }
    assert_eq!(store.len(), model.len());
    for (bytes, laid) in store.iter().zip(&model) {
        assert_eq!(*bytes, laid.encode());
    }
    for (x, a) in store.iter().zip(&model) {
        for (y, b) in store.iter().zip(&model) {
            assert_eq!(x == y, a.set == b.set, "equal bytes and equal sets");
        }
    }
}
