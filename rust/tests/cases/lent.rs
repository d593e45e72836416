//! Lent buffers and lists: every byte and every entry is compared, with guards around them.

use std::fmt::Debug;

use super::{entries, Faults, Rng};
use crate::plain::{self, Answer, LengthsAnswer, Weighed};

pub const GUARD: usize = 24;

/// Two calls are each lent a copy of the same random buffer, with guard bytes around it: answers and all bytes must be the same.
pub fn same<R: PartialEq + Debug>(
    rng: &mut Rng,
    room: usize,
    what: &dyn Fn() -> String,
    expected: impl FnOnce(&mut [u8]) -> R,
    actual: impl FnOnce(&mut [u8]) -> R,
) {
    let mut right = rng.bytes(room + 2 * GUARD);
    let mut got = right.clone();
    let right_answer = expected(&mut right[GUARD..GUARD + room]);
    let answer = actual(&mut got[GUARD..GUARD + room]);
    assert_eq!(answer, right_answer, "{}, room {room}", what());
    same_bytes(&got, &right, &|| format!("{}, room {room}", what()));
}

fn same_bytes(got: &[u8], right: &[u8], what: &dyn Fn() -> String) {
    if got != right {
        let at = got.iter().zip(right).position(|(x, y)| x != y).unwrap() as i64 - GUARD as i64;
        panic!("{}: byte {at} of the buffer differs", what());
    }
}

/// A call that writes a result to the front of its buffer, or is refused, in buffers of many lengths.
pub fn check_writes(rng: &mut Rng, what: &dyn Fn() -> String, result: &Result<Vec<u8>, u64>, call: impl Fn(&mut [u8]) -> Answer) {
    let rooms = match result {
        Ok(front) if front.len() < 64 => (0..front.len() + 4).collect(),
        Ok(front) => {
            let n = front.len();
            let near = n + rng.between(2, 40);
            let far = rng.below(n + 1);
            vec![0, 1, n.saturating_sub(1), n, n + 1, near, far]
        }
        Err(_) => vec![0, rng.below(300), 68_695],
    };
    for room in rooms {
        let expected = |out: &mut [u8]| result.as_ref().map_err(|refusal| *refusal).and_then(|front| plain::write(front, out));
        same(rng, room, what, expected, &call);
    }
}

/// Two calls are each lent a copy of this list to change, with guard entries around it: answers and all entries must be the same.
pub fn same_list<R: PartialEq + Debug>(
    rng: &mut Rng,
    list: &[i32],
    what: &dyn Fn() -> String,
    expected: impl FnOnce(&mut [i32]) -> R,
    actual: impl FnOnce(&mut [i32]) -> R,
) {
    let mut right = [&entries(rng, GUARD), list, &entries(rng, GUARD)].concat();
    let mut got = right.clone();
    let lent = GUARD..GUARD + list.len();
    let right_answer = expected(&mut right[lent.clone()]);
    let answer = actual(&mut got[lent]);
    assert_eq!(answer, right_answer, "{}", what());
    same_entries(&got, &right, what);
}

fn same_entries(got: &[i32], right: &[i32], what: &dyn Fn() -> String) {
    if let Some(at) = got.iter().zip(right).position(|(x, y)| x != y) {
        panic!("{}: entry {} of the list is {}, not {}", what(), at as i64 - GUARD as i64, got[at], right[at]);
    }
}

/// What a call answered, and what it left in the outputs that it was lent.
pub struct Left {
    pub answer: Answer,
    pub out: Vec<u8>,
    pub list: Vec<i32>,
}

/// The same for a call that is lent a buffer and a list for output.
pub fn same_outputs(
    rng: &mut Rng,
    [room, list_room]: [usize; 2],
    what: &dyn Fn() -> String,
    expected: impl FnOnce(&mut [u8], &mut [i32]) -> Answer,
    actual: impl FnOnce(&mut [u8], &mut [i32]) -> Answer,
) -> Left {
    let what = || format!("{}, room for {list_room} entries", what());
    let mut right = entries(rng, list_room + 2 * GUARD);
    let mut got = right.clone();
    let lent = GUARD..GUARD + list_room;
    let mut left = Left { answer: Ok(None), out: Vec::new(), list: Vec::new() };
    let right_call = |out: &mut [u8]| expected(out, &mut right[lent.clone()]);
    same(rng, room, &what, right_call, |out| {
        left.answer = actual(out, &mut got[lent.clone()]);
        left.out = out.to_vec();
        left.answer
    });
    same_entries(&got, &right, &what);
    left.list = got[lent].to_vec();
    left
}

/// A call that writes an encoding and its list, or is refused, in outputs of many lengths.
pub fn check_writes_weighted(
    rng: &mut Rng,
    what: &dyn Fn() -> String,
    result: &Result<Weighed, u64>,
    call: impl Fn(&mut [u8], &mut [i32]) -> Answer,
) {
    let (length, count) = match result {
        Ok(weighed) => (weighed.laid.encode().len(), weighed.laid.count()),
        Err(_) => (68_695, 1_000),
    };
    let mut around = |n: usize| [n, n + rng.between(1, 40), n.saturating_sub(1), 0];
    let (rooms, list_rooms) = (around(length), around(count));
    for room in rooms {
        for list_room in list_rooms {
            let expected = |out: &mut [u8], list: &mut [i32]| result.as_ref().map_err(|refusal| *refusal)?.write(out, list);
            same_outputs(rng, [room, list_room], what, expected, &call);
        }
    }
}

/// The same for a call that is lent three buffers. What it wrote, or its refusal.
pub fn same_three(
    rng: &mut Rng,
    rooms: [usize; 3],
    what: &dyn Fn() -> String,
    expected: impl FnOnce([&mut [u8]; 3]) -> LengthsAnswer,
    actual: impl FnOnce([&mut [u8]; 3]) -> LengthsAnswer,
) -> Result<[Vec<u8>; 3], u64> {
    let what = || format!("{}, rooms {rooms:?}", what());
    let mut right = rooms.map(|room| rng.bytes(room + 2 * GUARD));
    let mut got = right.clone();
    fn lent(buffers: &mut [Vec<u8>; 3]) -> [&mut [u8]; 3] {
        buffers.each_mut().map(|buffer| {
            let end = buffer.len() - GUARD;
            &mut buffer[GUARD..end]
        })
    }
    let right_answer = expected(lent(&mut right));
    let answer = actual(lent(&mut got));
    assert_eq!(answer, right_answer, "{}", what());
    for (i, (got, right)) in got.iter().zip(&right).enumerate() {
        same_bytes(got, right, &|| format!("{}, buffer {i}", what()));
    }
    let lengths = answer?;
    Ok([0, 1, 2].map(|i| got[i][GUARD..GUARD + lengths[i] as usize].to_vec()))
}

/// A call that writes three results, each to the front of its buffer, or is refused, in buffers of many lengths: each exact, each
/// longer, and every choice of them too short, by a byte, by any number and by all.
pub fn check_writes_three(
    rng: &mut Rng,
    what: &dyn Fn() -> String,
    results: &Result<[Vec<u8>; 3], u64>,
    call: impl Fn([&mut [u8]; 3]) -> LengthsAnswer,
) {
    let mut all_rooms = vec![[0; 3], [68_695; 3]];
    match results {
        Err(_) => all_rooms.push([(); 3].map(|()| rng.below(300))),
        Ok(results) => {
            let exact = results.each_ref().map(Vec::len);
            all_rooms.extend([exact, exact.map(|n| n + rng.between(1, 40))]);
            // each way to be too short; where results are long, by a byte and one other way
            let other = 1 + rng.below(2);
            let ways = if exact.iter().sum::<usize>() < 5_000 { vec![0, 1, 2] } else { vec![0, other] };
            for short in (1..8).map(Faults) {
                for &way in &ways {
                    let more = *rng.pick(&[0, 1, 30]);
                    let short_of = |n: usize, rng: &mut Rng| [n - 1, rng.below(n), 0][way];
                    all_rooms.push([0, 1, 2].map(|i| if short.has(i) { short_of(exact[i], rng) } else { exact[i] + more }));
                }
            }
        }
    }
    for rooms in all_rooms {
        let expected = |outs: [&mut [u8]; 3]| plain::write_three(results.as_ref().map_err(|refusal| *refusal)?, outs);
        let _ = same_three(rng, rooms, what, expected, &call);
    }
}
