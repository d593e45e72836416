//! Weights: each call with a list compared with the reference, and whole histories compared with a ledger.

use std::ops::Range;

use super::*;
use crate::plain::{self, key_len, Account, Answer, Key, Laid, Set, Weighed};

// ---- Lists

/// A weight: small, any, or at an end of the range.
pub fn weight(rng: &mut Rng) -> i32 {
    match rng.below(4) {
        0 => rng.below(201) as i32 - 100,
        1 => rng.next() as i32,
        2 => i32::MAX - rng.below(3) as i32,
        _ => i32::MIN + rng.below(3) as i32,
    }
}

pub fn entries(rng: &mut Rng, n: usize) -> Vec<i32> {
    (0..n).map(|_| weight(rng)).collect()
}

/// A list: of small entries, of large ones that two of a kind can be added, or of any.
pub fn list(rng: &mut Rng, n: usize) -> Vec<i32> {
    match rng.below(3) {
        0 => (0..n).map(|_| rng.below(2_001) as i32 - 1_000).collect(),
        1 => (0..n).map(|_| rng.next() as i32 / 2).collect(),
        _ => entries(rng, n),
    }
}

/// The list with an entry less, with one more, and none of it.
fn wrong_lists(list: &[i32]) -> Vec<Vec<i32>> {
    let mut wrong = vec![[list, &[0]].concat()];
    if let Some((_, rest)) = list.split_last() {
        wrong.extend([rest.to_vec(), Vec::new()]);
    }
    wrong
}

/// How long the list is, and its first entries.
fn shown_list(list: &[i32]) -> String {
    format!("{} entries {:?}", list.len(), &list[..list.len().min(50)])
}

/// An encoding with its set and its list.
#[derive(Clone)]
struct Operand<'a> {
    laid: &'a Laid,
    bytes: Vec<u8>,
    list: Vec<i32>,
}

impl Operand<'_> {
    fn new(laid: &Laid, list: Vec<i32>) -> Operand<'_> {
        Operand { laid, bytes: laid.encode(), list }
    }

    fn with(&self, list: Vec<i32>) -> Self {
        Operand { list, ..self.clone() }
    }

    fn shown(&self) -> String {
        format!("{} with {}", shown(&self.bytes), shown_list(&self.list))
    }
}

// ---- Pack

pub fn check_pack_weighted<S: Subject>(rng: &mut Rng, width: u64, batch: &[u8]) {
    let result = Weighed::packed(width, batch);
    let kept = batch.to_vec();
    check_writes_weighted(rng, &|| format!("pack {width} {}", shown(batch)), &result, |out, list| {
        S::pack_weighted(width, batch, out, list)
    });
    assert_eq!(batch, kept, "pack changed its batch");
}

pub fn weighted_packs<S: Subject>(rng: &mut Rng) {
    let width = random_width(rng);
    let set = random_set(rng, width, 40);
    check_pack_weighted::<S>(rng, width as u64, &batch_of(&set));
    let (width, batch) = damaged_batch(rng, &set);
    check_pack_weighted::<S>(rng, width, &batch);
}

// ---- Post

/// The amounts that bring what a key holds to the ends of the range, that go one beyond them, and some more.
fn amounts(rng: &mut Rng, held: i32) -> Vec<i32> {
    let ends = [i64::from(i32::MIN) - 1, i64::from(i32::MIN), i64::from(i32::MAX), i64::from(i32::MAX) + 1];
    let mut amounts: Vec<i32> = ends.iter().filter_map(|end| i32::try_from(end - i64::from(held)).ok()).collect();
    amounts.extend([0, 1, -1, i32::MAX, i32::MIN, weight(rng)]);
    amounts
}

/// One post to a list, both ways of calling: this is answered, and this list left.
fn check_post<S: Subject>(
    rng: &mut Rng,
    (bytes, opened): (&[u8], &S::Opened<'_>),
    list: &[i32],
    (key, amount): (&[u8], i32),
    (answer, left): (Answer, &[i32]),
) {
    let what = || format!("post {amount} to {key:02X?} of {} with {}", shown(bytes), shown_list(list));
    let right = |list: &mut [i32]| {
        list.copy_from_slice(left);
        answer
    };
    same_list(rng, list, &what, right, |list| S::post_opened(opened, list, key, amount));
    same_list(rng, list, &what, right, |list| S::post(bytes, list, key, amount));
}

pub fn check_posts<S: Subject>(rng: &mut Rng, laid: &Laid, times: usize) {
    let bytes = laid.encode();
    let (kept, (opened, _)) = (bytes.clone(), S::open(&bytes).expect("an encoding opens"));
    let mut weighed = Weighed::listed(laid, &list(rng, laid.count())).unwrap();
    for key in keys_near(rng, laid, times) {
        let held = weighed.held.get(&key).copied();
        for amount in amounts(rng, held.unwrap_or(0) as i32) {
            let list = weighed.list();
            let answer = weighed.post(&key, amount);
            check_post::<S>(rng, (&bytes, &opened), &list, (&key, amount), (answer, &weighed.list()));
            // each from the same weight, or one after the other
            if let (Some(weight), false) = (held, rng.one_in(4)) {
                weighed.held.insert(key.clone(), weight);
            }
        }
        for wrong in wrong_lists(&weighed.list()) {
            let amount = weight(rng);
            check_post::<S>(rng, (&bytes, &opened), &wrong, (&key, amount), (Err(16), &wrong));
        }
    }
    assert_eq!(bytes, kept, "a post changed the encoding");
}

pub fn posts<S: Subject>(rng: &mut Rng) {
    let width = random_width(rng);
    let laid = random_set(rng, width, 40).lay();
    check_posts::<S>(rng, &laid, 2);
}

// ---- Joining

fn check_union_weighted<S: Subject>(rng: &mut Rng, a: &Operand, b: &Operand) {
    let (x, y) = (a.clone(), b.clone());
    let result = plain::union_weighted(a.laid, &a.list, b.laid, &b.list);
    check_writes_weighted(rng, &|| format!("union of {} and {}", a.shown(), b.shown()), &result, |out, list| {
        S::union_weighted(&x.bytes, &x.list, &y.bytes, &y.list, out, list)
    });
    let kept = (&x.bytes, &x.list, &y.bytes, &y.list) == (&a.bytes, &a.list, &b.bytes, &b.list);
    assert!(kept, "a union changed an operand");
}

fn check_difference_weighted<S: Subject>(rng: &mut Rng, a: &Operand, b: &Operand) {
    let (x, y) = (a.clone(), b.bytes.clone());
    let result = plain::difference_weighted(a.laid, &a.list, b.laid);
    check_writes_weighted(rng, &|| format!("difference of {} and {}", a.shown(), b.shown()), &result, |out, list| {
        S::difference_weighted(&x.bytes, &x.list, &y, out, list)
    });
    assert!((&x.bytes, &x.list, &y) == (&a.bytes, &a.list, &b.bytes), "a difference changed an operand");
}

/// A difference with a right list, in outputs of just its lengths.
pub fn check_difference_list<S: Subject>(rng: &mut Rng, a: &Laid, b: &Laid) {
    let (a, y) = (Operand::new(a, list(rng, a.count())), b.encode());
    let right = plain::difference_weighted(a.laid, &a.list, b).unwrap();
    let rooms = [right.laid.encode().len(), right.laid.count()];
    let what = || format!("difference of {} and {}", a.shown(), shown(&y));
    same_outputs(
        rng,
        rooms,
        &what,
        |out, list| right.write(out, list),
        |out, list| S::difference_weighted(&a.bytes, &a.list, &y, out, list),
    );
}

/// Both joins with right lists, then with each list too short and too long.
pub fn check_join_weighted<S: Subject>(rng: &mut Rng, a: &Laid, b: &Laid) {
    let (v, w) = (list(rng, a.count()), list(rng, b.count()));
    let (a, b) = (Operand::new(a, v), Operand::new(b, w));
    check_union_weighted::<S>(rng, &a, &b);
    check_difference_weighted::<S>(rng, &a, &b);
    for wrong in wrong_lists(&a.list) {
        check_union_weighted::<S>(rng, &a.with(wrong.clone()), &b);
        check_difference_weighted::<S>(rng, &a.with(wrong), &b);
    }
    for wrong in wrong_lists(&b.list) {
        check_union_weighted::<S>(rng, &a, &b.with(wrong));
    }
    // the same bytes and the same list twice
    let (x, result) = (&a, plain::union_weighted(a.laid, &a.list, a.laid, &a.list));
    check_writes_weighted(rng, &|| format!("union of {} with itself", x.shown()), &result, |out, list| {
        S::union_weighted(&x.bytes, &x.list, &x.bytes, &x.list, out, list)
    });
}

pub fn weighted_joins<S: Subject>(rng: &mut Rng) {
    let width = random_width(rng);
    let most = if rng.one_in(20) { 40_000 / width + 1 } else { 40 };
    let [a, b] = operands(rng, width, most).map(Set::lay);
    check_join_weighted::<S>(rng, &a, &b);
    let other_width = width % 256 + 1;
    let other = random_set(rng, other_width, 10).lay();
    check_join_weighted::<S>(rng, &a, &other);
}

/// Every sum at an end of the range; then one sum one beyond it.
pub fn sums_at_both_ends<S: Subject>(rng: &mut Rng) {
    let width = random_width(rng);
    let [mut a, mut b] = operands(rng, width, 40);
    let key = random_key(rng, width);
    a.keys.insert(key.clone());
    b.keys.insert(key);
    let (a, b) = (a.lay(), b.lay());
    let v: Vec<i32> = entries(rng, a.count()).into_iter().map(|weight| if weight == 0 { -1 } else { weight }).collect();
    let shared = |key: &Key| a.index_of(key).unwrap().map(|index| v[index as usize]);
    let end = |weight: i32| if weight < 0 { i32::MIN } else { i32::MAX };
    let w: Vec<i32> = b.set.keys.iter().map(|key| shared(key).map_or_else(|| weight(rng), |weight| end(weight) - weight)).collect();
    let (a, b) = (Operand::new(&a, v.clone()), Operand::new(&b, w.clone()));
    assert_eq!(check_sums::<S>(rng, &a, &b), Ok(Some(1)));
    let both: Vec<(usize, i32)> =
        b.laid.set.keys.iter().enumerate().filter_map(|(i, key)| shared(key).map(|weight| (i, weight.signum()))).collect();
    for (i, beyond) in [both[0], *both.last().unwrap(), *rng.pick(&both)] {
        let mut w = w.clone();
        w[i] += beyond;
        assert_eq!(check_sums::<S>(rng, &a, &b.with(w)), Err(17));
    }
}

/// The union's answer where there is room: found or refused.
fn check_sums<S: Subject>(rng: &mut Rng, a: &Operand, b: &Operand) -> Answer {
    check_union_weighted::<S>(rng, a, b);
    let (mut out, mut list) = (vec![0; 68_695], vec![0; a.list.len() + b.list.len()]);
    S::union_weighted(&a.bytes, &a.list, &b.bytes, &b.list, &mut out, &mut list).map(|length| length.map(|_| 1))
}

// ---- Refusals

/// Every call with a list refuses bytes that are refused, whatever else it is given, and changes nothing.
pub fn check_refused_weighted<S: Subject>(rng: &mut Rng, bytes: &[u8], number: u64) {
    let what = || format!("a call with a list on {}", shown(bytes));
    let right = Set::new(3, [vec![0x60]]).lay().encode();
    let (n, rooms) = (rng.below(5), [rng.below(60), rng.below(3)]);
    let (list, key, amount) = (entries(rng, n), rng.bytes(1), weight(rng));
    let kept = list.clone();
    same_list(rng, &list, &what, |_| Err(number), |list| S::post(bytes, list, &key, amount));
    let refused = |number: u64| move |_: &mut [u8], _: &mut [i32]| Err(number);
    same_outputs(rng, rooms, &what, refused(number), |out, to| S::union_weighted(bytes, &list, &right, &list, out, to));
    same_outputs(rng, rooms, &what, refused(number), |out, to| S::union_weighted(&right, &list, bytes, &list, out, to));
    same_outputs(rng, rooms, &what, refused(2), |out, to| S::union_weighted(&[9, 9, 9], &list, bytes, &list, out, to));
    same_outputs(rng, rooms, &what, refused(number), |out, to| S::difference_weighted(bytes, &list, &right, out, to));
    same_outputs(rng, rooms, &what, refused(number), |out, to| S::difference_weighted(&right, &list, bytes, out, to));
    same_outputs(rng, rooms, &what, refused(2), |out, to| S::difference_weighted(&[9, 9, 9], &list, bytes, out, to));
    assert_eq!(list, kept, "a join changed a list that it reads");
}

/// Every choice of faults of each call: the refusal of the first in order, and nothing changes.
pub fn weighted_refusals<S: Subject>(rng: &mut Rng) {
    pack_refusals::<S>(rng);
    union_refusals::<S>(rng);
    difference_refusals::<S>(rng);
    post_refusals::<S>(rng);
}

fn numbers(width: usize, numbers: impl IntoIterator<Item = usize>) -> Laid {
    Set::new(width, numbers.into_iter().map(|number| number_key(width, number))).lay()
}

/// A list of zeros, but for one number's entry.
fn zeros_but(laid: &Laid, number: usize, weight: i32) -> Vec<i32> {
    let mut list = vec![0; laid.count()];
    if let Ok(Some(index)) = laid.index_of(&number_key(laid.width(), number)) {
        list[index as usize] = weight;
    }
    list
}

/// Also without a list, which cannot be too short then. The faults 11 and 12 are the last key's.
fn pack_refusals<S: Subject>(rng: &mut Rng) {
    const ORDER: [u64; 7] = [4, 10, 11, 12, 5, 14, 14];
    let batch = |numbers: Range<usize>| numbers.flat_map(|number| number_key(18, number)).collect::<Vec<u8>>();
    let (small, large) = (batch(300..302), batch(0..1 << 18));
    let right = Weighed::packed(18, &small).unwrap();
    for faults in (0..1 << ORDER.len()).map(Faults) {
        let mut batch = if faults.has(4) { large.clone() } else { small.clone() };
        if faults.has(3) {
            batch.extend(number_key(18, 0));
        }
        if faults.has(2) {
            *batch.last_mut().unwrap() |= 1;
        }
        if faults.has(1) {
            batch.push(0);
        }
        let (what, kept) = (|| format!("a pack with faults {:07b}", faults.0), batch.clone());
        let rooms = [right.laid.encode().len() - usize::from(faults.has(5)), 2 - usize::from(faults.has(6))];
        for width in if faults.has(0) { vec![0, 257] } else { vec![18] } {
            let expected = |out: &mut [u8], list: &mut [i32]| faults.write(&ORDER, &right, out, list);
            same_outputs(rng, rooms, &what, expected, |out, list| S::pack_weighted(width, &batch, out, list));
            let expected = |out: &mut [u8]| faults.write(&ORDER[..6], &right, out, &mut [0; 2]);
            same(rng, rooms[0], &what, expected, |out| S::pack(width, &batch, out));
        }
        assert!(batch == kept, "a pack changed its batch");
    }
}

fn union_refusals<S: Subject>(rng: &mut Rng) {
    const ORDER: [u64; 9] = [1, 6, 13, 16, 16, 5, 14, 14, 17];
    let (small, second, other) = (numbers(19, [300, 400]), numbers(19, [300, 500]), numbers(18, [300]));
    let half = 1 << 18;
    let (large, large_second) = (numbers(19, 6..half), numbers(19, (half + 200..2 * half).chain([300])));
    let [small, second, other, large, large_second] =
        [&small, &second, &other, &large, &large_second].map(|laid| Operand::new(laid, zeros_but(laid, 300, 1)));
    let whole = plain::union_weighted(small.laid, &small.list, second.laid, &second.list).unwrap();
    for faults in (0..1 << ORDER.len()).map(Faults) {
        let mut a = if faults.has(5) { large.clone() } else { small.clone() };
        let mut b = match faults.has(2) {
            true => other.clone(),
            false if faults.has(5) => large_second.clone(),
            false => second.clone(),
        };
        let weight = if faults.has(8) { i32::MAX } else { 1 };
        a.list = zeros_but(a.laid, 300, weight);
        if faults.has(0) {
            a.bytes.pop();
        }
        if faults.has(1) {
            b.bytes.push(0);
        }
        if faults.has(3) {
            a.list.pop();
        }
        if faults.has(4) {
            b.list.push(0);
        }
        let rooms = [whole.laid.encode().len() - usize::from(faults.has(6)), 3 - usize::from(faults.has(7))];
        let expected = |out: &mut [u8], list: &mut [i32]| faults.write(&ORDER, &whole, out, list);
        let kept = (a.clone(), b.clone());
        same_outputs(rng, rooms, &|| format!("a union with faults {:09b}", faults.0), expected, |out, list| {
            S::union_weighted(&a.bytes, &a.list, &b.bytes, &b.list, out, list)
        });
        let kept = (&a.bytes, &a.list, &b.bytes, &b.list) == (&kept.0.bytes, &kept.0.list, &kept.1.bytes, &kept.1.list);
        assert!(kept, "a union changed an operand");
    }
}

/// Without 5, which cannot be: a difference has no more edges than its first set.
fn difference_refusals<S: Subject>(rng: &mut Rng) {
    const ORDER: [u64; 6] = [1, 6, 13, 16, 14, 14];
    let (first, second, other) = (numbers(19, [300, 400]), numbers(19, [300]), numbers(18, [300]));
    let right = plain::difference_weighted(&first, &[5, -6], &second).unwrap();
    for faults in (0..1 << ORDER.len()).map(Faults) {
        let mut a = Operand::new(&first, vec![5, -6]);
        let mut b = if faults.has(2) { other.encode() } else { second.encode() };
        if faults.has(0) {
            a.bytes.pop();
        }
        if faults.has(1) {
            b.push(0);
        }
        if faults.has(3) {
            a.list.push(0);
        }
        let rooms = [right.laid.encode().len() - usize::from(faults.has(4)), 1 - usize::from(faults.has(5))];
        let expected = |out: &mut [u8], list: &mut [i32]| faults.write(&ORDER, &right, out, list);
        let kept = (a.clone(), b.clone());
        same_outputs(rng, rooms, &|| format!("a difference with faults {:06b}", faults.0), expected, |out, list| {
            S::difference_weighted(&a.bytes, &a.list, &b, out, list)
        });
        assert!((&a.bytes, &a.list, &b) == (&kept.0.bytes, &kept.0.list, &kept.1), "a difference changed an operand");
    }
}

/// Also with an absent key, which has no sum.
fn post_refusals<S: Subject>(rng: &mut Rng) {
    const ORDER: [u64; 4] = [1, 16, 8, 17];
    let laid = numbers(19, [300, 400]);
    for faults in (0..1 << ORDER.len()).map(Faults) {
        for (absent, long) in [(false, false), (false, true), (true, false), (true, true)] {
            let (mut bytes, mut list, mut key) = (laid.encode(), vec![7, 7], number_key(19, if absent { 301 } else { 300 }));
            if faults.has(0) {
                bytes.pop();
            }
            if faults.has(1) {
                list.resize(if long { 3 } else { 1 }, 7);
            }
            if faults.has(2) {
                key[2] |= 1;
            }
            let amount = if faults.has(3) { i32::MAX } else { -8 };
            let expected = |list: &mut [i32]| match faults.first(&ORDER) {
                Some(17) | None if absent => Ok(None),
                Some(refusal) => Err(refusal),
                None => {
                    list[0] = -1;
                    Ok(Some(1))
                }
            };
            let what = || format!("a post with faults {:04b}, absent {absent}", faults.0);
            let kept = (bytes.clone(), key.clone());
            same_list(rng, &list, &what, expected, |list| S::post(&bytes, list, &key, amount));
            if let Ok((opened, _)) = S::open(&bytes) {
                same_list(rng, &list, &what, expected, |list| S::post_opened(&opened, list, &key, amount));
            }
            assert!((bytes, key) == kept, "a post changed what it reads");
        }
    }
}

// ---- Boundaries

/// The least and the greatest widths and those around a byte: empty, full, and sets that share keys.
pub fn weighted_boundaries<S: Subject>(rng: &mut Rng) {
    for width in [1, 7, 8, 9, 255, 256] {
        let mut sets = vec![Set::new(width, []), Set::new(width, [random_key(rng, width)])];
        if width <= 9 {
            sets.push(full_set(width));
        }
        sets.extend(operands(rng, width, 60));
        let sets: Vec<Laid> = sets.into_iter().map(Set::lay).collect();
        for a in &sets {
            check_pack_weighted::<S>(rng, width as u64, &batch_of(&a.set));
            check_posts::<S>(rng, a, 1);
            for b in &sets {
                check_join_weighted::<S>(rng, a, b);
            }
        }
    }
    // where a sub-block or a block is just filled
    for bits in [510, 512, 514, 65_534, 65_536, 65_538] {
        for width in if bits < 5_000 { [12, 255] } else { [18, 256] } {
            let set = set_with_records(rng, width, bits / 2);
            let part = random_part(rng, &set, 2).lay();
            check_pack_weighted::<S>(rng, width as u64, &batch_of(&set));
            let laid = set.lay();
            assert_eq!(laid.bits(), bits);
            check_posts::<S>(rng, &laid, 2);
            check_join_weighted::<S>(rng, &laid, &part);
            check_join_weighted::<S>(rng, &part, &laid);
        }
    }
}

/// Every member's entry posted to, by itself.
fn check_each_entry<S: Subject>(laid: &Laid) {
    let bytes = laid.encode();
    let (opened, _) = S::open(&bytes).unwrap();
    let mut list = vec![0; laid.count()];
    for (i, key) in laid.set.keys.iter().enumerate() {
        assert_eq!(S::post_opened(&opened, &mut list, key, 3 * i as i32 - 7), Ok(Some(1)));
    }
    assert!(list.iter().enumerate().all(|(i, weight)| *weight == 3 * i as i32 - 7));
}

/// Edge sequences of 524,280 bits, and of more.
pub fn weights_at_the_limit<S: Subject>(rng: &mut Rng) {
    for width in [19, 256] {
        let laid = set_with_records(rng, width, 262_140).lay();
        assert_eq!(laid.bits(), plain::MAX_EDGES);
        check_pack_weighted::<S>(rng, width as u64, &batch_of(&laid.set));
        check_each_entry::<S>(&laid);
        check_posts::<S>(rng, &laid, 1);
        let part = random_part(rng, &laid.set, 2).lay();
        let other = set_with_records(rng, width, 150_000).lay();
        let [a, b, c] = [&laid, &part, &other].map(|laid| {
            let halves = (0..laid.count()).map(|_| rng.next() as i32 / 2).collect();
            Operand::new(laid, halves)
        });
        for (a, b) in [(&a, &b), (&b, &a), (&a, &c)] {
            check_union_weighted::<S>(rng, a, b);
            check_difference_weighted::<S>(rng, a, b);
        }
        // one sum beyond the range, that of the last shared key
        let last = a.laid.index_of(b.laid.set.keys.last().unwrap()).unwrap().unwrap() as usize;
        let (mut v, mut w) = (a.list.clone(), b.list.clone());
        v[last] = i32::MIN;
        *w.last_mut().unwrap() = -1;
        assert_eq!(check_sums::<S>(rng, &a.with(v), &b.with(w)), Err(17));
    }
    lists_of_halves::<S>(rng);
    // one key many times: one entry
    let key = random_key(rng, 255);
    check_pack_weighted::<S>(rng, 255, &key.repeat(3_000));
}

/// Two halves, with the longest lists that there are, all entries different; both together have twice as many members.
fn lists_of_halves<S: Subject>(rng: &mut Rng) {
    let [x, y] = [0, 1].map(|first| half_set(first).lay());
    let n = x.count();
    let rising = |step: i32| (0..n as i32).map(|i| step * i - 1_000_000).collect::<Vec<i32>>();
    let (a, b) = (Operand::new(&x, rising(5)), Operand::new(&y, rising(7)));
    check_each_entry::<S>(&x);
    check_posts::<S>(rng, &x, 0);
    let (batch, zeros) = (batch_of(&x.set), Weighed::listed(&x, &vec![0; n]));
    check_writes_weighted(rng, &|| "pack of a half".to_string(), &zeros, |out, list| S::pack_weighted(19, &batch, out, list));
    // nothing is dropped: of the members' flags those for the first set are in front, or behind
    for (a, b) in [(&a, &b), (&b, &a)] {
        let whole = Weighed::listed(a.laid, &a.list);
        check_writes_weighted(rng, &|| "difference of two halves".to_string(), &whole, |out, list| {
            S::difference_weighted(&a.bytes, &a.list, &b.bytes, out, list)
        });
        check_writes_weighted(rng, &|| "union of two halves".to_string(), &Err(5), |out, list| {
            S::union_weighted(&a.bytes, &a.list, &b.bytes, &b.list, out, list)
        });
    }
    let part = random_part(rng, &x.set, 2).lay();
    check_difference_weighted::<S>(rng, &a, &Operand::new(&part, Vec::new()));
    // a half with itself: every sum in range, then the last one not
    let mut again = a.with(rising(7));
    for last in [0, i32::MAX] {
        again.list[n - 1] = last;
        let sums = a.list.iter().zip(&again.list).map(|(v, w)| i64::from(*v) + i64::from(*w));
        let held = x.set.keys.iter().cloned().zip(sums).collect();
        let union = Ok(Weighed { laid: x.clone(), held });
        check_writes_weighted(rng, &|| "union of a half with itself".to_string(), &union, |out, list| {
            S::union_weighted(&a.bytes, &a.list, &again.bytes, &again.list, out, list)
        });
    }
}

// ---- Histories

/// An encoding and its list.
struct Kept {
    encoding: Vec<u8>,
    list: Vec<i32>,
}

/// A store of encodings with their lists, and the ledger of the same calls.
struct History {
    store: Vec<Kept>,
    ledger: Vec<Account>,
}

impl History {
    /// A call that writes, and what the ledger has for it; accepted, it is one more place of both.
    fn write<S: Subject>(
        &mut self,
        rng: &mut Rng,
        rooms: [usize; 2],
        made: Result<Account, u64>,
        call: impl FnOnce(&[Kept], &mut [u8], &mut [i32]) -> Answer,
    ) -> Answer {
        let expected = |out: &mut [u8], list: &mut [i32]| made.as_ref().map_err(|refusal| *refusal)?.weighed.write(out, list);
        let what = || format!("call that makes place {}", self.store.len());
        let left = same_outputs(rng, rooms, &what, expected, |out, list| call(&self.store, out, list));
        if let (Ok(Some(length)), Ok(account)) = (left.answer, made) {
            let encoding = left.out[..length as usize].to_vec();
            let (_, [_, count, _]) = S::open(&encoding).expect("what was written is an encoding");
            self.store.push(Kept { encoding, list: left.list[..count as usize].to_vec() });
            self.ledger.push(account);
        }
        left.answer
    }

    fn pack<S: Subject>(&mut self, rng: &mut Rng, rooms: [usize; 2], width: u64, batch: &[u8]) -> Answer {
        self.write::<S>(rng, rooms, Account::packed(width, batch), |_, out, list| S::pack_weighted(width, batch, out, list))
    }

    fn union<S: Subject>(&mut self, rng: &mut Rng, rooms: [usize; 2], i: usize, j: usize) -> Answer {
        let made = self.ledger[i].union(&self.ledger[j]);
        self.write::<S>(rng, rooms, made, |store, out, list| {
            S::union_weighted(&store[i].encoding, &store[i].list, &store[j].encoding, &store[j].list, out, list)
        })
    }

    fn difference<S: Subject>(&mut self, rng: &mut Rng, rooms: [usize; 2], i: usize, j: usize) -> Answer {
        let made = self.ledger[i].difference(&self.ledger[j]);
        self.write::<S>(rng, rooms, made, |store, out, list| {
            S::difference_weighted(&store[i].encoding, &store[i].list, &store[j].encoding, out, list)
        })
    }

    fn post<S: Subject>(&mut self, i: usize, key: &[u8], amount: i32) -> Answer {
        let Kept { encoding, list } = &mut self.store[i];
        let answer = S::post(encoding, list, key, amount);
        assert_eq!(answer, self.ledger[i].post(key, amount), "post {amount} to {key:02X?} at place {i}");
        answer
    }

    /// A post of some amount to one of these keys, or to one that does not fit.
    fn some_post<S: Subject>(&mut self, rng: &mut Rng, i: usize, keys: &[Key]) {
        let mut key = rng.pick(keys).clone();
        if rng.one_in(12) {
            key.push(0);
        }
        let held = self.ledger[i].weighed.held.get(&key).map_or(0, |weight| *weight as i32);
        let amounts = amounts(rng, held);
        let amount = if rng.one_in(2) { rng.below(2_001) as i32 - 1_000 } else { *rng.pick(&amounts) };
        let _ = self.post::<S>(i, &key, amount);
    }

    /// Every list's total is all that was posted less all that was dropped; and every place of the store is what the ledger has for
    /// it, byte by byte and entry by entry.
    fn compare(&self) {
        assert_eq!(self.store.len(), self.ledger.len());
        for (place, (kept, account)) in self.store.iter().zip(&self.ledger).enumerate() {
            let total: i128 = kept.list.iter().map(|weight| i128::from(*weight)).sum();
            assert_eq!(total, account.posted - account.dropped, "the total at place {place}");
            assert!(kept.encoding == account.weighed.laid.encode(), "the encoding at place {place}");
            assert_eq!(kept.list, account.weighed.list(), "the list at place {place}");
        }
    }

    /// How many keys of a place hold something.
    fn holding(&self, place: usize) -> usize {
        self.store[place].list.iter().filter(|weight| **weight != 0).count()
    }

    /// Two places to join, one in so many times the same one. The first is the one of three that holds most.
    fn places(&self, rng: &mut Rng, same: usize) -> (usize, usize) {
        let places = self.store.len();
        let first = (0..3).map(|_| rng.below(places)).max_by_key(|place| self.holding(*place)).unwrap();
        let apart = if rng.one_in(same) || places == 1 { 0 } else { rng.between(1, places - 1) };
        (first, (first + apart) % places)
    }
}

/// A list of steps over a store, against the ledger; compared after each. A step is a call, or some posts to one list.
pub fn check_weighted_history<S: Subject>(rng: &mut Rng, steps: usize) {
    let widths: Vec<usize> = (0..rng.between(1, 2)).map(|_| random_width(rng)).collect();
    // few keys, so that sets share them
    let keys: Vec<Vec<Key>> = widths.iter().map(|width| (0..12).map(|_| random_key(rng, *width)).collect()).collect();
    let mut history = History { store: Vec::new(), ledger: Vec::new() };
    for _ in 0..steps {
        let places = history.store.len();
        let rooms = [if rng.one_in(12) { rng.below(600) } else { 68_695 }, if rng.one_in(12) { rng.below(9) } else { 40 }];
        match rng.below(17) {
            0 | 1 => {
                let pool = rng.below(widths.len());
                let set = Set::new(widths[pool], keys[pool].iter().filter(|_| !rng.one_in(3)).cloned());
                let whole = (widths[pool] as u64, batch_of(&set));
                let (width, batch) = if rng.one_in(6) { damaged_batch(rng, &set) } else { whole };
                let _ = history.pack::<S>(rng, rooms, width, &batch);
            }
            _ if places == 0 => (),
            2..=7 => {
                let i = rng.below(places);
                let width = history.ledger[i].weighed.laid.width();
                let own = widths.iter().position(|other| *other == width).unwrap_or(0);
                // several, so that more than one key holds something
                for _ in 0..rng.between(1, 6) {
                    let pool = if rng.one_in(10) { rng.below(widths.len()) } else { own };
                    history.some_post::<S>(rng, i, &keys[pool]);
                }
            }
            8..=11 => {
                let (i, j) = history.places(rng, 4);
                let _ = history.union::<S>(rng, rooms, i, j);
            }
            12..=15 => {
                let (i, j) = history.places(rng, 8);
                let _ = history.difference::<S>(rng, rooms, i, j);
            }
            _ => {
                // refused between the others
                let Kept { encoding, list } = &history.store[rng.below(places)];
                let wrong = rng.pick(&wrong_lists(list)).clone();
                let what = || "a call with a wrong list".to_string();
                let refused = |_: &mut [u8], _: &mut [i32]| Err(16);
                same_list(rng, &wrong, &what, |_| Err(16), |wrong| S::post(encoding, wrong, &[], 1));
                for (v, w) in [(&wrong, list), (list, &wrong)] {
                    same_outputs(rng, rooms, &what, refused, |out, to| S::union_weighted(encoding, v, encoding, w, out, to));
                }
                same_outputs(rng, rooms, &what, refused, |out, to| S::difference_weighted(encoding, &wrong, encoding, out, to));
            }
        }
        history.compare();
    }
}

// ---- Examples: those of crates/weights/specs/Examples.antt, in its order

const HIGH: i32 = i32::MAX;
const LOW: i32 = i32::MIN;

fn of_three_bits(keys: &[u8]) -> Vec<u8> {
    Set::new(3, keys.iter().map(|key| vec![*key])).lay().encode()
}

/// The answer of a call, and what it leaves in outputs of these lengths.
fn leaving(room: usize, list_room: usize, call: impl FnOnce(&mut [u8], &mut [i32]) -> Answer) -> (Answer, Vec<u8>, Vec<i32>) {
    let (mut out, mut list) = (vec![0xEE; room], vec![77; list_room]);
    (call(&mut out, &mut list), out, list)
}

/// An accepted call: the encoding, the list, and what is behind them.
fn wrote(encoding: &[u8], room: usize, list: &[i32]) -> (Answer, Vec<u8>, Vec<i32>) {
    let mut out = vec![0xEE; room];
    out[..encoding.len()].copy_from_slice(encoding);
    (Ok(Some(encoding.len() as u64)), out, list.to_vec())
}

fn refused(number: u64, room: usize, list_room: usize) -> (Answer, Vec<u8>, Vec<i32>) {
    leaving(room, list_room, |_, _| Err(number))
}

pub fn check_weighted_examples<S: Subject>() {
    check_pack_examples::<S>();
    check_post_examples::<S>();
    check_union_examples::<S>();
    check_difference_examples::<S>();
}

fn check_pack_examples<S: Subject>() {
    let pack = |batch: &[u8], room, list_room| leaving(room, list_room, |out, list| S::pack_weighted(3, batch, out, list));
    let keys = [0x00, 0x60, 0xC0];
    assert_eq!(pack(&keys, 50, 5), wrote(&P2, 50, &[0, 0, 0, 77, 77]));
    assert_eq!(pack(&[], 36, 0), wrote(&of_three_bits(&[]), 36, &[]));
    assert_eq!(pack(&keys, 50, 2), refused(14, 50, 2));
    assert_eq!(pack(&keys, 47, 5), refused(14, 47, 5));
}

fn check_post_examples<S: Subject>() {
    let post = |encoding: &[u8], list: &[i32], key: u8, amount: i32| {
        let mut list = list.to_vec();
        (S::post(encoding, &mut list, &[key], amount), list)
    };
    assert_eq!(post(&P2, &[1, 2, 3], 0x60, -5), (Ok(Some(1)), vec![1, -3, 3]));
    assert_eq!(post(&P2, &[1, 2, 3], 0x60, 0), (Ok(Some(1)), vec![1, 2, 3]));
    assert_eq!(post(&P2, &[1, 2, 3], 0xA0, HIGH), (Ok(None), vec![1, 2, 3]));
    assert_eq!(post(&P2, &[77; 4], 0x61, 1), (Err(16), vec![77; 4]));
    assert_eq!(post(&P2, &[77; 2], 0x60, 1), (Err(16), vec![77; 2]));
    assert_eq!(post(&[0], &[77; 2], 0x60, 1), (Err(1), vec![77; 2]));
    assert_eq!(post(&P2, &[77; 3], 0x61, 1), (Err(8), vec![77; 3]));
    assert_eq!(post(&P2, &[0, HIGH - 1, 0], 0x60, 1), (Ok(Some(1)), vec![0, HIGH, 0]));
    assert_eq!(post(&P2, &[0, HIGH, 0], 0x60, 1), (Err(17), vec![0, HIGH, 0]));
    assert_eq!(post(&P2, &[0, LOW + 1, 0], 0x60, -1), (Ok(Some(1)), vec![0, LOW, 0]));
    assert_eq!(post(&P2, &[0, LOW, 0], 0x60, -1), (Err(17), vec![0, LOW, 0]));
}

fn check_union_examples<S: Subject>() {
    let (left, right, narrow) = (of_three_bits(&[0x00, 0x60]), of_three_bits(&[0x60, 0xC0]), Set::new(1, []).lay().encode());
    let unite = |v: &[i32], second: &[u8], w: &[i32], room, list_room| {
        leaving(room, list_room, |out, list| S::union_weighted(&left, v, second, w, out, list))
    };
    assert_eq!(unite(&[1, 20], &right, &[-5, 300], 50, 4), wrote(&P2, 50, &[1, 15, 300, 77]));
    assert_eq!(unite(&[HIGH, HIGH - 1], &right, &[1, LOW], 48, 3), wrote(&P2, 48, &[HIGH, HIGH, LOW]));
    assert_eq!(unite(&[0, HIGH], &right, &[1, 0], 48, 3), refused(17, 48, 3));
    assert_eq!(unite(&[0, LOW], &right, &[-1, 0], 48, 3), refused(17, 48, 3));
    assert_eq!(unite(&[0, HIGH], &right, &[1, 0], 48, 2), refused(14, 48, 2));
    assert_eq!(unite(&[0, HIGH], &right, &[1, 0], 47, 3), refused(14, 47, 3));
    assert_eq!(unite(&[0], &right, &[1, 0], 1, 0), refused(16, 1, 0));
    assert_eq!(unite(&[0, 0], &right, &[77; 3], 1, 0), refused(16, 1, 0));
    assert_eq!(unite(&[], &narrow, &[], 1, 0), refused(13, 1, 0));
}

fn check_difference_examples<S: Subject>() {
    let (right, narrow) = (of_three_bits(&[0x60, 0xC0]), Set::new(1, []).lay().encode());
    let subtract = |v: &[i32], second: &[u8], room, list_room| {
        leaving(room, list_room, |out, list| S::difference_weighted(&P2, v, second, out, list))
    };
    assert_eq!(subtract(&[1, 2, 3], &right, 48, 2), wrote(&of_three_bits(&[0x00]), 48, &[1, 77]));
    assert_eq!(subtract(&[77; 3], &P2, 37, 1), wrote(&of_three_bits(&[]), 37, &[77]));
    assert_eq!(subtract(&[77; 2], &right, 1, 0), refused(16, 1, 0));
    assert_eq!(subtract(&[], &narrow, 1, 0), refused(13, 1, 0));
    assert_eq!(subtract(&[], &[0], 1, 0), refused(1, 1, 0));
    assert_eq!(subtract(&[77; 3], &right, 47, 0), refused(14, 47, 0));
    assert_eq!(subtract(&[77; 3], &right, 46, 1), refused(14, 46, 1));
}

/// Its history, but for the post to a place not yet filled, which is no call: two packs, posts, a union, a post after it was used,
/// a union with itself, a difference, refusals between, and unions of what is left.
pub fn check_story<S: Subject>() {
    let rng = &mut Rng::new(1);
    let mut history = History { store: Vec::new(), ledger: Vec::new() };
    assert_eq!(history.pack::<S>(rng, [47, 3], 3, &[0x00, 0x60]), Ok(Some(47)));
    assert_eq!(history.pack::<S>(rng, [48, 2], 3, &[0x60, 0xC0]), Ok(Some(48)));
    assert_eq!(history.post::<S>(0, &[0x60], 10), Ok(Some(1)));
    assert_eq!(history.post::<S>(1, &[0x60], -3), Ok(Some(1)));
    assert_eq!(history.post::<S>(1, &[0xC0], 5), Ok(Some(1)));
    assert_eq!(history.post::<S>(1, &[0x00], 1_000), Ok(None));
    assert_eq!(history.post::<S>(1, &[0x01], 1_000), Err(8));
    assert_eq!(history.union::<S>(rng, [48, 4], 0, 1), Ok(Some(48)));
    assert_eq!(history.post::<S>(0, &[0x60], 100), Ok(Some(1)));
    assert_eq!(history.post::<S>(2, &[0x00], 1), Ok(Some(1)));
    assert_eq!(history.union::<S>(rng, [48, 3], 2, 2), Ok(Some(48)));
    assert_eq!(history.difference::<S>(rng, [48, 3], 3, 1), Ok(Some(47)));
    assert_eq!(history.union::<S>(rng, [48, 0], 4, 4), Err(14));
    assert_eq!(history.post::<S>(4, &[0x00], HIGH), Err(17));
    assert_eq!(history.union::<S>(rng, [48, 3], 4, 3), Ok(Some(48)));
    assert_eq!(history.union::<S>(rng, [48, 1], 4, 4), Ok(Some(47)));
    history.compare();
    let lists: Vec<&[i32]> = history.store.iter().map(|kept| &kept.list[..]).collect();
    assert_eq!(lists, [&[0, 110][..], &[-3, 5], &[1, 7, 5], &[2, 14, 10], &[2], &[4, 14, 10], &[4]]);
    let accounts: Vec<(i128, i128)> = history.ledger.iter().map(|account| (account.posted, account.dropped)).collect();
    assert_eq!(accounts, [(110, 0), (2, 0), (13, 0), (26, 0), (26, 24), (52, 24), (52, 48)]);
}
