//! Splits: the call compared with the reference, and with what the subject's other calls say of the same sets.

use super::*;
use crate::plain::{self, Key, Laid, Set};

// ---- Against the reference

fn encoded(parts: &Result<[Laid; 3], u64>) -> Result<[Vec<u8>; 3], u64> {
    parts.as_ref().map(|parts| parts.each_ref().map(Laid::encode)).map_err(|refusal| *refusal)
}

/// One call, in buffers of these lengths. What it wrote, or its refusal.
pub fn check_split_into<S: Subject>(
    rng: &mut Rng,
    rooms: [usize; 3],
    [x, y]: [&[u8]; 2],
    parts: &Result<[Laid; 3], u64>,
) -> Result<[Vec<u8>; 3], u64> {
    let what = || format!("split of {} and {}", shown(x), shown(y));
    same_three(rng, rooms, &what, |outs| plain::write_three(&encoded(parts)?, outs), |outs| S::split(x, y, outs))
}

pub fn check_split<S: Subject>(rng: &mut Rng, a: &Laid, b: &Laid) {
    check_parts::<S>(rng, &a.encode(), &b.encode(), &encoded(&plain::split_laid(&a.set, &b.set)));
}

/// The same with the parts given. Both ways round, in buffers of many lengths; equal sets also as the same bytes.
fn check_parts<S: Subject>(rng: &mut Rng, x: &[u8], y: &[u8], parts: &Result<[Vec<u8>; 3], u64>) {
    let kept = (x.to_vec(), y.to_vec());
    check_writes_three(rng, &|| format!("split of {} and {}", shown(x), shown(y)), parts, |outs| S::split(x, y, outs));
    if x == y {
        check_writes_three(rng, &|| format!("split of {} with itself", shown(x)), parts, |outs| S::split(x, x, outs));
    } else {
        let back = parts.clone().map(|[both, only_first, only_second]| [both, only_second, only_first]);
        check_writes_three(rng, &|| format!("split of {} and {}", shown(y), shown(x)), &back, |outs| S::split(y, x, outs));
    }
    assert!((x, y) == (&kept.0, &kept.1), "a split changed an operand");
}

pub fn splits<S: Subject>(rng: &mut Rng) {
    let [a, b] = any_operands(rng, 20);
    check_split::<S>(rng, &a.lay(), &b.lay());
}

/// The kind of a key, by its number in order or by itself.
type Kind<'a> = &'a dyn Fn(usize, &Key) -> usize;

/// The keys of these kinds.
fn of_kinds(set: &Set, kind: Kind, kinds: &[usize]) -> Set {
    let keys = set.keys.iter().enumerate().filter(|(i, key)| kinds.contains(&kind(*i, key)));
    Set::new(set.width, keys.map(|(_, key)| key.clone()))
}

/// Two sets of every kind: equal; apart in turns, by the first bit, by the last, in the middle and but for one key; one in the
/// other; sharing some keys; and with an empty or a full set.
fn pairs(rng: &mut Rng, width: usize, most: usize) -> Vec<[Set; 2]> {
    let (mut set, empty) = (random_set(rng, width, most), Set::new(width, []));
    // with both ends, and neighbours that differ in the last bit alone
    set.keys.extend([vec![0; plain::key_len(width)], trimmed(vec![0xFF; plain::key_len(width)], width)]);
    for key in random_part(rng, &set, 3).keys {
        let mut twin = key;
        flip(&mut twin, width - 1);
        set.keys.insert(twin);
    }
    let middle = set.keys.len() / 2;
    let kinds: [Kind; 6] = [
        &|i, _| i % 2,
        &|_, key| usize::from(plain::bit(key, 0)),
        &|_, key| usize::from(plain::bit(key, width - 1)),
        &|i, _| usize::from(i < middle),
        &|i, _| usize::from(i == 0),
        &|i, _| i % 3,
    ];
    let mut pairs = vec![[set.clone(), set.clone()], [set.clone(), empty.clone()], [empty.clone(), empty.clone()]];
    for kind in kinds {
        pairs.push([of_kinds(&set, kind, &[0]), of_kinds(&set, kind, &[1])]);
        pairs.push([of_kinds(&set, kind, &[0]), set.clone()]);
        pairs.push([of_kinds(&set, kind, &[0, 1]), of_kinds(&set, kind, &[1, 2])]);
    }
    if width <= 9 {
        let full = full_set(width);
        for other in [&full, &set, &empty, &of_kinds(&full, &|i, _| i % 2, &[0])] {
            pairs.push([full.clone(), other.clone()]);
        }
    }
    pairs.push(operands(rng, width, most));
    pairs
}

/// The least and the greatest widths, those around a byte, and another.
pub fn split_kinds<S: Subject>(rng: &mut Rng) {
    for width in [1, 7, 8, 9, 255, 256, random_width(rng)] {
        for [a, b] in pairs(rng, width, 50) {
            check_split::<S>(rng, &a.lay(), &b.lay());
        }
    }
}

/// So many keys more at most, none of which is in these sets.
fn apart(rng: &mut Rng, sets: &[&Set], most: usize) -> Set {
    let mut other = random_set(rng, sets[0].width, most);
    other.keys.retain(|key| sets.iter().all(|set| !set.keys.contains(key)));
    other
}

fn united(a: &Set, b: &Set) -> Laid {
    plain::union(a, b).unwrap().lay()
}

/// Where a sub-block or a block is just filled: in an operand, in what both have, in what only one has.
pub fn split_boundaries<S: Subject>(rng: &mut Rng) {
    for bits in [510, 512, 514, 1_022, 1_024, 1_026, 65_534, 65_536, 65_538, 131_072, 131_074] {
        let widths: &[usize] = if bits < 5_000 { &[12, 17, 64, 255] } else { &[18, 33, 256] };
        for width in widths {
            let set = set_with_records(rng, *width, bits / 2);
            let laid = set.clone().lay();
            assert_eq!(laid.bits(), bits);
            let part = random_part(rng, &set, 2).lay();
            check_split::<S>(rng, &laid, &part);
            let c = apart(rng, &[&set], 30);
            let d = apart(rng, &[&set, &c], 30);
            check_split::<S>(rng, &united(&set, &c), &united(&set, &d));
            check_split::<S>(rng, &united(&set, &c), &united(&c, &d));
        }
    }
}

/// Edge sequences of 524,280 bits and just below. The union may pass the limit: no part does.
pub fn splits_at_the_limit<S: Subject>(rng: &mut Rng) {
    for width in [19, 256] {
        let [laid, less] = [262_140, 262_139].map(|records| set_with_records(rng, width, records).lay());
        assert_eq!((laid.bits(), less.bits()), (plain::MAX_EDGES, plain::MAX_EDGES - 2));
        check_split::<S>(rng, &laid, &less);
        // a part, and keys besides
        let mixed = united(&random_part(rng, &laid.set, 2), &set_with_records(rng, width, 20_000));
        assert!(mixed.bits() <= plain::MAX_EDGES);
        check_split::<S>(rng, &laid, &mixed);
        let [x, empty] = [laid, Set::new(width, []).lay()].map(|laid| laid.encode());
        check_parts::<S>(rng, &x, &x, &Ok([x.clone(), empty.clone(), empty.clone()]));
        check_parts::<S>(rng, &x, &empty, &Ok([empty.clone(), x.clone(), empty.clone()]));
    }
    // two halves that share only their root: the union's records and its members fill the queue of a join
    let (halves, empty) = ([0, 1].map(half_set), Set::new(19, []).lay().encode());
    // and every second key of a half, and the others
    let seconds = [0, 1].map(|kind| of_kinds(&halves[0], &|i, _| i % 2, &[kind]));
    for [x, y] in [halves, seconds].map(|sets| sets.map(|set| set.lay().encode())) {
        check_parts::<S>(rng, &x, &y, &Ok([empty.clone(), x.clone(), y.clone()]));
        check_parts::<S>(rng, &x, &x, &Ok([x.clone(), empty.clone(), empty.clone()]));
    }
}

// ---- Refusals

/// Every choice of faults: the refusal of the first in order, and no buffer changes. Without 5, which cannot be: a part has no more
/// edges than its set.
pub fn split_refusals<S: Subject>(rng: &mut Rng) {
    for width in [1, 3, 8, 19, 256] {
        let [a, b] = operands(rng, width, 12).map(Set::lay);
        let other = random_set(rng, width % 256 + 1, 12).lay();
        let right = encoded(&plain::split_laid(&a.set, &b.set)).unwrap();
        for (first, damage_first) in DAMAGES {
            for (second, damage_second) in DAMAGES {
                let order = [first, second, 13, 14, 14, 14];
                for faults in (0..1 << order.len()).map(Faults) {
                    let mut x = a.encode();
                    let mut y = if faults.has(2) { other.encode() } else { b.encode() };
                    if faults.has(0) {
                        damage_first(&mut x);
                    }
                    if faults.has(1) {
                        damage_second(&mut y);
                    }
                    let kept = (x.clone(), y.clone());
                    let rooms = [0, 1, 2].map(|i| match right[i].len() {
                        n if faults.has(3 + i) => *rng.pick(&[0, n / 2, n - 1]),
                        n => n + rng.below(3),
                    });
                    let what = || format!("a split with faults {:06b}, {order:?}, of {} and {}", faults.0, shown(&x), shown(&y));
                    let expected =
                        |outs: [&mut [u8]; 3]| faults.first(&order).map_or_else(|| plain::write_three(&right, outs), Err);
                    let _ = same_three(rng, rooms, &what, expected, |outs| S::split(&x, &y, outs));
                    assert!((x, y) == kept, "a split changed an operand");
                }
            }
        }
    }
}

// ---- Laws of the subject's own answers

/// What a split writes into buffers as long as the encodings that the parts are from.
fn split_of<S: Subject>(x: &[u8], y: &[u8]) -> [Vec<u8>; 3] {
    let mut outs = [vec![0; x.len()], vec![0; x.len()], vec![0; y.len()]];
    let lengths = S::split(x, y, outs.each_mut().map(|out| &mut out[..])).expect("there is room enough");
    [0, 1, 2].map(|i| outs[i][..lengths[i] as usize].to_vec())
}

fn written(call: impl FnOnce(&mut [u8]) -> plain::Answer) -> Vec<u8> {
    let mut out = vec![0; 68_695];
    let length = call(&mut out).expect("a small set has an encoding").expect("a join has a length");
    out.truncate(length as usize);
    out
}

/// A split against the subject's other answers: none of them is the reference's.
pub fn split_laws<S: Subject>(rng: &mut Rng) {
    let width = random_width(rng);
    let all = pairs(rng, width, 40);
    let [a, b] = rng.pick(&all);
    let (x, y) = (a.clone().lay().encode(), b.clone().lay().encode());
    let what = || format!("split of {} and {}", shown(&x), shown(&y));
    let parts = split_of::<S>(&x, &y);
    let [both, only_first, only_second] = &parts;
    let numbers = |bytes: &[u8]| S::open(bytes).unwrap_or_else(|refusal| panic!("{}: refused {refusal}", what())).1;
    let contains = |bytes: &[u8], key: &Key| S::ask(bytes, &Question::Contains(key.clone()), &mut []) == Ok(Some(1));
    let unite = |x: &[u8], y: &[u8]| written(|out| S::union(x, y, out));
    let subtract = |x: &[u8], y: &[u8]| written(|out| S::difference(x, y, out));
    let empty = written(|out| S::pack(width as u64, &[], out));

    // each key of either set is in exactly one of the three, and no other key is in any
    let mut keys: Vec<Key> = a.keys.iter().chain(&b.keys).cloned().collect();
    keys.extend((0..30).map(|_| random_key(rng, width)));
    let neighbours: Vec<Key> = keys.iter().map(|key| after(key, width)).collect();
    for key in keys.iter().chain(&neighbours) {
        let (in_first, in_second) = (contains(&x, key), contains(&y, key));
        let right = [in_first && in_second, in_first && !in_second, !in_first && in_second];
        assert_eq!(parts.each_ref().map(|part| contains(part, key)), right, "{}: key {key:02X?}", what());
    }
    // counts
    let [_, n, _] = numbers(&x);
    let [_, m, _] = numbers(&y);
    let counts = parts.each_ref().map(|part| numbers(part)[1]);
    assert_eq!(2 * counts[0] + counts[1] + counts[2], n + m, "{}", what());
    assert_eq!(parts.each_ref().map(|part| numbers(part)[0]), [width as u64; 3], "{}", what());
    // together they are what was split
    assert_eq!((unite(both, only_first), unite(both, only_second)), (x.clone(), y.clone()), "{}", what());
    assert_eq!(unite(&unite(both, only_first), only_second), unite(&x, &y), "{}", what());
    assert_eq!((&subtract(&x, &y), &subtract(&y, &x), &subtract(&x, only_first)), (only_first, only_second, both), "{}", what());
    // the other way round, with itself, and again
    let three = |x: &Vec<u8>, y: &Vec<u8>, z: &Vec<u8>| [x.clone(), y.clone(), z.clone()];
    assert_eq!(split_of::<S>(&y, &x), three(both, only_second, only_first), "{}", what());
    assert_eq!(split_of::<S>(&x, &x), three(&x, &empty, &empty), "{}", what());
    assert_eq!(split_of::<S>(&x, both), three(both, only_first, &empty), "{}", what());
    assert_eq!(split_of::<S>(only_first, only_second), three(&empty, only_first, only_second), "{}", what());
}

// ---- Examples: the members 000, 011 and 110

pub fn check_split_examples<S: Subject>() {
    let of = |keys: &[u8]| Set::new(3, keys.iter().map(|key| vec![*key])).lay().encode();
    let (left, right, empty) = (of(&[0x00, 0x60]), of(&[0x60, 0xC0]), of(&[]));
    let split = |x: &[u8], y: &[u8], rooms: [usize; 3]| {
        let mut outs = rooms.map(|room| vec![0xEE; room]);
        let answer = S::split(x, y, outs.each_mut().map(|out| &mut out[..]));
        (answer, outs)
    };
    let wrote = |fronts: [&[u8]; 3], rooms: [usize; 3]| {
        let mut outs = rooms.map(|room| vec![0xEE; room]);
        for (out, front) in outs.iter_mut().zip(fronts) {
            out[..front.len()].copy_from_slice(front);
        }
        (Ok(fronts.map(|front| front.len() as u64)), outs)
    };
    let refused = |number: u64, rooms: [usize; 3]| (Err(number), rooms.map(|room| vec![0xEE; room]));
    // one in each
    let parts = [&of(&[0x60])[..], &of(&[0x00]), &of(&[0xC0])];
    assert_eq!(split(&left, &right, [47, 50, 48]), wrote(parts, [47, 50, 48]));
    assert_eq!(split(&right, &left, [47; 3]), wrote([parts[0], parts[2], parts[1]], [47; 3]));
    assert_eq!(split(&P2, &right, [48, 47, 36]), wrote([&right, parts[1], &empty], [48, 47, 36]));
    // with itself, with the empty set, and the empty set with itself
    assert_eq!(split(&P2, &P2, [48, 36, 37]), wrote([&P2, &empty, &empty], [48, 36, 37]));
    assert_eq!(split(&P2, &empty, [36, 48, 36]), wrote([&empty, &P2, &empty], [36, 48, 36]));
    assert_eq!(split(&empty, &P2, [36, 36, 48]), wrote([&empty, &empty, &P2], [36, 36, 48]));
    assert_eq!(split(&empty, &empty, [36; 3]), wrote([&empty; 3], [36; 3]));
    // one too short: nothing is written
    for rooms in [[46, 47, 47], [47, 46, 47], [47, 47, 46], [0, 47, 47], [47, 47, 0], [0; 3]] {
        assert_eq!(split(&left, &right, rooms), refused(14, rooms));
    }
    // the first's own, the second's own, 13, 14
    let narrow = Set::new(1, []).lay().encode();
    assert_eq!(split(&left, &narrow, [0; 3]), refused(13, [0; 3]));
    assert_eq!(split(&left, &narrow[1..], [0, 99, 0]), refused(2, [0, 99, 0]));
    assert_eq!(split(&left[..46], &narrow[1..], [0, 99, 0]), refused(1, [0, 99, 0]));
}
