//! The library against the same algorithms in plain Rust, and against what one would use instead: a sorted array, `BTreeSet`,
//! `HashSet`; for keys with weights a sorted array of pairs, `BTreeMap`, `HashMap`. All in one run, on the same keys; the least
//! of LOES_REPS repetitions (default 9). Output buffers and lists are made before the clock starts and not cleared between
//! repetitions. Prints markdown.
//!
//! `cargo bench`, or `cargo bench --no-default-features` for everything but the library.

mod plain_rust;

use std::cmp::Ordering;
use std::collections::{BTreeMap, BTreeSet, HashMap, HashSet};
use std::hint::black_box;
use std::process::Command;
use std::time::Instant;

fn main() {
    let args: Vec<String> = std::env::args().collect();
    if let Some(at) = args.iter().position(|arg| arg == "--memory") {
        let number = |i: usize| args[at + i].parse().unwrap();
        println!("{}", resident(&args[at + 1], number(2), number(3)));
        return;
    }
    println!(
        "Times in ns: pack, union and difference, also weighted, and split for each key of either operand, step, next and iteration for each key, the others for each call."
    );
    println!(
        "A row with less: what a join with lists takes more than the same without, measured in turns; a dash where the join without takes more than {NOISY} ns a key, as so little is noise there. Pairs, BTreeMap and HashMap stand beside calls with lists."
    );
    println!("Memory in bytes for each key. Ratio: library to plain Rust.");
    // widths up to the limit of 524,280 edge bits
    let tables = [
        table(random_keys::<2>(20_000), "random"),
        table(random_keys::<4>(14_000), "random"),
        table(random_keys::<8>(4_900), "random"),
        table(random_keys::<32>(1_030), "random"),
    ];
    let clustered = [table(clustered_keys::<4>(96, 256), "clustered"), table(clustered_keys::<8>(100, 500), "clustered")];
    for table in tables.iter().chain(&clustered) {
        table.print();
    }
    println!("\n## Prefix beside index_of, in turns: in brackets the ratio to it\n");
    beside_index_of(tables.iter().chain(&clustered));
    println!("\n## Split beside difference and beside three differences, in turns; in ns for each key of either operand\n");
    println!(
        "Three differences: of the first and the second, of the second and the first, of the first and what only it has. The last three columns make three sets anew.\n"
    );
    beside_difference(tables.iter().chain(&clustered));
    // many, so that a processor does not learn by heart what is at random
    memberships(&clustered_keys::<4>(500, 256));
    println!("\n## Growth with the width\n");
    growth(&tables);
    println!("\n## Growth with the number of keys, width 32\n");
    growth(&[16, 64, 256, 1_024, 4_096, 14_000].map(|n| table(random_keys::<4>(n), "random")));
}

// ---- Measuring

fn repetitions() -> usize {
    std::env::var("LOES_REPS").map_or(9, |text| text.parse().expect("LOES_REPS is a number"))
}

fn nanoseconds<R>(mut call: impl FnMut() -> R) -> f64 {
    let start = Instant::now();
    black_box(call());
    start.elapsed().as_nanos() as f64
}

/// Least time of a call that does so many things, for each of them.
fn least<R>(things: usize, mut call: impl FnMut() -> R) -> f64 {
    let times = (0..repetitions()).map(|_| nanoseconds(&mut call));
    times.fold(f64::MAX, f64::min) / things as f64
}

/// What the library takes, if it is linked, and plain Rust.
type Times = (Option<f64>, Option<f64>);

/// Such times of several pairs of calls, all taking turns.
macro_rules! compare_all {
    ($things:expr, $($library:expr, $plain:expr);+) => {{
        let mut least = [[f64::MAX; 2]; [$(stringify!($plain)),+].len()];
        for _ in 0..repetitions() {
            let mut pairs = least.iter_mut();
            $(
                let pair = pairs.next().unwrap();
                #[cfg(feature = "linked")]
                {
                    pair[0] = nanoseconds($library).min(pair[0]);
                }
                pair[1] = nanoseconds($plain).min(pair[1]);
            )+
        }
        let each = |time: f64| time / $things as f64;
        least.map(|[library, plain]| (cfg!(feature = "linked").then_some(each(library)), Some(each(plain))))
    }};
}

/// Of one pair.
macro_rules! compare {
    ($things:expr, $library:expr, $plain:expr) => {
        compare_all!($things, $library, $plain)[0]
    };
}

/// Each is asked for.
fn each<T, R>(asked: &[T], mut ask: impl FnMut(&T) -> R) {
    for one in asked {
        black_box(ask(black_box(one)));
    }
}

struct Rng(u64);

impl Rng {
    /// splitmix64
    fn next(&mut self) -> u64 {
        self.0 = self.0.wrapping_add(0x9E37_79B9_7F4A_7C15);
        let mut z = self.0;
        z = (z ^ (z >> 30)).wrapping_mul(0xBF58_476D_1CE4_E5B9);
        z = (z ^ (z >> 27)).wrapping_mul(0x94D0_49BB_1331_11EB);
        z ^ (z >> 31)
    }

    fn key<const T: usize>(&mut self) -> [u8; T] {
        let mut key = [0; T];
        for part in key.chunks_mut(8) {
            part.copy_from_slice(&self.next().to_be_bytes()[..part.len()]);
        }
        key
    }
}

fn random_keys<const T: usize>(n: usize) -> Vec<[u8; T]> {
    let mut rng = Rng(n as u64);
    let mut keys = BTreeSet::new();
    while keys.len() < n {
        keys.insert(rng.key::<T>());
    }
    keys.into_iter().collect()
}

/// Keys of at most 64 bits in runs: one in two numbers of each.
fn clustered_keys<const T: usize>(runs: usize, each: usize) -> Vec<[u8; T]> {
    let mut rng = Rng(3);
    let mut keys = BTreeSet::new();
    for _ in 0..runs {
        let mut number = rng.next() >> 20 << 20 >> (64 - 8 * T);
        for _ in 0..each {
            number += 1 + rng.next() % 3;
            keys.insert(number.to_be_bytes()[8 - T..].try_into().unwrap());
        }
    }
    keys.into_iter().collect()
}

// ---- Memory: what many copies take, in a process of their own

/// Bytes for each key of a set of n keys of t bytes.
fn memory(kind: &str, t: usize, n: usize) -> Option<f64> {
    let program = std::env::current_exe().ok()?;
    let output = Command::new(program).args(["--memory", kind, &t.to_string(), &n.to_string()]).output().ok()?;
    String::from_utf8(output.stdout).ok()?.trim().parse().ok()
}

fn resident(kind: &str, t: usize, n: usize) -> f64 {
    match t {
        2 => copies::<2>(kind, n),
        4 => copies::<4>(kind, n),
        8 => copies::<8>(kind, n),
        _ => copies::<32>(kind, n),
    }
}

fn copies<const T: usize>(kind: &str, n: usize) -> f64 {
    fn grown<S: Clone>(set: S, times: usize) -> f64 {
        let resident = || {
            let status = std::fs::read_to_string("/proc/self/status").unwrap();
            let line = status.lines().find(|line| line.starts_with("VmRSS")).unwrap();
            1_024.0 * line.split_whitespace().nth(1).unwrap().parse::<f64>().unwrap()
        };
        let before = resident();
        let sets = vec![set; times];
        let after = resident();
        black_box(&sets);
        after - before
    }
    let keys = random_keys::<T>(n);
    let times = 100_000_000 / (2 * n * (T + 8)) + 1;
    let bytes = match kind {
        "array" => grown(keys, times),
        "tree" => grown(keys.into_iter().collect::<BTreeSet<_>>(), times),
        _ => grown(keys.into_iter().collect::<HashSet<_>>(), times),
    };
    bytes / (n * times) as f64
}

// ---- One table

const COLUMNS: [&str; 6] = ["library", "plain Rust", "ratio", "sorted array", "BTreeSet", "HashSet"];

struct Row {
    name: &'static str,
    library: Option<f64>,
    plain: Option<f64>,
    others: [Option<f64>; 3],
}

struct Table {
    shape: &'static str,
    width: usize,
    count: usize,
    bits: usize,
    rows: Vec<Row>,
    splits: Splits,
}

/// A sorted array, tested as pack tests its batch.
fn rising<const T: usize>(mut keys: Vec<[u8; T]>) -> Vec<[u8; T]> {
    assert!(keys.is_sorted());
    keys.dedup();
    keys
}

fn join<const T: usize>(a: &[[u8; T]], b: &[[u8; T]], keep: impl Fn(bool, bool) -> bool) -> Vec<[u8; T]> {
    let (mut i, mut j) = (0, 0);
    let mut out = Vec::with_capacity(a.len() + b.len());
    while i < a.len() || j < b.len() {
        let (x, y) = (a.get(i), b.get(j));
        let in_a = y.is_none() || x.is_some_and(|x| Some(x) <= y);
        let in_b = x.is_none() || y.is_some_and(|y| Some(y) <= x);
        if keep(in_a, in_b) {
            out.push(if in_a { a[i] } else { b[j] });
        }
        i += usize::from(in_a);
        j += usize::from(in_b);
    }
    out
}

/// Two parts of the keys, which share a third of them and have them all together: a key whose place has kind 0 is not in the first
/// part, one of kind 1 not in the second.
fn parts<const T: usize>(keys: &[[u8; T]], kind: impl Fn(usize) -> usize) -> [Vec<[u8; T]>; 2] {
    [0, 1].map(|without| keys.iter().enumerate().filter(|(i, _)| kind(*i) != without).map(|(_, key)| *key).collect())
}

/// The kinds in turn, which a processor learns.
fn in_turn(place: usize) -> usize {
    place % 3
}

fn at_random(place: usize) -> usize {
    Rng(place as u64).next() as usize % 3
}

/// Prefixes of one number of bits, each as a key whose bits behind it are clear.
struct Prefixes<const T: usize> {
    bits: usize,
    keys: Vec<[u8; T]>,
}

/// The bits of a key's byte that are behind so many first bits.
fn behind(prefix_bits: usize, byte: usize) -> u8 {
    (0xFFu16 >> prefix_bits.saturating_sub(8 * byte).min(8)) as u8
}

impl<const T: usize> Prefixes<T> {
    /// The first bits of these keys.
    fn of(keys: &[[u8; T]], prefix_bits: usize) -> Prefixes<T> {
        let cut = |key: &[u8; T]| std::array::from_fn(|i| key[i] & !behind(prefix_bits, i));
        Prefixes { bits: prefix_bits, keys: keys.iter().map(cut).collect() }
    }

    /// Its number of bits, and the bytes that they take.
    fn given<'a>(&self, key: &'a [u8; T]) -> (u64, &'a [u8]) {
        (self.bits as u64, &key[..self.bits.div_ceil(8)])
    }

    /// The same in a sorted array: how many keys are before the least that begins so, and how many from there to the greatest.
    fn in_array(&self, keys: &[[u8; T]], least: &[u8; T]) -> (u64, u64) {
        let greatest: [u8; T] = std::array::from_fn(|i| least[i] | behind(self.bits, i));
        let first = keys.partition_point(|key| key < least);
        let count = keys[first..].partition_point(|key| *key <= greatest);
        (first as u64, count as u64)
    }
}

fn packed<const T: usize>(keys: &[[u8; T]]) -> Vec<u8> {
    let mut out = vec![0u8; 68_695];
    let length = plain_rust::pack(8 * T as u64, &keys.concat(), &mut out).expect("the keys are within the limits");
    out.truncate(length);
    out
}

fn table<const T: usize>(keys: Vec<[u8; T]>, shape: &'static str) -> Table {
    let (width, n) = (8 * T, keys.len());
    let batch: Vec<u8> = keys.iter().flatten().copied().collect();
    let mut out = vec![0u8; 68_695];
    let bytes = packed(&keys);
    let opened = plain_rust::open(&bytes).unwrap();
    #[cfg(feature = "linked")]
    let encoding = {
        assert!(loes::pack_to_vec(width as u64, &batch).unwrap() == bytes, "the library and plain Rust pack the same bytes");
        loes::Encoding::open(&bytes).unwrap()
    };
    let tree: BTreeSet<[u8; T]> = keys.iter().copied().collect();
    let hash: HashSet<[u8; T]> = keys.iter().copied().collect();
    let [a, b] = parts(&keys, in_turn);
    let joins = Joins::measure(&a, &b, n);
    let (ta, tb): (BTreeSet<_>, BTreeSet<_>) = (a.iter().copied().collect(), b.iter().copied().collect());
    let (ha, hb): (HashSet<_>, HashSet<_>) = (a.iter().copied().collect(), b.iter().copied().collect());
    // half of the questions are for members
    let mut rng = Rng(7);
    let asked: Vec<[u8; T]> = (0..1_000).map(|i| if i % 2 == 0 { keys[rng.next() as usize % n] } else { rng.key() }).collect();
    let indices: Vec<u64> = (0..1_000).map(|_| rng.next() % n as u64).collect();
    // so many that a rank's branches are not learned by heart
    let offsets: Vec<u64> = (0..40_000).map(|_| rng.next() % opened.bits as u64).collect();
    #[cfg(feature = "linked")]
    let (mut room, mut buffer) = (out.clone(), [0u8; T]);
    let mut key = [0u8; T];
    let m = width as u64;

    let mut rows = Vec::new();
    let mut row = |name, (library, plain), others| rows.push(Row { name, library, plain, others });
    let per_key = Some(bytes.len() as f64 / n as f64);
    row("memory", (per_key, per_key), ["array", "tree", "hash"].map(|kind| memory(kind, T, n)));
    let chunks = || batch.chunks_exact(T).map(|key| <[u8; T]>::try_from(key).unwrap());
    row(
        "pack",
        compare!(n, || loes::pack(m, &batch, &mut room), || plain_rust::pack(m, &batch, &mut out)),
        [
            Some(least(n, || rising(chunks().collect()))),
            Some(least(n, || chunks().collect::<BTreeSet<_>>())),
            Some(least(n, || chunks().collect::<HashSet<_>>())),
        ],
    );
    row(
        "union",
        joins.union,
        [
            Some(least(n, || join(&a, &b, |_, _| true))),
            Some(least(n, || ta.union(&tb).copied().collect::<BTreeSet<_>>())),
            Some(least(n, || ha.union(&hb).copied().collect::<HashSet<_>>())),
        ],
    );
    row(
        "difference",
        joins.difference,
        [
            Some(least(n, || join(&a, &b, |in_a, in_b| in_a && !in_b))),
            Some(least(n, || ta.difference(&tb).copied().collect::<BTreeSet<_>>())),
            Some(least(n, || ha.difference(&hb).copied().collect::<HashSet<_>>())),
        ],
    );
    let splits = Splits::measure(&a, &b, n);
    row("split", splits.split, splits.others.map(Some));
    // several at a time: in a small set one takes little longer than the clock
    let opened_again = [&bytes[..]; 16];
    row(
        "open",
        compare!(opened_again.len(), || each(&opened_again, |bytes| loes::Encoding::open(bytes)), || each(
            &opened_again,
            |bytes| plain_rust::open(bytes)
        )),
        [None; 3],
    );
    let q = asked.len();
    row(
        "contains",
        compare!(q, || each(&asked, |key| encoding.contains(key)), || each(&asked, |key| plain_rust::contains(
            &bytes, &opened, key
        ))),
        [
            Some(least(q, || each(&asked, |key| keys.binary_search(key).is_ok()))),
            Some(least(q, || each(&asked, |key| tree.contains(key)))),
            Some(least(q, || each(&asked, |key| hash.contains(key)))),
        ],
    );
    let [few, half, whole] = [4, width / 2, width].map(|prefix_bits| Prefixes::of(&asked, prefix_bits));
    #[cfg(feature = "linked")]
    let in_library = |prefixes: &Prefixes<T>| {
        each(&prefixes.keys, |key| {
            let (prefix_bits, prefix) = prefixes.given(key);
            encoding.prefix(prefix_bits, prefix)
        })
    };
    let plain_prefix = |prefixes: &Prefixes<T>, key: &[u8; T]| {
        let (prefix_bits, prefix) = prefixes.given(key);
        plain_rust::prefix(&bytes, &opened, prefix_bits, prefix)
    };
    for prefixes in [&few, &half, &whole] {
        let same = |key| plain_prefix(prefixes, key) == Ok(prefixes.in_array(&keys, key));
        assert!(prefixes.keys.iter().all(same), "plain Rust and a sorted array tell the same");
    }
    let in_plain = |prefixes: &Prefixes<T>| each(&prefixes.keys, |key| plain_prefix(prefixes, key));
    let [index_of, of_few, of_half, of_whole] = compare_all!(
        q,
        || each(&asked, |key| encoding.index_of(key)), || each(&asked, |key| plain_rust::index_of(&bytes, &opened, key));
        || in_library(&few), || in_plain(&few);
        || in_library(&half), || in_plain(&half);
        || in_library(&whole), || in_plain(&whole)
    );
    row("index_of", index_of, [Some(least(q, || each(&asked, |key| keys.binary_search(key).ok()))), None, None]);
    row(
        "lower_bound",
        compare!(q, || each(&asked, |key| encoding.lower_bound(key)), || each(&asked, |key| {
            plain_rust::lower_bound(&bytes, &opened, key)
        })),
        [
            Some(least(q, || each(&asked, |key| keys.partition_point(|other| other < key)))),
            Some(least(q, || each(&asked, |key| tree.range(*key..).next().is_some()))),
            None,
        ],
    );
    row(
        "key_at",
        compare!(q, || each(&indices, |index| encoding.key_at(loes::MemberIndex(*index), &mut buffer)), || each(
            &indices,
            |index| { plain_rust::key_at(&bytes, &opened, *index, &mut key) }
        )),
        [Some(least(q, || each(&indices, |index| keys[*index as usize]))), None, None],
    );
    row(
        "rank",
        compare!(offsets.len(), || each(&offsets, |offset| encoding.rank(loes::EdgeOffset(*offset))), || each(
            &offsets,
            |offset| plain_rust::rank(&bytes, &opened, *offset)
        )),
        [None; 3],
    );
    for (name, times, prefixes) in
        [("prefix of 4 bits", of_few, &few), ("prefix of half the bits", of_half, &half), ("prefix of all bits", of_whole, &whole)]
    {
        row(name, times, [Some(least(q, || each(&prefixes.keys, |key| prefixes.in_array(&keys, key)))), None, None]);
    }
    let stepped = compare!(
        n,
        || {
            let mut cursor = loes::Cursor::new();
            while encoding.advance(&mut cursor, &mut buffer).unwrap() > 0 {
                black_box(&buffer);
            }
        },
        || {
            let mut cursor = plain_rust::Cursor::before();
            while plain_rust::advance(&bytes, &opened, &mut cursor, &mut key).unwrap() > 0 {
                black_box(&key);
            }
        }
    );
    row("step", stepped, [None; 3]);
    let stepped = compare!(
        n,
        || {
            let mut keys = encoding.keys();
            while keys.next_into(&mut buffer).unwrap() > 0 {
                black_box(&buffer);
            }
        },
        || {
            let mut cursor = plain_rust::Cursor::before();
            while plain_rust::next(&bytes, &opened, &mut cursor, &mut key).unwrap() > 0 {
                black_box(&key);
            }
        }
    );
    row("next", stepped, [None; 3]);
    // a buffer full of keys at a time
    let mut many = [0; 1024];
    let mut filled = many;
    let walked = compare!(
        n,
        || {
            let mut keys = encoding.keys();
            while let Ok(written @ 1..) = keys.fill(&mut many) {
                all(many[..written].as_chunks::<T>().0.iter());
            }
        },
        || {
            let mut cursor = plain_rust::Cursor::before();
            while let Ok(written @ 1..) = plain_rust::fill(&bytes, &opened, &mut cursor, &mut filled) {
                all(filled[..written].as_chunks::<T>().0.iter());
            }
        }
    );
    fn all<'a, const T: usize>(keys: impl Iterator<Item = &'a [u8; T]>) {
        for key in keys {
            black_box(key);
        }
    }
    row(
        "iteration",
        walked,
        [Some(least(n, || all(keys.iter()))), Some(least(n, || all(tree.iter()))), Some(least(n, || all(hash.iter())))],
    );
    rows.extend(weighted_rows(&keys, &asked, &joins));
    Table { shape, width, count: n, bits: opened.bits, rows, splits }
}

// ---- Split

/// The keys in both, only in the first, only in the second.
fn split_arrays<const T: usize>(a: &[[u8; T]], b: &[[u8; T]]) -> [Vec<[u8; T]>; 3] {
    let (mut i, mut j) = (0, 0);
    let (mut only_first, mut only_second) = (Vec::with_capacity(a.len()), Vec::with_capacity(b.len()));
    let mut both = Vec::with_capacity(a.len().min(b.len()));
    while i < a.len() && j < b.len() {
        let (x, y) = (a[i], b[j]);
        let order = x.cmp(&y);
        match order {
            Ordering::Less => only_first.push(x),
            Ordering::Equal => both.push(x),
            Ordering::Greater => only_second.push(y),
        }
        i += usize::from(order != Ordering::Greater);
        j += usize::from(order != Ordering::Less);
    }
    only_first.extend(&a[i..]);
    only_second.extend(&b[j..]);
    [both, only_first, only_second]
}

/// The same by three differences of encodings.
fn three_differences(a: &[u8], b: &[u8], outs: &mut [Vec<u8>; 3], difference: impl Fn(&[u8], &[u8], &mut [u8]) -> usize) {
    let [both, only_first, only_second] = outs;
    let length = difference(a, b, only_first);
    difference(b, a, only_second);
    difference(a, &only_first[..length], both);
}

/// A split beside a difference of the same sets, beside three, and beside a sorted array, `BTreeSet` and `HashSet`.
struct Splits {
    split: Times,
    difference: Times,
    three_differences: Times,
    others: [f64; 3],
}

impl Splits {
    /// For each of so many keys that both have together.
    fn measure<const T: usize>(a: &[[u8; T]], b: &[[u8; T]], n: usize) -> Splits {
        let (pa, pb) = (packed(a), packed(b));
        let mut out = vec![0u8; 68_695];
        let (mut parts, mut by_three) = ([(); 3].map(|()| out.clone()), [(); 3].map(|()| out.clone()));
        #[cfg(feature = "linked")]
        let (mut room, mut part_rooms, mut rooms_by_three) = (out.clone(), parts.clone(), by_three.clone());
        let [split, difference, three_differences] = compare_all!(
            n,
            || {
                let [both, only_first, only_second] = &mut part_rooms;
                loes::split(&pa, &pb, both, only_first, only_second)
            },
            || {
                let [both, only_first, only_second] = &mut parts;
                plain_rust::split(&pa, &pb, both, only_first, only_second)
            };
            || loes::difference(&pa, &pb, &mut room),
            || plain_rust::difference(&pa, &pb, &mut out);
            || three_differences(&pa, &pb, &mut rooms_by_three, |a, b, out| loes::difference(a, b, out).unwrap()),
            || three_differences(&pa, &pb, &mut by_three, |a, b, out| plain_rust::difference(a, b, out).unwrap())
        );
        let right = split_arrays(a, b).map(|keys| packed(&keys));
        assert!(parts.iter().zip(&right).all(|(part, right)| part.starts_with(right)), "a split is that of sorted arrays");
        assert!(parts == by_three, "a split and three differences write the same");
        #[cfg(feature = "linked")]
        assert!((part_rooms, rooms_by_three) == (parts, by_three), "the library and plain Rust write the same");
        let (ta, tb): (BTreeSet<_>, BTreeSet<_>) = (a.iter().copied().collect(), b.iter().copied().collect());
        let (ha, hb): (HashSet<_>, HashSet<_>) = (a.iter().copied().collect(), b.iter().copied().collect());
        let others = [
            least(n, || split_arrays(a, b)),
            least(n, || {
                let [only_first, only_second] = [ta.difference(&tb), tb.difference(&ta)].map(|keys| keys.copied().collect());
                [ta.intersection(&tb).copied().collect::<BTreeSet<_>>(), only_first, only_second]
            }),
            least(n, || {
                let [only_first, only_second] = [ha.difference(&hb), hb.difference(&ha)].map(|keys| keys.copied().collect());
                [ha.intersection(&hb).copied().collect::<HashSet<_>>(), only_first, only_second]
            }),
        ];
        Splits { split, difference, three_differences, others }
    }
}

// ---- Weights

type Pair<const T: usize> = ([u8; T], i32);

/// Each key with a weight, far from the ends of the range.
fn weighed<const T: usize>(keys: &[[u8; T]]) -> Vec<Pair<T>> {
    keys.iter().copied().zip(-500..).collect()
}

fn list<const T: usize>(pairs: &[Pair<T>]) -> Vec<i32> {
    pairs.iter().map(|(_, weight)| *weight).collect()
}

/// The sum, if it is in range.
fn add(weight: &mut i32, amount: i32) -> Option<()> {
    *weight = weight.checked_add(amount)?;
    Some(())
}

fn union_pairs<const T: usize>(a: &[Pair<T>], b: &[Pair<T>]) -> Option<Vec<Pair<T>>> {
    let (mut i, mut j) = (0, 0);
    let mut out = Vec::with_capacity(a.len() + b.len());
    while i < a.len() && j < b.len() {
        let ((x, v), (y, w)) = (a[i], b[j]);
        let order = x.cmp(&y);
        out.push(match order {
            Ordering::Less => (x, v),
            Ordering::Equal => (x, v.checked_add(w)?),
            Ordering::Greater => (y, w),
        });
        i += usize::from(order != Ordering::Greater);
        j += usize::from(order != Ordering::Less);
    }
    out.extend(&a[i..]);
    out.extend(&b[j..]);
    Some(out)
}

fn difference_pairs<const T: usize>(a: &[Pair<T>], b: &[[u8; T]]) -> Vec<Pair<T>> {
    let mut j = 0;
    let mut out = Vec::with_capacity(a.len());
    for pair in a {
        while j < b.len() && b[j] < pair.0 {
            j += 1;
        }
        if b.get(j) != Some(&pair.0) {
            out.push(*pair);
        }
    }
    out
}

/// The joins of two sets, with lists and without.
struct Joins {
    union: Times,
    difference: Times,
    union_weighted: Times,
    difference_weighted: Times,
}

impl Joins {
    /// For each of so many keys that both have together.
    fn measure<const T: usize>(a: &[[u8; T]], b: &[[u8; T]], n: usize) -> Joins {
        let (pa, pb) = (packed(a), packed(b));
        let (la, lb) = (list(&weighed(a)), list(&weighed(b)));
        let (mut out, mut weights) = (vec![0u8; 68_695], vec![0; n]);
        #[cfg(feature = "linked")]
        let (mut room, mut room_for_weights) = (out.clone(), weights.clone());
        let [union, union_weighted] = compare_all!(
            n,
            || loes::union(&pa, &pb, &mut room),
            || plain_rust::union(&pa, &pb, &mut out);
            || loes::union_weighted(&pa, &la, &pb, &lb, &mut room, &mut room_for_weights),
            || plain_rust::union_weighted(&pa, &la, &pb, &lb, &mut out, &mut weights)
        );
        let [difference, difference_weighted] = compare_all!(
            n,
            || loes::difference(&pa, &pb, &mut room),
            || plain_rust::difference(&pa, &pb, &mut out);
            || loes::difference_weighted(&pa, &la, &pb, &mut room, &mut room_for_weights),
            || plain_rust::difference_weighted(&pa, &la, &pb, &mut out, &mut weights)
        );
        #[cfg(feature = "linked")]
        assert!((room, room_for_weights) == (out, weights), "the library and plain Rust write the same");
        Joins { union, difference, union_weighted, difference_weighted }
    }

    /// What a union and a difference take more with lists.
    fn less(&self) -> [(&'static str, Times); 2] {
        [
            ("union_weighted less union", less(self.union_weighted, self.union)),
            ("difference_weighted less difference", less(self.difference_weighted, self.difference)),
        ]
    }
}

/// Where a join takes more ns a key than this, what lists add to it is lost in its noise.
const NOISY: f64 = 100.0;

fn less(with: Times, without: Times) -> Times {
    let one = |with: Option<f64>, without: Option<f64>| without.filter(|time| *time <= NOISY).and_then(|time| Some(with? - time));
    (one(with.0, without.0), one(with.1, without.1))
}

/// The joins of two parts of the keys: in turn, and at random, where a branch by a member's flag would often be guessed wrong.
fn memberships<const T: usize>(keys: &[[u8; T]]) {
    println!(
        "\n## Each key in the first set, the second or both: in turn, and at random; width {}, {} clustered keys\n",
        8 * T,
        keys.len()
    );
    let [turns, random] = [in_turn, at_random].map(|kind| {
        let [a, b] = parts(keys, kind);
        let joins = Joins::measure(&a, &b, keys.len());
        let [union, difference] = joins.less();
        [
            ("union", joins.union),
            ("difference", joins.difference),
            ("union_weighted", joins.union_weighted),
            ("difference_weighted", joins.difference_weighted),
            union,
            difference,
        ]
    });
    line(["", "library, in turn", "plain Rust", "library, at random", "plain Rust"].map(String::from));
    rule(4);
    for ((name, turns), (_, random)) in turns.into_iter().zip(random) {
        line([name.to_string(), cell(turns.0), cell(turns.1), cell(random.0), cell(random.1)]);
    }
}

/// The rows of the calls with weights, and what those that join take more than without.
fn weighted_rows<const T: usize>(keys: &[[u8; T]], asked: &[[u8; T]], joins: &Joins) -> Vec<Row> {
    let (m, n, q) = (8 * T as u64, keys.len(), asked.len());
    let (batch, bytes) = (keys.concat(), packed(keys));
    let opened = plain_rust::open(&bytes).unwrap();
    #[cfg(feature = "linked")]
    let encoding = loes::Encoding::open(&bytes).unwrap();
    let [a, b] = parts(keys, in_turn);
    let (va, vb) = (weighed(&a), weighed(&b));
    let (ta, tb): (BTreeMap<_, _>, BTreeMap<_, _>) = (va.iter().copied().collect(), vb.iter().copied().collect());
    let (ha, hb): (HashMap<_, _>, HashMap<_, _>) = (va.iter().copied().collect(), vb.iter().copied().collect());
    let (mut out, mut weights) = (vec![0u8; 68_695], vec![0; n]);
    #[cfg(feature = "linked")]
    let (mut room, mut room_for_weights) = (out.clone(), weights.clone());

    let mut rows: Vec<Row> = Vec::new();
    let mut row = |name, (library, plain), others| rows.push(Row { name, library, plain, others });
    let mut pairs = weighed(keys);
    let mut tree: BTreeMap<_, _> = pairs.iter().copied().collect();
    let mut hash: HashMap<_, _> = pairs.iter().copied().collect();
    row(
        "post",
        compare!(q, || each(asked, |key| encoding.post(&mut room_for_weights, key, 1)), || each(asked, |key| {
            plain_rust::post(&bytes, &opened, &mut weights, key, 1)
        })),
        [
            Some(least(q, || {
                each(asked, |key| pairs.binary_search_by_key(key, |pair| pair.0).ok().and_then(|i| add(&mut pairs[i].1, 1)))
            })),
            Some(least(q, || each(asked, |key| tree.get_mut(key).and_then(|weight| add(weight, 1))))),
            Some(least(q, || each(asked, |key| hash.get_mut(key).and_then(|weight| add(weight, 1))))),
        ],
    );
    // the check is dear
    let few = &asked[..q / 20];
    row(
        "post with the check",
        compare!(few.len(), || each(few, |key| loes::post(&bytes, &mut room_for_weights, key, 1)), || each(few, |key| {
            plain_rust::open(&bytes).and_then(|opened| plain_rust::post(&bytes, &opened, &mut weights, key, 1))
        })),
        [None; 3],
    );
    let zeros = || batch.chunks_exact(T).map(|key| (<[u8; T]>::try_from(key).unwrap(), 0));
    row(
        "pack_weighted",
        compare!(n, || loes::pack_weighted(m, &batch, &mut room, &mut room_for_weights), || plain_rust::pack_weighted(
            m,
            &batch,
            &mut out,
            &mut weights
        )),
        [
            Some(least(n, || rising(zeros().map(|(key, _)| key).collect()).into_iter().map(|key| (key, 0)).collect::<Vec<_>>())),
            Some(least(n, || zeros().collect::<BTreeMap<_, _>>())),
            Some(least(n, || zeros().collect::<HashMap<_, _>>())),
        ],
    );
    row(
        "union_weighted",
        joins.union_weighted,
        [
            Some(least(n, || union_pairs(&va, &vb))),
            Some(least(n, || {
                let mut sums = ta.clone();
                tb.iter().try_for_each(|(key, weight)| add(sums.entry(*key).or_insert(0), *weight));
                sums
            })),
            Some(least(n, || {
                let mut sums = ha.clone();
                hb.iter().try_for_each(|(key, weight)| add(sums.entry(*key).or_insert(0), *weight));
                sums
            })),
        ],
    );
    row(
        "difference_weighted",
        joins.difference_weighted,
        [
            Some(least(n, || difference_pairs(&va, &b))),
            Some(least(n, || {
                ta.iter().filter(|(key, _)| !tb.contains_key(*key)).map(|(key, weight)| (*key, *weight)).collect::<BTreeMap<_, _>>()
            })),
            Some(least(n, || {
                ha.iter().filter(|(key, _)| !hb.contains_key(*key)).map(|(key, weight)| (*key, *weight)).collect::<HashMap<_, _>>()
            })),
        ],
    );
    #[cfg(feature = "linked")]
    assert!((room, room_for_weights) == (out, weights), "the library and plain Rust write the same");
    for (name, times) in joins.less() {
        row(name, times, [None; 3]);
    }
    rows
}

// ---- Printing

fn cell(value: Option<f64>) -> String {
    match value {
        None => "–".to_string(),
        Some(value) if value < 1_000.0 => format!("{value:.1}"),
        Some(value) => {
            let digits = format!("{value:.0}");
            let (front, back) = digits.split_at(digits.len() - 3);
            match front.len() {
                4.. => format!("{},{},{back}", &front[..front.len() - 3], &front[front.len() - 3..]),
                _ => format!("{front},{back}"),
            }
        }
    }
}

fn ratio(row: &Row) -> Option<f64> {
    Some(row.library? / row.plain?)
}

fn line(cells: impl IntoIterator<Item = String>) {
    println!("| {} |", cells.into_iter().collect::<Vec<_>>().join(" | "));
}

fn rule(columns: usize) {
    println!("|---{}|", "|--:".repeat(columns));
}

impl Table {
    /// The rows whose names begin so.
    fn named(&self, name: &str) -> Vec<&Row> {
        self.rows.iter().filter(|row| row.name.starts_with(name)).collect()
    }

    fn print(&self) {
        println!("\n## Width {}, {} {} keys, {} edge bits\n", self.width, self.count, self.shape, self.bits);
        line(std::iter::once(String::new()).chain(COLUMNS.map(String::from)));
        rule(COLUMNS.len());
        for row in &self.rows {
            let [array, tree, hash] = row.others;
            let ratio = ratio(row).map_or("–".to_string(), |ratio| format!("{ratio:.2}"));
            line([row.name.to_string(), cell(row.library), cell(row.plain), ratio, cell(array), cell(tree), cell(hash)]);
        }
    }
}

/// One line for each table: what a prefix takes, and how many times what `index_of` takes.
fn beside_index_of<'a>(tables: impl Iterator<Item = &'a Table>) {
    let time = |row: &Row| row.library.or(row.plain).unwrap();
    for (i, table) in tables.enumerate() {
        let (index_of, prefixes) = (table.named("index_of"), table.named("prefix"));
        if i == 0 {
            let names = index_of.iter().chain(&prefixes).map(|row| row.name.to_string());
            line(["width", "keys"].map(String::from).into_iter().chain(names));
            rule(2 + prefixes.len());
        }
        let index_of = time(index_of[0]);
        let cells = prefixes.iter().map(|row| format!("{} ({:.2})", cell(Some(time(row))), time(row) / index_of));
        let keys = format!("{} {}", table.count, table.shape);
        line([table.width.to_string(), keys, cell(Some(index_of))].into_iter().chain(cells));
    }
}

/// One line for each table: what a split takes, and what one would do without it.
fn beside_difference<'a>(tables: impl Iterator<Item = &'a Table>) {
    let names = ["width", "keys", "split", "plain Rust", "ratio", "difference", "split ÷ difference", "three differences"];
    let others = ["three differences ÷ split", "sorted array", "BTreeSet", "HashSet"];
    line(names.into_iter().chain(others).map(String::from));
    rule(names.len() + others.len() - 1);
    let quotient = |x: Option<f64>, y: Option<f64>| x.zip(y).map_or("–".to_string(), |(x, y)| format!("{:.2}", x / y));
    for Table { shape, width, count, splits, .. } in tables {
        let time = |(library, plain): Times| library.or(plain);
        let (split, difference, three) = (time(splits.split), time(splits.difference), time(splits.three_differences));
        let times = [
            cell(splits.split.0),
            cell(splits.split.1),
            quotient(splits.split.0, splits.split.1),
            cell(difference),
            quotient(split, difference),
            cell(three),
            quotient(three, split),
        ];
        let sizes = [width.to_string(), format!("{count} {shape}")];
        line(sizes.into_iter().chain(times).chain(splits.others.map(|time| cell(Some(time)))));
    }
}

/// One line for each table: the library, and its ratio to plain Rust.
fn growth(tables: &[Table]) {
    let names = tables[0].rows.iter().map(|row| row.name.to_string());
    line(["width", "keys", "edge bits"].map(String::from).into_iter().chain(names));
    rule(tables[0].rows.len() + 2);
    for table in tables {
        let cells = table.rows.iter().map(|row| match ratio(row) {
            Some(ratio) if row.name != "memory" => format!("{} ({ratio:.2})", cell(row.library)),
            _ => cell(row.library.or(row.plain)),
        });
        let sizes = [table.width, table.count, table.bits].map(|number| number.to_string());
        line(sizes.into_iter().chain(cells));
    }
}
