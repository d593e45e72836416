//! The reference: document 01, with document 02's slips 2 and 3, read sentence by sentence, with plain sets of keys and nothing
//! clever.
//!
//! A set is a `BTreeSet` of keys. Its levels are found by taking every key's prefixes; its bytes are put down field by field.
//! Bytes are read by following their edges to a set and encoding that set again. A cursor is a place in the list of paths.
//! Nothing here is taken from the library: it decides nothing by counting bits in an index.
//!
//! Numbers are answered as the C interface answers them: `Ok(Some(value))`, `Ok(None)` for absent or none, `Err(refusal)`.

mod weights;

pub use weights::*;

use std::cmp::Ordering;
use std::collections::{BTreeMap, BTreeSet};

pub type Key = Vec<u8>;
pub type Answer = Result<Option<u64>, u64>;
pub type RangeAnswer = Result<PrefixRange, u64>;
/// The lengths of a split: of the keys in both, only in the first, only in the second.
pub type LengthsAnswer = Result<[u64; 3], u64>;

pub const MAX_WIDTH: usize = 256;
pub const MAX_EDGES: usize = 524_280;
pub const BLOCK: usize = 65_536;
pub const SUB_BLOCK: usize = 512;

/// The bytes that a key takes.
pub fn key_len(width: usize) -> usize {
    width.div_ceil(8)
}

/// Bit i of a key; bit 0 is the most significant bit of the first byte.
pub fn bit(key: &[u8], i: usize) -> bool {
    key[i / 8] & (0x80 >> (i % 8)) != 0
}

pub fn set_bit(key: &mut [u8], i: usize) {
    key[i / 8] |= 0x80 >> (i % 8);
}

/// The first d bits of a key, in as many bytes as they take.
pub fn prefix(key: &[u8], d: usize) -> Key {
    let mut p = key[..key_len(d)].to_vec();
    if d % 8 != 0 {
        p[d / 8] &= !(0xFF >> (d % 8));
    }
    p
}

/// A bit behind the width is set.
pub fn unused_bit_set(width: usize, key: &[u8]) -> bool {
    (width..8 * key.len()).any(|i| bit(key, i))
}

/// How many keys' own first bits are smaller than a prefix, and how many begin with it.
#[derive(Clone, Copy, Debug, PartialEq, Eq)]
pub struct PrefixRange {
    pub first: u64,
    pub count: u64,
}

#[derive(Clone, Debug, PartialEq, Eq)]
pub struct Set {
    pub width: usize,
    pub keys: BTreeSet<Key>,
}

impl Set {
    pub fn new(width: usize, keys: impl IntoIterator<Item = Key>) -> Set {
        Set { width, keys: keys.into_iter().collect() }
    }

    /// Level d: for each distinct prefix of d bits, whether some key goes on with 0, and with 1.
    pub fn level(&self, d: usize) -> BTreeMap<Key, [bool; 2]> {
        let mut records: BTreeMap<Key, [bool; 2]> = BTreeMap::new();
        for key in &self.keys {
            records.entry(prefix(key, d)).or_default()[usize::from(bit(key, d))] = true;
        }
        records
    }

    /// Everything that is laid down for it.
    pub fn lay(self) -> Laid {
        let mut edges = Vec::new();
        let mut ends = Vec::new();
        for d in 0..self.width {
            for record in self.level(d).values() {
                edges.extend(record);
            }
            ends.push(edges.len());
        }
        Laid { set: self, edges, ends }
    }
}

/// A set with its edge sequence.
#[derive(Clone, Debug, PartialEq, Eq)]
pub struct Laid {
    pub set: Set,
    pub edges: Vec<bool>,
    /// for each level, the edge bits in it and all levels before it
    pub ends: Vec<usize>,
}

fn put(out: &mut Vec<u8>, bytes: usize, number: usize) {
    out.extend(&(number as u64).to_be_bytes()[8 - bytes..]);
}

fn field(out: &mut Vec<u8>, tag: u8, body: &[u8]) {
    out.push(tag);
    put(out, 2, body.len());
    out.extend(body);
}

pub fn pack_bits(bits: &[bool]) -> Vec<u8> {
    let mut bytes = vec![0; bits.len().div_ceil(8)];
    for (o, _) in bits.iter().enumerate().filter(|(_, set)| **set) {
        set_bit(&mut bytes, o);
    }
    bytes
}

fn ones(bits: &[bool]) -> usize {
    bits.iter().filter(|set| **set).count()
}

/// The bodies of fields 5 and 6 of an edge sequence.
pub fn index_bodies(edges: &[bool]) -> (Vec<u8>, Vec<u8>) {
    let (mut blocks, mut sub_blocks) = (Vec::new(), Vec::new());
    let mut before = 0;
    for block in edges.chunks(BLOCK) {
        put(&mut blocks, 8, before);
        let mut inside = 0;
        for sub_block in block.chunks(SUB_BLOCK) {
            put(&mut sub_blocks, 2, inside);
            inside += ones(sub_block);
        }
        before += inside;
    }
    (blocks, sub_blocks)
}

/// Six fields with these contents, whether or not they fit together.
pub fn fields(width: usize, count: usize, ends: &[usize], edges: &[u8], blocks: &[u8], sub_blocks: &[u8]) -> Vec<u8> {
    let mut out = Vec::new();
    let (mut m, mut n, mut levels) = (Vec::new(), Vec::new(), Vec::new());
    put(&mut m, 2, width);
    put(&mut n, 4, count);
    for end in ends {
        put(&mut levels, 4, *end);
    }
    field(&mut out, 1, &m);
    field(&mut out, 2, &n);
    field(&mut out, 3, &levels);
    field(&mut out, 4, edges);
    field(&mut out, 5, blocks);
    field(&mut out, 6, sub_blocks);
    out
}

/// Goes on unless the condition of a refusal holds.
fn unless(refused: bool, number: u64) -> Result<(), u64> {
    if refused {
        Err(number)
    } else {
        Ok(())
    }
}

impl Laid {
    pub fn width(&self) -> usize {
        self.set.width
    }

    pub fn count(&self) -> usize {
        self.set.keys.len()
    }

    pub fn bits(&self) -> usize {
        self.edges.len()
    }

    /// The bytes of the encoding. Only for sets within the limits.
    pub fn encode(&self) -> Vec<u8> {
        assert!(self.bits() <= MAX_EDGES);
        let (blocks, sub_blocks) = index_bodies(&self.edges);
        fields(self.width(), self.count(), &self.ends, &pack_bits(&self.edges), &blocks, &sub_blocks)
    }

    // ---- Questions

    fn key_fits(&self, key: &[u8]) -> Result<(), u64> {
        unless(key.len() != key_len(self.width()) || unused_bit_set(self.width(), key), 8)
    }

    fn smaller(&self, key: &[u8]) -> usize {
        self.set.keys.iter().take_while(|member| member.as_slice() < key).count()
    }

    pub fn contains(&self, key: &[u8]) -> Answer {
        self.key_fits(key)?;
        Ok(self.set.keys.contains(key).then_some(1))
    }

    pub fn index_of(&self, key: &[u8]) -> Answer {
        self.key_fits(key)?;
        Ok(self.set.keys.contains(key).then(|| self.smaller(key) as u64))
    }

    pub fn lower_bound(&self, key: &[u8]) -> Answer {
        self.key_fits(key)?;
        let smaller = self.smaller(key);
        Ok((smaller < self.count()).then_some(smaller as u64))
    }

    /// The set bits strictly before an offset, 0 to b.
    pub fn rank(&self, offset: u64) -> Answer {
        unless(offset > self.bits() as u64, 9)?;
        Ok(Some(ones(&self.edges[..offset as usize]) as u64))
    }

    pub fn key_at(&self, index: u64, out: &mut [u8]) -> Answer {
        unless(index >= self.count() as u64, 9)?;
        let key = self.set.keys.iter().nth(index as usize).unwrap();
        write(key, out)
    }

    /// 9, then 8; then each key's own first bits, one by one, beside those that are given.
    pub fn prefix(&self, prefix_bits: u64, given: &[u8]) -> RangeAnswer {
        unless(prefix_bits > self.width() as u64, 9)?;
        let p = prefix_bits as usize;
        unless(given.len() != key_len(p) || unused_bit_set(p, given), 8)?;
        let mut range = PrefixRange { first: 0, count: 0 };
        for key in &self.set.keys {
            match (0..p).map(|i| bit(key, i)).cmp((0..p).map(|i| bit(given, i))) {
                Ordering::Less => range.first += 1,
                Ordering::Equal => range.count += 1,
                Ordering::Greater => (),
            }
        }
        Ok(range)
    }

    // ---- The cursor

    /// For each member in order, its edge offset on each level.
    pub fn paths(&self) -> Vec<Vec<u64>> {
        let mut paths = vec![Vec::new(); self.count()];
        let mut start = 0;
        for d in 0..self.width() {
            let numbers: BTreeMap<Key, usize> = self.level_prefixes(d).into_iter().enumerate().map(|(i, p)| (p, i)).collect();
            for (path, key) in paths.iter_mut().zip(&self.set.keys) {
                path.push((start + 2 * numbers[&prefix(key, d)] + usize::from(bit(key, d))) as u64);
            }
            start = self.ends[d];
        }
        paths
    }

    fn level_prefixes(&self, d: usize) -> BTreeSet<Key> {
        self.set.keys.iter().map(|key| prefix(key, d)).collect()
    }
}

/// Puts the result at the front of the buffer, if it fits.
pub fn write(result: &[u8], out: &mut [u8]) -> Answer {
    unless(out.len() < result.len(), 14)?;
    out[..result.len()].copy_from_slice(result);
    Ok(Some(result.len() as u64))
}

// ---- Building

/// The set of a batch.
pub fn batch(width: u64, batch: &[u8]) -> Result<Set, u64> {
    unless(width == 0 || width > MAX_WIDTH as u64, 4)?;
    let width = width as usize;
    unless(batch.len() % key_len(width) != 0, 10)?;
    let mut before: Option<&[u8]> = None;
    for key in batch.chunks(key_len(width)) {
        unless(unused_bit_set(width, key), 11)?;
        unless(before.is_some_and(|before| key < before), 12)?;
        before = Some(key);
    }
    Ok(Set::new(width, batch.chunks(key_len(width)).map(<[u8]>::to_vec)))
}

/// 5, 14, and the encoding at the front of the buffer.
pub fn written(set: Set, out: &mut [u8]) -> (Answer, Option<Laid>) {
    let laid = set.lay();
    if laid.bits() > MAX_EDGES {
        return (Err(5), None);
    }
    let answer = write(&laid.encode(), out);
    let added = answer.is_ok().then_some(laid);
    (answer, added)
}

pub fn pack(width: u64, bytes: &[u8], out: &mut [u8]) -> (Answer, Option<Laid>) {
    match batch(width, bytes) {
        Err(refusal) => (Err(refusal), None),
        Ok(set) => written(set, out),
    }
}

pub fn union(a: &Set, b: &Set) -> Result<Set, u64> {
    unless(a.width != b.width, 13)?;
    Ok(Set { width: a.width, keys: a.keys.union(&b.keys).cloned().collect() })
}

pub fn difference(a: &Set, b: &Set) -> Result<Set, u64> {
    unless(a.width != b.width, 13)?;
    Ok(Set { width: a.width, keys: a.keys.difference(&b.keys).cloned().collect() })
}

/// 13; then each key of either set goes to one of three: in both, only in the first, only in the second.
pub fn split(a: &Set, b: &Set) -> Result<[Set; 3], u64> {
    unless(a.width != b.width, 13)?;
    let mut parts = [(); 3].map(|()| Set::new(a.width, []));
    for key in a.keys.iter().chain(&b.keys) {
        let part = match (a.keys.contains(key), b.keys.contains(key)) {
            (true, true) => 0,
            (true, false) => 1,
            _ => 2,
        };
        parts[part].keys.insert(key.clone());
    }
    Ok(parts)
}

/// 5 for any of the three.
pub fn split_laid(a: &Set, b: &Set) -> Result<[Laid; 3], u64> {
    let parts = split(a, b)?.map(Set::lay);
    unless(parts.iter().any(|laid| laid.bits() > MAX_EDGES), 5)?;
    Ok(parts)
}

/// 14 for any of the three; then each stands at the front of its own buffer.
pub fn write_three(results: &[Vec<u8>; 3], outs: [&mut [u8]; 3]) -> LengthsAnswer {
    unless(results.iter().zip(&outs).any(|(result, out)| out.len() < result.len()), 14)?;
    for (result, out) in results.iter().zip(outs) {
        out[..result.len()].copy_from_slice(result);
    }
    Ok(results.each_ref().map(|result| result.len() as u64))
}

// ---- Reading

/// The bytes that are left, from the front on.
struct Rest<'a>(&'a [u8]);

impl<'a> Rest<'a> {
    fn take(&mut self, n: usize) -> Result<&'a [u8], u64> {
        unless(self.0.len() < n, 1)?;
        let (front, rest) = self.0.split_at(n);
        self.0 = rest;
        Ok(front)
    }

    /// 1 for its head, 2, 3, 1 for its body.
    fn field(&mut self, tag: u8, length: usize) -> Result<&'a [u8], u64> {
        let head = self.take(3)?;
        unless(head[0] != tag, 2)?;
        unless(number(&head[1..]) != length, 3)?;
        self.take(length)
    }
}

fn number(bytes: &[u8]) -> usize {
    bytes.iter().fold(0, |n, byte| 256 * n + usize::from(*byte))
}

/// The keys of m bits whose edges, followed, are all set: the edge at offset o leads to record rank(o + 1).
fn follow(width: usize, edges: &[bool]) -> BTreeSet<Key> {
    // for each offset from 0 on, the set bits before it
    let mut ranks = vec![0];
    for (o, set) in edges.iter().enumerate() {
        ranks.push(ranks[o] + usize::from(*set));
    }
    let mut here: Vec<(Key, usize)> = Vec::new();
    if !edges.is_empty() {
        here.push((vec![0; key_len(width)], 0));
    }
    for d in 0..width {
        let mut next = Vec::new();
        for (key, record) in here {
            for side in [0, 1] {
                let o = 2 * record + side;
                if edges.get(o) == Some(&true) {
                    let mut key = key.clone();
                    if side == 1 {
                        set_bit(&mut key, d);
                    }
                    next.push((key, ranks[o + 1]));
                }
            }
        }
        here = next;
    }
    here.into_iter().map(|(key, _)| key).collect()
}

/// The set whose encoding the bytes are, or their refusal.
pub fn read(bytes: &[u8]) -> Result<Laid, u64> {
    let mut rest = Rest(bytes);
    let width = number(rest.field(1, 2)?);
    unless(width == 0 || width > MAX_WIDTH, 4)?;
    rest.field(2, 4)?;
    let levels = rest.field(3, 4 * width)?;
    let bits = number(&levels[4 * width - 4..]);
    unless(bits > MAX_EDGES, 5)?;
    let edge_bytes = rest.field(4, bits.div_ceil(8))?;
    rest.field(5, 8 * bits.div_ceil(BLOCK))?;
    rest.field(6, 2 * bits.div_ceil(SUB_BLOCK))?;
    unless(!rest.0.is_empty(), 6)?;
    let edges: Vec<bool> = (0..bits).map(|o| bit(edge_bytes, o)).collect();
    let laid = Set { width, keys: follow(width, &edges) }.lay();
    unless(laid.bits() != bits || laid.encode() != bytes, 7)?;
    Ok(laid)
}

// ---- Walking

/// A cursor in numbers: 0 before, 1 at, 2 after.
#[derive(Clone, Debug, PartialEq, Eq)]
pub struct Cursor {
    pub state: u64,
    pub offsets: Vec<u64>,
}

impl Cursor {
    pub fn before() -> Cursor {
        Cursor { state: 0, offsets: vec![0; MAX_WIDTH] }
    }

    fn after() -> Cursor {
        Cursor { state: 2, offsets: vec![0; MAX_WIDTH] }
    }

    fn at(path: &[u64]) -> Cursor {
        let mut offsets = path.to_vec();
        offsets.resize(MAX_WIDTH, 0);
        Cursor { state: 1, offsets }
    }
}

/// Every place of a walk over a set, in order: before, each member, after; with what a step to it writes.
pub struct Walk {
    places: Vec<(Cursor, Key)>,
}

impl Walk {
    pub fn over(laid: &Laid) -> Walk {
        let mut places = vec![(Cursor::before(), Key::new())];
        for (path, key) in laid.paths().iter().zip(&laid.set.keys) {
            places.push((Cursor::at(path), key.clone()));
        }
        places.push((Cursor::after(), Key::new()));
        Walk { places }
    }

    pub fn places(&self) -> impl Iterator<Item = &Cursor> {
        self.places.iter().map(|(cursor, _)| cursor)
    }

    /// 15, then 14 unless it goes to after.
    pub fn advance(&self, cursor: &mut Cursor, out: &mut [u8]) -> Answer {
        let Some(here) = self.places.iter().position(|(place, _)| place == cursor) else {
            return Err(15);
        };
        let (next, key) = &self.places[(here + 1).min(self.places.len() - 1)];
        let answer = write(key, out)?;
        *cursor = next.clone();
        Ok(answer)
    }
}
