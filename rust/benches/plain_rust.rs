//! The library's algorithms in plain Rust, to measure against. Refusals are the numbers of documents 01 and 02.
#![allow(dead_code)]

pub const MAX_WIDTH: usize = 256;
pub const MAX_EDGES: usize = 524_280;
pub const BLOCK_BITS: usize = 65_536;
pub const SUB_BLOCK_BITS: usize = 512;

/// For each byte its set bits.
static TALLIES: [u8; 256] = tallies();

const fn tallies() -> [u8; 256] {
    let mut table = [0; 256];
    let mut x = 0;
    while x < 256 {
        table[x] = (x as u8).count_ones() as u8;
        x += 1;
    }
    table
}

/// For each byte and k, the place of its set bit number k, or 8.
static PLACES: [[u8; 8]; 256] = places();

const fn places() -> [[u8; 8]; 256] {
    let mut table = [[8; 8]; 256];
    let mut x = 0;
    while x < 256 {
        let (mut place, mut k) = (0, 0);
        while place < 8 {
            if x & (0x80 >> place) != 0 {
                table[x][k] = place;
                k += 1;
            }
            place += 1;
        }
        x += 1;
    }
    table
}

fn number2(bytes: &[u8]) -> usize {
    usize::from(u16::from_be_bytes(bytes.try_into().unwrap()))
}

fn number4(bytes: &[u8]) -> usize {
    u32::from_be_bytes(bytes.try_into().unwrap()) as usize
}

fn number8(bytes: &[u8]) -> usize {
    u64::from_be_bytes(bytes.try_into().unwrap()) as usize
}

/// Eight bytes as one word, the first the least.
fn word(l: &[u8], at: usize) -> u64 {
    u64::from_le_bytes(l[at..at + 8].try_into().unwrap())
}

fn bit_at(l: &[u8], o: usize) -> bool {
    l[o / 8] >> (7 - o % 8) & 1 == 1
}

/// Record i: 2 for its first edge, 1 for its second.
fn record(l: &[u8], i: usize) -> u8 {
    l[i / 4] >> (6 - 2 * (i % 4)) & 3
}

/// The set bits of a byte.
fn ones_in(x: u8) -> usize {
    usize::from(TALLIES[usize::from(x)])
}

/// The set bits of few bytes, by the table.
fn tally(bytes: &[u8]) -> usize {
    bytes.iter().map(|x| ones_in(*x)).sum()
}

/// The set bits among so many first bits of a byte.
fn ones_of_first(x: u8, bits: usize) -> usize {
    ones_in((u16::from(x) >> (8 - bits)) as u8)
}

/// The set bits of many bytes, by words.
fn count_ones(bytes: &[u8]) -> usize {
    let (words, rest) = bytes.as_chunks();
    words.iter().map(|x| u64::from_le_bytes(*x).count_ones() as usize).sum::<usize>() + tally(rest)
}

pub fn key_len(width: usize) -> usize {
    width.div_ceil(8)
}

// ---- Opening

#[derive(Clone, Copy, Debug, PartialEq, Eq)]
pub struct Opened {
    pub width: usize,
    pub count: usize,
    pub bits: usize,
    pub edges: usize,
    pub blocks: usize,
    pub sub_blocks: usize,
}

/// The bodies of fields 3 to 6. The edges go on to the end of the bytes, so that words can be read from any of them.
struct Fields<'a> {
    ends: &'a [[u8; 4]],
    edges: &'a [u8],
    blocks: &'a [[u8; 8]],
    sub_blocks: &'a [[u8; 2]],
}

impl Opened {
    /// Those of the bytes that were opened.
    #[inline(always)]
    fn fields<'a>(&self, l: &'a [u8]) -> Fields<'a> {
        Fields {
            ends: l[15..15 + 4 * self.width].as_chunks().0,
            edges: &l[self.edges..],
            blocks: l[self.blocks..self.sub_blocks - 3].as_chunks().0,
            sub_blocks: l[self.sub_blocks..].as_chunks().0,
        }
    }
}

/// The body of a field that begins at a place.
fn field(l: &[u8], at: usize, tag: u8, length: usize) -> Result<&[u8], u64> {
    if l.len() - at < 3 {
        return Err(1);
    }
    if l[at] != tag {
        return Err(2);
    }
    if number2(&l[at + 1..at + 3]) != length {
        return Err(3);
    }
    l[at + 3..].get(..length).ok_or(1)
}

pub fn open(l: &[u8]) -> Result<Opened, u64> {
    let width = number2(field(l, 0, 1, 2)?);
    if width == 0 || width > MAX_WIDTH {
        return Err(4);
    }
    let count = number4(field(l, 5, 2, 4)?);
    let ends = field(l, 12, 3, 4 * width)?;
    let bits = number4(&ends[4 * width - 4..]);
    if bits > MAX_EDGES {
        return Err(5);
    }
    // each field begins behind the one before it
    let edges = 15 + 4 * width + 3;
    let blocks = edges + field(l, edges - 3, 4, bits.div_ceil(8))?.len() + 3;
    let sub_blocks = blocks + field(l, blocks - 3, 5, 8 * bits.div_ceil(BLOCK_BITS))?.len() + 3;
    let end = sub_blocks + field(l, sub_blocks - 3, 6, 2 * bits.div_ceil(SUB_BLOCK_BITS))?.len();
    if end != l.len() {
        return Err(6);
    }
    let e = Opened { width, count, bits, edges, blocks, sub_blocks };
    if check(&e, &e.fields(l)) {
        Ok(e)
    } else {
        Err(7)
    }
}

/// The lower bit of each of a word's 32 records.
const RECORDS: u64 = 0x5555_5555_5555_5555;

/// The set bits of bytes, if none of their records is empty.
#[inline(always)]
fn full_ones(bytes: &[u8]) -> Option<usize> {
    let (words, rest) = bytes.as_chunks();
    let (mut full, mut ones) = (RECORDS, 0);
    for x in words.iter().map(|x| u64::from_le_bytes(*x)) {
        full &= x | x >> 1;
        ones += x.count_ones() as usize;
    }
    // the rest as one word, against the records that it has
    let x = rest.iter().rev().fold(0, |x, byte| x << 8 | u64::from(*byte));
    if full != RECORDS || RECORDS & (x | x >> 1) != RECORDS % (1 << (8 * rest.len())) {
        return None;
    }
    Some(ones + x.count_ones() as usize)
}

/// The same of the first 64 bytes, or of all if they are fewer.
fn scan_sub_block(bytes: &[u8]) -> Option<usize> {
    match bytes.first_chunk::<64>() {
        Some(all) => full_ones(all),
        None => full_ones(bytes),
    }
}

/// One pass over the whole edge bytes: the index fields are right, and no record is empty. Tells the set bits.
fn whole_ones(e: &Opened, f: &Fields) -> Option<usize> {
    let bytes = &f.edges[..e.bits / 8];
    let (mut base, mut ones) = (0, 0);
    for (j, entry) in f.sub_blocks.iter().enumerate() {
        if j % 128 == 0 {
            base = ones;
            if number8(&f.blocks[j / 128]) != base {
                return None;
            }
        }
        if base + number2(entry) != ones {
            return None;
        }
        ones += scan_sub_block(&bytes[64 * j..])?;
    }
    Some(ones)
}

/// The set bits of the last byte, if it is not whole: what is left over is clear, and with that set no record is empty.
fn last_ones(e: &Opened, f: &Fields) -> Option<usize> {
    if e.bits % 8 == 0 {
        return Some(0);
    }
    let (x, over) = (f.edges[e.bits / 8], 0xFF >> (e.bits % 8));
    let y = x | over;
    (x & over == 0 && 0x55 & (y | y >> 1) == 0x55).then(|| ones_in(x))
}

/// Level by level: each set bit is a record of the next level. A level's end is read before the set bits to it are counted.
fn levels_agree(e: &Opened, f: &Fields) -> bool {
    let mut ends = f.ends.iter().map(|end| number4(end));
    if e.bits == 0 {
        return ends.all(|end| end == 0);
    }
    let (mut from, mut start, mut ones) = (0, 0, 0);
    for end in ends {
        ones = ones_on(f, from, ones, start);
        if end != 2 * (1 + ones) {
            return false;
        }
        (from, start) = (start, end.min(e.bits));
    }
    true
}

fn check(e: &Opened, f: &Fields) -> bool {
    let (Some(whole), Some(last)) = (whole_ones(e, f), last_ones(e, f)) else {
        return false;
    };
    levels_agree(e, f) && e.count + e.bits / 2 == usize::from(e.bits > 0) + whole + last
}

// ---- Rank and the descent

/// The counting behind every rank of an opened encoding, of which it sees an entry of field 5, one of field 6 and at most 64 bytes
/// of field 4: it counts the set ones among their first n bits, of which there is at least one.
#[inline(always)]
fn count_sub_block(block: usize, sub_block: usize, edges: &[u8], n: usize) -> usize {
    let last = (n - 1) / 8;
    let start = block + sub_block + ones_of_first(edges[last], (n - 1) % 8 + 1);
    // few bytes are counted one by one
    if last < 8 {
        return start + tally(&edges[..last]);
    }
    // more by words: first those behind the last whole word, of the word that they end
    let behind = last % 8;
    let rest = word(edges, last - 8) >> (8 * (7 - behind)) >> 8;
    let mut sum = start + rest.count_ones() as usize;
    for x in edges[..last - behind].as_chunks().0 {
        sum += u64::from_le_bytes(*x).count_ones() as usize;
    }
    sum
}

/// The set bits before offset o, 0 to b.
#[inline(always)]
fn ones_before(f: &Fields, o: usize) -> usize {
    if o == 0 {
        return 0;
    }
    let last = o - 1;
    let sub = last / SUB_BLOCK_BITS;
    let (block, sub_block) = (number8(&f.blocks[last / BLOCK_BITS]), number2(&f.sub_blocks[sub]));
    count_sub_block(block, sub_block, &f.edges[64 * sub..=last / 8], last % SUB_BLOCK_BITS + 1)
}

/// The same if `ones` are set before `from`, which is not behind it: where it is near, the edges between are counted.
fn ones_on(f: &Fields, from: usize, ones: usize, o: usize) -> usize {
    if o - from > 256 {
        return ones_before(f, o);
    }
    let whole = tally(&f.edges[from / 8..o / 8]);
    ones + whole + ones_of_first(f.edges[o / 8], o % 8) - ones_of_first(f.edges[from / 8], from % 8)
}

pub fn rank(l: &[u8], e: &Opened, offset: u64) -> Result<u64, u64> {
    if offset > e.bits as u64 {
        return Err(9);
    }
    Ok(ones_before(&e.fields(l), offset as usize) as u64)
}

fn key_fits(e: &Opened, key: &[u8]) -> Result<(), u64> {
    let t = key_len(e.width);
    if key.len() != t || u32::from(key[t - 1]) % (1 << (8 * t - e.width)) != 0 {
        return Err(8);
    }
    Ok(())
}

/// The record that the first p bits of a key lead to, or the one that they would have, and whether they do: one rank a level.
#[inline(always)]
fn descend(f: &Fields, key: &[u8], p: usize) -> (usize, bool) {
    let (mut record, mut found) = (0, true);
    for d in 0..p {
        let edge = 2 * record + usize::from(found && bit_at(key, d));
        found = found && bit_at(f.edges, edge);
        record = 1 + ones_before(f, edge);
    }
    (record, found)
}

/// How many members are smaller than the key, and whether it is one.
fn locate(l: &[u8], e: &Opened, key: &[u8]) -> (usize, bool) {
    if e.bits == 0 {
        return (0, false);
    }
    let (record, found) = descend(&e.fields(l), key, e.width);
    (record - e.bits / 2, found)
}

pub fn contains(l: &[u8], e: &Opened, key: &[u8]) -> Result<bool, u64> {
    key_fits(e, key)?;
    Ok(locate(l, e, key).1)
}

pub fn index_of(l: &[u8], e: &Opened, key: &[u8]) -> Result<Option<u64>, u64> {
    key_fits(e, key)?;
    let (smaller, found) = locate(l, e, key);
    Ok(found.then_some(smaller as u64))
}

pub fn lower_bound(l: &[u8], e: &Opened, key: &[u8]) -> Result<Option<u64>, u64> {
    key_fits(e, key)?;
    let (smaller, _) = locate(l, e, key);
    Ok((smaller < e.count).then_some(smaller as u64))
}

// ---- Prefix

/// A prefix has no more bits than a key, or 9; it is as long as they take, and no bit behind them is set, or 8.
fn prefix_fits(e: &Opened, prefix_bits: u64, prefix: &[u8]) -> Result<usize, u64> {
    if prefix_bits > e.width as u64 {
        return Err(9);
    }
    let p = prefix_bits as usize;
    if prefix.len() != key_len(p) || prefix.last().is_some_and(|x| u32::from(*x) % (1 << (8 * key_len(p) - p)) != 0) {
        return Err(8);
    }
    Ok(p)
}

/// The members before the boundary in front of a record, so many levels above them: one rank a level.
fn members_before(f: &Fields, e: &Opened, mut record: usize, levels: usize) -> usize {
    for _ in 0..levels {
        record = 1 + ones_before(f, 2 * record);
    }
    record - e.bits / 2
}

/// How many members' own first bits are smaller than a prefix, and how many begin with it.
pub fn prefix(l: &[u8], e: &Opened, prefix_bits: u64, prefix: &[u8]) -> Result<(u64, u64), u64> {
    let p = prefix_fits(e, prefix_bits, prefix)?;
    if e.bits == 0 {
        return Ok((0, 0));
    }
    let f = e.fields(l);
    let (record, found) = descend(&f, prefix, p);
    let first = members_before(&f, e, record, e.width - p);
    let behind = if found { members_before(&f, e, record + 1, e.width - p) } else { first };
    Ok((first as u64, (behind - first) as u64))
}

// ---- Select and key_at

/// The offset of the set bit that has k set bits before it from byte i on: by words, bytes and table.
fn select_from(edges: &[u8], mut i: usize, mut k: usize) -> usize {
    let mut x = word(edges, i);
    while x.count_ones() as usize <= k {
        k -= x.count_ones() as usize;
        i += 8;
        x = word(edges, i);
    }
    while ones_in(x as u8) <= k {
        k -= ones_in(x as u8);
        i += 1;
        x >>= 8;
    }
    8 * i + usize::from(PLACES[usize::from(x as u8)][k % 8])
}

/// The last sub-block of a block with at most k set bits of the block before it: the hint or the one before it, or by halving.
fn sub_block_of(f: &Fields, block: usize, k: usize, hint: usize) -> usize {
    let begins_by = |j: usize| f.sub_blocks.get(j).is_some_and(|entry| number2(entry) <= k);
    if hint / 128 == block {
        if begins_by(hint) {
            if !begins_by(hint + 1) {
                return hint;
            }
        } else if hint % 128 > 0 && begins_by(hint - 1) {
            return hint - 1;
        }
    }
    let of_block = &f.sub_blocks[128 * block..f.sub_blocks.len().min(128 * block + 128)];
    128 * block + of_block.partition_point(|entry| number2(entry) <= k) - 1
}

/// The offset of set bit number k: by block and sub-block, which the hint may be.
fn select(f: &Fields, k: usize, hint: usize) -> usize {
    let block = f.blocks[1..].iter().take_while(|entry| number8(*entry) <= k).count();
    let k = k - number8(&f.blocks[block]);
    let sub_block = sub_block_of(f, block, k, hint);
    select_from(f.edges, 64 * sub_block, k - number2(&f.sub_blocks[sub_block]))
}

/// The key bits of at most eight edges, as a number.
fn key_bits(offsets: &[u64]) -> u8 {
    offsets.iter().fold(0, |value, offset| 2 * value + (offset % 2) as u8)
}

/// The key of a path, eight bits at a time.
fn write_key(path: &[u64], out: &mut [u8]) -> usize {
    let (whole, rest) = path.as_chunks::<8>();
    for (byte, offsets) in out.iter_mut().zip(whole) {
        *byte = key_bits(offsets);
    }
    if !rest.is_empty() {
        out[whole.len()] = key_bits(rest) << (8 - rest.len());
    }
    key_len(path.len())
}

/// Where level d begins.
fn level_start(f: &Fields, d: usize) -> usize {
    f.ends.get(d.wrapping_sub(1)).map_or(0, |end| number4(end))
}

pub fn key_at(l: &[u8], e: &Opened, index: u64, out: &mut [u8]) -> Result<usize, u64> {
    if index >= e.count as u64 {
        return Err(9);
    }
    if out.len() < key_len(e.width) {
        return Err(14);
    }
    let f = e.fields(l);
    let mut offsets = [0; MAX_WIDTH];
    let mut record = e.bits / 2 + index as usize;
    let (mut end, mut last, mut guess) = (e.bits, e.bits, e.bits);
    for d in (0..e.width).rev() {
        let start = level_start(&f, d);
        // the record's number in its level: a small one is counted from the start of the level above
        let k = record - end / 2;
        let o = if k < 128 {
            select_from(f.edges, start / 8, k + ones_of_first(f.edges[start / 8], start % 8))
        } else {
            select(&f, record - 1, guess / SUB_BLOCK_BITS)
        };
        offsets[d] = o as u64;
        // the next may be as far above as this one is above the last
        guess = (2 * o).saturating_sub(last);
        (end, last, record) = (start, o, o / 2);
    }
    Ok(write_key(&offsets[..e.width], out))
}

// ---- The cursor

#[derive(Clone, Debug, PartialEq, Eq)]
pub struct Cursor {
    pub state: u64,
    pub offsets: [u64; MAX_WIDTH],
}

impl Cursor {
    pub fn before() -> Cursor {
        Cursor { state: 0, offsets: [0; MAX_WIDTH] }
    }
}

fn is_path(l: &[u8], e: &Opened, offsets: &[u64]) -> bool {
    let f = e.fields(l);
    let mut record = 0;
    for o in offsets {
        if o / 2 != record as u64 || *o >= e.bits as u64 || !bit_at(f.edges, *o as usize) {
            return false;
        }
        record = ones_before(&f, *o as usize) + 1;
    }
    true
}

/// The first edge of record i.
fn first_edge(edges: &[u8], i: usize) -> usize {
    2 * i + 1 - usize::from(record(edges, i) / 2)
}

/// Whether a path turns at edge o: its record has the other edge too, and behind it.
fn turns(edges: &[u8], o: usize) -> bool {
    usize::from(record(edges, o / 2)) + 4 * (o % 2) == 3
}

/// All 0, with no branch by one of them.
fn zeros(offsets: &[u64]) -> bool {
    offsets.iter().fold(0, |set, o| set | o) == 0
}

pub fn advance(l: &[u8], e: &Opened, cursor: &mut Cursor, out: &mut [u8]) -> Result<usize, u64> {
    let m = e.width;
    let right = match cursor.state {
        1 => is_path(l, e, &cursor.offsets[..m]) && zeros(&cursor.offsets[m..]),
        0 | 2 => zeros(&cursor.offsets),
        _ => false,
    };
    if !right {
        return Err(15);
    }
    next(l, e, cursor, out)
}

/// The path of the first member: on each level the first edge of the first record.
fn first_path(f: &Fields, path: &mut [u64]) {
    let mut record = 0;
    for (o, end) in path.iter_mut().zip(f.ends) {
        *o = first_edge(f.edges, record) as u64;
        record = number4(end) / 2;
    }
}

/// A path moved on from its turn: there to the next edge, on the levels behind it to the first of the next record.
fn move_on(edges: &[u8], turn: usize, path: &mut [u64]) {
    path[turn] += 1;
    for o in &mut path[turn + 1..] {
        *o = first_edge(edges, *o as usize / 2 + 1) as u64;
    }
}

/// The step of a right cursor.
pub fn next(l: &[u8], e: &Opened, cursor: &mut Cursor, out: &mut [u8]) -> Result<usize, u64> {
    let edges = &l[e.edges..];
    let path = &mut cursor.offsets[..e.width];
    // the lowest level that turns, where the path is at a member
    let turn = match cursor.state {
        0 if e.bits > 0 => Some(0),
        1 => path.iter().rposition(|o| turns(edges, *o as usize)),
        _ => None,
    };
    let Some(turn) = turn else {
        *cursor = Cursor { state: 2, offsets: [0; MAX_WIDTH] };
        return Ok(0);
    };
    if out.len() < key_len(e.width) {
        return Err(14);
    }
    match cursor.state {
        0 => first_path(&e.fields(l), path),
        _ => move_on(edges, turn, path),
    }
    cursor.state = 1;
    Ok(write_key(path, out))
}

/// That step, and if it wrote a key, as many more as the buffer has room for.
pub fn fill(l: &[u8], e: &Opened, cursor: &mut Cursor, out: &mut [u8]) -> Result<usize, u64> {
    let t = next(l, e, cursor, out)?;
    let mut written = t;
    while 0 < t && t <= out.len() - written && next(l, e, cursor, &mut out[written..])? > 0 {
        written += t;
    }
    Ok(written)
}

// ---- The writer of the six fields

fn put(out: &mut [u8], at: &mut usize, bytes: &[u8]) {
    out[*at..*at + bytes.len()].copy_from_slice(bytes);
    *at += bytes.len();
}

fn head(out: &mut [u8], at: &mut usize, tag: u8, length: usize) {
    put(out, at, &[tag, (length >> 8) as u8, length as u8]);
}

/// The length of an encoding, if it fits: 5, 14.
fn length(width: usize, bits: usize, room: usize) -> Result<usize, u64> {
    if bits > MAX_EDGES {
        return Err(5);
    }
    let index = 8 * bits.div_ceil(BLOCK_BITS) + 2 * bits.div_ceil(SUB_BLOCK_BITS);
    let length = 24 + 4 * width + bits.div_ceil(8) + index;
    if room < length {
        return Err(14);
    }
    Ok(length)
}

/// Where the edges stand: behind the head of field 4.
fn edges_start(width: usize) -> usize {
    18 + 4 * width
}

/// Every field around the edges, which stand in their place.
fn write_around(width: usize, count: usize, ends: &[usize], out: &mut [u8]) {
    let bits = ends[width - 1];
    let (bytes, blocks, sub_blocks) = (bits.div_ceil(8), bits.div_ceil(BLOCK_BITS), bits.div_ceil(SUB_BLOCK_BITS));
    let mut at = 0;
    head(out, &mut at, 1, 2);
    put(out, &mut at, &(width as u16).to_be_bytes());
    head(out, &mut at, 2, 4);
    put(out, &mut at, &(count as u32).to_be_bytes());
    head(out, &mut at, 3, 4 * width);
    for end in &ends[..width] {
        put(out, &mut at, &(*end as u32).to_be_bytes());
    }
    head(out, &mut at, 4, bytes);
    let (edges, out) = out[at..].split_at_mut(bytes);
    at = 0;
    head(out, &mut at, 5, 8 * blocks);
    let mut block = at;
    at += 8 * blocks;
    head(out, &mut at, 6, 2 * sub_blocks);
    let (mut base, mut ones) = (0, 0);
    for (j, part) in edges.chunks(64).enumerate() {
        if j % 128 == 0 {
            base = ones;
            put(out, &mut block, &(base as u64).to_be_bytes());
        }
        put(out, &mut at, &((ones - base) as u16).to_be_bytes());
        ones += count_ones(part);
    }
}

/// The same from edges elsewhere, if it fits.
fn write(width: usize, count: usize, ends: &[usize], edges: &[u8], out: &mut [u8]) -> Result<usize, u64> {
    let bits = ends[width - 1];
    let length = length(width, bits, out.len())?;
    let (at, bytes) = (edges_start(width), bits.div_ceil(8));
    out[at..at + bytes].copy_from_slice(&edges[..bytes]);
    write_around(width, count, ends, out);
    Ok(length)
}

// ---- Pack

/// How many bytes two keys agree in, from the first on: by words, then one by one.
fn same_bytes(x: &[u8], y: &[u8]) -> usize {
    let ((p, p_rest), (q, q_rest)) = (x.as_chunks(), y.as_chunks());
    for (j, (p, q)) in p.iter().zip(q).enumerate() {
        let difference = u64::from_le_bytes(*p) ^ u64::from_le_bytes(*q);
        if difference != 0 {
            return 8 * j + difference.trailing_zeros() as usize / 8;
        }
    }
    8 * p.len() + p_rest.iter().zip(q_rest).take_while(|(x, y)| x == y).count()
}

/// How many bits two keys agree in, from the first on.
fn common_prefix(x: &[u8], y: &[u8], width: usize) -> usize {
    let j = same_bytes(x, y);
    match (x.get(j), y.get(j)) {
        (Some(p), Some(q)) => 8 * j + (p ^ q).leading_zeros() as usize,
        _ => width,
    }
}

/// The first length of which the key has a prefix that none before it has.
fn first_new(before: Option<&[u8]>, key: &[u8], width: usize) -> usize {
    before.map_or(0, |before| common_prefix(before, key, width) + 1)
}

/// Tests the keys, and counts the records of each level, and the members behind them.
fn count_records(batch: &[u8], t: usize, m: usize) -> Result<[usize; MAX_WIDTH + 1], u64> {
    let mut counts = [0; MAX_WIDTH + 1];
    let mut before = None;
    for key in batch.chunks_exact(t) {
        if u32::from(key[t - 1]) % (1 << (8 * t - m)) != 0 {
            return Err(11);
        }
        let new = first_new(before, key, m);
        if 0 < new && new <= m && !bit_at(key, new - 1) {
            return Err(12);
        }
        if new <= m {
            counts[new] += 1;
        }
        before = Some(key);
    }
    for d in 1..=m {
        counts[d] += counts[d - 1];
    }
    Ok(counts)
}

fn set_bit(l: &mut [u8], o: usize) {
    l[o / 8] |= 0x80 >> (o % 8);
}

/// Sets a key's edges: the second of the record above its first new one, and one on each level from there on.
fn mark_key(key: &[u8], new: usize, cursors: &mut [usize], edges: &mut [u8]) {
    if new > 0 {
        set_bit(edges, 2 * cursors[new - 1] - 1);
    }
    for (cursor, d) in cursors[new..].iter_mut().zip(new..) {
        set_bit(edges, 2 * *cursor + usize::from(bit_at(key, d)));
        *cursor += 1;
    }
}

/// Sets the edges of all keys on the levels that have a cursor, which is behind the level's last record.
fn mark_keys(batch: &[u8], t: usize, cursors: &mut [usize], edges: &mut [u8]) {
    let mut before = None;
    for key in batch.chunks_exact(t) {
        let new = first_new(before, key, cursors.len());
        if new <= cursors.len() {
            mark_key(key, new, cursors, edges);
        }
        before = Some(key);
    }
}

/// Sets the edges of a level on which each key has a record of its own, four to a byte.
fn mark_level(batch: &[u8], t: usize, d: usize, first: usize, edges: &mut [u8]) {
    let n = batch.len() / t;
    let bit = |i: usize| usize::from(bit_at(&batch[t * i..], d));
    let mut i = 0;
    while i < n {
        let record = first + i;
        if record % 4 == 0 && i + 4 <= n {
            edges[record / 4] |= 0x80 >> bit(i) | 0x20 >> bit(i + 1) | 0x08 >> bit(i + 2) | 0x02 >> bit(i + 3);
            i += 4;
        } else {
            set_bit(edges, 2 * record + bit(i));
            i += 1;
        }
    }
}

pub fn pack(width: u64, batch: &[u8], out: &mut [u8]) -> Result<usize, u64> {
    Ok(pack_within(width, batch, out, usize::MAX)?.0)
}

/// The same if there are no more than so many members: 14 otherwise. Tells the length and the count.
fn pack_within(width: u64, batch: &[u8], out: &mut [u8], most: usize) -> Result<(usize, usize), u64> {
    if width == 0 || width > MAX_WIDTH as u64 {
        return Err(4);
    }
    let m = width as usize;
    let t = key_len(m);
    if batch.len() % t != 0 {
        return Err(10);
    }
    let counts = count_records(batch, t, m)?;
    let (mut starts, mut ends) = ([0; MAX_WIDTH], [0; MAX_WIDTH]);
    let mut bits = 0;
    for d in 0..m {
        starts[d] = bits / 2;
        bits += 2 * counts[d];
        ends[d] = bits;
        if bits > MAX_EDGES {
            return Err(5);
        }
    }
    let length = length(m, bits, out.len())?;
    if most < counts[m] {
        return Err(14);
    }
    let at = edges_start(m);
    let edges = &mut out[at..at + bits.div_ceil(8)];
    edges.fill(0);
    // from this level on each key has a record of its own
    let n = batch.len() / t;
    let apart = if n < 16 { m } else { (0..m - 1).find(|d| counts[*d] == n).unwrap_or(m) };
    for d in apart..m {
        mark_level(batch, t, d, starts[d], edges);
    }
    mark_keys(batch, t, &mut starts[..apart], edges);
    write_around(m, counts[m], &ends, out);
    Ok((length, counts[m]))
}

// ---- Union and difference, eight records at a time

/// Record i set to x.
fn put_record(l: &mut [u8], i: usize, x: u8) {
    let shift = 6 - 2 * (i % 4);
    l[i / 4] = l[i / 4] & !(3 << shift) | x << shift;
}

/// Entry 256 f + x: the four records of x put where the four bits of f are set.
static SPREAD: [u8; 4_096] = spread();

const fn spread() -> [u8; 4_096] {
    let mut table = [0; 4_096];
    let mut i = 0;
    while i < 4_096 {
        let (f, x) = (i / 256, i % 256);
        let (mut records, mut next, mut bit) = (0, 6, 8);
        while bit > 0 {
            records *= 4;
            if f & bit != 0 {
                records += x >> next & 3;
                next = if next > 0 { next - 2 } else { 0 };
            }
            bit /= 2;
        }
        table[i] = records as u8;
        i += 1;
    }
    table
}

/// For four flags, in fields of four bits from the lowest: how many have the first bit, which have the second, which the first,
/// how many the second; which are not 0, and which are 1, 2, 3.
static PARTS: [u32; 256] = parts();

const fn parts() -> [u32; 256] {
    let mut table = [0; 256];
    let mut i = 1;
    while i < 256 {
        let e = table[i / 4];
        let own = [0, 0x0011_0101, 0x0101_1010, 0x1001_1111][i % 4];
        table[i] = e + (e & 0xFFFF_0FF0) + own;
        i += 1;
    }
    table
}

/// Entry 16 x + y: 512 times how many of the four pairs of bits are not 0, and those pairs.
static RUNS: [u16; 256] = runs();

const fn runs() -> [u16; 256] {
    let mut table = [0; 256];
    let mut i = 1;
    while i < 256 {
        table[i] = longer(table[i / 32 * 16 + i % 16 / 2], i / 16 % 2 + i % 2 * 2);
        i += 1;
    }
    table
}

/// Such an entry with a pair of bits behind, if it is not 0.
const fn longer(entry: u16, pair: usize) -> u16 {
    if pair > 0 {
        entry + entry % 256 * 3 + 512 + pair as u16
    } else {
        entry
    }
}

/// Entry x: such an entry, of the four records of x that have an edge.
static EDGED: [u16; 256] = edged();

const fn edged() -> [u16; 256] {
    let mut table = [0; 256];
    let mut i = 1;
    while i < 256 {
        table[i] = longer(table[i / 4], i % 4);
        i += 1;
    }
    table
}

/// Eight records from record i on, in the upper bits.
fn eight(l: &[u8], i: usize) -> u64 {
    let at = i / 4;
    u64::from(u32::from_be_bytes(l[at..at + 4].try_into().unwrap())) << (32 + 2 * (i % 4))
}

/// Four records behind the first n of such eight.
fn four(x: u64, n: usize) -> usize {
    (x << (2 * n) >> 56) as usize
}

/// A run of records: so many bits, two to a record.
#[derive(Clone, Copy)]
struct Run {
    records: u64,
    bits: usize,
}

impl Run {
    /// A run, and one behind it.
    fn and(self, other: Run) -> Run {
        Run { records: (self.records << other.bits) + other.records, bits: self.bits + other.bits }
    }

    /// Of an entry of a table.
    fn of(entry: u16) -> Run {
        Run { records: u64::from(entry % 256), bits: usize::from(entry / 256) }
    }

    /// The pairs of bits of x and y that are not 0.
    fn pairs(x: usize, y: usize) -> Run {
        Run::of(RUNS[16 * (x & 15) + (y & 15)])
    }

    /// The records of a byte that have an edge.
    fn edged(x: u8) -> Run {
        Run::of(EDGED[usize::from(x)])
    }
}

/// A run put behind the first `bits` bits. What is behind it is cleared.
fn append(out: &mut [u8], bits: usize, run: Run) {
    let (at, p, n) = (bits / 8, bits % 8, run.bits);
    let bytes = &mut out[at..at + 8];
    let v = ((((u64::from(bytes[0]) >> (8 - p)) << n) + run.records) * 2) << (63 - p - n);
    bytes.copy_from_slice(&v.to_be_bytes());
}

/// The union's records, and behind them for each member two flags: in the first, in the second.
struct Merged {
    queue: Vec<u8>,
    records: usize,
    members: usize,
}

/// A record put behind the first k, which grow by it if it is not 0.
fn push(queue: &mut [u8], k: usize, x: u8) -> usize {
    put_record(queue, k, x);
    k + usize::from(x > 0)
}

/// The records behind the first k cleared, up to the end of their byte.
fn seal(l: &mut [u8], k: usize) {
    for i in k..k.next_multiple_of(4) {
        put_record(l, i, 0);
    }
}

/// Four flags merged: the union's records, and the flags that they push.
fn merge_four(f: usize, x: usize, y: usize) -> (u8, Run) {
    let u = usize::from(SPREAD[f & 0xF00 | x]);
    let v = usize::from(SPREAD[f << 4 & 0xF00 | y]);
    ((u | v) as u8, Run::pairs(u / 16, v / 16).and(Run::pairs(u % 16, v % 16)))
}

/// Records taken of the first and of the second, and the queue's end.
struct Positions {
    a: usize,
    b: usize,
    tail: usize,
}

/// Record i of the union, in the place of its flags.
fn merge_record(a: &[u8], b: &[u8], queue: &mut [u8], i: usize, at: &mut Positions) {
    let flags = record(queue, i);
    let (mut x, mut y) = (0, 0);
    if flags & 1 != 0 {
        x = record(a, at.a);
        at.a += 1;
    }
    if flags & 2 != 0 {
        y = record(b, at.b);
        at.b += 1;
    }
    put_record(queue, i, x | y);
    at.tail = push(queue, at.tail, x >> 1 | y >> 1 << 1);
    at.tail = push(queue, at.tail, x & 1 | (y & 1) << 1);
}

/// The records of the union in whole blocks of eight, from byte j up to record `end`, in the place of their flags.
fn merge_blocks(a: &[u8], b: &[u8], queue: &mut [u8], j: usize, end: usize, at: &mut Positions) {
    let (front, back) = queue.split_at_mut(end / 4);
    let (mut ia, mut ib, mut tail) = (at.a, at.b, 2 * (at.tail - end / 4 * 4));
    for place in front[j..].chunks_exact_mut(2) {
        let f = PARTS[usize::from(place[0])] as usize;
        let g = PARTS[usize::from(place[1])] as usize;
        let (x, y) = (eight(a, ia), eight(b, ib));
        let (na, nb) = (f & 15, f >> 12 & 15);
        let (high, h) = merge_four(f, four(x, 0), four(y, 0));
        let (low, k) = merge_four(g, four(x, na), four(y, nb));
        place.copy_from_slice(&[high, low]);
        let run = h.and(k);
        append(back, tail, run);
        ia += (f + g) & 15;
        ib += ((f >> 12) + (g >> 12)) & 15;
        tail += run.bits;
    }
    *at = Positions { a: ia, b: ib, tail: tail / 2 + end / 4 * 4 };
}

/// Breadth first: both operands are read strictly in sequence. Each level's end is noted.
fn merge(a: &[u8], ra: usize, b: &[u8], rb: usize, ends: &mut [usize]) -> Merged {
    let mut queue = vec![0u8; (2 * (ra + rb) + 4) / 4 + 8];
    let tail = push(&mut queue, 0, u8::from(ra > 0) + 2 * u8::from(rb > 0));
    let mut at = Positions { a: 0, b: 0, tail };
    let mut i = 0;
    for end in ends {
        let level = at.tail;
        while i < level {
            if i % 4 == 0 && level - i >= 8 {
                merge_blocks(a, b, &mut queue, i / 4, level, &mut at);
                i += (level - i) / 8 * 8;
            } else {
                merge_record(a, b, &mut queue, i, &mut at);
                i += 1;
            }
        }
        *end = 2 * level;
    }
    Merged { queue, records: i, members: at.tail - i }
}

/// How many edges a byte has.
fn count_edges(x: usize) -> usize {
    let f = PARTS[x & 0xFF] as usize;
    (f + (f >> 12)) & 15
}

// Tests of an entry: a record has an edge, or only the first set has a member, only the second, both.
const HAS_EDGE: usize = 0;
const ONLY_FIRST: usize = 1;
const ONLY_SECOND: usize = 2;
const BOTH: usize = 3;

/// Two records in x, less the edges whose entries in v, taken in order, fail a test.
fn mark_half<const TEST: usize>(x: usize, v: usize) -> usize {
    PARTS[usize::from(SPREAD[256 * (x & 15) + v])] as usize >> (16 + 4 * TEST) & 15
}

/// Sixteen records from record i on.
fn sixteen(l: &[u8], i: usize) -> u32 {
    let at = i / 4;
    (u64::from_be_bytes(l[at..at + 8].try_into().unwrap()) << (2 * (i % 4)) >> 32) as u32
}

/// The lower bit of each of sixteen records.
const LOWER: u32 = 0x5555_5555;

/// Whether none of sixteen records has two edges.
fn no_double(x: u32) -> bool {
    x & x >> 1 & LOWER == 0
}

/// Sixteen records of one edge each, less those whose entry has none.
fn keep_singles(x: u32, entries: u32) -> u32 {
    x & 3 * ((entries | entries >> 1) & LOWER)
}

/// Such records put from byte j on: their entries are the marked records from `child` on.
fn put_singles(marks: &mut [u8], j: usize, x: u32, child: usize) {
    let kept = keep_singles(x, sixteen(marks, child));
    marks[j..j + 4].copy_from_slice(&kept.to_be_bytes());
}

/// The four records of a byte, less the edges whose entries, taken in order, fail a test.
fn marked_byte<const TEST: usize>(x: u8, entries: u64) -> u8 {
    let x = usize::from(x);
    let high = mark_half::<TEST>(x / 16, four(entries, 0));
    let low = mark_half::<TEST>(x, four(entries, count_edges(x / 16)));
    (high << 4 | low) as u8
}

/// Record x, less the edges whose entries, from entry `child` on, are not kept: the first r by the marks, members by a test.
fn marked_record<const TEST: usize>(queue: &[u8], marks: &[u8], r: usize, x: u8, child: usize) -> u8 {
    let kept = |i: usize| u8::from(if i < r { record(marks, i) > 0 } else { usize::from(record(queue, i)) == TEST });
    let (first, second) = (x >> 1, x & 1);
    (first & kept(child)) << 1 | second & kept(child + usize::from(first))
}

/// Records that are marked from the last to the first: they lose the edges under which no member is kept.
trait Marks {
    /// The records, as they were until they are marked, and behind them the members' flags.
    fn queue(&self) -> &[u8];
    /// Sixteen records x of one edge each, from byte j on: their entries are the records from `child` on.
    fn mark_singles(&mut self, j: usize, x: u32, child: usize);
    /// The four records x of byte j: their entries are the records from `child` on.
    fn mark_byte(&mut self, j: usize, x: u8, child: usize);
    /// The same, if their entries are members.
    fn mark_last_byte(&mut self, j: usize, x: u8, child: usize);
    /// Record x, number i of r: its entries are those from `child` on.
    fn mark_record(&mut self, r: usize, i: usize, x: u8, child: usize);
}

/// The last of the first i records marked, sixteen at a time, while none has two edges and their entries, the records before
/// `child`, stand behind them.
fn mark_blocks(marks: &mut impl Marks, mut i: usize, mut child: usize) -> (usize, usize) {
    while i > 0 && child >= i + 16 {
        let x = number4(&marks.queue()[i / 4 - 4..i / 4]) as u32;
        if !no_double(x) {
            break;
        }
        (i, child) = (i - 16, child - 16);
        marks.mark_singles(i / 4, x, child);
    }
    (i, child)
}

/// Whole bytes of the first i records marked, while their entries, before entry `child`, stand behind them and not before `from`;
/// of those whose entries are records, whole blocks where they can be.
fn mark_bytes<const LAST: bool>(marks: &mut impl Marks, mut i: usize, mut child: usize, from: usize) -> (usize, usize) {
    while i > 0 {
        if !LAST && i % 16 == 0 {
            (i, child) = mark_blocks(marks, i, child);
            if i == 0 {
                break;
            }
        }
        let x = marks.queue()[i / 4 - 1];
        let edges = count_edges(usize::from(x));
        if child < edges + i.max(from) {
            break;
        }
        (i, child) = (i - 4, child - edges);
        if LAST {
            marks.mark_last_byte(i / 4, x, child);
        } else {
            marks.mark_byte(i / 4, x, child);
        }
    }
    (i, child)
}

/// All r records, behind which are n members: by blocks and bytes where it can be.
fn mark(mut marks: impl Marks, r: usize, n: usize) {
    let (mut i, mut child) = (r, r + n);
    while i > 0 {
        if i % 4 == 0 {
            (i, child) =
                if child > r { mark_bytes::<true>(&mut marks, i, child, r) } else { mark_bytes::<false>(&mut marks, i, child, 0) };
        }
        if i > 0 {
            i -= 1;
            let x = record(marks.queue(), i);
            child -= x.count_ones() as usize;
            marks.mark_record(r, i, x, child);
        }
    }
}

/// The members that only the first has are kept: the marks are made in the records' own place.
struct InPlace<'a> {
    queue: &'a mut [u8],
}

impl Marks for InPlace<'_> {
    fn queue(&self) -> &[u8] {
        self.queue
    }

    fn mark_singles(&mut self, j: usize, x: u32, child: usize) {
        put_singles(self.queue, j, x, child);
    }

    fn mark_byte(&mut self, j: usize, x: u8, child: usize) {
        self.queue[j] = marked_byte::<HAS_EDGE>(x, eight(self.queue, child));
    }

    fn mark_last_byte(&mut self, j: usize, x: u8, child: usize) {
        self.queue[j] = marked_byte::<ONLY_FIRST>(x, eight(self.queue, child));
    }

    fn mark_record(&mut self, r: usize, i: usize, x: u8, child: usize) {
        put_record(self.queue, i, marked_record::<ONLY_FIRST>(self.queue, self.queue, r, x, child));
    }
}

/// The first r records that have an edge, moved together. Tells how many.
fn compact(queue: &[u8], r: usize, out: &mut [u8]) -> usize {
    let mut bits = 0;
    for [x, y, z, w] in queue[..r / 4].as_chunks().0 {
        let run = Run::edged(*x).and(Run::edged(*y)).and(Run::edged(*z).and(Run::edged(*w)));
        append(out, bits, run);
        bits += run.bits;
    }
    let mut k = bits / 2;
    for i in r / 16 * 16..r {
        k = push(out, k, record(queue, i));
    }
    seal(out, k);
    k
}

/// Level ends from the edges alone. Tells the count.
fn level_ends(edges: &[u8], records: usize, ends: &mut [usize]) -> usize {
    let roots = usize::from(records > 0);
    let (mut seen, mut whole, mut ones) = (0, 0, 0);
    for end in ends {
        *end = 2 * (roots + ones);
        whole += count_ones(&edges[seen..*end / 8]);
        seen = *end / 8;
        ones = whole + ones_of_first(edges[seen], *end % 8);
    }
    roots + ones - records
}

/// Both opened: they are of one width.
fn open_both(a: &[u8], b: &[u8]) -> Result<(Opened, Opened), u64> {
    let (e, f) = (open(a)?, open(b)?);
    if e.width != f.width {
        return Err(13);
    }
    Ok((e, f))
}

/// The union of two opened sets, and its levels' ends.
fn merge_opened(a: &[u8], e: &Opened, b: &[u8], f: &Opened) -> (Merged, [usize; MAX_WIDTH]) {
    let mut ends = [0; MAX_WIDTH];
    let merged = merge(&a[e.edges..], e.bits / 2, &b[f.edges..], f.bits / 2, &mut ends[..e.width]);
    (merged, ends)
}

/// The first r records that have an edge, moved together, and their levels' ends. Tells the count.
fn collect(queue: &[u8], r: usize, edges: &mut [u8], ends: &mut [usize]) -> usize {
    let records = compact(queue, r, edges);
    level_ends(edges, records, ends)
}

/// The edges of the members that only the first set has, and their count; the levels' ends become theirs.
fn remainder(first: &Opened, merged: &mut Merged, ends: &mut [usize]) -> (Vec<u8>, usize) {
    mark(InPlace { queue: &mut merged.queue }, merged.records, merged.members);
    let mut edges = vec![0u8; first.bits.div_ceil(8) + 8];
    let count = collect(&merged.queue, merged.records, &mut edges, &mut ends[..first.width]);
    (edges, count)
}

pub fn union(a: &[u8], b: &[u8], out: &mut [u8]) -> Result<usize, u64> {
    let (e, f) = open_both(a, b)?;
    let (mut merged, ends) = merge_opened(a, &e, b, &f);
    seal(&mut merged.queue, merged.records);
    write(e.width, merged.members, &ends, &merged.queue, out)
}

pub fn difference(a: &[u8], b: &[u8], out: &mut [u8]) -> Result<usize, u64> {
    let (e, f) = open_both(a, b)?;
    let (mut merged, mut ends) = merge_opened(a, &e, b, &f);
    let (edges, count) = remainder(&e, &mut merged, &mut ends);
    write(e.width, count, &ends, &edges, out)
}

// ---- Split

/// The members that both have are kept, those that only the first has, only the second: each in marks of their own, and the queue
/// stays as it is.
struct Apart<'a> {
    queue: &'a [u8],
    both: &'a mut [u8],
    only_first: &'a mut [u8],
    only_second: &'a mut [u8],
}

impl Marks for Apart<'_> {
    fn queue(&self) -> &[u8] {
        self.queue
    }

    fn mark_singles(&mut self, j: usize, x: u32, child: usize) {
        put_singles(self.both, j, x, child);
        put_singles(self.only_first, j, x, child);
        put_singles(self.only_second, j, x, child);
    }

    fn mark_byte(&mut self, j: usize, x: u8, child: usize) {
        self.both[j] = marked_byte::<HAS_EDGE>(x, eight(self.both, child));
        self.only_first[j] = marked_byte::<HAS_EDGE>(x, eight(self.only_first, child));
        self.only_second[j] = marked_byte::<HAS_EDGE>(x, eight(self.only_second, child));
    }

    fn mark_last_byte(&mut self, j: usize, x: u8, child: usize) {
        let flags = eight(self.queue, child);
        self.both[j] = marked_byte::<BOTH>(x, flags);
        self.only_first[j] = marked_byte::<ONLY_FIRST>(x, flags);
        self.only_second[j] = marked_byte::<ONLY_SECOND>(x, flags);
    }

    fn mark_record(&mut self, r: usize, i: usize, x: u8, child: usize) {
        put_record(self.both, i, marked_record::<BOTH>(self.queue, self.both, r, x, child));
        put_record(self.only_first, i, marked_record::<ONLY_FIRST>(self.queue, self.only_first, r, x, child));
        put_record(self.only_second, i, marked_record::<ONLY_SECOND>(self.queue, self.only_second, r, x, child));
    }
}

/// A part of two sets, to be written.
struct Part {
    edges: Vec<u8>,
    count: usize,
    ends: [usize; MAX_WIDTH],
}

impl Part {
    /// The first r records that have an edge, in front of a room.
    fn of(marks: &[u8], r: usize, width: usize, mut room: Vec<u8>) -> Part {
        let mut ends = [0; MAX_WIDTH];
        let count = collect(marks, r, &mut room, &mut ends[..width]);
        Part { edges: room, count, ends }
    }
}

/// The keys in both, only in the first, only in the second: one merge, and their marks made in one pass over it. The queue is free
/// once the marks are made, and each room of marks once its records are moved.
fn parts_of(a: &[u8], e: &Opened, b: &[u8], f: &Opened) -> [Part; 3] {
    let (Merged { queue, records, members }, _) = merge_opened(a, e, b, f);
    let room = records.div_ceil(4) + 8;
    let [mut both, mut only_first, mut only_second] = [(); 3].map(|()| vec![0u8; room]);
    // cut to one length, so that what is within one of them is seen to be within all
    let [x, y, z] = [&mut both, &mut only_first, &mut only_second].map(|marks| &mut marks[..room]);
    mark(Apart { queue: &queue, both: x, only_first: y, only_second: z }, records, members);
    let part = |marks: &[u8], room| Part::of(marks, records, e.width, room);
    [part(&both, queue), part(&only_first, both), part(&only_second, only_first)]
}

/// No part has more edges than its whole, so none is refused 5; all are tested for 14 before one is written.
pub fn split(a: &[u8], b: &[u8], both: &mut [u8], only_first: &mut [u8], only_second: &mut [u8]) -> Result<[usize; 3], u64> {
    let (e, f) = open_both(a, b)?;
    let (parts, outs) = (parts_of(a, &e, b, &f), [both, only_first, only_second]);
    for (part, out) in parts.iter().zip(&outs) {
        length(e.width, part.ends[e.width - 1], out.len())?;
    }
    let mut lengths = [0; 3];
    for ((part, out), length) in parts.iter().zip(outs).zip(&mut lengths) {
        *length = write(e.width, part.count, &part.ends, &part.edges, out)?;
    }
    Ok(lengths)
}

// ---- Weights

/// A list has an entry for each member, or 16.
fn list_fits(e: &Opened, weights: &[i32]) -> Result<(), u64> {
    if weights.len() != e.count {
        return Err(16);
    }
    Ok(())
}

/// An encoding with so many members fits, and its list: 5, 14.
fn both_fit(width: usize, count: usize, ends: &[usize], out: &[u8], weights: &[i32]) -> Result<(), u64> {
    length(width, ends[width - 1], out.len())?;
    if weights.len() < count {
        return Err(14);
    }
    Ok(())
}

/// Whether the amount was posted: not, if the key is absent.
pub fn post(l: &[u8], e: &Opened, weights: &mut [i32], key: &[u8], amount: i32) -> Result<bool, u64> {
    list_fits(e, weights)?;
    let Some(index) = index_of(l, e, key)? else { return Ok(false) };
    let entry = &mut weights[index as usize];
    *entry = entry.checked_add(amount).ok_or(17u64)?;
    Ok(true)
}

/// The members are counted by pack's first pass, where the library goes over the batch once more.
pub fn pack_weighted(width: u64, batch: &[u8], out: &mut [u8], weights: &mut [i32]) -> Result<usize, u64> {
    let (length, count) = pack_within(width, batch, out, weights.len())?;
    weights[..count].fill(0);
    Ok(length)
}

/// An entry, or 0 where there is none.
fn entry_at(weights: &[i32], i: usize) -> i32 {
    weights.get(i).copied().unwrap_or(0)
}

/// The entry that is next, or 0 if none is to be taken; with no branch by it.
fn taken(weights: &[i32], next: &mut usize, take: u8) -> i64 {
    let entry = entry_at(weights, *next) & -i32::from(take);
    *next += usize::from(take);
    i64::from(entry)
}

impl Merged {
    /// For each member its flags.
    fn flags(&self) -> impl Iterator<Item = u8> + '_ {
        (self.records..self.records + self.members).map(|i| record(&self.queue, i))
    }

    /// For each member the sum of its weights.
    fn sums<'a>(&'a self, a: &'a [i32], b: &'a [i32]) -> impl Iterator<Item = i64> + 'a {
        let (mut i, mut j) = (0, 0);
        self.flags().map(move |flags| taken(a, &mut i, flags & 1) + taken(b, &mut j, flags >> 1))
    }
}

pub fn union_weighted(
    a: &[u8],
    a_weights: &[i32],
    b: &[u8],
    b_weights: &[i32],
    out: &mut [u8],
    weights: &mut [i32],
) -> Result<usize, u64> {
    let (e, f) = open_both(a, b)?;
    list_fits(&e, a_weights)?;
    list_fits(&f, b_weights)?;
    let (mut merged, ends) = merge_opened(a, &e, b, &f);
    both_fit(e.width, merged.members, &ends, out, weights)?;
    if merged.sums(a_weights, b_weights).any(|sum| i32::try_from(sum).is_err()) {
        return Err(17);
    }
    for (entry, sum) in weights.iter_mut().zip(merged.sums(a_weights, b_weights)) {
        *entry = sum as i32;
    }
    // the flags, which stand behind the records, are not needed any more
    seal(&mut merged.queue, merged.records);
    write(e.width, merged.members, &ends, &merged.queue, out)
}

/// The first's entries whose keys the second does not have, in a list of as many. Each is put at the next place, kept or not, with
/// no branch by a flag: the next that is kept is put over one that is not.
fn keep_entries(merged: &Merged, a: &[i32], weights: &mut [i32]) {
    let (mut i, mut kept) = (0, 0);
    for flags in merged.flags() {
        if let Some(place) = weights.get_mut(kept) {
            *place = entry_at(a, i);
        }
        i += usize::from(flags & 1);
        kept += usize::from(flags == 1);
    }
}

pub fn difference_weighted(a: &[u8], a_weights: &[i32], b: &[u8], out: &mut [u8], weights: &mut [i32]) -> Result<usize, u64> {
    let (e, f) = open_both(a, b)?;
    list_fits(&e, a_weights)?;
    let (mut merged, mut ends) = merge_opened(a, &e, b, &f);
    let (edges, count) = remainder(&e, &mut merged, &mut ends);
    both_fit(e.width, count, &ends, out, weights)?;
    keep_entries(&merged, a_weights, &mut weights[..count]);
    write(e.width, count, &ends, &edges, out)
}
