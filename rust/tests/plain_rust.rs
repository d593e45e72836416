//! The plain-Rust algorithms of the benchmark against the reference. Needs no library.

#[macro_use]
mod cases;
mod plain;
#[path = "../benches/plain_rust.rs"]
mod plain_rust;

use plain::{Answer, LengthsAnswer, PrefixRange, RangeAnswer};
use plain_rust::{Cursor, Opened};

struct PlainRust;

fn length(answer: Result<usize, u64>) -> Answer {
    answer.map(|n| Some(n as u64))
}

impl Subject for PlainRust {
    type Opened<'a> = (&'a [u8], Opened);
    type Walk<'a> = ((&'a [u8], Opened), Cursor);

    fn pack(width: u64, batch: &[u8], out: &mut [u8]) -> Answer {
        length(plain_rust::pack(width, batch, out))
    }

    fn union(a: &[u8], b: &[u8], out: &mut [u8]) -> Answer {
        length(plain_rust::union(a, b, out))
    }

    fn difference(a: &[u8], b: &[u8], out: &mut [u8]) -> Answer {
        length(plain_rust::difference(a, b, out))
    }

    fn split(a: &[u8], b: &[u8], [both, only_first, only_second]: [&mut [u8]; 3]) -> LengthsAnswer {
        plain_rust::split(a, b, both, only_first, only_second).map(|lengths| lengths.map(|length| length as u64))
    }

    fn open(l: &[u8]) -> Result<((&[u8], Opened), [u64; 3]), u64> {
        let e = plain_rust::open(l)?;
        Ok(((l, e), [e.width, e.count, e.bits].map(|n| n as u64)))
    }

    fn ask(l: &[u8], question: &Question, out: &mut [u8]) -> Answer {
        let (opened, _) = Self::open(l)?;
        Self::ask_opened(&opened, question, out)
    }

    fn ask_opened((l, e): &(&[u8], Opened), question: &Question, out: &mut [u8]) -> Answer {
        match question {
            Question::Contains(key) => Ok(plain_rust::contains(l, e, key)?.then_some(1)),
            Question::IndexOf(key) => plain_rust::index_of(l, e, key),
            Question::LowerBound(key) => plain_rust::lower_bound(l, e, key),
            Question::KeyAt(index) => length(plain_rust::key_at(l, e, *index, out)),
            Question::Rank(offset) => plain_rust::rank(l, e, *offset).map(Some),
        }
    }

    fn prefix(l: &[u8], prefix_bits: u64, prefix: &[u8]) -> RangeAnswer {
        let (opened, _) = Self::open(l)?;
        Self::prefix_opened(&opened, prefix_bits, prefix)
    }

    fn prefix_opened((l, e): &(&[u8], Opened), prefix_bits: u64, prefix: &[u8]) -> RangeAnswer {
        let (first, count) = plain_rust::prefix(l, e, prefix_bits, prefix)?;
        Ok(PrefixRange { first, count })
    }

    fn advance(l: &[u8], state: u64, offsets: &mut [u64], out: &mut [u8]) -> (Answer, u64) {
        match Self::open(l) {
            Err(refusal) => (Err(refusal), state),
            Ok((opened, _)) => Self::advance_opened(&opened, state, offsets, out),
        }
    }

    fn advance_opened((l, e): &(&[u8], Opened), state: u64, offsets: &mut [u64], out: &mut [u8]) -> (Answer, u64) {
        let Ok(numbers) = offsets.try_into() else { return (Err(15), state) };
        let mut cursor = Cursor { state, offsets: numbers };
        let answer = plain_rust::advance(l, e, &mut cursor, out);
        offsets.copy_from_slice(&cursor.offsets);
        (length(answer), cursor.state)
    }

    fn walk<'a>(opened: &Self::Opened<'a>) -> Self::Walk<'a> {
        (opened.clone(), Cursor::before())
    }

    fn next(((l, e), cursor): &mut Self::Walk<'_>, out: &mut [u8]) -> Answer {
        length(plain_rust::next(l, e, cursor, out))
    }

    fn fill(((l, e), cursor): &mut Self::Walk<'_>, out: &mut [u8]) -> Answer {
        length(plain_rust::fill(l, e, cursor, out))
    }

    fn place((_, cursor): &Self::Walk<'_>) -> (u64, Vec<u64>) {
        (cursor.state, cursor.offsets.to_vec())
    }

    fn pack_weighted(width: u64, batch: &[u8], out: &mut [u8], list: &mut [i32]) -> Answer {
        length(plain_rust::pack_weighted(width, batch, out, list))
    }

    fn union_weighted(a: &[u8], a_list: &[i32], b: &[u8], b_list: &[i32], out: &mut [u8], list: &mut [i32]) -> Answer {
        length(plain_rust::union_weighted(a, a_list, b, b_list, out, list))
    }

    fn difference_weighted(a: &[u8], a_list: &[i32], b: &[u8], out: &mut [u8], list: &mut [i32]) -> Answer {
        length(plain_rust::difference_weighted(a, a_list, b, out, list))
    }

    fn post(l: &[u8], list: &mut [i32], key: &[u8], amount: i32) -> Answer {
        let (opened, _) = Self::open(l)?;
        Self::post_opened(&opened, list, key, amount)
    }

    fn post_opened((l, e): &(&[u8], Opened), list: &mut [i32], key: &[u8], amount: i32) -> Answer {
        Ok(plain_rust::post(l, e, list, key, amount)?.then_some(1))
    }
}

differential_tests!(PlainRust);
