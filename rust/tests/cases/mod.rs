//! The differential tests, for anything that has the calls: answers, refusal numbers, cursors, every byte of every lent buffer and
//! every entry of every lent list are compared with the reference.
#![allow(dead_code, unused_imports)]

mod chance;
mod checks;
mod damage;
mod examples;
mod faults;
mod lent;
mod prefix;
mod runs;
mod sets;
mod split;
mod weights;

pub use chance::*;
pub use checks::*;
pub use damage::*;
pub use examples::*;
pub use faults::*;
pub use lent::*;
pub use prefix::*;
pub use runs::*;
pub use sets::*;
pub use split::*;
pub use weights::*;

use crate::plain::{Answer, Key, Laid, LengthsAnswer, RangeAnswer};

/// The five questions of document 01. The sixth, of a prefix, has an answer of its own kind.
#[derive(Clone, Debug)]
pub enum Question {
    Contains(Key),
    IndexOf(Key),
    LowerBound(Key),
    KeyAt(u64),
    Rank(u64),
}

/// The calls, answering in the numbers of the C interface.
pub trait Subject {
    type Opened<'a>;
    /// A walk from before on, with a cursor of its own.
    type Walk<'a>;

    fn pack(width: u64, batch: &[u8], out: &mut [u8]) -> Answer;
    fn union(a: &[u8], b: &[u8], out: &mut [u8]) -> Answer;
    fn difference(a: &[u8], b: &[u8], out: &mut [u8]) -> Answer;
    /// In both, only in the first, only in the second.
    fn split(a: &[u8], b: &[u8], outs: [&mut [u8]; 3]) -> LengthsAnswer;
    /// With width, count and edge bits.
    fn open(l: &[u8]) -> Result<(Self::Opened<'_>, [u64; 3]), u64>;
    /// Checks the encoding first.
    fn ask(l: &[u8], question: &Question, out: &mut [u8]) -> Answer;
    /// Behind the check.
    fn ask_opened(opened: &Self::Opened<'_>, question: &Question, out: &mut [u8]) -> Answer;
    /// Checks the encoding first.
    fn prefix(l: &[u8], prefix_bits: u64, prefix: &[u8]) -> RangeAnswer;
    /// Behind the check.
    fn prefix_opened(opened: &Self::Opened<'_>, prefix_bits: u64, prefix: &[u8]) -> RangeAnswer;
    /// With the state after the step.
    fn advance(l: &[u8], state: u64, offsets: &mut [u64], out: &mut [u8]) -> (Answer, u64);
    fn advance_opened(opened: &Self::Opened<'_>, state: u64, offsets: &mut [u64], out: &mut [u8]) -> (Answer, u64);
    fn walk<'a>(opened: &Self::Opened<'a>) -> Self::Walk<'a>;
    fn next(walk: &mut Self::Walk<'_>, out: &mut [u8]) -> Answer;
    /// As many keys as have room.
    fn fill(walk: &mut Self::Walk<'_>, out: &mut [u8]) -> Answer;
    /// The walk's cursor: its state and its offsets.
    fn place(walk: &Self::Walk<'_>) -> (u64, Vec<u64>);
    fn pack_weighted(width: u64, batch: &[u8], out: &mut [u8], list: &mut [i32]) -> Answer;
    fn union_weighted(a: &[u8], a_list: &[i32], b: &[u8], b_list: &[i32], out: &mut [u8], list: &mut [i32]) -> Answer;
    fn difference_weighted(a: &[u8], a_list: &[i32], b: &[u8], out: &mut [u8], list: &mut [i32]) -> Answer;
    fn post(l: &[u8], list: &mut [i32], key: &[u8], amount: i32) -> Answer;
    fn post_opened(opened: &Self::Opened<'_>, list: &mut [i32], key: &[u8], amount: i32) -> Answer;
}

pub fn expected(laid: &Laid, question: &Question, out: &mut [u8]) -> Answer {
    match question {
        Question::Contains(key) => laid.contains(key),
        Question::IndexOf(key) => laid.index_of(key),
        Question::LowerBound(key) => laid.lower_bound(key),
        Question::KeyAt(index) => laid.key_at(*index, out),
        Question::Rank(offset) => laid.rank(*offset),
    }
}

/// Defines the tests of a subject.
#[macro_export]
macro_rules! differential_tests {
    ($subject:ty) => {
        use cases::*;

        #[test]
        fn examples() {
            cases::check_examples::<$subject>();
        }

        #[test]
        fn sets_of_many_shapes() {
            cases::rounds("sets_of_many_shapes", 250, cases::shapes::<$subject>);
        }

        #[test]
        fn every_width() {
            cases::rounds("every_width", 1, cases::every_width::<$subject>);
        }

        #[test]
        fn damaged_batches() {
            cases::rounds("damaged_batches", 3_000, cases::batches::<$subject>);
        }

        #[test]
        fn damaged_encodings() {
            cases::rounds("damaged_encodings", 10_000, cases::encodings::<$subject>);
        }

        #[test]
        fn nearly_encodings() {
            cases::rounds("nearly_encodings", 6_000, |rng| {
                let bytes = nearly(rng);
                let _ = check_bytes::<$subject>(rng, &bytes, 2);
            });
        }

        #[test]
        fn small_encodings_damaged_everywhere() {
            cases::rounds("small_encodings_damaged_everywhere", 15, cases::everywhere::<$subject>);
        }

        #[test]
        fn any_bytes() {
            cases::rounds("any_bytes", 2_000, cases::any_bytes::<$subject>);
        }

        #[test]
        fn walks_and_damaged_cursors() {
            cases::rounds("walks_and_damaged_cursors", 400, cases::walks::<$subject>);
        }

        #[test]
        fn joins() {
            cases::rounds("joins", 500, cases::joins::<$subject>);
        }

        #[test]
        fn joins_where_tables_or_rooms_change() {
            cases::rounds("joins_where_tables_or_rooms_change", 1, cases::join_limits::<$subject>);
        }

        #[test]
        fn joins_where_blocks_begin_and_end() {
            cases::rounds("joins_where_blocks_begin_and_end", 1, cases::block_limits::<$subject>);
        }

        #[test]
        fn histories() {
            cases::rounds("histories", 120, |rng| check_history::<$subject>(rng, 60));
        }

        #[test]
        fn records_emptied() {
            cases::rounds("records_emptied", 1, cases::emptied::<$subject>);
        }

        #[test]
        fn searches_where_levels_change() {
            cases::rounds("searches_where_levels_change", 1, cases::search_limits::<$subject>);
        }

        #[test]
        fn batches_where_rooms_or_words_change() {
            cases::rounds("batches_where_rooms_or_words_change", 1, cases::batch_limits::<$subject>);
        }

        #[test]
        fn boundaries() {
            cases::rounds("boundaries", 1, cases::boundaries::<$subject>);
        }

        #[test]
        fn odd_numbers_of_edge_bits() {
            cases::rounds("odd_numbers_of_edge_bits", 1, cases::odd_bits::<$subject>);
        }

        #[test]
        fn at_the_limit() {
            cases::rounds("at_the_limit", 1, cases::at_the_limit::<$subject>);
        }

        #[test]
        fn large_encodings_damaged() {
            cases::rounds("large_encodings_damaged", 20, cases::large_damaged::<$subject>);
        }

        #[test]
        fn ranks_at_every_offset() {
            cases::rounds("ranks_at_every_offset", 1, cases::ranks::<$subject>);
        }

        #[test]
        fn ranks_where_blocks_begin_and_end() {
            cases::rounds("ranks_where_blocks_begin_and_end", 1, cases::rank_limits::<$subject>);
        }

        #[test]
        fn prefix_examples() {
            cases::check_prefix_examples::<$subject>();
        }

        #[test]
        fn prefixes_of_many_shapes() {
            cases::rounds("prefixes_of_many_shapes", 250, cases::prefix_shapes::<$subject>);
        }

        #[test]
        fn prefix_laws() {
            cases::rounds("prefix_laws", 200, cases::prefix_laws::<$subject>);
        }

        #[test]
        fn every_prefix_of_small_widths() {
            cases::rounds("every_prefix_of_small_widths", 1, cases::every_prefix::<$subject>);
        }

        #[test]
        fn prefix_boundaries() {
            cases::rounds("prefix_boundaries", 1, cases::prefix_boundaries::<$subject>);
        }

        #[test]
        fn prefix_refusals_in_order() {
            cases::rounds("prefix_refusals_in_order", 4, cases::prefix_refusals::<$subject>);
        }

        #[test]
        fn split_examples() {
            cases::check_split_examples::<$subject>();
        }

        #[test]
        fn splits() {
            cases::rounds("splits", 300, cases::splits::<$subject>);
        }

        #[test]
        fn splits_of_every_kind() {
            cases::rounds("splits_of_every_kind", 4, cases::split_kinds::<$subject>);
        }

        #[test]
        fn split_boundaries() {
            cases::rounds("split_boundaries", 1, cases::split_boundaries::<$subject>);
        }

        #[test]
        fn splits_at_the_limit() {
            cases::rounds("splits_at_the_limit", 1, cases::splits_at_the_limit::<$subject>);
        }

        #[test]
        fn split_refusals_in_order() {
            cases::rounds("split_refusals_in_order", 4, cases::split_refusals::<$subject>);
        }

        #[test]
        fn split_laws() {
            cases::rounds("split_laws", 150, cases::split_laws::<$subject>);
        }

        #[test]
        fn weighted_examples() {
            cases::check_weighted_examples::<$subject>();
        }

        #[test]
        fn weighted_story() {
            cases::check_story::<$subject>();
        }

        #[test]
        fn weighted_packs() {
            cases::rounds("weighted_packs", 1_000, cases::weighted_packs::<$subject>);
        }

        #[test]
        fn posts() {
            cases::rounds("posts", 300, cases::posts::<$subject>);
        }

        #[test]
        fn weighted_joins() {
            cases::rounds("weighted_joins", 300, cases::weighted_joins::<$subject>);
        }

        #[test]
        fn sums_at_both_ends() {
            cases::rounds("sums_at_both_ends", 200, cases::sums_at_both_ends::<$subject>);
        }

        #[test]
        fn weighted_refusals_in_order() {
            cases::rounds("weighted_refusals_in_order", 1, cases::weighted_refusals::<$subject>);
        }

        #[test]
        fn weighted_boundaries() {
            cases::rounds("weighted_boundaries", 1, cases::weighted_boundaries::<$subject>);
        }

        #[test]
        fn weights_at_the_limit() {
            cases::rounds("weights_at_the_limit", 1, cases::weights_at_the_limit::<$subject>);
        }

        #[test]
        fn weighted_histories() {
            cases::rounds("weighted_histories", 300, |rng| check_weighted_history::<$subject>(rng, 80));
        }
    };
}
