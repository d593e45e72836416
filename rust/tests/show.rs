//! The printing program against an independent printer over the reference.

mod cases;
mod plain;

use cases::*;
use plain::{key_len, Set};
use std::fmt::Write as _;
use std::io::Write as _;
use std::path::Path;
use std::process::{Command, Stdio};
use std::time::{Duration, Instant};

/// The most bytes that the program takes.
const MOST: usize = 65_536;

/// What the program writes for this standard input.
fn shown_by_program(input: &[u8]) -> String {
    let program = Path::new(env!("CARGO_MANIFEST_DIR")).join("../target/bin/show");
    let mut child = Command::new(&program)
        .stdin(Stdio::piped())
        .stdout(Stdio::piped())
        .spawn()
        .unwrap_or_else(|error| panic!("{}: {error}; `make target/bin/show` makes it", program.display()));
    let mut stdin = child.stdin.take().unwrap();
    let input = input.to_vec();
    // the program stops reading behind a byte too many
    let feeding = std::thread::spawn(move || drop(stdin.write_all(&input)));
    let output = child.wait_with_output().unwrap();
    feeding.join().unwrap();
    assert!(output.status.success(), "{}", output.status);
    String::from_utf8(output.stdout).unwrap()
}

/// What document 01 says that it writes.
fn shown_by_rule(input: &[u8]) -> String {
    if input.len() > MOST {
        return "input too long\n".to_string();
    }
    match plain::read(input) {
        Err(number) => format!("refused {number}\n"),
        Ok(laid) => {
            let mut text = format!("width {} tickets {} edges {}\n", laid.width(), laid.count(), laid.bits());
            for (index, key) in laid.set.keys.iter().enumerate() {
                let digits: String = key.iter().map(|byte| format!("{byte:02X}")).collect();
                writeln!(text, "{index} {digits}").unwrap();
            }
            text
        }
    }
}

fn check(input: &[u8]) {
    assert!(shown_by_program(input) == shown_by_rule(input), "the lines of {}", shown(input));
}

#[test]
fn prints_the_sample() {
    let sample = Set::new(3, [vec![0x00], vec![0x60], vec![0xC0]]).lay().encode();
    assert_eq!(shown_by_program(&sample), "width 3 tickets 3 edges 12\n0 00\n1 60\n2 C0\n");
}

#[test]
fn prints_what_the_reference_has() {
    rounds("prints_what_the_reference_has", 40, |rng| {
        let width = random_width(rng);
        let laid = random_set(rng, width, 400).lay();
        check(&laid.encode());
        check(&damaged(rng, &laid));
        let n = rng.below(100);
        check(&rng.bytes(n));
    });
}

#[test]
fn takes_no_more_than_it_may() {
    check(&[]);
    for length in [MOST - 1, MOST, MOST + 1, MOST + 2, 3 * MOST] {
        // tag 1 and its length, and nothing that follows from it
        let mut input = vec![0; length];
        input[0] = 1;
        check(&input);
        check(&vec![0; length]);
    }
}

/// The longest encodings that may be printed: by the bytes of their keys, and by their keys.
#[test]
fn prints_large_sets_at_once() {
    rounds("prints_large_sets_at_once", 1, |rng| {
        for (width, records) in [(256, 244_000), (19, 244_000)] {
            let bytes = set_with_records(rng, width, records).lay().encode();
            assert!(bytes.len() <= MOST && MOST - bytes.len() < 5_000, "{} bytes of width {width}", bytes.len());
            let right = shown_by_rule(&bytes);
            let started = Instant::now();
            assert!(shown_by_program(&bytes) == right, "a set of {} keys of {} bytes", right.lines().count() - 1, key_len(width));
            assert!(started.elapsed() < Duration::from_secs(1), "printing took {:?}", started.elapsed());
        }
    });
}
