//! The C header, compiled by a C compiler (`cc`, or the one that CC names) and linked with the library.

use loes::Encoding;
use std::collections::BTreeSet;
use std::path::Path;
use std::process::Command;

#[test]
fn the_header_is_right() {
    let here = Path::new(env!("CARGO_MANIFEST_DIR"));
    let program = Path::new(env!("CARGO_TARGET_TMPDIR")).join("header");
    let compiler = std::env::var("CC").unwrap_or("cc".to_string());
    let status = Command::new(&compiler)
        .args(["-std=c99", "-Wall", "-Wextra", "-Werror", "-pedantic", "-I"])
        .arg(here.join("../include"))
        .arg("-o")
        .arg(&program)
        .arg(here.join("tests/c/header.c"))
        .arg(env!("LOES_STATICLIB_FOUND"))
        .status();
    assert!(status.unwrap_or_else(|error| panic!("{compiler}: {error}")).success(), "the header does not compile or link");
    let output = Command::new(&program).output().unwrap();
    let numbers = [
        Encoding::MAX_WIDTH,
        Encoding::MAX_EDGES,
        Encoding::BLOCK_BITS,
        Encoding::SUB_BLOCK_BITS,
        Encoding::MAX_BYTES as u64,
        Encoding::MAX_WIDTH / 8,
        Encoding::MAX_WIDTH,
    ];
    let right = format!("{}\nright\n", numbers.map(|number| number.to_string()).join(" "));
    assert_eq!(String::from_utf8_lossy(&output.stdout), right, "{}", String::from_utf8_lossy(&output.stderr));
}

/// The header declares each exported function that requires nothing, and no other.
#[test]
fn the_header_has_only_total_calls() {
    let here = Path::new(env!("CARGO_MANIFEST_DIR"));
    let read = |file: &str| std::fs::read_to_string(here.join(file)).unwrap();
    let name = |text: &str| text.split('(').next().unwrap().to_string();
    let (source, header) = (read("../crates/capi_c/src/lib.rt"), read("../include/loes.h"));
    let exported = source.split("#[unsafe(no_mangle)]").skip(1).map(|text| text.split("\n{\n").next().unwrap());
    let total: BTreeSet<String> =
        exported.filter(|head| !head.contains("requires")).map(|head| name(head.split("fn ").nth(1).unwrap())).collect();
    let declared = header.lines().filter(|line| line.starts_with("loes_") && line.contains('('));
    assert_eq!(declared.map(|line| name(line.split(' ').nth(1).unwrap())).collect::<BTreeSet<_>>(), total);
    assert_eq!(total.len(), 16);
}
