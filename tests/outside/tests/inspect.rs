//! The program that prints the sizes of one knowledge, on inputs of every kind of length. The program is looked for in
//! `crates/inspect/out`, or where `SYNC_INSPECT` says.

use std::env;
use std::io::Write;
use std::path::PathBuf;
use std::process::{Command, Stdio};
use std::thread;

use inputs::Knowledge;

fn printed(input: &[u8]) -> String {
    let program = env::var_os("SYNC_INSPECT").map_or_else(
        || PathBuf::from(concat!(env!("CARGO_MANIFEST_DIR"), "/../../crates/inspect/out/inspect")),
        PathBuf::from,
    );
    let mut child = Command::new(&program)
        .stdin(Stdio::piped())
        .stdout(Stdio::piped())
        .spawn()
        .unwrap_or_else(|error| panic!("{}: {error}", program.display()));
    let mut stdin = child.stdin.take().expect("standard input is piped");
    let input = input.to_vec();
    // The program may stop reading before the input ends, so a failed write is no fault.
    let writer = thread::spawn(move || {
        let _ = stdin.write_all(&input);
    });
    let output = child.wait_with_output().expect("the program ends");
    writer.join().expect("the writer ends");
    assert!(output.status.success());
    String::from_utf8(output.stdout).expect("the program prints ASCII")
}

fn expected(input: &[u8]) -> String {
    match reference::check(input) {
        Ok(sizes) => format!("{} {} {} {} {}\n", sizes.r, sizes.v, sizes.e, sizes.g, input.len()),
        Err(number) => format!("refused {number}\n"),
    }
}

#[test]
fn the_smallest_and_the_largest() {
    assert_eq!(printed(&Knowledge::smallest().bytes()), "0 1 0 1 113\n");
    assert_eq!(printed(&Knowledge::largest().bytes()), "16 65 1024 64 14933\n");
}

#[test]
fn no_input_at_all() {
    assert_eq!(printed(&[]), "refused 1\n");
}

#[test]
fn input_longer_than_any_knowledge() {
    for more in [1, 2, 100, 65_536, 1_000_000] {
        let mut input = Knowledge::largest().bytes();
        input.resize(input.len() + more, 0);
        assert_eq!(printed(&input), "refused 10\n", "{more} bytes more");
    }
    assert_eq!(printed(&[0; 300_000]), "refused 2\n");
}

#[test]
fn as_the_reference() {
    let middle = Knowledge::filled(4, 9, 8).bytes();
    for length in [0, 1, 26, 27, 100, middle.len() - 1, middle.len()] {
        let input = &middle[..length];
        assert_eq!(printed(input), expected(input), "{length} bytes");
    }
}
