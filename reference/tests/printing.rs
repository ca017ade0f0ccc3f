//! The printing program against document 01's lines, made from the Rust's answers.

use reference::compare::say;
use reference::generate::{self, Shape};
use reference::printed;
use reference::splitmix::SplitMix64;
use std::fs::File;
use std::io::Write;
use std::process::{Command, Stdio};

const PROGRAM: &str = concat!(env!("CARGO_MANIFEST_DIR"), "/../target/bin/eml_solve");

/// What the program prints of a file.
fn output(file: &[u8]) -> String {
    output_of(Command::new(PROGRAM), file)
}

fn output_of(mut program: Command, file: &[u8]) -> String {
    let mut program = program
        .stdin(Stdio::piped())
        .stdout(Stdio::piped())
        .spawn()
        .expect("built by tools/program");
    // A file that is too long is not read to its end, so the pipe may close early.
    let _ = program.stdin.take().expect("piped").write_all(file);
    let output = program.wait_with_output().expect("ends");
    assert!(output.status.success());
    String::from_utf8(output.stdout).expect("text")
}

/// A sound file of any size, a damaged one, or one that is longer than it says.
fn file(rng: &mut SplitMix64) -> Vec<u8> {
    let shape = match rng.below(10) {
        0 => return generate::any_file(rng),
        1 => Shape::medium(rng),
        2..=5 => Shape::small(rng),
        _ => Shape::narrowing(rng),
    };
    let mut file = generate::problem(rng, &shape).to_file();
    if rng.one_in(20) {
        let more = rng.pick(&[1, 1_000, 22_817, 100_000]);
        file.resize(file.len() + more, 0);
    }
    file
}

#[test]
fn lines() {
    let mut rng = SplitMix64::new(81);
    let (mut refused, mut assigned) = (0_u64, 0_u64);
    for _ in 0..1_200 {
        let file = file(&mut rng);
        let theirs = printed::lines(&file);
        assert_eq!(output(&file), theirs, "{file:?}");
        refused += u64::from(theirs.starts_with("refused"));
        assigned += u64::from(theirs.starts_with("assignment"));
    }
    say(&format!(
        "eml_solve: the lines of 1200 files compared, all equal; {assigned} with an assignment, {refused} refused"
    ));
    assert!(refused >= 100 && assigned >= 300);
}

/// A file at every limit, in a stack of 512 KiB; a process has 8 MiB by default.
#[test]
fn the_largest_file() {
    let file = generate::largest().to_file();
    assert_eq!(file.len(), 22_816);
    let mut shell = Command::new("sh");
    shell.args(["-c", &format!("ulimit -s 512 && exec '{PROGRAM}'")]);
    assert_eq!(output_of(shell, &file), printed::lines(&file));
}

/// The house files in examples/ and the lines beside them.
#[test]
fn the_examples() {
    let folder = concat!(env!("CARGO_MANIFEST_DIR"), "/../examples");
    let entries = std::fs::read_dir(folder).expect("a folder");
    let paths = entries.map(|entry| entry.expect("an entry").path());
    let mut count = 0;
    for path in paths.filter(|path| path.extension().is_some_and(|e| e == "emlq")) {
        let file = std::fs::read(&path).expect("a file");
        let lines = std::fs::read_to_string(path.with_extension("txt")).expect("its lines");
        assert_eq!(output(&file), lines, "{path:?}");
        assert_eq!(printed::lines(&file), lines, "{path:?}");
        count += 1;
    }
    say(&format!(
        "examples: the lines of {count} files compared, all equal"
    ));
    assert!(count >= 5);
}

/// The example of document 01, which the README shows.
#[test]
fn the_first_example() {
    let file = include_bytes!("../../examples/positive.emlq");
    assert_eq!(file.len(), 88);
    let lines = "assignment\nexact 0\nhalvings 0\nv0 4000000000000000\n";
    assert_eq!(output(file), lines);
}

/// A folder opens, and reading it fails.
#[test]
fn a_read_error_is_an_empty_file() {
    let folder = File::open(env!("CARGO_MANIFEST_DIR")).expect("opens");
    let output = Command::new(PROGRAM).stdin(folder).output().expect("ends");
    assert!(output.status.success());
    assert_eq!(output.stdout, b"refused 1\n");
    assert_eq!(output_of(Command::new(PROGRAM), b""), "refused 1\n");
}
