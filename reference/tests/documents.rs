//! The examples in the documents: a fenced block is the file that its fence names, and the measured tables are what the programs print. And
//! the files and functions that the map names are there, and every path into a crate.

use reference::compare::say;
use std::path::Path;
use std::process::Command;

fn read(path: &str) -> Vec<u8> {
    let path = format!("{}/../{path}", env!("CARGO_MANIFEST_DIR"));
    std::fs::read(&path).unwrap_or_else(|error| panic!("{path}: {error}"))
}

fn text(path: &str) -> String {
    String::from_utf8(read(path)).expect("text")
}

/// The fenced blocks of a document: what stands after the fence, and the lines.
fn blocks(document: &str) -> Vec<(String, String)> {
    let mut blocks = Vec::new();
    for part in text(document).split("\n```").skip(1).step_by(2) {
        let (fence, lines) = part.split_once('\n').expect("a line after the fence");
        blocks.push((fence.to_string(), format!("{lines}\n")));
    }
    blocks
}

/// The bytes of a line: the number of its first byte, the bytes, and what they mean.
fn bytes_of(line: &str, at: usize) -> Vec<u8> {
    let (numbers, _) = line.split_once('|').expect("a meaning");
    let mut numbers = numbers.split_whitespace();
    assert_eq!(numbers.next(), Some(at.to_string().as_str()), "{line}");
    numbers
        .map(|digits| u8::from_str_radix(digits, 16).expect("two digits"))
        .collect()
}

fn bytes(lines: &str) -> Vec<u8> {
    lines.lines().fold(Vec::new(), |mut bytes, line| {
        bytes.extend(bytes_of(line, bytes.len()));
        bytes
    })
}

#[test]
fn blocks_are_their_files() {
    let mut count = 0;
    for document in ["README.md", "docs/FORMAT.md", "examples/README.md"] {
        for (fence, lines) in blocks(document) {
            let (kind, path) = fence.split_once(' ').expect("a kind and a file");
            let block = match kind {
                "hex" => bytes(&lines),
                _ => lines.into_bytes(),
            };
            assert!(block == read(path), "{document}: the block {fence}");
            count += 1;
        }
    }
    say(&format!("documents: {count} blocks are their files"));
    assert!(count >= 5);
}

#[test]
fn tables_are_what_the_programs_print() {
    for program in [
        env!("CARGO_BIN_EXE_accuracy"),
        env!("CARGO_BIN_EXE_false_conflicts"),
    ] {
        let output = Command::new(program).output().expect("runs");
        assert!(output.status.success());
        let table = String::from_utf8(output.stdout).expect("text");
        let stands = text("README.md").contains(&format!("\n\n{table}\n"));
        assert!(stands, "the README's table is not\n{table}");
    }
}

/// What stands between backquotes.
fn quoted(cell: &str) -> impl Iterator<Item = &str> {
    cell.split('`').skip(1).step_by(2)
}

/// The rows of the map's tables, without their heads.
fn rows(map: &str) -> impl Iterator<Item = Vec<&str>> {
    map.lines()
        .filter(|line| line.starts_with("| ") && !line.starts_with("| document "))
        .map(|line| line.split('|').collect())
}

#[test]
fn the_map() {
    let map = text("docs/MAP.md");
    for listed in text("crates.txt").lines() {
        let (name, _) = listed.split_once(':').expect("a crate and a colon");
        assert!(map.contains(&format!("`{name}`")), "{name} is not there");
    }
    let mut count = 0;
    for cells in rows(&map) {
        let name = quoted(cells[2]).next().expect("a crate");
        for definitions in quoted(cells[3]) {
            let file = definitions.trim_start_matches("specs/");
            read(&format!("crates/{name}/specs/{file}.antt"));
            count += 1;
        }
        for code in quoted(cells[4]).filter(|word| word.ends_with(".rt")) {
            let file = code.trim_start_matches("src/");
            read(&format!("crates/{name}/src/{file}"));
            count += 1;
        }
    }
    say(&format!("documents: the map names {count} files"));
    assert!(count >= 60);
}

/// The names of the crates.
fn crates() -> Vec<String> {
    let name = |line: &str| {
        let (name, _) = line.split_once(':').expect("a crate and a colon");
        name.trim_end_matches(" staticlib").to_string()
    };
    text("crates.txt").lines().map(name).collect()
}

#[test]
fn functions_of_the_map() {
    let mut functions = 0;
    let map = text("docs/MAP.md");
    for cells in rows(&map) {
        let name = quoted(cells[2]).next().expect("a crate");
        // A file, then functions of it.
        let mut code = String::new();
        for word in quoted(cells[4]) {
            if word.ends_with(".rt") {
                let file = word.trim_start_matches("src/");
                code = text(&format!("crates/{name}/src/{file}"));
            } else {
                let function = word.trim_start_matches("Canonical::");
                let there = ["(", "<"].map(|next| code.contains(&format!("fn {function}{next}")));
                assert!(there.contains(&true), "{}: {word}", cells[1]);
                functions += 1;
            }
        }
    }
    say(&format!("documents: the map names {functions} functions"));
    assert!(functions >= 25);
}

#[test]
fn paths_into_crates() {
    let names = crates();
    let mut count = 0;
    for document in [
        "README.md",
        "docs/DECISIONS.md",
        "docs/MAP.md",
        "docs/PROVING.md",
    ] {
        for path in quoted(&text(document).replace("```", "")) {
            let (first, rest) = path.split_once('/').unwrap_or_default();
            if rest.is_empty() || !names.iter().any(|name| name == first) {
                continue;
            }
            // A file of definitions or proofs is named without its ending.
            let full = format!("{}/../crates/{path}", env!("CARGO_MANIFEST_DIR"));
            let there = Path::new(&full).exists() || Path::new(&format!("{full}.antt")).exists();
            assert!(there, "{document}: {path}");
            count += 1;
        }
    }
    say(&format!("documents: {count} paths into crates are there"));
    assert!(count >= 30);
}
