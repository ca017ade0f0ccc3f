//! Writes the cases of the program `table` to standard output.

use reference::replay;
use std::io::Write;

fn main() {
    let bytes = replay::bytes(&replay::cases());
    let mut out = std::io::stdout();
    out.write_all(&bytes).expect("written");
}
