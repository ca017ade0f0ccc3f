//! The Rust's answer to a house file on standard input, in the lines of document 01's printing program.
//!
//! With `--features platform` the solver uses this platform's exp and ln, as the source does, and with `--features rounded` a
//! correctly rounded exp and the platform's ln: two machines that may disagree in a last bit.

use std::io::Read;

fn main() {
    let mut file = Vec::new();
    std::io::stdin().read_to_end(&mut file).expect("read");
    print!("{}", reference::printed::lines(&file));
}
