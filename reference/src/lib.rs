//! The Rust that the proved port is compared with.
//!
//! `tree`, `canonical`, `eval`, `error` and `smt` are the taken functions of the source, with the documents' stand-ins in
//! the places of the library calls, document 02's record in the places of the constants, and its strict evaluation
//! (REPLACED.md lists them). `standins` are these stand-ins, and `settings` is this record. `counted` is `solve` with its stop
//! word and count of halvings. `house` reads the house file, `generate` makes problems and damage, `replay` makes the cases of
//! the program `table`, `printed` the printing program's lines, and `port` adds to the bindings of the proved code what the
//! comparison looks at beside the answers. `case` asks both sides each call that receives the record.

pub mod canonical;
pub mod case;
pub mod compare;
pub mod counted;
pub mod error;
pub mod eval;
pub mod generate;
pub mod house;
pub mod port;
pub mod printed;
pub mod replay;
pub mod rounded;
pub mod settings;
pub mod smt;
pub mod splitmix;
pub mod standins;
pub mod tree;
