//! Prints `c/refusal_text.c`, the sentences of the refusals for callers in C:
//!
//!     cargo run --offline --package hverolda --example refusal_text >c/refusal_text.c

fn main() {
    print!("{}", hverolda::c_file());
}
