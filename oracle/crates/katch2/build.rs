//! Lays out aut.rs, byte for byte, with the oracle's query.rs beside it: aut.rs names query.rs relative to itself, and
//! docs/src has to stay as it is.

include!("../../glue/build_common.rs");

fn main() {
    let aut = read_aut();
    lay_out(&aut);
}
