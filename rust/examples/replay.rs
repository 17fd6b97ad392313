//! Runs a call script (docs/REPLAY.md) from standard input through the crate: a line for each call.
//!
//! It is another replayer for `tests/vectors` and `tests/beside_rust/run`, by REPLAY or SIDE=rust/target/release/examples/replay.
#[path = "../tests/common/script.rs"]
mod script;

use std::io::{self, Read as _, Write as _};

fn main() -> io::Result<()> {
    let mut bytes = Vec::new();
    io::stdin().lock().read_to_end(&mut bytes)?;
    io::stdout().lock().write_all(script::replay(&bytes).as_bytes())
}
