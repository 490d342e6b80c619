//! The proved functions as Rust sees them: functions callable from C, each behind a safe one.

pub mod charted;
pub mod compare;
pub mod hostile;
pub mod lent;
pub mod numbers;
pub mod partners;
pub mod plain;
pub mod rules;

use rufsm::frames;
use std::path::Path;

/// The recorded streams, by name.
pub fn recorded() -> Vec<(String, Vec<u8>)> {
    let path = Path::new(env!("CARGO_MANIFEST_DIR")).join("../answers/streams.txt");
    let file = std::fs::read(path).expect("the recorded streams");
    frames::parse(&file).expect("frames")
}
