//! The four Rust files, as `oracle/source` leaves them, as siblings; `placed_parser` is `parser.rs`
//! with a record of where each error was found. `build.rs` writes the module lines.

include!(concat!(env!("OUT_DIR"), "/assertion.rs"));
