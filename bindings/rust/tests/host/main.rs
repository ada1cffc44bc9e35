//! A host in Rust over the archive: `cargo test --offline`.

mod calls;
mod constants;
mod guest;
mod journal;
