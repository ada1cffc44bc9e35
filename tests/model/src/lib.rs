//! A second implementation of the device, to be compared with the first.

pub mod console;
pub mod device;
pub mod frame;
pub mod generate;
pub mod journal;
pub mod met;
pub mod misread;
pub mod order;
pub mod recount;
pub mod registers;
pub mod tables;
#[cfg(test)]
mod tests;
pub mod tlv;
pub mod undo;
