//! Three readings of document 01 side by side: the library (`library`), the original Rust (`original`) and a plain model
//! (`model`), with random boards (`boards`, `random`), random calls (`damage`, `wires`), the comparison of call lists
//! (`cases`) and of converter words (`words`).
pub mod boards;
pub mod cases;
pub mod damage;
pub mod hash;
pub mod library;
pub mod model;
pub mod original;
pub mod random;
pub mod wires;
pub mod words;
