//! All that is plain Rust in the benches, as one crate: bench/run looks at the size of its code.
pub mod acceptance;
pub mod arrays;
pub mod control;
pub mod decode;
pub mod elements;
pub mod imports;
pub mod machine;
pub mod sheet;
pub mod storage;
