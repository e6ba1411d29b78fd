//! The proved unit beside independent implementations of documents 01 and 02 in plain Rust.
//!
//! `unit` calls the archive that `rt lib` in crates/unit_c builds. `card`, `hierarchy`, `by_tail`, `search`,
//! `dijkstra`, `brute`, `literal` and `machine` are written from the documents alone; `router` puts them together
//! to the unit as one would write it in plain Rust, `both` has the two side by side, and `areas` has some steps
//! in plain Rust over the unit's own areas. `maps`, `order`, `traffic` and `damage` make what they are tried on,
//! by fixed seeds. From the repository's root:
//!
//! ```text
//! cargo test --offline --locked --manifest-path rust/Cargo.toml --target-dir target/cargo
//! cargo run --offline --locked --release --manifest-path rust/Cargo.toml --target-dir target/cargo --bin bench
//! ```
#![deny(unsafe_code)]

pub mod areas;
pub mod both;
pub mod brute;
pub mod by_tail;
pub mod calls;
pub mod card;
pub mod damage;
pub mod dijkstra;
pub mod graph;
pub mod hierarchy;
pub mod literal;
pub mod machine;
pub mod maps;
pub mod order;
pub mod random;
pub mod router;
pub mod search;
pub mod text;
pub mod time;
pub mod traffic;
#[allow(unsafe_code)]
pub mod unit;
