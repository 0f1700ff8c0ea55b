//! The crate beside other crates: tests of its features `serde` and `bytemuck`, an example over tokio, and tests of
//! what library/README.md says of its peers. They need Debian's packages of `Cargo.toml`, which
//! `scripts/library-checks` names, and what `../build.rs` needs.
