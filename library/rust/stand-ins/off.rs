//! In the place of another crate. It is compiled only if the feature of that name is on here.
compile_error!("a program that depends on gearlongan has this feature, and gearlongan's own folder has not: see Cargo.toml");
