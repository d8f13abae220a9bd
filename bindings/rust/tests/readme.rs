//! The lines of `README.md` that use serde, which this crate doesn't, stand in a program that is tried where serde is (`tests/serde`).
const README: &str = include_str!("../README.md");
const PROGRAM: &str = include_str!("serde/src/main.rs");

#[test]
fn lines_over_serde() {
    let (_, rest) = README.split_once("```rust,ignore\n").expect("lines");
    let (lines, _) = rest.split_once("```\n").expect("an end");
    assert!(lines.lines().count() > 10);
    assert!(PROGRAM.contains(lines));
}
