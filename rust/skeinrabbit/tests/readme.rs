//! README.md shows examples/sandbox.rs whole, and it runs.
include!("../examples/sandbox.rs");

#[test]
fn the_example_runs() {
    assert_eq!(main(), Ok(()));
}

#[test]
fn the_readme_shows_the_example() {
    let readme = include_str!("../../../README.md");
    let shown: Vec<&str> = readme
        .split("```rust\n")
        .skip(1)
        .filter_map(|rest| rest.split("```").next())
        .collect();
    assert_eq!(shown, [include_str!("../examples/sandbox.rs")]);
}
