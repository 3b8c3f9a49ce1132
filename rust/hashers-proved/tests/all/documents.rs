//! What the documents say of the crate.

#[test]
fn versions_agree() {
    assert_eq!(env!("CARGO_PKG_VERSION"), include_str!("../../../../VERSION").trim());
    assert!(include_str!("../../CHANGELOG.md").contains(&format!("\n## {}\n", env!("CARGO_PKG_VERSION"))));
}

#[test]
fn both_pages_show_the_example() {
    let (_, example) = include_str!("../../examples/readme.rs").split_once('\n').unwrap();
    for page in [include_str!("../../../../README.md"), include_str!("../../README.md")] {
        assert!(page.contains(&format!("```rust\n{example}```")));
    }
}
