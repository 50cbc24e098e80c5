//! ETHNL_LEVEL of the header is the number of the highest request that has its page, docs/changes/C-NN.md.

use docs::tree;

fn request(page: &str) -> Option<u32> {
    page.strip_prefix("docs/changes/C-")?.strip_suffix(".md")?.parse().ok()
}

#[test]
fn the_level_is_the_highest_request_with_a_page() {
    let header = tree::read("include/ethnl.h");
    let line =
        header.lines().find_map(|line| line.strip_prefix("#define ETHNL_LEVEL ")).expect("a line for ETHNL_LEVEL");
    let level: u32 = line.split(' ').next().and_then(|word| word.parse().ok()).expect("its number");
    let highest = tree::documents().iter().filter_map(|(page, _)| request(page)).max();
    assert_eq!(highest.unwrap_or(0), level, "docs/changes has no page of this level, or one of a higher");
}
