//! books/varies.book: what of the unchanged Rust's answers depends on the order of a HashMap, and what does not.

use std::collections::BTreeSet;

const BOOK: &[u8] = include_bytes!("../books/varies.book");

#[test]
fn labels_of_pruned_lists_vary_and_nothing_else() {
    let mut labels = BTreeSet::new();
    let mut rest = BTreeSet::new();
    for _ in 0..300 {
        let mut output = String::new();
        assert!(oracle::books::plain(BOOK, &mut |s| output.push_str(s)).is_ok());
        let varying = |l: &&str| l.starts_with("pruned ") || l.starts_with("pair ");
        labels.insert(output.lines().filter(varying).map(String::from).collect::<Vec<_>>());
        rest.insert(output.lines().filter(|l| !varying(l)).map(String::from).collect::<Vec<_>>());
    }
    assert_eq!(labels.iter().map(|l| l.len()).collect::<Vec<_>>(), [2, 3]);
    assert_eq!(rest.len(), 1);
}

#[test]
fn the_ordered_copy_is_fixed() {
    let first = oracle::books::outcome(BOOK);
    assert_eq!(first.stop, None);
    for _ in 0..100 { assert_eq!(oracle::books::outcome(BOOK), first); }
}
