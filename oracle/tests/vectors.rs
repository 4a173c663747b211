//! Books with their whole outcomes: tests/data/NAME.book and NAME.json.

use oracle::books::{outcome, Outcome};

fn of(book: &'static str) -> Outcome {
    oracle::limits::on_large_stack(move || outcome(book.as_bytes()))
}

#[test]
fn stored_outcomes() {
    let data = std::path::Path::new(env!("CARGO_MANIFEST_DIR")).join("tests/data");
    let mut count = 0;
    for entry in std::fs::read_dir(data).unwrap() {
        let path = entry.unwrap().path();
        if path.extension().is_none_or(|e| e != "book") { continue; }
        let book = std::fs::read(&path).unwrap();
        let wanted = std::fs::read_to_string(path.with_extension("json")).unwrap();
        let got = oracle::limits::on_large_stack(move || outcome(&book)).json().unwrap();
        assert!(got == wanted.trim_end(), "{} differs", path.display());
        count += 1;
    }
    assert!(count >= 12);
}

// Small books whose words tell one reading of 01 from another.

#[test]
fn list_words_of_a_relation_state() {
    let t = of("fields 0 budget 0\nzero\nlive 0\n").tables;
    assert_eq!(t.states[4..8], [0, 0, 1, 1]);
}

#[test]
fn unions_for_labels_that_do_not_meet() {
    let t = of("fields 0 budget 0\ndup\ntop\nxor 1 0\nlive 2\n").tables;
    assert_eq!(t.members, [3, 5, 5, 7]);
}

#[test]
fn the_zero_state_is_interned_by_an_insertion() {
    let t = of("fields 0 budget 1\none\nnot 0\nempty 1\n").tables;
    assert_eq!(t.states.len(), 4 * 12);
    assert_eq!(t.states[36..38], [1, 0]);
}

#[test]
fn delta_of_a_union_has_all_lists_before_the_first_join() {
    let t = of("fields 0 budget 0\ndup\nseq 0 0\nstar 1\nuntil 2 2\nlive 3\n").tables;
    assert_eq!(t.members[14..20], [6, 7, 13, 6, 9, 6]);
}

#[test]
fn targets_for_labels_that_do_not_meet() {
    let t = of("fields 1 budget 0\ndup\nnot 0\nand 1 0\nlive 2\n").tables;
    assert_eq!(t.members, [0, 1, 5, 3, 3, 7]);
}

#[test]
fn a_state_stands_twice_in_todo() {
    let book = "fields 2 budget 0\ndup\ntest 0 0\nseq 0 1\nseq 0 2\ntest 1 0\nseq 4 0\nor 5 3\nlive 6\n";
    assert_eq!(of(book).tables.sp[8..14], [8, 2, 8, 8, 2, 8]);
}

#[test]
fn live_sets_of_all_states_reached_are_stored() {
    let t = of("fields 0 budget 0\ndup\nlive 0\n").tables;
    assert_eq!(t.states[12 + 7], 2);
}

#[test]
fn predecessors_in_the_order_of_visits() {
    let book = "fields 2 budget 0\ndup\ntest 0 0\nseq 1 0\ntest 1 0\nseq 0 1\nseq 3 4\nseq 5 0\nxor 6 2\nlive 7\n";
    assert_eq!(of(book).tables.sp[8..12], [6, 2, 2, 3]);
}

#[test]
fn the_pair_put_last_is_taken_first() {
    let o = of("fields 1 budget 2\ndup\ntop\nuntil 1 0\nempty 2\n");
    assert_eq!(o.output, "fields 1\nempty 2 no 2\n");
}

#[test]
fn a_test_makes_no_packet_nodes() {
    assert_eq!(of("fields 1 budget 0\ntest 0 0\n").tables.sp, [0, 0]);
}

#[test]
fn queries_have_numbers() {
    assert_eq!(of("fields 0 budget 9\ndup\nempty 0\none\nlive 2\n").output, "fields 0\nempty 0 no 2\nlive 2 1 1000\n");
}

#[test]
fn the_budget_is_for_each_search() {
    assert_eq!(of("fields 0 budget 2\ndup\nempty 0\nempty 0\n").output, "fields 0\nempty 0 no 2\nempty 0 no 2\n");
}

#[test]
fn share_of_one_packet_in_thirty_two() {
    let book = "fields 5 budget 0\ntest 0 1\ntest 1 1\ntest 2 1\ntest 3 1\ntest 4 1\nand 0 1\nand 5 2\nand 6 3\nand 7 4\nlive 8\n";
    assert_eq!(of(book).output, "fields 5\nlive 8 1 31\n");
}
