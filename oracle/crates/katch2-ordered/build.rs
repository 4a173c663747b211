//! Lays out a copy of aut.rs with 01's two departures from it, and no others.

include!("../../glue/build_common.rs");

/// Replaces the text, which must stand in the source exactly once.
fn replace_once(source: &str, old: &str, new: &str) -> String {
    assert_eq!(source.matches(old).count(), 1, "expected once in aut.rs: {old}");
    source.replacen(old, new, 1)
}

fn main() {
    let aut = read_aut();
    // Transitions in ascending order of target.
    let aut = replace_once(
        &aut,
        "use std::collections::HashMap;\n",
        "use std::collections::BTreeMap as HashMap;\n",
    );
    // delta of a union works out every member's list before the first join.
    let aut = replace_once(
        &aut,
        "                for s in states_copy {
                    let delta_state = self.delta(s);
                    result = self.st_union(result, delta_state);
                }
",
        "                let delta_values: Vec<ST> = states_copy.iter().map(|&s| self.delta(s)).collect();
                for delta_state in delta_values {
                    result = self.st_union(result, delta_state);
                }
",
    );
    lay_out(&aut);
}
