//! What is compiled is what stands in docs/src.

const AUT: &str = include_str!("../../docs/src/src/aut.rs");

#[test]
fn unchanged_crate_has_aut_byte_for_byte() {
    assert!(katch2::AUT_SOURCE == AUT);
}

#[test]
fn ordered_crate_differs_in_the_two_departures_only() {
    let old: Vec<&str> = AUT.lines().collect();
    let new: Vec<&str> = katch2_ordered::AUT_SOURCE.lines().collect();
    assert_eq!(old.len(), new.len());
    let changed: Vec<(&str, &str)> =
        old.iter().zip(&new).filter(|(a, b)| a != b).map(|(a, b)| (a.trim(), b.trim())).collect();
    assert_eq!(
        changed,
        [
            ("use std::collections::HashMap;", "use std::collections::BTreeMap as HashMap;"),
            (
                "for s in states_copy {",
                "let delta_values: Vec<ST> = states_copy.iter().map(|&s| self.delta(s)).collect();"
            ),
            ("let delta_state = self.delta(s);", "for delta_state in delta_values {"),
        ]
    );
}
