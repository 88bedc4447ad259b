//! A case printed and read again is the same case.

use compare::case::Case;
use compare::families::{all, Effort};

#[test]
fn cases_survive_their_text() {
    let mut count = 0;
    for family in all() {
        let result = family.visit(Effort::Quick, |seed, case| {
            let line = case.to_string();
            // Compared as text: a NaN differs from itself.
            let again: Case = line
                .parse()
                .map_err(|error| format!("{seed:#x}: {error}"))?;
            count += 1;
            if again.to_string() == line {
                Ok(())
            } else {
                Err(format!("{}, seed {seed:#x}", family.name))
            }
        });
        assert_eq!(result, Ok(()));
    }
    assert!(count > 10_000);
}
