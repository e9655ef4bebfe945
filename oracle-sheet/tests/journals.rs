//! The journal's reference held to what a journal promises, and the seeded journals to what they must
//! reach.

use oracle_sheet::file_cases::Reference;
use oracle_sheet::journal_cases::{run, WHOLE};

#[test]
fn the_reference_keeps_what_journals_promise() {
    let mut out = String::new();
    let good = run(&mut Reference, 1, &WHOLE).report(&mut out);
    assert!(good, "{out}");
    println!("{out}");
}
