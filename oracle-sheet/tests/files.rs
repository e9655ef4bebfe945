//! The files' reference held to what a file promises, and the seeded files to what they must reach.

use oracle_sheet::file_cases::{run, Reference, WHOLE};

#[test]
fn the_reference_keeps_what_files_promise() {
    let mut out = String::new();
    let good = run(&mut Reference, 1, &WHOLE).report(&mut out);
    assert!(good, "{out}");
    println!("{out}");
}
