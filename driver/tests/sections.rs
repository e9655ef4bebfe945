//! The places of the state's sections, said three times: by the proved code, by the header and by the Rust crate. And
//! those of a night's whole numbers, by the proved code, by the header and by the reference.

use std::collections::BTreeMap;
use std::ops::Range;

use driver::nights::reference;
use driver::sections::*;

type Numbers = BTreeMap<String, usize>;

/// A number or a name.
fn number(text: &str, known: &Numbers) -> usize {
    let text = text.trim().trim_matches(['(', ')']);
    let named = known.get(text.trim_start_matches("doubles::"));
    named.copied().unwrap_or_else(|| text.parse().expect(text))
}

/// A sum of products of them.
fn sum(text: &str, known: &Numbers) -> usize {
    let product =
        |term: &str| -> usize { term.split('*').map(|text| number(text, known)).product() };
    text.split('+').map(product).sum()
}

/// The whole-number constants of a crate's source.
fn constants(source: &str, mut known: Numbers) -> Numbers {
    for line in source.lines() {
        let Some(rest) = line.strip_prefix("pub const ") else {
            continue;
        };
        let Some((name, value)) = rest.split_once(": usize = ") else {
            continue;
        };
        let value = sum(value.trim_end_matches(';'), &known);
        known.insert(name.to_string(), value);
    }
    known
}

/// The header's constants.
fn defined(header: &str) -> Numbers {
    let mut known = Numbers::new();
    for line in header.lines() {
        let Some(rest) = line.strip_prefix("#define TEVALUMI_") else {
            continue;
        };
        if let Some((name, value)) = rest.split_once(' ') {
            let value = value.trim().trim_start_matches('(').trim_end_matches(')');
            let value = sum(&value.replace("TEVALUMI_", ""), &known);
            known.insert(name.to_string(), value);
        }
    }
    known
}

const SECTIONS: [(&str, Range<usize>); 31] = [
    ("BASIC_VARS", BASIC_VARS),
    ("NB_VARS", NB_VARS),
    ("VAR_STATES", VAR_STATES),
    ("FLAGS", FLAGS),
    ("ETA_LEAVING", ETA_LEAVING),
    ("ETA_STARTS", ETA_STARTS),
    ("ETA_ROWS", ETA_ROWS),
    ("KEPT", KEPT),
    ("COUNTS", COUNTS),
    ("BASIC_VAR_VALS", BASIC_VAR_VALS),
    ("NB_VAR_VALS", NB_VAR_VALS),
    ("PRICES", PRICES),
    ("NORMS", NORMS),
    ("ETA_COEFFS", ETA_COEFFS),
    ("DUAL_NORMS", DUAL_NORMS),
    ("OBJECTIVE", OBJECTIVE),
    ("PIVOTS", PIVOTS),
    ("PIVOT_PLACES", PIVOT_PLACES),
    ("L_STARTS", L_STARTS),
    ("L_ROWS", L_ROWS),
    ("U_STARTS", U_STARTS),
    ("U_ROWS", U_ROWS),
    ("LT_STARTS", LT_STARTS),
    ("LT_ROWS", LT_ROWS),
    ("UT_STARTS", UT_STARTS),
    ("UT_ROWS", UT_ROWS),
    ("L_COEFFS", L_COEFFS),
    ("U_COEFFS", U_COEFFS),
    ("LT_COEFFS", LT_COEFFS),
    ("UT_COEFFS", UT_COEFFS),
    ("DIAG", DIAG),
];

const ARRAYS: [(&str, usize); 4] = [
    ("NUMBERS", NUMBERS),
    ("DOUBLES", DOUBLES),
    ("FACTOR_NUMBERS", FACTOR_NUMBERS),
    ("FACTOR_COEFFS", FACTOR_COEFFS),
];

/// A section's name in the proved code.
fn proved_name(name: &str) -> &str {
    match name {
        "PIVOTS" => "ORDER",
        "PIVOT_PLACES" => "NUMBER",
        _ => name,
    }
}

#[test]
fn three_lists_are_one() {
    let limits = constants(
        include_str!("../../crates/doubles/src/lib.rt"),
        Numbers::new(),
    );
    let state = constants(
        include_str!("../../crates/state/src/lib.rt"),
        limits.clone(),
    );
    let factor = include_str!("../../crates/lu_factor_rules/src/lib.rt");
    let proved = constants(factor, state);
    let header = defined(include_str!("../../include/tevalumi.h"));
    let ours = proved.len() - limits.len();
    assert_eq!(
        ours,
        2 * SECTIONS.len() + ARRAYS.len(),
        "a section that isn't listed here"
    );
    assert_eq!(
        header.len(),
        SECTIONS.len() + ARRAYS.len() + NIGHT.len(),
        "a section that isn't listed here"
    );
    for (name, cells) in SECTIONS {
        let proved_name = proved_name(name);
        assert_eq!(proved[proved_name], cells.start, "{name}");
        assert_eq!(proved[&format!("{proved_name}_END")], cells.end, "{name}");
        assert_eq!(header[name], cells.start, "{name}");
    }
    for (name, cells) in ARRAYS {
        assert_eq!((proved[name], header[name]), (cells, cells), "{name}");
    }
    use oracle::limits;
    let oracle = [
        limits::NUMBERS,
        limits::DOUBLES,
        limits::FACTOR_NUMBERS,
        limits::FACTOR_COEFFS,
    ];
    assert_eq!(oracle, ARRAYS.map(|(_, cells)| cells as u64));
}

/// Of a night's whole numbers: the header's name, the place, and the proved code's name where it has one. A part of a
/// stage's section has the name of the end before it there.
const NIGHT: [(&str, usize, Option<&str>); 13] = [
    ("STAGE_AMOUNTS", 0, None),
    ("STAGE_MULTS", reference::MULTS, Some("AMOUNTS_END")),
    ("STAGE_R", reference::MULTS + 96, Some("MULTS_END")),
    ("STAGE_D", reference::MULTS + 96 + 96, Some("R_END")),
    ("STAGE_C", reference::COST, Some("D_END")),
    ("STAGE_B", reference::FLOOR, Some("C_END")),
    ("STAGE_COUNTS", reference::FLOOR + 1, Some("B_END")),
    ("STAGE", reference::STAGE, Some("SECTION")),
    ("FIRST", reference::FIRST, None),
    ("SECOND", reference::SECOND, Some("SECOND")),
    ("HANDED", reference::HANDED, Some("HANDED")),
    ("COEFS", reference::COEFS, Some("COEFS")),
    ("WHOLE", reference::WHOLE, Some("WHOLE")),
];

#[test]
fn a_night_has_one_list() {
    let limits = constants(
        include_str!("../../crates/doubles/src/lib.rt"),
        Numbers::new(),
    );
    let source = include_str!("../../crates/night_rules/src/lib.rt");
    let proved = constants(source, limits.clone());
    let header = defined(include_str!("../../include/tevalumi.h"));
    for (name, place, proved_name) in NIGHT {
        assert_eq!(header[name], place, "{name}");
        if let Some(proved_name) = proved_name {
            assert_eq!(proved[proved_name], place, "{name}");
        }
    }
    let named = NIGHT.iter().filter(|(_, _, proved)| proved.is_some());
    assert_eq!(
        proved.len() - limits.len(),
        named.count(),
        "a section that isn't listed here"
    );
}

/// Every cell of an array stands in just one section.
#[test]
fn sections_tile_their_array() {
    let (numbers, rest) = SECTIONS.split_at(9);
    let (doubles, rest) = rest.split_at(7);
    let (factor_numbers, factor_coeffs) = rest.split_at(10);
    let parts = [numbers, doubles, factor_numbers, factor_coeffs];
    for (sections, (_, end)) in parts.into_iter().zip(ARRAYS) {
        let last = sections.iter().fold(0, |from, (name, cells)| {
            assert_eq!(cells.start, from, "{name}");
            cells.end
        });
        assert_eq!(last, end);
    }
}
