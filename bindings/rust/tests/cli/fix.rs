//! Columns held still by `solve --fix`: what is told before and after, in text, JSON, pages and lists.

use crate::{kept, run};

const TUNNELS: &[u8] = include_bytes!("../../plans/two-tunnels.mps");
const LITTLE: &[u8] = include_bytes!("../../plans/too-little-air.mps");
const NIGHT: &[u8] = include_bytes!("../../plans/night-as-priced.mps");

/// What stands behind the first such words, up to the end of its line.
fn behind<'a>(text: &'a str, words: &str) -> &'a str {
    let (_, rest) = text
        .split_once(words)
        .unwrap_or_else(|| panic!("{words} in {text}"));
    rest.split_once('\n').map_or(rest, |(line, _)| line)
}

#[test]
fn before_and_after() {
    let told = run(&["solve", "p.mps", "--fix", "north=3"], TUNNELS);
    assert_eq!((told.exit, told.err.as_str()), (0, ""));
    let before = run(&["solve", "p.mps"], TUNNELS).out;
    let after = told
        .out
        .strip_prefix(&before)
        .expect("the plan as it was solved");
    assert_eq!(
        after,
        "
fixed      north at 3, from 4.5
status     0, Optimal: no column would make the plan cheaper, and the final check accepts it.
objective  -24
steps      1; a fresh solve takes 1

column  value  lower  upper  cost  price  stands
north       3      0   none    -6     -2  fixed
south       3      0   none    -2      0  basic

row  activity      right side  slack  multiplier  stands
air         9  <=           9      0          -2  at upper
"
    );
}

/// Of the frost night: few steps where a fresh solve takes as many as the night did.
#[test]
fn steps_of_the_night() {
    let solved = run(&["solve", "p.mps"], NIGHT).out;
    assert_eq!(behind(&solved, "\nsteps      "), "51");
    for (fix, from, objective, steps) in [
        ("soil.A03=0", "2370", "-550055", "3; a fresh solve takes 51"),
        (
            "soil.A02=950",
            "1900",
            "-557320",
            "1; a fresh solve takes 51",
        ),
        ("alarm.A02=0", "480", "-560630", "0; a fresh solve takes 52"),
        ("soil.D04=0", "0", "-562070", "0; a fresh solve takes 51"),
    ] {
        let told = run(&["solve", "p.mps", "--fix", fix], NIGHT);
        let (_, after) = told.out.split_once("\nfixed").expect("a fix");
        assert!(behind(after, "from ") == from, "{after}");
        assert_eq!(behind(after, "\nobjective  "), objective);
        assert_eq!(behind(after, "\nsteps      "), steps);
    }
}

/// One after another, each from where the one before it left off.
#[test]
fn several() {
    let words = ["solve", "p.mps", "--fix", "north=3", "--fix=south=1"];
    let told = run(&words, TUNNELS);
    assert_eq!(told.exit, 0);
    let (_, after) = told
        .out
        .split_once("fixed      north at 3, from 4.5\n")
        .expect("the first");
    assert_eq!(behind(after, "objective  "), "-24");
    let (_, after) = after
        .split_once("\nfixed      south at 1, from 3\n")
        .expect("the second");
    assert_eq!(behind(after, "objective  "), "-20");
    // The tables are those of the last alone.
    assert_eq!(told.out.matches("column  value").count(), 2);
    assert!(after.contains("\nnorth       3      0   none    -6     -6  fixed\nsouth       1"));
    // The same column twice: the second moves it.
    let words = ["solve", "p.mps", "--fix", "north=3", "--fix", "north=4"];
    let told = run(&words, TUNNELS);
    assert!(told.out.contains("\nfixed      north at 4, from 3\n"));
    assert!(told.out.contains("\nobjective  -26\n"), "{}", told.out);
}

/// 43, and what may be told after it: nothing.
#[test]
fn outside_its_bounds() {
    let bounded = String::from_utf8_lossy(TUNNELS).replace(
        "ENDATA",
        "BOUNDS\n UP BND north 4\n MI BND south\n UP BND south 2\nENDATA",
    );
    for (text, fix, may) in [
        (TUNNELS, "north=-1", "north may stand from 0 on"),
        (TUNNELS, "north=inf", "north may stand from 0 on"),
        (TUNNELS, "south=NaN", "south may stand from 0 on"),
        (
            bounded.as_bytes(),
            "north=4.5",
            "north may stand from 0 to 4",
        ),
        (bounded.as_bytes(), "south=3", "south may stand up to 2"),
    ] {
        let told = run(&["solve", "p.mps", "--fix", fix, "--fix", "south=0"], text);
        assert_eq!(told.exit, 1);
        let wanted = format!("\nstatus     43, refused: {may}.\n");
        assert!(told.out.ends_with(&wanted), "{}", told.out);
    }
}

#[test]
fn wrong_words() {
    for (words, wanted) in [
        (&["--fix", "west=1"][..], "there is no column `west`"),
        (&["--fix", "north"], "found `north`"),
        (&["--fix", "north="], "found `north=`"),
        (&["--fix", "north=much"], "found `north=much`"),
        (
            &["--fix", "north=1", "--fix", "=1"],
            "there is no column ``",
        ),
    ] {
        let told = run(&[&["solve", "p.mps"], words].concat(), TUNNELS);
        assert_eq!((told.exit, told.out.as_str()), (2, ""));
        assert!(told.err.starts_with("tevalumi: p.mps: "), "{}", told.err);
        assert!(told.err.trim_end().ends_with(wanted), "{}", told.err);
    }
    for words in [
        &["solve", "p.mps", "--fix"][..],
        &["audit", "p.mps", "--fix", "north=1"],
    ] {
        assert_eq!(run(words, TUNNELS).exit, 2);
    }
}

/// 26 out of the fix's own part names the column and the move, one of a later step its row. What is behind the first
/// that isn't Optimal isn't held.
#[test]
fn no_room() {
    let told = run(
        &["solve", "p.mps", "--fix", "north=5", "--fix", "south=0"],
        TUNNELS,
    );
    assert_eq!(told.exit, 3);
    assert!(
        told.out.ends_with(
            "
fixed      north at 5, from 4.5
status     26, Infeasible: the solver finds no column that could take up the move of north from 4.5 to 5: none that has room to move has a coefficient of at least 1e-8 in size in its row.
objective  -27 after the last whole step, no result
steps      0; a fresh solve ends in 26 after 0 steps
"
        ),
        "{}",
        told.out
    );
    // South isn't basic: it is moved, and then no column could mend the row.
    let told = run(&["solve", "p.mps", "--fix", "south=10"], TUNNELS);
    assert_eq!(told.exit, 3);
    assert!(
        behind(&told.out, "\nfixed      south at 10, from 0\nstatus     ")
            .starts_with("26, Infeasible: the solver finds no column that could mend row air,"),
        "{}",
        told.out
    );
}

/// A plan that isn't solved has no column to hold.
#[test]
fn not_solved() {
    for words in [&["solve", "p.mps"][..], &["solve", "p.mps", "--json"]] {
        let plain = run(words, LITTLE);
        let told = run(&[words, &["--fix", "n=1"]].concat(), LITTLE);
        assert_eq!((told.exit, &told.out), (3, &plain.out), "{}", told.err);
    }
}

#[test]
fn in_json() {
    let words = [
        "solve", "p.mps", "--json", "--fix", "north=3", "--fix", "south=-1",
    ];
    let told = run(&words, TUNNELS);
    assert_eq!(told.exit, 1);
    assert!(told.out.starts_with("{\"version\":2,\"file\":\"p.mps\",\"plan\":\"two-tunnels\",\"sense\":\"minimise\",\"status\":43,"));
    let wanted = ",\"fixed\":[\
        {\"column\":\"north\",\"value\":3.0,\"from\":4.5,\"status\":0,\"sentence\":\"Optimal: no column would make the plan cheaper, and the final check accepts it.\",\"objective\":-24.0,\"steps\":1,\"fresh_status\":0,\"fresh_steps\":1},\
        {\"column\":\"south\",\"value\":-1.0,\"from\":3.0,\"status\":43,\"sentence\":\"refused: south may stand from 0 on.\",\"objective\":0.0,\"steps\":0,\"fresh_status\":0,\"fresh_steps\":0}]}\n";
    assert!(told.out.ends_with(wanted), "{}", told.out);
    // The columns are those of the plan as it is left.
    let told = run(&words[..5], TUNNELS);
    assert!(
        told.out.contains("{\"name\":\"north\",\"value\":3.0,\"lower\":0.0,\"upper\":null,\"cost\":-6.0,\"price\":-2.0,\"stands\":\"fixed\"}"),
        "{}",
        told.out
    );
    assert_eq!(told.out.matches("\"fixed\":[").count(), 1);
    // One sentence for both.
    let told = run(&["solve", "p.mps", "--json", "--fix", "north=5"], TUNNELS);
    let sentence =
        "Infeasible: the solver finds no column that could take up the move of north from 4.5 to 5";
    assert_eq!(told.out.matches(sentence).count(), 2, "{}", told.out);
    let told = run(&["solve", "p.mps", "--json"], TUNNELS);
    assert!(!told.out.contains("\"fixed\":["));
}

/// As the file has it: an objective that is maximised, with a constant.
#[test]
fn maximised() {
    let lp =
        b"Maximize\n worth: 6 north + 2 south + 10\nSubject To\n air: 2 north + south <= 9\nEnd\n";
    let told = run(&["solve", "p.lp", "--fix", "north=3"], lp);
    let (before, after) = told.out.split_once("\nfixed").expect("a fix");
    assert_eq!(behind(before, "\nobjective  "), "37");
    assert_eq!(behind(after, "\nobjective  "), "34");
}

/// The page and the list are of the plan as it is left, the list with the column's bounds at the value.
#[test]
fn on_a_page_and_in_a_list() {
    let words = [
        "solve", "p.mps", "--fix", "north=3", "--html", "p.html", "--sol", "p.sol",
    ];
    let (told, files) = kept::run(&words, TUNNELS);
    assert_eq!((told.exit, files.len()), (0, 2));
    let of = |name: &str| {
        let (_, bytes) = files
            .iter()
            .find(|(file, _)| file == name)
            .expect("written");
        String::from_utf8_lossy(bytes).into_owned()
    };
    let (page, list) = (of("p.html"), of("p.sol"));
    assert!(page.contains("<p>north was fixed at 3, from 4.5: Optimal: no column would make the plan cheaper, and the final check accepts it. 1 step; a fresh solve takes 1.</p>"), "{page}");
    assert!(page.contains("<dt>objective</dt><dd>-24</dd>"), "{page}");
    assert!(
        list.contains("\nObjective:  cost = -24 (MINimum)\n"),
        "{list}"
    );
    assert!(
        list.contains(
            " north        NS             3             3             =            -2 \n"
        ),
        "{list}"
    );
    // Where the last isn't Optimal there is no list.
    let words = [
        "solve", "p.mps", "--fix", "north=5", "--html", "p.html", "--sol", "p.sol",
    ];
    let (told, files) = kept::run(&words, TUNNELS);
    assert_eq!((told.exit, files.len()), (3, 1));
    assert!(String::from_utf8_lossy(&files[0].1).contains(
        "<h1>Infeasible: the solver finds no column that could take up the move of north from 4.5 to 5"
    ));
}
