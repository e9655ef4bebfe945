//! What the readers make of each format's pieces.

use crate::cli::plan::{Fault, Plan, EQ, GE, LE};
use crate::cli::source::{read, Format};
use crate::run;

const INF: f64 = f64::INFINITY;

fn plan(text: &str) -> Plan {
    let plans = read(text.as_bytes(), Format::Auto, true).expect("a plan");
    plans.into_iter().next().expect("one")
}

fn fault(text: &str) -> Fault {
    read(text.as_bytes(), Format::Auto, false).expect_err("a fault")
}

fn with_bounds(lines: &str) -> Plan {
    plan(&format!(
        "NAME\nROWS\n N c\n L r\nCOLUMNS\n x c 1 r 1\n M1 'MARKER' 'INTORG'\n i r 1\n M2 'MARKER' 'INTEND'\nBOUNDS\n{lines}ENDATA\n"
    ))
}

#[test]
fn bounds_of_every_kind() {
    for (lines, x) in [
        ("", (0.0, INF)),
        (" UP B x 4\n", (0.0, 4.0)),
        (" UP B x 0\n", (0.0, 0.0)),
        (" UP B x -4\n", (-INF, -4.0)),
        (" UP B x -4\n LO B x -9\n", (-9.0, -4.0)),
        (" LO B x 0\n UP B x -4\n", (0.0, -4.0)),
        (" LO B x -2.5\n", (-2.5, INF)),
        (" FX B x 3\n", (3.0, 3.0)),
        (" FR B x\n", (-INF, INF)),
        (" FR x\n", (-INF, INF)),
        (" FR B x 1e+30\n", (-INF, INF)),
        (" MI B x\n", (-INF, INF)),
        (" MI B x -1e+30\n UP B x 7\n", (-INF, 7.0)),
        (" UP B x 5\n PL B x\n", (0.0, INF)),
        (" BV B x\n", (0.0, 1.0)),
        (" LI B x 2\n UI B x 8\n", (2.0, 8.0)),
        (" UP x 6\n", (0.0, 6.0)),
        (" UP B x 1e30\n LO B x -1e20\n", (-INF, INF)),
        (" up B x 4\n", (0.0, 4.0)),
    ] {
        let plan = with_bounds(lines);
        assert_eq!((plan.lowers[0], plan.uppers[0]), x, "{lines}");
        // A whole column of which no bound is given.
        assert_eq!((plan.lowers[1], plan.uppers[1]), (0.0, 1.0));
    }
    assert_eq!(with_bounds(" PL B i\n").uppers[1], INF);
}

#[test]
fn ranges_become_two_rows() {
    for (kind, range, wanted) in [
        ("L", "5", vec![(LE, 8.0), (GE, 3.0)]),
        ("L", "-5", vec![(LE, 8.0), (GE, 3.0)]),
        ("G", "5", vec![(LE, 13.0), (GE, 8.0)]),
        ("G", "-5", vec![(LE, 13.0), (GE, 8.0)]),
        ("E", "5", vec![(LE, 13.0), (GE, 8.0)]),
        ("E", "-5", vec![(LE, 8.0), (GE, 3.0)]),
        ("E", "0", vec![(EQ, 8.0)]),
    ] {
        let plan = plan(&format!(
            "NAME\nROWS\n N c\n {kind} r\n L s\nCOLUMNS\n x c 1 r 2\n y r 3 s 4\nRHS\n R r 8\nRANGES\n G r {range}\nENDATA\n"
        ));
        let rows: Vec<(u8, f64)> = plan.ops.iter().copied().zip(plan.rhs.clone()).collect();
        assert_eq!(rows[..wanted.len()], wanted, "{kind} {range}");
        assert_eq!(rows.len(), wanted.len() + 1);
        for i in 0..wanted.len() {
            assert_eq!(plan.row(i), Some((&[0, 1][..], &[2.0, 3.0][..])));
            assert_eq!(plan.row_names[i], "r");
        }
        assert_eq!(plan.entries, 2 * wanted.len() + 1);
    }
}

#[test]
fn the_sense_in_every_layout() {
    let rest = "ROWS\n N c\n L r\nCOLUMNS\n x c 3 r 1\nENDATA\n";
    for (lines, maximise) in [
        ("", false),
        ("OBJSENSE MAX\n", true),
        ("OBJSENSE\n    MAX\n", true),
        ("OBJSENSE\n    MAXIMIZE\n", true),
        ("OBJSENSE\nMAX\n", true),
        ("OBJSENSE\n    MIN\n", false),
        ("OBJSENSE maximise\n", true),
    ] {
        let plan = plan(&format!("NAME t\n{lines}{rest}"));
        assert_eq!(plan.maximise, maximise, "{lines}");
        assert_eq!(plan.costs, [if maximise { -3.0 } else { 3.0 }]);
    }
}

#[test]
fn several_objectives_and_sets() {
    let text = "NAME t\nROWS\n N a\n N b\n L r\nCOLUMNS\n x a 1 b 2\n x r 3\nRHS\n R1 r 5 a -7\n R2 r 6\nENDATA\n";
    let first = plan(text);
    assert_eq!(
        (first.costs[0], first.rhs[0], first.constant),
        (1.0, 5.0, 7.0)
    );
    assert_eq!(first.notes.len(), 2, "{:?}", first.notes);
    let named = plan(&text.replace("ROWS", "OBJNAME\n b\nROWS"));
    assert_eq!((named.costs[0], named.constant), (2.0, 0.0));
}

/// The objective's right side: its sign turned, but not in glpsol's own files.
#[test]
fn the_constant() {
    let text = "NAME t\nROWS\n N c\nCOLUMNS\n x c 1\nRHS\n R c -7\nENDATA\n";
    assert_eq!(plan(text).constant, 7.0);
    assert_eq!(
        plan(&format!("* Format:     Free MPS\n{text}")).constant,
        -7.0
    );
}

/// glpsol writes such comments behind empty columns.
#[test]
fn comments_behind_fields() {
    let plan = plan("NAME\nROWS\n N c\n L r\nCOLUMNS\n x c 1 $ r 1\n y r 0 $ empty\nENDATA\n");
    assert_eq!((plan.columns, plan.entries, plan.costs[0]), (2, 1, 1.0));
}

#[test]
fn fixed_names_with_blanks() {
    let plan = plan(include_str!("data/blanks.mps"));
    assert_eq!(plan.column_names, ["TUNNEL A", "TUNNEL B"]);
    assert_eq!(plan.row_names, ["AIR ONE", "AIR ONE", "LOW END", "SAME"]);
    assert_eq!(plan.name, "BLANK NAMES");
    assert_eq!(plan.rhs, [30.0, -5.0, -4.0, 0.0]);
}

/// In fixed columns a name that is left out is that of the line before: a column's, or a set's.
#[test]
fn fixed_names_left_out() {
    let text = "\
NAME          LEFT OUT
ROWS
 N  COST
 L  AIR
 L  MAST
COLUMNS
    NORTH     COST              -6.0   AIR                2.0
              MAST               1.0
    SOUTH     COST              -2.0
              AIR                1.0   MAST               1.0
RHS
    RHS1      AIR                9.0
              MAST               7.0
    RHS2      AIR               99.0
              MAST              77.0
BOUNDS
 UP BND1      NORTH              4.0
 LO           NORTH              1.0
 UP           SOUTH              5.0
ENDATA
";
    let plan = plan(text);
    assert_eq!(plan.column_names, ["NORTH", "SOUTH"]);
    assert_eq!((plan.costs, plan.rhs), (vec![-6.0, -2.0], vec![9.0, 7.0]));
    assert_eq!((plan.lowers, plan.uppers), (vec![1.0, 0.0], vec![4.0, 5.0]));
    assert_eq!(
        (plan.cols, plan.coeffs),
        (vec![0, 1, 0, 1], vec![2.0, 1.0, 1.0, 1.0])
    );
    assert!(plan.notes[0].contains("RHS"), "{:?}", plan.notes);

    // Nothing stands before it.
    let first = text.replace("    NORTH     COST", "              COST");
    let told = run(
        &["solve", "t.mps", "--format", "fixed-mps"],
        first.as_bytes(),
    );
    assert!(
        told.err
            .contains(":7: expected a column's name, then rows and numbers"),
        "{}",
        told.err
    );
}

#[test]
fn the_same_plan_as_mps_and_lp() {
    let mps = plan(include_str!("data/highs.mps"));
    let lp = plan(include_str!("data/gateway.lp"));
    assert_eq!(mps.column_names, lp.column_names);
    assert_eq!(mps.row_names, lp.row_names);
    assert_eq!(
        (mps.costs, mps.lowers, mps.uppers),
        (lp.costs, lp.lowers, lp.uppers)
    );
    assert_eq!(
        (mps.starts, mps.cols, mps.coeffs),
        (lp.starts, lp.cols, lp.coeffs)
    );
    assert_eq!(
        (mps.ops, mps.rhs, mps.constant),
        (lp.ops, lp.rhs, lp.constant)
    );
}

#[test]
fn lp_pieces() {
    let plan = plan(
        "min x + 2y\nst\n 3 x + x - 2e1 z >= -4 c2: y = 2 \\ a comment\n -1 <= z\nBounds\n x <= -3 -inf <= y <= +inf 2 >= z\n z >= -Inf\nGenerals\n x\nBinaries y\nEnd",
    );
    assert_eq!(plan.column_names, ["x", "y", "z"]);
    assert_eq!(plan.row(0), Some((&[0, 2][..], &[4.0, -20.0][..])));
    assert_eq!(
        (plan.ops.clone(), plan.rhs.clone()),
        (vec![GE, EQ, GE], vec![-4.0, 2.0, -1.0])
    );
    assert_eq!(plan.lowers, [0.0, 0.0, -INF]);
    assert_eq!(plan.uppers, [-3.0, 1.0, 2.0]);
    assert_eq!(plan.row_names, ["R1", "c2", "R3"]);
}

/// Whole columns are refused by default, at their line.
#[test]
fn whole_columns() {
    let what = |name: &str| {
        format!("column `{name}` is to be whole, which this solver doesn't keep; --relax solves the plan with fractions allowed")
    };
    assert_eq!(
        fault(include_str!("data/whole.mps")),
        Fault::new(8, what("i"))
    );
    let lp = "max\n x + y\nst\n x + y <= 4\nint\n y\nend\n";
    assert_eq!(fault(lp), Fault::new(6, what("y")));
}

#[test]
fn faults_name_their_line() {
    let head = "NAME t\nROWS\n N c\n L r\nCOLUMNS\n x c 1 r 1\n";
    for (text, line, what) in [
        ("", 0, "the file is empty"),
        ("\n\n* a comment\n", 0, "the file is empty"),
        ("hello\n", 1, "expected NAME or ROWS (MPS), Minimize or Maximize (LP) or plan (the project's own text), found `hello`"),
        ("NAME t\nROWS\n X r\n", 3, "expected a row's kind N, L, G or E, found `X`"),
        ("NAME t\nROWS\n L r\n L r\n", 4, "row `r` stands twice"),
        (&format!("{head} x q 1\n"), 7, "expected a row named in ROWS, found `q`"),
        (&format!("{head} x r 1\n"), 7, "column `x` has row `r` twice"),
        (&format!("{head} y r 1\n x c 1\n"), 8, "column `x` stands twice, with others between"),
        (&format!("{head} y r one\n"), 7, "expected a number, found `one`"),
        (&format!("{head}RHS\n R r 1\n R r 1\n"), 9, "row `r` stands twice in this section"),
        (&format!("{head}BOUNDS\n UP B q 1\n"), 8, "expected a column named in COLUMNS, found `q`"),
        (&format!("{head}BOUNDS\n XX B x 1\n"), 8, "expected a bound's kind UP, LO, FX, FR, MI, PL, BV, LI or UI, found `XX`"),
        (&format!("{head}BOUNDS\n SC B x 1\n"), 8, "a semi-continuous bound is no part of a linear program"),
        (&format!("{head}BOUNDS\n UP B x\n"), 8, "expected a column named in COLUMNS, found `B`"),
        (&format!("{head}QUADOBJ\n"), 7, "section QUADOBJ is no part of a linear program"),
        (&format!("{head}RSH\n"), 7, "expected a section (NAME, OBJSENSE, ROWS, COLUMNS, RHS, RANGES, BOUNDS or ENDATA), found `RSH`"),
        (head, 6, "expected ENDATA, found the end of the file"),
        ("NAME t\nOBJSENSE\n UP\n", 3, "expected MAX or MIN, found `UP`"),
        ("plan\n", 1, "expected one name behind `plan`, found `plan`"),
        ("plan a\ndims 1 1\n", 2, "expected columns, rows, entries, budget and tolerance behind `dims`, found `1 1`"),
        ("plan a\ncost 1\n", 2, "expected the 16 hex digits of a double, found `1`"),
        ("plan a\nops 256\n", 2, "expected a comparison from 0 to 255, found `256`"),
        ("plan a\nstarts -1\n", 2, "expected a whole number, found `-1`"),
        ("plan a\ncosts\n", 2, "expected dims, cost, lower, upper, starts, cols, coef, ops, rhs, room, short or end, found `costs`"),
        ("plan a\n\n", 2, "expected `end`, found the end of the file"),
        ("max x\nst\n x + <= 4\nend", 3, "expected a number or a column, found `<=`"),
        ("max x\nst\n x 4\nend", 4, "expected <=, = or >=, found `end`"),
        ("max x\nst\n x <= y\nend", 3, "expected a number on the right side, found `y`"),
        ("max x\nst\n x <= 4\nbounds\n q free\nend", 5, "expected a column of the objective or a row, found `q`"),
        ("max [ x ^ 2 ]\nend", 1, "a quadratic term is no part of a linear program"),
        ("max x\nst\n x <= 4\n", 3, "expected End, found the end of the file"),
    ] {
        assert_eq!(fault(text), Fault::new(line, what), "{text}");
    }
}

#[test]
fn the_own_text() {
    let plan = plan(include_str!("data/night.txt"));
    assert_eq!(
        (plan.name.as_str(), plan.columns, plan.rows, plan.entries),
        ("N1", 1, 1, 1)
    );
    assert_eq!((plan.budget, plan.tolerance), (10_000, 1e-8));
    assert_eq!(
        (plan.costs[0], plan.uppers[0], plan.rhs[0]),
        (-1.0, INF, 4.0)
    );
    assert_eq!(
        (plan.column_name(0), plan.row_name(0)),
        ("x0".into(), "r0".into())
    );
}

/// Blanks of every alphabet, at places where a reader cuts lines.
#[test]
fn strange_blanks() {
    for blank in ["\u{3000}", "\u{a0}", "\u{b}", "\u{2028}", "\t", "\r"] {
        for text in [
            format!("{blank}\u{e9} NAME\n"),
            format!("NAME{blank}t\nROWS{blank}\n{blank}N{blank}c\n{blank}L r\u{e9}\nCOLUMNS\n"),
            format!("NAME\nROWS\n N c\nCOLUMNS\n\u{e9}{blank}x c 1 $\u{e9}{blank}$\nENDATA\n"),
            format!("max{blank}x\u{e9}\nst{blank}\u{e9}:{blank}x\u{e9}<=4{blank}end{blank}\u{e9}"),
            format!("plan{blank}\u{e9}{blank}\nend{blank}\u{e9}\n"),
        ] {
            for (_, format) in Format::NAMES {
                // Read or refused, as long as it ends.
                let _ = read(text.as_bytes(), format, true);
            }
        }
    }
}
