//! What solve and audit say of plans whose answers are known.

use crate::run;

const NIGHT: &[u8] = include_bytes!("data/night.txt");

fn mps(rows: &str, columns: &str, rhs: &str, bounds: &str) -> Vec<u8> {
    let bounds = format!("BOUNDS\n{bounds}");
    format!("NAME t\nROWS\n N c\n{rows}COLUMNS\n{columns}RHS\n{rhs}{bounds}ENDATA\n").into_bytes()
}

/// Document 01's N1 and N2, with their budgets.
#[test]
fn the_night_cases() {
    let told = run(&["solve", "night.txt", "--json"], NIGHT);
    let lines: Vec<&str> = told.out.lines().collect();
    for (line, name, wanted) in [
        (lines[0], "N1", "\"status\":0,"),
        (lines[1], "N1-budget-0", "\"status\":21,"),
        (lines[2], "N2", "\"objective\":-12.0,\"steps\":2"),
        (lines[3], "N2-budget-1", "\"objective\":-8.0,\"steps\":1"),
        (lines[4], "N3", "\"status\":20,"),
    ] {
        assert!(line.contains(&format!("\"plan\":\"{name}\"")), "{line}");
        assert!(line.contains(wanted), "{line}");
    }
    // The largest of several.
    assert_eq!(told.exit, 3);
}

#[test]
fn bits() {
    let told = run(&["solve", "night.txt", "--bits"], NIGHT);
    assert!(told.out.contains("objective  -4  c010000000000000\n"));
    assert!(
        told.out
            .contains("\nx0          4  4010000000000000      0"),
        "{}",
        told.out
    );
    let told = run(&["solve", "night.txt", "--bits", "--json"], NIGHT);
    assert!(told.out.contains("\"objective_bits\":\"c010000000000000\""));
    assert!(told
        .out
        .contains("{\"name\":\"x0\",\"value\":4.0,\"bits\":\"4010000000000000\",\"lower\":0.0,\"upper\":null,"));
}

/// x ends 2^-30 above its bound 1: with that tolerance it is accepted, with the double below it isn't.
#[test]
fn the_largest_excess() {
    let plan = |tolerance: &str| {
        format!(
            "plan past\ndims 2 2 3 10 {tolerance}\ncost 4059000000000000 c049800000000000\n\
             lower fff0000000000000 0000000000000000\nupper 3ff0000000000000 7ff0000000000000\n\
             starts 0 2 3\ncols 0 1 1\ncoef 3ff0000000000000 bfe0000000000000 3ff0000000000000\n\
             ops 2 0\nrhs 3e10000000000000 4000000000000000\nend\n"
        )
        .into_bytes()
    };
    let accepted = plan("3e10000000000000");
    let told = run(&["solve", "past.txt"], &accepted);
    assert!(told.out.contains(
        "0, Optimal: no column would make the plan cheaper, and the final check accepts it; the largest excess is 9.313225746154785e-10.\n"
    ));
    let told = run(&["solve", "past.txt", "--bits", "--json"], &accepted);
    assert!(told
        .out
        .contains("\"excess\":9.313225746154785e-10,\"excess_bits\":\"3e10000000000000\""));
    let rejected = plan("3e0fffffffffffff");
    let told = run(&["solve", "past.txt"], &rejected);
    assert!(told.out.contains(
        "24, Rejected: the final check finds column x0 out of its bounds; the largest excess is 9.313225746154785e-10.\n"
    ));
    // Where nothing exceeds 0 the sentence says nothing of it, and other answers have no such field.
    let told = run(&["solve", "night.txt", "--json"], NIGHT);
    let lines: Vec<&str> = told.out.lines().collect();
    assert!(lines[0].contains("accepts it.\"") && lines[0].contains("\"excess\":0.0"));
    assert!(!lines[1].contains("excess"));
}

/// A price or a coefficient under 1e-8 counts as 0, and the sentence says so wherever that decides.
#[test]
fn where_eps_decides() {
    // 9 cheaper is at hand: x could be 1e9, but for its price.
    let price = mps(" L r\n", " x c -9e-9 r 1\n", " RHS r 1e9\n", "");
    let told = run(&["solve", "t.mps"], &price);
    assert!(
        told.out.contains("status     0, Optimal but for prices under 1e-8 in size: that of column x, -9e-9, counts as 0; no other would make the plan cheaper, and the final check accepts it.\n"),
        "{}",
        told.out
    );
    let told = run(
        &["solve", "t.mps", "--max"],
        &mps(" L r\n", " x c 9e-9 r 1\n", " RHS r 1e9\n", ""),
    );
    assert!(
        told.out
            .contains("that of column x, 9e-9, counts as 0; no other would make the plan better,"),
        "{}",
        told.out
    );
    // As a bound, x begins there, and nothing is left to say.
    let bound = mps(
        " L r\n",
        " x c -9e-9 r 1\n",
        " RHS r 1e10\n",
        " UP B x 1e9\n",
    );
    let told = run(&["solve", "t.mps"], &bound);
    assert!(
        told.out
            .contains("status     0, Optimal: no column would make the plan cheaper,"),
        "{}",
        told.out
    );
    assert!(told.out.contains("\nobjective  -9\n"), "{}", told.out);

    // x could be 1.1e8 at most, but for the row's coefficient.
    let coefficient = mps(" L r\n", " x c -1 r 9e-9\n", " RHS r 1\n", "");
    let told = run(&["solve", "t.mps"], &coefficient);
    assert!(
        told.out.contains("status     20, Unbounded: a column would make the plan cheaper, and no bound and no row whose coefficient there is at least 1e-8 in size stops it, so the cost is taken to fall without end.\n"),
        "{}",
        told.out
    );
    assert_eq!(told.exit, 3);

    // A free column of cost 0 has nothing to gain, in a row or in none.
    for row in ["r", "s"] {
        let columns = format!(" x c -1 r 1\n f {row} 1\n");
        let free = mps(" L r\n L s\n", &columns, " RHS r 4 s 4\n", " FR B f\n");
        let told = run(&["solve", "t.mps"], &free);
        match row {
            "r" => assert!(
                told.out.contains("20, Unbounded: a column would"),
                "{}",
                told.out
            ),
            _ => {
                assert!(
                    told.out.contains("0, Optimal: no column would make"),
                    "{}",
                    told.out
                );
                assert!(told.out.contains("\nobjective  -4\n"), "{}", told.out);
            }
        }
    }
}

/// 26 names the row, what is out of its bounds there, and EPS. Where a sheet shows nothing, no word is said
/// of there being no plan: b could be 1e9, but for its coefficient of 1e-9 beside a.
#[test]
fn a_row_that_nothing_mends() {
    let tiny = mps(
        " G r\n",
        " a c 1 r 1e9\n b c 1 r 1\n",
        " RHS r 2e9\n",
        " UP B a 1\n",
    );
    for words in [["solve", "t.mps"], ["audit", "t.mps"]] {
        let told = run(&words, &tiny);
        let (_, status) = told.out.split_once('\n').unwrap();
        assert_eq!(status, "\
status     26, Infeasible: the solver finds no column that could mend row r, where column a stands at 2, above its upper bound 1: none that has room to move has a coefficient of at least 1e-8 in size there.
objective  2 after the last whole step, no result
steps      1
");
        assert_eq!(told.exit, 3);
    }
    let told = run(&["solve", "t.mps", "--json"], &tiny);
    let wanted =
        "\"status\":26,\"name\":\"Infeasible\",\"sentence\":\"Infeasible: the solver finds";
    assert!(told.out.contains(wanted), "{}", told.out);
    let wanted = ",\"place\":{\"kind\":\"row\",\"row\":0,\"name\":\"r\"},";
    assert!(told.out.contains(wanted), "{}", told.out);
    assert!(
        told.out.ends_with(",\"objective\":2.0,\"steps\":1}\n"),
        "{}",
        told.out
    );

    // A row that is broken where the columns start, and a column below its lower bound.
    let below = mps(" L r\n", " x c 1 r 1\n", " RHS r 3\n", " LO B x 5\n");
    let told = run(&["solve", "t.mps"], &below);
    assert!(
        told.out
            .contains("could mend row r, which is broken (5 <= 3): none"),
        "{}",
        told.out
    );
    let below = mps(
        " L r\n",
        " x c -1 r 1\n",
        " RHS r 3\n",
        " LO B x 5\n UP B x 9\n",
    );
    let told = run(&["solve", "t.mps"], &below);
    assert!(
        told.out.contains(
            "could mend row r, where column x stands at 3, below its lower bound 5: none"
        ),
        "{}",
        told.out
    );
}

/// What is wanted is more than there is: amounts between 0 and what is wanted, and one row.
#[test]
fn more_is_wanted_than_there_is() {
    let lp = b"Maximize\n worth: 3 a + 2 b + 5 c\nSubject To\n air: a + b + c <= 900\nBounds\n a <= 50\n b <= 300\n c <= 750\nEnd\n";
    let told = run(&["solve", "t.lp"], lp);
    let wanted = "\
status     0, Optimal: no column would make the plan better, and the final check accepts it.
objective  4100
steps      1

column  value  lower  upper  cost  price  stands
a          50      0     50     3      1  at upper
b         100      0    300     2      0  basic
c         750      0    750     5      3  at upper

row  activity      right side  slack  multiplier  stands
air       900  <=         900      0           2  at upper
";
    assert!(told.out.ends_with(wanted), "{}", told.out);
    let told = run(&["audit", "t.lp"], lp);
    assert!(told.out.contains("\ngap        0.0\n"), "{}", told.out);
    let told = run(&["solve", "t.lp", "--budget", "0"], lp);
    let wanted = "21, Spent: 0 steps were taken, as many as the budget has, and another would follow.\nobjective  4500 after";
    assert!(told.out.contains(wanted), "{}", told.out);
}

fn refused(words: &[&str], file: &[u8], wanted: &str) {
    let told = run(words, file);
    assert_eq!(told.exit, 1, "{}", told.out);
    assert!(
        told.out.contains(&format!("\nstatus     {wanted}")),
        "{}",
        told.out
    );
    assert!(!told.out.contains("objective"), "{}", told.out);
}

/// Every refusal that a file can reach, with its place by name.
#[test]
fn refusals() {
    let row = " L r\n";
    let column = " x c 1 r 1\n";
    let many: String = (0..129).map(|j| format!(" x{j} c 1 r 1\n")).collect();
    for (file, wanted) in [
        (
            mps(row, &many, "", ""),
            "1, refused: 129 columns are more than 128.",
        ),
        (
            mps(row, " x c 1e400 r 1\n", "", ""),
            "2, refused: the cost of column x is inf (line 6).",
        ),
        (
            mps(row, column, " RHS r nan\n", ""),
            "2, refused: the right side of row r is NaN (line 8).",
        ),
        (
            mps(row, " x c 1 r inf\n", "", ""),
            "2, refused: the coefficient of column x in row r is inf (line 6).",
        ),
        (
            mps(row, column, "", " LO B x 1e99\n"),
            "2, refused: the lower bound of column x is inf (line 9).",
        ),
        (
            mps(row, column, "", " LO B x 3\n UP B x 2\n"),
            "4, refused: column x has the lower bound 3 above the upper bound 2.",
        ),
        (
            mps(" L r\n L empty\n", column, " RHS empty -1\n", ""),
            "5, refused: row empty has no entries, and 0 <= -1 is false.",
        ),
    ] {
        refused(&["solve", "t.mps"], &file, wanted);
    }
    for (file, wanted) in [
        (
            mps(" G r\n", " x c -1 r 1\n", " RHS r 1\n", ""),
            "7, refused: row r is broken at the start (0 >= 1), and column x has no upper bound, which its cost prefers: a plain solve begins where every row is kept, or where every column has such a bound. There may be a plan all the same.",
        ),
        (
            mps(" L r\n", " x c 0 r 1\n y c 1 r -1\n", " RHS r -1\n", " LO B x 2\n FR B y\n"),
            "7, refused: row r is broken at the start (2 <= -1), and column y has no lower bound, which its cost prefers: ",
        ),
    ] {
        refused(&["solve", "--plain", "t.mps"], &file, wanted);
    }
    let text = String::from_utf8_lossy(NIGHT).replace("cols 0\n", "cols 7\n");
    let told = run(&["solve", "t.txt"], text.as_bytes());
    assert!(told
        .out
        .contains("3, refused: entry 0 of row r0 (from 0) has a column number"));
    let text = String::from_utf8_lossy(NIGHT).replace("end\n", "short norm 0\nend\n");
    let told = run(&["solve", "t.txt"], text.as_bytes());
    assert!(told.out.contains("1, refused: an array is too short"));
    assert_eq!(told.exit, 1);
}

/// A start that neither kind of step begins at: solved with costs 0 first, and from there on with its own. The same
/// plan is refused by `--plain`.
#[test]
fn any_start() {
    // Least -x + y with x + y >= 2 and x <= 5: x has no bound on the side that its cost prefers but by a row.
    let rows = " G two\n L five\n";
    let columns = " x c -1 two 1\n x five 1\n y c 1 two 1\n";
    let file = mps(rows, columns, " RHS two 2 five 5\n", "");
    refused(
        &["solve", "--plain", "t.mps"],
        &file,
        "7, refused: row two is broken at the start (0 >= 2)",
    );
    let told = run(&["solve", "t.mps"], &file);
    let wanted = "objective  -5\nsteps      1, after 1 with costs 0\n";
    assert!(told.out.contains(wanted), "{}", told.out);
    assert_eq!(told.exit, 0);
    let told = run(&["solve", "--json", "t.mps"], &file);
    assert!(
        told.out
            .contains(",\"objective\":-5.0,\"steps\":1,\"costless_steps\":1,"),
        "{}",
        told.out
    );
    let told = run(&["audit", "t.mps"], &file);
    assert!(told.out.contains("\ngap        0.0\n"), "{}", told.out);
    // Without the last row it has no end, and with x <= 1 there is none: the run with costs 0 says so.
    let told = run(
        &["solve", "t.mps"],
        &mps(" G two\n", " x c -1 two 1\n", " RHS two 2\n", ""),
    );
    assert!(
        told.out.contains("\nstatus     20, Unbounded: "),
        "{}",
        told.out
    );
    assert_eq!(told.exit, 3);
    let columns = " x c -1 two 1\n x one 1\n";
    let file = mps(" G two\n L one\n", columns, " RHS two 2 one 1\n", "");
    let told = run(&["solve", "t.mps"], &file);
    assert!(
        told.out.contains("\nstatus     26, Infeasible: "),
        "{}",
        told.out
    );
    assert_eq!(told.exit, 3);
}

/// 02: "A broken probe sent a cost of 1e200". The message has the number and its line, in every format;
/// a cost is the file's, whatever the direction.
#[test]
fn a_number_that_is_too_large() {
    let (row, column) = (" L r\n", " x c 1 r 1\n");
    let two = " x c 1 r 1\n y c 2\n y r 3e12\n";
    let lp = |costs: &str, row: &str, bounds: &str| {
        format!("Maximize\n c: {costs}\nSubject To\n r: {row}\nBounds\n {bounds}\nEnd\n")
            .into_bytes()
    };
    let text = |field: &str, was: &str, now: &str| {
        let night = String::from_utf8_lossy(NIGHT).into_owned();
        let changed = night.replacen(&format!("\n{field} {was}"), &format!("\n{field} {now}"), 1);
        assert_ne!(changed, night);
        changed.into_bytes()
    };
    for (file, wanted) in [
        (
            mps(row, " x c 1e200 r 1\n", "", ""),
            "the cost of column x is 1e200, above 1e12 in size (line 6).",
        ),
        (
            mps(row, two, "", ""),
            "the coefficient of column y in row r is 3000000000000, above 1e12 in size (line 8).",
        ),
        (
            mps(row, column, " RHS r -1e13\n", ""),
            "the right side of row r is -10000000000000, above 1e12 in size (line 8).",
        ),
        (
            mps(row, column, "", " UP B x 1e19\n"),
            "the upper bound of column x is 1e19, above 1e12 in size (line 9).",
        ),
        (
            mps(row, column, "", " LO B x -1e19\n"),
            "the lower bound of column x is -1e19, above 1e12 in size (line 9).",
        ),
        (
            mps(row, column, " RHS r 1e12\nRANGES\n R r 3e12\n", ""),
            "the right side of row r is -2000000000000, above 1e12 in size (line 10).",
        ),
        (
            lp("x +\n -1e200 y", "x + y <= 4", "x <= 3"),
            "the cost of column y is -1e200, above 1e12 in size (line 3).",
        ),
        (
            lp("x + y", "x +\n 2e12 y <=\n 4", "x <= 3"),
            "the coefficient of column y in row r is 2000000000000, above 1e12 in size (line 5).",
        ),
        (
            lp("x + y", "x + y <=\n 2e12", "x <= 3"),
            "the right side of row r is 2000000000000, above 1e12 in size (line 5).",
        ),
        (
            lp("x + y", "x + y <= 4", "x <= 3\n -2e12 <= y <= 0"),
            "the lower bound of column y is -2000000000000, above 1e12 in size (line 7).",
        ),
        (
            text("cost", "bff0000000000000", "6974e718d7d7625a"),
            "the cost of column x0 is 1e200, above 1e12 in size (line 3).",
        ),
        (
            text("rhs", "4010000000000000", "426d1a94a2000001"),
            "the right side of row r0 is 1000000000000.0001, above 1e12 in size (line 10).",
        ),
        (
            text("ops", "0", "3"),
            "the comparison of row r0 isn't known (line 9).",
        ),
    ] {
        let told = run(&["solve", "t"], &file);
        assert!(
            told.out
                .contains(&format!("\nstatus     2, refused: {wanted}\n")),
            "{}",
            told.out
        );
    }
    // 1e12 itself, and a bound that means none.
    for file in [
        mps(
            " L r\n L s\n",
            " x c 1e12 r 1e12\n x s 1\n",
            " RHS s 1e12\n",
            " UP B x 1e12\n LO B x -1e12\n",
        ),
        mps(row, column, "", " UP B x 1e30\n"),
    ] {
        let told = run(&["solve", "t.mps"], &file);
        assert_eq!(told.exit, 0, "{}", told.out);
    }
}

#[test]
fn budget_and_tolerance() {
    let told = run(&["solve", "n", "--budget=0"], NIGHT);
    assert!(told.out.contains("21, Spent: 0 steps were taken"));
    let told = run(&["solve", "n", "--budget", "10001"], NIGHT);
    assert!(told
        .out
        .contains("1, refused: 10001 steps of budget are more than 10000."));
    let told = run(&["solve", "n", "--tol", "-1"], NIGHT);
    assert!(told
        .out
        .contains("2, refused: the tolerance -1 isn't from 0 to 1."));
}

#[test]
fn maximise_by_negation() {
    let file = mps(
        " L r\n",
        " x c 3 r 1\n y c 2 r 2\n",
        " RHS r 10 c -5\n",
        " UP B y 3\n",
    );
    let told = run(&["audit", "t.mps", "--max"], &file);
    assert!(told.out.contains("\nobjective  35\n"), "{}", told.out);
    assert!(
        told.out
            .contains("\nworth      30\nceiling    30.0\ngap        0.0\n"),
        "{}",
        told.out
    );
    assert!(told
        .out
        .ends_with("\nThis whole plan, which is worth 30 without the constant 5, is the best one: no plan, whole or fractional, is worth more.\n"));
    let told = run(&["solve", "t.mps"], &file);
    assert!(told.out.contains("\nobjective  5\n"), "{}", told.out);
}

/// Rounding down leaves a gap, printed exactly.
#[test]
fn a_gap() {
    let file = mps(" L r\n", " x c -6 r 2\n", " RHS r 9\n", "");
    let told = run(&["audit", "t.mps"], &file);
    assert!(
        told.out
            .contains("x            4      0   none    -6    0.0\n"),
        "{}",
        told.out
    );
    assert!(told
        .out
        .contains("\ncost       -24\nfloor      -27.0\ngap        3.0\n"));
    assert!(told
        .out
        .ends_with("\nThis whole plan, which costs -24, is the cheapest one to within 3.0: no plan, whole or fractional, is cheaper by more than 3.0.\n"));
    let told = run(&["audit", "t.mps", "--json"], &file);
    assert!(
        told.out.contains("\"verdict\":\"gap\",\"gap_1024\":3072,"),
        "{}",
        told.out
    );
}

/// Thirds: -341/1024 of the row isn't enough for a column with no upper bound, -342/1024 is.
#[test]
fn a_gap_of_thirds() {
    let file = mps(" L r\n", " x c -1 r 3\n", " RHS r 10\n", "");
    let told = run(&["audit", "t.mps"], &file);
    assert!(
        told.out
            .contains("\ncost       -3\nfloor      -3.33984375\ngap        0.33984375\n"),
        "{}",
        told.out
    );
    assert_eq!(told.exit, 0);
    // A column with no bound at all needs a price of exactly 0, and no whole number of 1/1024 is a third.
    let free = mps(" L r\n", " x c -1 r 3\n", " RHS r 10\n", " FR B x\n");
    let told = run(&["audit", "t.mps"], &free);
    assert!(told.out.ends_with("\nThis whole plan, which costs -3, keeps every row and bound, but the sheet has no floor (1 price needs a bound that is absent), so it doesn't say by how much another could be cheaper.\n"), "{}", told.out);
    assert!(told.out.contains("\nfloor      none\n"));
    assert_eq!(told.exit, 4);
    let told = run(&["audit", "t.mps", "--json"], &free);
    assert!(
        told.out
            .contains("\"verdict\":\"no floor\",\"gap_1024\":null,"),
        "{}",
        told.out
    );
    assert_eq!(told.exit, 4);
}

/// Ties to even would break the row; the next amount doesn't.
#[test]
fn the_nearest_amount_breaks_a_row() {
    let file = mps(" L r\n", " x c -6 r 2\n", " RHS r 11\n", "");
    let told = run(&["audit", "t.mps"], &file);
    assert!(
        told.out
            .contains("r          10  <=          11        -3.0\n"),
        "{}",
        told.out
    );
    assert!(told.out.contains("\ngap        3.0\n"), "{}", told.out);
    // The same upside down: at least 11 of what takes 2.
    let file = mps(
        " G r\n",
        " x c 6 r 2\n",
        " RHS r 11\n",
        " MI B x\n UP B x 40\n",
    );
    let told = run(&["audit", "t.mps"], &file);
    assert!(
        told.out
            .contains("r          12  >=          11         3.0\n"),
        "{}",
        told.out
    );
    assert!(told.out.contains("\ngap        3.0\n"), "{}", told.out);
}

/// The first number that isn't whole or is over its limit is named, and no sheet is shown.
#[test]
fn not_in_whole_numbers() {
    let row = " L r\n";
    for (file, wanted) in [
        (
            mps(row, " x c 1 r 0.5\n", "", ""),
            "the coefficient of column x in row r is 0.5",
        ),
        (
            mps(row, " x c 1 r 4097\n", "", ""),
            "the coefficient of column x in row r is 4097, over 4096",
        ),
        (
            mps(row, " x c 1.5 r 1\n", "", ""),
            "the cost of column x is 1.5",
        ),
        (
            mps(row, " x c 1 r 1\n", " RHS r 9\n", " LO B x 0.25\n"),
            "the lower bound of column x is 0.25",
        ),
        (
            mps(row, " x c 1 r 1\n", "", " UP B x 65537\n"),
            "the upper bound of column x is 65537, over 65536",
        ),
        (
            mps(row, " x c 1 r 1\n", " RHS r 0.1\n", ""),
            "the right side of row r is 0.1",
        ),
        (
            mps(row, " x c -1 r 1\n", " RHS r 70000\n", ""),
            "the amount of column x is 70000, over 65536",
        ),
        (
            mps(row, " x c -2000 r 1\n", " RHS r 7\n", ""),
            "the multiplier of row r in units of 1/1024 is -2048000, over 1048576",
        ),
    ] {
        let told = run(&["audit", "t.mps"], &file);
        let wanted = format!(
            "tevalumi: t.mps: plan t isn't in whole numbers within the sheet's limits: {wanted}\n"
        );
        assert_eq!((told.err, told.out, told.exit), (wanted, String::new(), 2));
    }
}

/// Two tunnels ask for 9 ms each, the air has 15, and what north sends takes air twice.
fn too_little_air() -> Vec<u8> {
    mps(
        " G north\n G south\n L air\n L spare\n",
        " x c 1 north 1\n x air 2\n y c 1 south 1\n y air 1\n z c 1.5 air 1\n z spare 1\n",
        " RHS north 9 south 9\n RHS air 15 spare 4\n",
        " UP B x 40\n",
    )
}

/// The rows and columns that count, and the sheet's own sentence. Costs aren't looked at.
#[test]
fn why_there_is_no_plan() {
    let told = run(&["why", "t.mps"], &too_little_air());
    let wanted = "\
plan       t: 3 columns, 4 rows, 6 entries, minimise

row        right side  multiplier
north  >=           9         2.0
south  >=           9         1.0
air    <=          15        -1.0

column  lower  upper  price
z           0   none    1.0

floor      12.0

With all costs 0 every plan costs 0, and none costs less than the floor.
No plan exists, whole or fractional.
";
    assert_eq!((told.out.as_str(), told.exit), (wanted, 0));
    let told = run(&["why", "t.mps", "--json"], &too_little_air());
    assert!(told.out.contains(
        ",\"why\":{\"multipliers_1024\":[2048,1024,-1024,0],\"prices_1024\":[0,0,1024],\"floor_1024\":12288,\"verdict\":\"none exists\",\"sentence\":\"No plan exists, whole or fractional.\"}}\n"
    ), "{}", told.out);
}

/// An audit says so too, behind the status; its exit status is the answer's.
#[test]
fn an_audit_says_why() {
    let told = run(&["audit", "t.mps"], &too_little_air());
    assert!(
        told.out.contains("\nstatus     26, Infeasible: the solver finds no column that could mend row air, which is broken (27 <= 15): none that has room to move has a coefficient of at least 1e-8 in size there.\nobjective  18 after the last whole step, no result\nsteps      2\n"),
        "{}",
        told.out
    );
    assert!(told
        .out
        .ends_with("less than the floor.\nNo plan exists, whole or fractional.\n"));
    assert_eq!(told.exit, 3);
    let told = run(&["audit", "t.mps", "--json"], &too_little_air());
    assert!(told.out.contains("\"verdict\":\"none exists\""));

    // An empty row that is false is a reason by itself.
    let empty = mps(" L r\n L empty\n", " x c 1 r 1\n", " RHS empty -1\n", "");
    let told = run(&["audit", "t.mps"], &empty);
    assert!(
        told.out.contains("\nempty  <=          -1        -1.0\n"),
        "{}",
        told.out
    );
}

/// Nothing is said that the sheet doesn't show.
#[test]
fn no_reason() {
    // 7 all the same: the start is no plan, but 1 is.
    let some = mps(" G r\n", " x c -1 r 1\n", " RHS r 1\n", "");
    let told = run(&["why", "t.mps"], &some);
    let wanted = "\
plan       t: 1 column, 1 row, 1 entry, minimise

Some amounts, whole or fractional, keep every row and bound.
";
    assert_eq!((told.out.as_str(), told.exit), (wanted, 3));
    let told = run(&["audit", "--plain", "t.mps"], &some);
    assert!(told.out.ends_with("There may be a plan all the same.\n"));
    let told = run(&["why", "t.mps", "--json"], &some);
    assert!(told.out.contains(",\"why\":{\"verdict\":null,"));

    let crossed = mps(" L r\n", " x c 1 r 1\n", "", " LO B x 3\n UP B x 2\n");
    let told = run(&["why", "t.mps"], &crossed);
    assert!(told.out.contains("4, refused: column x"), "{}", told.out);
    assert_eq!(told.exit, 1);

    let halves = mps(" G r\n", " x c 1 r 0.5\n", " RHS r 1\n", " UP B x 1\n");
    let told = run(&["why", "t.mps"], &halves);
    assert_eq!(told.err, "tevalumi: t.mps: plan t isn't in whole numbers within the sheet's limits: the coefficient of column x in row r is 0.5\n");
    let told = run(&["audit", "t.mps"], &halves);
    assert_eq!(told.exit, 3);
}

#[test]
fn names_are_harmless() {
    let file = mps(" L r\n", " \u{1b}[31mx\" c 1 r 1\n", "", "");
    let told = run(&["solve", "t.mps"], &file);
    assert!(told.out.contains("\\u{1b}[31mx\""), "{}", told.out);
    let told = run(&["solve", "t.mps", "--json"], &file);
    assert!(
        told.out.contains("\"name\":\"\\u001b[31mx\\\"\""),
        "{}",
        told.out
    );
}
