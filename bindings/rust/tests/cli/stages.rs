//! `tevalumi night FILE --alarms GROUP`: both stages, each answer with its sentence and exit status.

use crate::damage::{check, damage};
use crate::{run, Rng};

const NIGHT: &[u8] = include_bytes!("../../plans/night-as-priced.mps");

/// 9 ms of air: heat is an alarm and wants 5, a pump reports 12, half of them within its own row.
const OWN: &str = "NAME own
ROWS
 N cost
 L air
 L full.n
COLUMNS
 heat.n cost -3 air 1
 pump.n cost -20 air 1
 pump.n full.n 2
 odd cost -1 air 1
RHS
 R air 9 full.n 12
BOUNDS
 UP B heat.n 5
 UP B odd 2
ENDATA
";

fn told(text: &str, more: &[&str]) -> (u8, String, String) {
    let words = [&["night", "n.mps", "--alarms", "heat"], more].concat();
    let told = run(&words, text.as_bytes());
    (told.exit, told.out, told.err)
}

/// The frost night: every alarm is sent, with its bound.
#[test]
fn the_frost_night() {
    let told = run(&["night", "n.mps", "--alarms", "alarm"], NIGHT);
    assert_eq!((told.exit, told.err.as_str()), (0, ""));
    let lines: Vec<&str> = told.out.lines().collect();
    assert!(
        lines[0].starts_with("night-as-priced: alarm: 25 of 25 whole, 0 cut; soil: "),
        "{}",
        lines[0]
    );
    assert_eq!(
        lines[1..3],
        [
            "No plan, whole or fractional, has alarms worth more.",
            "None that keeps the alarms has reports worth more."
        ]
    );
    let table = told.out.lines().filter(|line| line.contains('/'));
    assert_eq!(table.count(), 40);
    let bundled = run(&["night"], b"");
    for sentence in [
        "Alarms first: 25 of 25 alarms are sent whole, 0 lose milliseconds.",
        lines[1],
        lines[2],
        "So no rounding lost the alarms: the prices did.",
    ] {
        assert!(bundled.out.contains(sentence), "{}", bundled.out);
    }
    assert!(bundled.out.lines().all(|line| line.chars().count() <= 80));
}

/// The pump has no upper bound, but a row of its own: without the bound that this implies the second stage couldn't begin.
#[test]
fn text_of_a_night() {
    let wanted = "\
own: heat: 1 of 1 whole, 0 cut; pump: 0 of 1 whole, 1 cut.
No plan, whole or fractional, has alarms worth more.
None that keeps the alarms has reports worth more.

unit  heat (got of wanted)     pump (got of wanted)
n     ████████ 5/5             ▒▒▒▒▒··· 4/6
Full: air, alarms

Why reports are cut: pump gets 4 of 6. These rows are full; with 1 more of one
the reports could be worth more by at most what it gives:

row  right side  alarms take  1 more gives
air           9            5          20.0

Were the alarms worth 1 less, the reports could be worth more by 6.6669921875 at
most.
";
    let (exit, out, err) = told(OWN, &[]);
    assert_eq!((exit, out.as_str(), err.as_str()), (0, wanted, ""));
    // The same plan maximised, and both sheets in full.
    let turned = OWN.replace("cost -", "cost ");
    assert_eq!(told(&turned, &["--max"]).1, wanted);
    let (_, sheets, _) = told(OWN, &["--sheets"]);
    assert!(sheets.starts_with(wanted), "{sheets}");
    for piece in [
        "\nStage 1: the alarms alone\n\nrow ",
        "\nThis whole plan, which costs -15, is the cheapest one: no plan, whole or fractional, is cheaper.\n",
        "\nStage 2: the rest, with what the alarms have\n\nrow ",
        "\nalarms       -15  <=         -15  -6.6669921875\n",
    ] {
        assert!(sheets.contains(piece), "{piece} in {sheets}");
    }
}

#[test]
fn groups_of_alarms() {
    for (alarms, err) in [
        (
            "heart",
            "tevalumi: n.mps: expected columns named heart.UNIT, found none; --alarms names other groups\n",
        ),
        (
            "heat,heart",
            "tevalumi: n.mps: expected columns named heart.UNIT, found none; --alarms names other groups\n",
        ),
    ] {
        let told = run(&["night", "n.mps", "--alarms", alarms], OWN.as_bytes());
        assert_eq!((told.exit, told.err.as_str(), told.out.as_str()), (2, err, ""));
    }
    for alarms in ["", "a,,b", "a,b,c,d"] {
        let told = run(&["night", "n.mps", "--alarms", alarms], OWN.as_bytes());
        let says = "expected one to three names, parted by commas, behind --alarms";
        assert!(told.err.contains(says), "{}", told.err);
    }
    // Both groups first: what is left are the reports of no group.
    let both = run(&["night", "n.mps", "--alarms=pump,heat"], OWN.as_bytes());
    let says = "own: pump: 1 of 1 whole, 0 cut; heat: 0 of 1 whole, 1 cut.\n";
    assert!(both.out.starts_with(says), "{}", both.out);
    assert_eq!(both.exit, 0);
    // Only some groups are told of.
    let (_, out, _) = told(OWN, &["--groups", "pump"]);
    assert!(
        out.starts_with("own: pump: 0 of 1 whole, 1 cut.\n"),
        "{out}"
    );
    assert!(!out.contains("heat"), "{out}");
    // The bundled night has its own.
    let told = run(&["night", "--alarms", "alarm"], b"");
    assert!(
        told.err.starts_with("tevalumi: expected a file"),
        "{}",
        told.err
    );
}

/// A plan of so many columns heat.k from 0 to 1, alarms at this cost, with these rows behind each other.
fn made(columns: usize, cost: &str, rows: usize, entries: bool, upper: &str) -> String {
    let mut text = "NAME made\nROWS\n N cost\n".to_string();
    for i in 0..rows {
        text += &format!(" L r{i}\n");
    }
    text += "COLUMNS\n";
    for j in 0..columns {
        text += &format!(" heat.{j} cost {cost}\n");
        for i in (0..rows).filter(|&i| entries || j == 0 || i == 0) {
            text += &format!(" heat.{j} r{i} 1\n");
        }
    }
    text += "RHS\n";
    for i in 0..rows {
        text += &format!(" R r{i} 1000000000\n");
    }
    text += "BOUNDS\n";
    for j in 0..columns {
        text += &format!(" UP B heat.{j} {upper}\n");
    }
    text + "ENDATA\n"
}

/// Every answer that hands nothing out: its number, its sentence, and the exit status.
#[test]
fn nothing_is_handed_out() {
    let endless = OWN
        .replace(" UP B heat.n 5\n", "")
        .replace("air 9", "air 70000");
    let half = OWN
        .replace(" L air", " E air")
        .replace(" heat.n cost -3 air 1", " heat.n cost -3 air 2")
        .replace(
            " UP B heat.n 5",
            " UP B heat.n 9\n FX B pump.n 0\n FX B odd 0",
        );
    for (text, more, exit, says) in [
        (
            OWN.replace("UP B heat.n 5", "UP B heat.n 5\n LO B heat.n 9"),
            &[][..],
            1,
            "own: nothing is handed out (1, no gap).\nThe first stage, the alarms alone, shows no gap. Status 4, refused: column\nheat.n has the lower bound 9 above the upper bound 5.\n",
        ),
        (
            made(129, "-1", 1, false, "1"),
            &[],
            1,
            "made: nothing is handed out (1, no gap).\nThe first stage, the alarms alone, shows no gap. Status 1, refused: 129 columns\nare more than 128.\n",
        ),
        (
            OWN.replace("air 9", "air 4"),
            &["--budget", "0"],
            3,
            "own: nothing is handed out (1, no gap).\nThe first stage, the alarms alone, shows no gap. Status 21, Spent: 0 steps were\ntaken, as many as the budget has, and another would follow.\n",
        ),
        (
            endless,
            &[],
            4,
            "own: nothing is handed out (1, no gap).\nThe first stage, the alarms alone, shows no gap. A number doesn't fit the sheet:\nthe amount of column heat.n is 70000, over 65536.\n",
        ),
        (
            half,
            &[],
            4,
            "own: nothing is handed out (1, no gap).\nThe first stage, the alarms alone, shows no gap. The whole amounts that were\nfound aren't a plan (1 row is broken), so the sheet says nothing about other\nplans.\n",
        ),
        (
            made(2, "-1", 96, false, "1"),
            &[],
            4,
            "made: nothing is handed out (2, rows full).\nThe plan has 96 rows, as many as there may be, and the alarms need one more.\n",
        ),
        (
            made(128, "-1", 16, true, "1"),
            &[],
            4,
            "made: nothing is handed out (3, entries full).\nThe plan has 2048 entries, and with the alarms' row there would be 2176, more\nthan 2048.\n",
        ),
        (
            made(2, "-4097", 1, false, "1"),
            &[],
            4,
            "made: nothing is handed out (4, cost beyond).\nThe alarm cost of column heat.0 is -4097, over 4096 in size, so that it can't\nstand in the alarms' row.\n",
        ),
        (
            made(9, "-4096", 1, false, "65536"),
            &[],
            4,
            "made: nothing is handed out (5, found beyond).\nThe alarms cost -2415919104, over 2147483648 in size, so that it can't be their\nrow's right side.\n",
        ),
    ] {
        let (status, out, err) = told(&text, more);
        assert_eq!((status, out.as_str(), err.as_str()), (exit, says, ""));
        let (status, json, _) = told(&text, &[more, &["--json"]].concat());
        assert_eq!(status, exit);
        let says = says.trim_end().replace('\n', " ");
        assert!(json.contains(&format!(",\"sentence\":\"{says}\"")), "{json}");
        assert!(json.contains(",\"amounts\":null,\"first\":{\"status\":"), "{json}");
    }
    // A maximised plan is told in its own numbers.
    for (text, says) in [
        (made(2, "4097", 1, false, "1"), "heat.0 is 4097, over 4096"),
        (
            made(9, "4096", 1, false, "65536"),
            "alarms are worth 2415919104, over",
        ),
    ] {
        let (exit, out, _) = told(&text, &["--max"]);
        assert!(exit == 4 && out.contains(says), "{out}");
    }
    let (exit, _, err) = told(OWN, &["--groups", "none", "--budget", "0"]);
    assert_eq!(exit, 2);
    assert!(
        err.contains("expected columns named none.UNIT, found none"),
        "{err}"
    );
    let (exit, out, err) = told(&OWN.replace("cost -3", "cost -3.5"), &[]);
    assert_eq!((exit, out.as_str()), (2, ""));
    assert_eq!(err, "tevalumi: n.mps: plan own isn't in whole numbers within the sheet's limits: the cost of column heat.n is -3.5\n");
}

/// The second stage gives no plan, or no floor.
#[test]
fn less_than_two_gaps() {
    let endless = OWN.replace(" UP B odd 2\n", "");
    let (exit, out, _) = told(&endless, &["--short"]);
    let says = "\
own: heat: 1 of 1 whole, 0 cut; pump: 0 of 1 whole, 1 cut.
No plan, whole or fractional, has alarms worth more.
These amounts are those of the alarms alone (6, the first stands), for the
second stage gives no plan. Status 7, refused: row alarms is broken at the start
(0 <= -15), and column odd has no upper bound, which its cost prefers: a plain
solve begins where every row is kept, or where every column has such a bound.
There may be a plan all the same.

unit  heat (got of wanted)     pump (got of wanted)
n     ████████ 5/5             ········ 0/6
Every other unit gets all that it wants: 0.
No shared row is full.
";
    assert_eq!((exit, out.as_str()), (4, says));
    // A third of a ms of odd is what a ms of air is worth: no multiplier of 1/1024 is, and odd has no bound.
    let floorless = endless
        .replace(" UP B heat.n 5", " FX B heat.n 5")
        .replace(" odd cost -1 air 1", " odd cost -1 air 3")
        .replace("pump.n cost -20", "pump.n cost 20");
    let (exit, out, _) = told(&floorless.replace("air 9", "air 8"), &[]);
    let says = "\nThe audit of the reports shows no gap: how good they are isn't known.\n";
    assert!(out.contains(says), "{out}");
    assert_eq!(exit, 4);
}

/// What stands in the file stays: a bound is added only where it is whole, above the lower one and not there.
#[test]
fn implied_bounds() {
    for (text, ends) in [
        // 11 / 2 isn't whole, so the second stage isn't begun.
        (OWN.replace("full.n 12", "full.n 11"), "the first stands"),
        (
            OWN.replace("pump.n full.n 2", "pump.n full.n -2"),
            "the first stands",
        ),
        (OWN.replace(" L full.n", " G full.n"), "the first stands"),
        (
            OWN.replace("full.n 12", "full.n 11")
                .replace("UP B odd 2", "UP B odd 2\n UP B pump.n 6"),
            "handed",
        ),
        (OWN.replace("full.n 12", "full.n 131072"), "handed"),
        (
            OWN.replace("full.n 12", "full.n 131074"),
            "the first stands",
        ),
    ] {
        let (_, json, _) = told(&text, &["--json"]);
        assert!(
            json.contains(&format!(",\"name\":\"{ends}\",\"sentence\"")),
            "{json}"
        );
    }
}

/// The object's own fields.
#[test]
fn json() {
    let (exit, json, _) = told(OWN, &["--json"]);
    assert_eq!(exit, 0);
    for piece in [
        "{\"version\":2,\"file\":\"n.mps\",\"plan\":\"own\",\"sense\":\"minimise\",\"notes\":[],\"alarms\":[\"heat\"],\"case\":7,\"name\":\"handed\",\"sentence\":",
        ",\"alarm_cost\":-15,\"alarm_gap_1024\":0,\"amounts\":[5,4,0],\"first\":{\"status\":0,\"name\":\"Optimal\",",
        ",\"audit\":\"judged\",\"sentence\":",
        ",\"sheet\":{\"amounts\":[5,0,0],",
        "},\"second\":{\"status\":0,",
        ",\"full\":[{\"row\":\"air\",\"right\":9,\"alarms\":5,\"gives_1024\":20480}],\"alarms_give_1024\":6827,",
        ",\"units\":[{\"unit\":\"n\",\"heat\":{\"wanted\":5.0,\"got\":5.0},\"pump\":{\"wanted\":6.0,\"got\":4.0}}]}\n",
    ] {
        assert!(json.contains(piece), "{piece} in {json}");
    }
}

/// Nothing crashes on a damaged night, and every line of JSON is whole.
#[test]
fn damaged_nights() {
    let mut ends = [0; 5];
    for seed in 0..3_000 {
        let mut rng = Rng(seed);
        let mut file = match rng.below(4) {
            0 => NIGHT.to_vec(),
            _ => OWN.replace("heat", "alarm").into_bytes(),
        };
        for _ in 0..=rng.below(3) {
            damage(&mut file, &mut rng);
        }
        let words = ["night", "damaged", "--alarms", "alarm", "--relax", "--json"];
        let told = run(&words, &file);
        check(seed, &told, true);
        let more = [["--short", "--sheets"], ["--html", "page"]][rng.below(2)];
        let text = run(&[&words[..5], &more].concat(), &file);
        assert_eq!(text.exit, told.exit, "seed {seed}");
        ends[usize::from(told.exit)] += 1;
    }
    assert!(ends.iter().all(|&count| count > 10), "{ends:?}");
}
