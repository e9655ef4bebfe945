//! `what-if`, `undo` and `replay`: the sheet's numbers changed, taken back and made again.

use std::cell::RefCell;
use std::collections::BTreeMap;
use std::ffi::{OsStr, OsString};
use std::io;

use crate::cli::{self, Files, Outcome};
use crate::Rng;

/// A disk in memory, with the bundled plan of two tunnels.
#[derive(Default)]
struct Disk(RefCell<BTreeMap<OsString, Vec<u8>>>);

impl Files for Disk {
    fn read(&self, file: &OsStr, _: usize) -> io::Result<Vec<u8>> {
        let missing = || io::Error::from(io::ErrorKind::NotFound);
        self.0.borrow().get(file).cloned().ok_or_else(missing)
    }

    fn unpack(&self, _: &[u8], _: usize) -> io::Result<Vec<u8>> {
        Err(io::Error::from(io::ErrorKind::NotFound))
    }

    fn keep(&self, file: &OsStr, bytes: &[u8]) -> io::Result<()> {
        self.0
            .borrow_mut()
            .insert(file.to_os_string(), bytes.to_vec());
        Ok(())
    }
}

impl Disk {
    fn new() -> Disk {
        let disk = Disk::default();
        let plan = include_bytes!("../../plans/two-tunnels.mps");
        disk.keep(OsStr::new("plan.mps"), plan).expect("in memory");
        disk
    }

    fn run(&self, command: &str) -> Outcome {
        let words: Vec<OsString> = command.split_whitespace().map(OsString::from).collect();
        cli::run(&words, self)
    }

    /// What a command that works prints.
    fn says(&self, command: &str) -> String {
        let told = self.run(command);
        assert_eq!((told.exit, told.err.as_str()), (0, ""), "{command}");
        told.out
    }

    fn file(&self, name: &str) -> Vec<u8> {
        self.read(OsStr::new(name), 0).expect("the file is there")
    }
}

/// The tables and the verdict, without the lines that say what was done.
fn sheet(text: &str) -> &str {
    text.split_once("\n\n").map_or("", |(_, rest)| rest)
}

#[test]
fn a_number_is_changed() {
    let disk = Disk::new();
    let text = disk.says("what-if plan.mps --set amount:south=0");
    let wanted = "
edit       amount of south from 1 to 0
moved      activity of air from 9 to 8
moved      cost from -26 to -24
verdict    gap 3.0, before gap 1.0

";
    assert!(text.contains(wanted), "{text}");
    assert!(text.ends_with(
        "\nThis whole plan, which costs -24, is the cheapest one to within 3.0: no plan, whole or fractional, is cheaper by more than 3.0.\n"
    ));
    // With no change it is what audit shows.
    let (is, was) = (disk.says("what-if plan.mps"), disk.says("audit plan.mps"));
    assert_eq!(sheet(&is), sheet(&was));
}

/// Each change has its own verdicts and its own moved cells, in words and as JSON.
#[test]
fn what_each_change_moves() {
    let disk = Disk::new();
    let text =
        disk.says("what-if plan.mps --set amount:north=5 --set mult:air=-2 --set cost:south=0");
    let wanted = "
edit       amount of north from 4 to 5
moved      activity of air from 9 to 11
moved      cost from -26 to -32
moved      broken rows from 0 to 1
verdict    not a plan, before gap 1.0
edit       multiplier of air from -3.0 to -2.0
moved      price of north from 0.0 to -2.0
moved      price of south from 1.0 to 0.0
moved      floor from -27.0 to -18.0
moved      absent bounds from 0 to 1
verdict    not a plan, before not a plan
edit       cost of south from -2 to 0
moved      price of south from 0.0 to 2.0
moved      cost from -32 to -30
verdict    not a plan, before not a plan

";
    assert!(text.contains(wanted), "{text}");
    let json = disk.says("what-if plan.mps --json --set amount:south=0");
    let wanted = ",\"changes\":[{\"edit\":\"amount of south from 1 to 0\",\"before\":{\"verdict\":\"gap\",\"gap_1024\":1024},\"after\":{\"verdict\":\"gap\",\"gap_1024\":3072},\"moved\":[{\"cell\":\"activity\",\"of\":\"air\",\"from\":9,\"to\":8},{\"cell\":\"cost\",\"of\":null,\"from\":-26,\"to\":-24}]}],\"sheet\":{";
    assert!(json.contains(wanted), "{json}");
}

#[test]
fn every_number_by_its_name() {
    let disk = Disk::new();
    for (set, words) in [
        ("amount:north=-3", "amount of north from 4 to -3"),
        ("cost:south=7", "cost of south from -2 to 7"),
        ("lower:north=1", "lower bound of north from 0 to 1"),
        ("upper:south=5", "upper bound of south from none to 5"),
        ("lower:south=none", "lower bound of south from 0 to none"),
        ("upper:south=none", "upper bound of south from none to none"),
        ("right:air=10", "right side of air from 9 to 10"),
        ("mult:air=-2.5", "multiplier of air from -3.0 to -2.5"),
        (
            "coef:air:north=3",
            "coefficient of north in air from 2 to 3",
        ),
    ] {
        let text = disk.says(&format!("what-if plan.mps --set {set}"));
        assert!(text.contains(&format!("\nedit       {words}\n")), "{text}");
        let text = disk.says(&format!("what-if plan.mps --set={set} --journal j --json"));
        assert!(
            text.contains(&format!("\"edits\":[\"{words}\"],\"entries\":1,")),
            "{text}"
        );
        let text = disk.says("undo plan.mps j");
        let (from, to) = words.split_once(" from ").expect("it says from");
        let (old, new) = to.split_once(" to ").expect("and to");
        let back = format!("\nundone     {from} from {new} back to {old}\n");
        assert!(text.contains(&back), "{text}");
        assert!(text.contains("\njournal    j: 0 entries\n"), "{text}");
        assert_eq!(sheet(&text), sheet(&disk.says("what-if plan.mps")));
    }
}

#[test]
fn a_journal_over_a_power_cut() {
    let disk = Disk::new();
    disk.says("keep plan.mps -o plan.tev");
    let first = disk.says("what-if plan.tev");
    let mut seen = vec![first];
    // More than a block holds.
    for turn in 0..30 {
        let set = format!("amount:x{}={turn}", turn % 2);
        let command = format!("what-if plan.tev --journal j --set {set}");
        let text = disk.says(&command);
        let entries = match turn {
            0 => "1 entry".to_string(),
            _ => format!("{} entries", turn + 1),
        };
        assert!(
            text.contains(&format!("\njournal    j: {entries}\n")),
            "{text}"
        );
        // Whatever was in memory is gone: the two files give the same sheet.
        assert_eq!(sheet(&disk.says("replay plan.tev j")), sheet(&text));
        seen.push(text);
    }
    let journal = disk.file("j");
    assert_eq!(journal.len(), 3 * 512);
    // A replay changes no file, unless it keeps what it gives.
    disk.says("replay plan.tev j -o after.tev");
    assert_eq!(disk.file("j"), journal);
    let after = disk.says("what-if after.tev");
    assert_eq!(sheet(&after), sheet(&seen[30]));
    while seen.pop().is_some() {
        match seen.last() {
            Some(text) => assert_eq!(sheet(&disk.says("undo plan.tev j")), sheet(text)),
            None => {
                let told = disk.run("undo plan.tev j");
                let wanted = "tevalumi: 35: the journal has no entry left to undo\n";
                assert_eq!((told.exit, told.err.as_str()), (1, wanted));
            }
        }
    }
    assert_eq!(disk.file("j").len(), 512);
}

#[test]
fn what_is_refused_changes_no_file() {
    let disk = Disk::new();
    disk.says("what-if plan.mps --journal j --set amount:north=3");
    let journal = disk.file("j");
    for (set, exit, said) in [
        (
            "amount:north=65537",
            1,
            "12: a number is over the sheet's limit",
        ),
        (
            "lower:north=9 --set upper:north=8",
            1,
            "13: a lower bound is above",
        ),
        ("amount:west=1", 2, "there is no column `west`"),
        ("right:north=1", 2, "there is no row `north`"),
        (
            "amount:north=1.5",
            2,
            "expected a whole number, found `1.5`",
        ),
        (
            "mult:air=0.3",
            2,
            "expected a multiple of 1/1024, found `0.3`",
        ),
        (
            "mult:air=nan",
            2,
            "expected a multiple of 1/1024, found `nan`",
        ),
        ("price:north=1", 2, "expected amount, cost, "),
        ("amount", 2, "expected amount, cost, "),
    ] {
        let told = disk.run(&format!("what-if plan.mps --journal j -o p --set {set}"));
        assert_eq!((told.exit, told.out.as_str()), (exit, ""), "{set}");
        assert!(told.err.contains(said), "{}", told.err);
        assert_eq!(disk.file("j"), journal);
        assert!(disk.read(OsStr::new("p"), 0).is_err());
    }
}

#[test]
fn files_that_are_wrong() {
    let disk = Disk::new();
    disk.says("what-if plan.mps --journal j --set amount:north=3 --set cost:north=1");
    let mut journal = disk.file("j");
    for (command, said) in [
        ("undo plan.mps none", "none: can't be read: "),
        ("replay plan.mps none", "none: can't be read: "),
        ("replay none j", "none: can't be read: "),
        ("replay plan.mps plan.mps", "plan.mps: 33: "),
        ("replay plan.mps", "expected a journal"),
        ("undo plan.mps j j", "expected two files"),
        ("replay plan.mps j --set a=1", "no option"),
    ] {
        let told = disk.run(command);
        assert_eq!((told.exit, told.out.as_str()), (2, ""), "{command}");
        assert!(told.err.contains(said), "{}", told.err);
    }
    // Another plan's journal.
    disk.says("what-if plan.mps --set amount:north=5 -o other.tev");
    let told = disk.run("replay other.tev j");
    let wanted = "tevalumi: j: 36: the sheet doesn't hold the number or the presence that the journal's entry says\n";
    assert_eq!((told.exit, told.err.as_str()), (2, wanted));
    journal[30] ^= 1;
    disk.keep(OsStr::new("j"), &journal).expect("in memory");
    for command in [
        "undo plan.mps j",
        "what-if plan.mps --journal j --set amount:north=1",
    ] {
        let told = disk.run(command);
        let wanted = "tevalumi: j: 32: a block's check is wrong\n";
        assert_eq!((told.exit, told.err.as_str()), (2, wanted));
    }
    assert_eq!(disk.file("j"), journal);
}

/// A plan that isn't solved has no sheet to change.
#[test]
fn not_solved() {
    let disk = Disk::new();
    let told = disk.run("what-if plan.mps --budget 0 --set amount:north=1 --journal j");
    assert_eq!(told.exit, 3);
    assert!(told.out.contains("status     21, Spent"), "{}", told.out);
    assert!(disk.read(OsStr::new("j"), 0).is_err());
}

/// Nothing crashes on any journal.
#[test]
fn damaged_journals() {
    let disk = Disk::new();
    disk.says("keep plan.mps -o plan.tev");
    for turn in 0..24 {
        disk.says(&format!(
            "what-if plan.tev --journal j --set amount:x0={turn}"
        ));
    }
    let good = disk.file("j");
    let mut rng = Rng(21);
    for _ in 0..1_000 {
        let mut file = good.clone();
        for _ in 0..=rng.below(3) {
            let at = rng.below(file.len());
            file[at] = rng.next() as u8;
        }
        if rng.below(4) == 0 {
            file.truncate(rng.below(good.len() + 1));
        }
        disk.keep(OsStr::new("j"), &file).expect("in memory");
        let told = disk.run("undo plan.tev j");
        assert_eq!(told.exit, if file == good { 0 } else { 2 });
    }
}
