//! Plans kept in files of blocks: `keep`, and every command on what it wrote.

use std::cell::RefCell;
use std::ffi::{OsStr, OsString};
use std::io;

use tevalumi::raw::limits::BLOCK;

use crate::cli::{self, Files, Outcome};
use crate::program::program;
use crate::Rng;

/// One file to read, and what is kept.
struct Memory<'a> {
    text: &'a [u8],
    kept: RefCell<Vec<(OsString, Vec<u8>)>>,
}

impl Files for Memory<'_> {
    fn read(&self, _: &OsStr, _: usize) -> io::Result<Vec<u8>> {
        Ok(self.text.to_vec())
    }

    fn unpack(&self, _: &[u8], _: usize) -> io::Result<Vec<u8>> {
        Err(io::Error::from(io::ErrorKind::NotFound))
    }

    fn keep(&self, file: &OsStr, bytes: &[u8]) -> io::Result<()> {
        if file == "full" {
            return Err(io::Error::from(io::ErrorKind::StorageFull));
        }
        self.kept
            .borrow_mut()
            .push((file.to_os_string(), bytes.to_vec()));
        Ok(())
    }
}

/// What the program says to these words, with `text` as its only file, and what it keeps.
pub fn run(words: &[&str], text: &[u8]) -> (Outcome, Vec<(OsString, Vec<u8>)>) {
    let args: Vec<_> = words.iter().map(OsString::from).collect();
    let memory = Memory {
        text,
        kept: RefCell::default(),
    };
    let outcome = cli::run(&args, &memory);
    (outcome, memory.kept.into_inner())
}

const TUNNELS: &[u8] = include_bytes!("../../plans/two-tunnels.mps");
const NIGHT: &[u8] = include_bytes!("../../plans/night-as-priced.mps");
const LITTLE: &[u8] = include_bytes!("../../plans/too-little-air.mps");

/// The file that is kept of a plan.
fn kept(text: &[u8]) -> Vec<u8> {
    let (told, mut files) = run(&["keep", "plan.mps", "-o", "plan.tev"], text);
    assert_eq!((told.exit, told.err.as_str()), (0, ""), "{}", told.out);
    let (name, bytes) = files.pop().expect("a kept file");
    assert!(files.is_empty() && name == "plan.tev");
    let line = format!(
        "\nkept       plan.tev: {} blocks, {} bytes\n",
        bytes.len() / BLOCK,
        bytes.len()
    );
    assert!(told.out.ends_with(&line), "{}", told.out);
    bytes
}

/// What stands below the first line, which has the plan's name.
fn below(text: &str) -> &str {
    text.split_once('\n').map_or("", |(_, rest)| rest)
}

#[test]
fn a_kept_plan_is_solved_and_audited_as_the_plan_was() {
    for text in [TUNNELS, NIGHT] {
        let file = kept(text);
        for words in [&["solve", "plan"][..], &["audit", "plan"]] {
            let (was, is) = (crate::run(words, text), crate::run(words, &file));
            assert_eq!((was.exit, is.exit), (0, 0));
            // The same numbers in the same places; names are x0, x1, .. and r0, r1, ..
            let numbers = |text: &str| -> Vec<String> {
                let words = below(text).split_whitespace();
                let numbers = words.filter(|word| word.parse::<f64>().is_ok());
                numbers.map(str::to_string).collect()
            };
            assert_eq!(numbers(&was.out), numbers(&is.out));
            if words[0] == "audit" {
                assert_eq!(was.out.lines().last(), is.out.lines().last());
            }
        }
        // What is kept of it again is the same file.
        assert_eq!(kept(&file), file);
    }
}

#[test]
fn why_reads_it_too() {
    // No plan exists, so it isn't solved and nothing is kept.
    let (told, files) = run(&["keep", "plan.mps", "-o", "plan.tev"], LITTLE);
    assert_eq!((told.exit, files.len()), (3, 0));
    assert!(
        told.out.contains("status     26, Infeasible"),
        "{}",
        told.out
    );
    let told = crate::run(&["why", "plan.tev"], &kept(TUNNELS));
    assert_eq!(told.exit, 3);
    assert!(told
        .out
        .ends_with("Some amounts, whole or fractional, keep every row and bound.\n"));
}

#[test]
fn json_says_what_is_kept() {
    let words = ["keep", "plan.mps", "-o=plan.tev", "--json"];
    let (told, files) = run(&words, TUNNELS);
    assert_eq!(files.len(), 1);
    let said = ",\"kept\":{\"file\":\"plan.tev\",\"bytes\":6144}}\n";
    assert!(told.out.ends_with(said), "{}", told.out);
}

/// Whatever `FILE` says beside whole numbers is gone: direction, constant, names.
#[test]
fn maximising_is_kept_with_turned_costs() {
    let lp =
        b"Maximize\n worth: 3 a + b + 10\nSubject To\n air: a + b <= 4\nBounds\n b <= 2\nEnd\n";
    let (was, is) = (
        crate::run(&["solve", "plan.lp"], lp),
        crate::run(&["solve", "plan.tev"], &kept(lp)),
    );
    assert!(was.out.contains("objective  22\n"), "{}", was.out);
    assert!(is.out.contains("minimise\n") && is.out.contains("objective  -12\n"));
}

#[test]
fn a_bad_file_is_told_by_number_block_and_sentence() {
    let mut file = kept(TUNNELS);
    file[3 * BLOCK + 40] ^= 4;
    for words in [["solve", "plan.tev"], ["audit", "plan.tev"], ["why", "-"]] {
        let told = crate::run(&words, &file);
        let wanted = format!(
            "tevalumi: {}: 32: a block's check is wrong (block 3)\n",
            words[1]
        );
        assert_eq!((told.exit, told.out.as_str(), told.err), (2, "", wanted));
    }
    let told = crate::run(&["solve", "plan.tev"], &file[..700]);
    let wanted = "tevalumi: plan.tev: 33: a block is missing, cut, repeated or misplaced, or something stands behind the end (block 1)\n";
    assert_eq!((told.exit, told.err.as_str()), (2, wanted));
    // The name says what it is meant to be, and so does --format.
    let told = crate::run(&["solve", "plan.tev"], b"NAME x");
    assert!(told.err.starts_with("tevalumi: plan.tev: 33: "));
    let told = crate::run(&["solve", "plan", "--format", "kept"], NIGHT);
    assert!(told.err.starts_with("tevalumi: plan: 31: "), "{}", told.err);
    let told = crate::run(&["solve", "plan.tev", "--format", "mps"], TUNNELS);
    assert_eq!(told.exit, 0);
}

#[test]
fn what_cannot_be_kept() {
    let fraction = String::from_utf8_lossy(TUNNELS).replace("9", "9.5");
    let lists = [
        include_bytes!("data/night.txt").to_vec(),
        fraction.into_bytes(),
    ];
    for text in lists {
        let (told, files) = run(&["keep", "plan", "-o", "plan.tev"], &text);
        assert_eq!((told.exit, files.len()), (2, 0), "{told:?}");
    }
    let (told, _) = run(&["keep", "plan.mps", "-o", "full"], TUNNELS);
    assert!(told.err.starts_with("tevalumi: full: can't be written: "));
    assert_eq!((told.exit, told.out.as_str()), (2, ""));
    for words in [&["keep", "plan.mps"][..], &["keep", "plan.mps", "-o"]] {
        assert_eq!(run(words, TUNNELS).0.exit, 2);
    }
    assert_eq!(run(&["solve", "plan.mps", "-o", "x"], TUNNELS).0.exit, 2);
}

/// Any damage is refused with exit status 2, or leaves another file of the same plan's sizes that
/// every command takes.
#[test]
fn damaged_kept_files() {
    let good = kept(TUNNELS);
    let mut rng = Rng(12);
    let mut refused = 0;
    for _ in 0..2_000 {
        let mut file = good.clone();
        for _ in 0..=rng.below(3) {
            let at = rng.below(file.len());
            file[at] = rng.next() as u8;
        }
        if rng.below(4) == 0 {
            file.truncate(rng.below(good.len() + 1));
        }
        let told = crate::run(&["audit", "damaged.tev"], &file);
        refused += usize::from(told.exit == 2);
        assert_eq!(told.exit == 2, file != good);
        assert!(told.exit == 0 || told.err.starts_with("tevalumi: damaged.tev: 3"));
    }
    assert!(refused > 1_900);
}

/// On the disk: the file is there whole, and no other name is left.
#[test]
fn the_program_puts_the_file_in_place() {
    let folder = std::env::temp_dir().join(format!("tevalumi-keep-{}", std::process::id()));
    std::fs::create_dir_all(&folder).expect("a folder");
    let (plan, file) = (folder.join("plan.mps"), folder.join("plan.tev"));
    std::fs::write(&plan, TUNNELS).expect("written");
    for old in [None, Some("an older file")] {
        if let Some(text) = old {
            std::fs::write(&file, text).expect("written");
        }
        let output = program()
            .arg("keep")
            .arg(&plan)
            .arg("-o")
            .arg(&file)
            .output()
            .expect("the program runs");
        assert_eq!(output.status.code(), Some(0));
        assert_eq!(std::fs::read(&file).expect("kept"), kept(TUNNELS));
        assert_eq!(std::fs::read_dir(&folder).expect("a folder").count(), 2);
    }
    let output = program()
        .arg("keep")
        .arg(&plan)
        .args(["-o", "/no/such/folder/plan.tev"])
        .output()
        .expect("the program runs");
    assert_eq!(output.status.code(), Some(2));
    std::fs::remove_dir_all(&folder).expect("removed");
}

/// A device or a link stays what it is; the file behind a link is the one that is written.
#[test]
fn only_plain_files_are_put_in_place() {
    let folder = std::env::temp_dir().join(format!("tevalumi-links-{}", std::process::id()));
    std::fs::create_dir_all(&folder).expect("a folder");
    let plan = concat!(env!("CARGO_MANIFEST_DIR"), "/plans/two-tunnels.mps");
    let keep = |file: &str| {
        let out = folder.join(file);
        let output = program().args(["keep", plan, "-o"]).arg(&out).output();
        let link = std::fs::symlink_metadata(&out).is_ok_and(|found| found.is_symlink());
        (output.expect("the program runs").status.code(), link)
    };
    let link =
        |to: &str, from: &str| std::os::unix::fs::symlink(to, folder.join(from)).expect("a link");
    link("/dev/full", "device");
    assert_eq!(keep("device"), (Some(2), true));
    link("nowhere", "dangling");
    assert_eq!(keep("dangling"), (Some(2), true));
    assert_eq!(keep("."), (Some(2), false));
    assert_eq!(keep("plain"), (Some(0), false));
    link("plain", "link");
    std::fs::write(folder.join("plain"), "old").expect("written");
    assert_eq!(keep("link"), (Some(0), true));
    assert_eq!(
        std::fs::read(folder.join("plain")).expect("there").len(),
        6144
    );
    std::fs::remove_dir_all(&folder).expect("removed");
}
