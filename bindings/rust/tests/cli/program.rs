//! The program as a process.

use std::io::Write;
use std::process::{Command, Output, Stdio};

/// Where an emulator runs the tests (ci/linked) it runs the program too.
pub fn program() -> Command {
    let built = env!("CARGO_BIN_EXE_tevalumi");
    match std::env::var("CARGO_TARGET_X86_64_UNKNOWN_LINUX_GNU_RUNNER") {
        Ok(emulator) if !emulator.is_empty() => {
            let mut command = Command::new(emulator);
            command.arg(built);
            command
        }
        _ => Command::new(built),
    }
}

fn start(words: &[&str], input: &str) -> Output {
    let mut child = program()
        .args(words)
        .stdin(Stdio::piped())
        .stdout(Stdio::piped())
        .stderr(Stdio::piped())
        .spawn()
        .expect("the program starts");
    // A program that doesn't read has closed the pipe.
    let _ = child
        .stdin
        .take()
        .expect("piped")
        .write_all(input.as_bytes());
    child.wait_with_output().expect("the program ends")
}

fn out(output: &Output) -> String {
    String::from_utf8_lossy(&output.stdout).into_owned()
}

fn err(output: &Output) -> String {
    String::from_utf8_lossy(&output.stderr).into_owned()
}

const N2: &str = "NAME N2
ROWS
 N cost
 L air
COLUMNS
 x0 cost -3 air 1
 x1 cost -1 air 1
RHS
 RHS air 4
BOUNDS
 UP BND x1 2
ENDATA
";

#[test]
fn standard_input() {
    let output = start(&["solve", "-"], N2);
    assert_eq!(output.status.code(), Some(0));
    let text = out(&output);
    assert!(text.contains("status     0, Optimal"), "{text}");
    assert!(text.contains("objective  -12\nsteps      2\n"), "{text}");
}

#[test]
fn a_file() {
    let file = std::env::temp_dir().join(format!("tevalumi-{}.mps", std::process::id()));
    std::fs::write(&file, N2).expect("written");
    let name = file.to_str().expect("a plain name");
    let output = start(&["audit", name], "");
    assert_eq!(output.status.code(), Some(0), "{}", err(&output));
    assert!(out(&output).ends_with("\nThis whole plan, which costs -12, is the cheapest one: no plan, whole or fractional, is cheaper.\n"));
    std::fs::remove_file(&file).expect("removed");
}

#[test]
fn exit_statuses() {
    let refused = N2.replace("air 4", "air -4");
    let endless = N2.replace(" L air", " G air").replace("air 4", "air 0");
    for (words, input, status) in [
        (&["solve", "-"][..], N2, 0),
        (&["solve", "-", "--plain"], &refused, 1),
        (&["solve", "-"], &refused, 3),
        (&["solve", "-"], &endless, 3),
        (&["solve", "-", "--budget", "1"], N2, 3),
        (&["audit", "-", "--budget", "1"], N2, 3),
        (&["why", "-"], &refused, 0),
        (&["why", "-"], N2, 3),
        (&["why", "-", "--bits"], "", 2),
        (&["keep", "-"], N2, 2),
        (&["solve", "-", "--tol", "2"], N2, 1),
        (&["solve", "-"], "NAME N2\nROWS\n", 2),
        (&["solve", "/no/such/file"], "", 2),
        (&["solve"], "", 2),
        (&["solve", "-", "-"], "", 2),
        (&["solve", "-", "--bogus"], "", 2),
        (&["audit", "-", "--bits"], "", 2),
        (&["dance"], "", 2),
        (&[], "", 2),
        (&["--help"], "", 0),
        (&["help", "audit"], "", 0),
        (&["--version"], "", 0),
        (&["night"], "", 0),
        (&["night", "--bogus"], "", 2),
        (&["night", "--short"], "", 2),
        (&["night", "-"], N2, 2),
        (
            &["night", "-", "--groups", "x"],
            &N2.replace("x0", "x.0").replace("x1", "x.1"),
            0,
        ),
        (
            &["night", "-", "--alarms", "x"],
            &N2.replace("x0", "x.0")
                .replace("x1", "soil.1")
                .replace("UP BND", "UP BND x.0 5\n UP BND"),
            0,
        ),
        (&["night", "-", "--alarms", "x"], N2, 2),
        (&["solve", "-", "--alarms", "x"], N2, 2),
        (
            &["audit", "-"],
            &N2.replace("-3 air 1", "-1 air 3")
                .replace("UP BND x1 2", "UP BND x1 2\n FR BND x0"),
            4,
        ),
    ] {
        let output = start(words, input);
        assert_eq!(output.status.code(), Some(status), "{words:?}");
        assert_eq!(err(&output).is_empty(), status != 2, "{words:?}");
        assert_eq!(out(&output).is_empty(), status == 2, "{words:?}");
    }
}

#[test]
fn help_for_each() {
    for command in [
        "solve", "audit", "why", "keep", "what-if", "undo", "replay", "night",
    ] {
        let output = start(&[command, "--help"], "");
        assert_eq!(output.status.code(), Some(0));
        let usage = format!("usage: tevalumi {command}");
        assert!(out(&output).starts_with(&usage));
        assert!(out(&output).lines().all(|line| line.chars().count() <= 100));
    }
}

#[test]
fn errors_name_file_line_and_what_was_expected() {
    let wrong = N2.replace("RHS air 4", "RHS air four");
    let output = start(&["solve", "-"], &wrong);
    assert_eq!(
        err(&output),
        "tevalumi: -:9: expected a number, found `four`\n"
    );
    let output = start(&["solve", "/no/such/file"], "");
    assert!(err(&output).starts_with("tevalumi: /no/such/file: can't be read: "));
}

/// A reader that goes away early is no crash.
#[test]
fn closed_output() {
    let mut child = program()
        .args(["night", "--sheets"])
        .stdout(Stdio::piped())
        .stderr(Stdio::piped())
        .spawn()
        .expect("the program starts");
    drop(child.stdout.take());
    let output = child.wait_with_output().expect("the program ends");
    assert_eq!(output.status.code(), Some(0));
    assert_eq!(err(&output), "");
}

/// What can't be written isn't taken for written.
#[test]
fn a_full_disk() {
    for words in [&["night"][..], &["--help"], &["solve", "-"]] {
        let mut child = program()
            .args(words)
            .stdin(Stdio::piped())
            .stdout(std::fs::File::create("/dev/full").expect("it can be opened"))
            .stderr(Stdio::piped())
            .spawn()
            .expect("the program starts");
        let _ = child.stdin.take().expect("piped").write_all(N2.as_bytes());
        let output = child.wait_with_output().expect("the program ends");
        assert_eq!(output.status.code(), Some(2), "{words:?}");
        let said = err(&output);
        assert!(
            said.starts_with("tevalumi: standard output: can't be written: "),
            "{said}"
        );
    }
}

#[test]
fn the_night() {
    let text = out(&start(&["night"], ""));
    assert!(
        text.contains("3 of 25 alarms are sent whole, 22 lose milliseconds."),
        "{text}"
    );
    assert!(text.contains("25 of 25 alarms are sent whole, 0 lose milliseconds."));
    assert!(text.contains("\n  This whole plan, which costs -562070, is the cheapest one: no plan, whole or\n  fractional, is cheaper.\n"));
    assert!(text.contains(
        "\n  No plan, whole or fractional, has alarms worth more.\n  None that keeps the alarms has reports worth more.\n"
    ));
    assert!(text.contains("dearer than the one on the left\nby 86815."));
    assert!(text.lines().all(|line| line.chars().count() <= 80));
    let ascii = out(&start(&["night", "--ascii"], ""));
    assert!(ascii.is_ascii());
}
