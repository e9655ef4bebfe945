//! README's tour works as written: each `$ build/tevalumi …` of its console blocks is run at the
//! repository's root, and what stands below it is what the program prints. A line `...` stands for
//! any lines.

use std::path::Path;

use crate::program::program;

#[test]
fn readme() {
    let root = Path::new(env!("CARGO_MANIFEST_DIR")).join("../..");
    let text = std::fs::read_to_string(root.join("README.md")).expect("README.md");
    let mut ran = 0;
    for block in text.split("```console\n").skip(1) {
        let block = block.split("```").next().unwrap_or("");
        for piece in block.split("$ build/tevalumi ").skip(1) {
            // Another command ends what this one prints.
            let piece = piece.split("\n$ ").next().unwrap_or("");
            let (command, wanted) = piece.split_once('\n').unwrap_or((piece, ""));
            let words = command.split_whitespace();
            let output = program().args(words).current_dir(&root).output();
            let output = output.expect("the program runs");
            let printed = String::from_utf8_lossy(&output.stdout).into_owned()
                + &String::from_utf8_lossy(&output.stderr);
            assert!(
                matches(&printed, wanted),
                "{command} prints\n{printed}\nand README says\n{wanted}"
            );
            ran += 1;
        }
    }
    println!("README's tour: {ran} commands");
    assert_eq!(ran > 0, text.contains("$ build/tevalumi "));
}

/// Line by line; `...` matches any lines.
fn matches(printed: &str, wanted: &str) -> bool {
    let trimmed = |text: &str| {
        text.trim_end()
            .lines()
            .map(str::to_string)
            .collect::<Vec<_>>()
    };
    lines_match(&trimmed(printed), &trimmed(wanted))
}

fn lines_match(printed: &[String], wanted: &[String]) -> bool {
    match wanted.split_first() {
        None => printed.is_empty(),
        Some((line, rest)) if line.trim() == "..." => {
            (0..=printed.len()).any(|skipped| lines_match(&printed[skipped..], rest))
        }
        Some((line, rest)) => {
            printed.first().map(|p| p.trim_end()) == Some(line.trim_end())
                && lines_match(&printed[1..], rest)
        }
    }
}
