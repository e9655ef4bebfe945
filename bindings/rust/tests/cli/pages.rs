//! The pages of `--html`: each is read tag by tag, and drawn by Chromium.

use std::fs;
use std::path::Path;
use std::process::Command;

use crate::{kept, peers};

const TUNNELS: &[u8] = include_bytes!("../../plans/two-tunnels.mps");
const LITTLE: &[u8] = include_bytes!("../../plans/too-little-air.mps");
const NIGHT: &[u8] = include_bytes!("../../plans/night-as-priced.mps");

/// The page that a command writes.
fn page(words: &[&str], text: &[u8]) -> String {
    let words = [words, &["--html", "page.html"]].concat();
    let (told, files) = kept::run(&words, text);
    assert_ne!(told.exit, 2, "{}", told.err);
    let (name, bytes) = files.into_iter().next().expect("a page");
    assert_eq!(name, "page.html");
    String::from_utf8(bytes).expect("text")
}

/// Every page that the tests have, with a piece of what its first heading says.
fn pages() -> Vec<(String, &'static str)> {
    vec![
        (
            page(&["solve", "p.mps"], TUNNELS),
            "Optimal: no column would make the plan cheaper",
        ),
        (
            page(&["solve", "p.mps", "--budget", "0"], TUNNELS),
            "Spent: 0 steps were taken",
        ),
        (
            page(&["audit", "p.mps"], TUNNELS),
            "This whole plan, which costs -26, is the cheapest one to within 1.0",
        ),
        (
            page(&["audit", "p.mps"], LITTLE),
            "No plan exists, whole or fractional.",
        ),
        (
            page(&["why", "p.mps"], LITTLE),
            "No plan exists, whole or fractional.",
        ),
        (
            page(&["why", "p.mps"], TUNNELS),
            "Some amounts, whole or fractional, keep every row",
        ),
        (
            page(&["night", "p.mps"], NIGHT),
            "alarm: 3 of 25 whole, 22 cut",
        ),
        (
            page(&["night", "p.mps", "--alarms", "alarm"], NIGHT),
            "None that keeps the alarms has reports worth more",
        ),
        (
            page(&["night", "p.mps", "--alarms", "alarm", "--budget", "1"], NIGHT),
            "These amounts are those of the alarms alone",
        ),
        (
            page(&["night"], b""),
            "25 of 25 alarms are sent whole, 0 lose milliseconds. No plan, whole or fractional, has alarms worth more",
        ),
    ]
}

/// The text between the tags, where every tag that is opened is closed in turn. A page has no script,
/// and nothing in it names another file.
fn text_of(page: &str) -> String {
    let mut open: Vec<&str> = Vec::new();
    let mut text = String::new();
    let body = page.strip_prefix("<!DOCTYPE html>\n").expect("a page");
    let mut rest = body;
    while let Some((before, after)) = rest.split_once('<') {
        text += before;
        let (tag, behind) = after.split_once('>').expect("a tag ends");
        assert!(!tag.contains('<'), "{tag}");
        let name = tag
            .trim_start_matches('/')
            .split([' ', '/'])
            .next()
            .unwrap_or("");
        assert!(TAGS.contains(&name), "{name}");
        for part in tag.split(' ').skip(1).filter(|part| part.contains("=\"")) {
            let attribute = part.split('=').next().unwrap_or("");
            assert!(ATTRIBUTES.contains(&attribute), "{attribute}");
        }
        if tag.starts_with('/') {
            assert_eq!(open.pop(), Some(name));
        } else if !tag.ends_with('/') {
            open.push(name);
        }
        rest = behind;
    }
    assert!(open.is_empty(), "{open:?}");
    text + rest
}

/// None that runs or loads anything.
const TAGS: [&str; 20] = [
    "html", "head", "meta", "title", "style", "body", "h1", "h2", "p", "div", "table", "tr", "th",
    "td", "svg", "rect", "text", "dl", "dt", "dd",
];
const ATTRIBUTES: [&str; 11] = [
    "lang", "charset", "name", "content", "class", "viewBox", "role", "x", "y", "width", "height",
];

fn heading(page: &str) -> &str {
    let (_, rest) = page.split_once("<h1>").expect("a heading");
    rest.split_once("</h1>").expect("its end").0
}

#[test]
fn whole_pages_with_the_sentence_first() {
    for (page, wanted) in pages() {
        let body = page.split_once("<body>\n").expect("a body").1;
        assert!(
            body.starts_with("<h1>") && heading(&page).contains(wanted),
            "{page}"
        );
        text_of(&page);
        assert!(page
            .contains("<meta name=\"viewport\" content=\"width=device-width, initial-scale=1\"/>"));
        for outside in ["http", "url(", "@import", "javascript", "onload"] {
            assert!(!page.contains(outside), "{outside}");
        }
    }
}

/// The numbers of the page are those of the text.
#[test]
fn the_sheet_on_the_page() {
    let audit = page(&["audit", "p.mps"], TUNNELS);
    for cell in [
        "<td>air</td>",
        "<td class=\"right\">-3.0</td>",
        "<td>north</td>",
        "<dt>gap</dt><dd>1.0</dd>",
    ] {
        assert!(audit.contains(cell), "{cell} in {audit}");
    }
    assert!(
        audit.contains("The gap is 1.0, 3.846 % of the cost."),
        "{audit}"
    );
    let night = page(&["night", "p.mps"], NIGHT);
    // A bar for each alarm and each soil report, cut ones in their own colour.
    assert_eq!(night.matches("class=\"back\"").count(), 25 + 40);
    assert!(night.matches("class=\"cut\"").count() >= 22);
}

/// Both stages with their sheets, and why the reports lose what they lose.
#[test]
fn both_stages_on_the_page() {
    let night = page(&["night", "p.mps", "--alarms", "alarm"], NIGHT);
    for piece in [
        "<h2>Stage 1: the alarms alone</h2>\n<p>Optimal after 0 steps. This whole plan, which costs -28505, is the cheapest one",
        "<h2>Stage 2: the rest, with what the alarms have</h2>\n<p>Optimal after 48 steps.",
        "<h2>Why reports are cut</h2>\n<p>soil gets 57735 of 122940.",
        "<td>air</td><td class=\"right\">90000</td><td class=\"right\">26285</td><td class=\"right\">4.0</td>",
        "<p>Were the alarms worth 1 less, the reports could be worth more by 8.0 at most.</p>",
        "<h2>Stage 1: the alarms alone, its sheet</h2>",
        "<td>alarms</td><td class=\"right\">-28505</td><td>&lt;=</td><td class=\"right\">-28505</td><td class=\"right\">-8.0</td>",
    ] {
        assert!(night.contains(piece), "{piece} in {night}");
    }
    assert_eq!(night.matches("class=\"back\"").count(), 25 + 40);
    // Both sides of the bundled night have their bars.
    let bundled = page(&["night"], b"");
    assert_eq!(bundled.matches("class=\"back\"").count(), 2 * (25 + 40));
    assert!(bundled.contains("<h2>Why reports are cut</h2>"));
}

#[test]
fn names_are_harmless() {
    let text = String::from_utf8_lossy(TUNNELS).replace("north", "<script>&\"\u{1b}");
    let page = page(&["solve", "p.mps"], text.as_bytes());
    assert!(!page.contains("<script>") && !page.contains('\u{1b}'));
    assert!(text_of(&page).contains("&lt;script&gt;&amp;&quot;"));
}

/// A page that can't be written is said so.
#[test]
fn a_full_disk() {
    let (told, files) = kept::run(&["audit", "p.mps", "--html", "full"], TUNNELS);
    assert_eq!((told.exit, told.out.as_str()), (2, ""));
    assert!(
        told.err.starts_with("tevalumi: full: can't be written: "),
        "{}",
        told.err
    );
    assert!(files.is_empty());
}

/// Chromium draws each page at a phone's width without an error, and the sentence can be read in the picture.
/// `TEVALUMI_PEERS=1` makes it a failure if Chromium or tesseract, which reads pictures, isn't there.
#[test]
fn in_chromium() {
    if !peers::there("chromium") || !peers::there("tesseract") {
        return;
    }
    let folder = peers::folder("pages");
    for (page, wanted) in pages() {
        let (errors, text) = drawn(&folder, &page);
        assert_eq!(errors, "");
        assert!(can_be_read(wanted, &text), "{wanted} in {text}");
    }
    // The test can fail: this page has an error, and its sentence isn't to be seen.
    let (page, wanted) = &pages()[0];
    let broken = page
        .replace("<h1>", "<script>none()</script><h1>")
        .replace("</style>", "h1{display:none}</style>");
    let (errors, text) = drawn(&folder, &broken);
    assert!(errors.contains("none is not defined"), "{errors}");
    assert!(!text.is_empty() && !can_be_read(wanted, &text), "{text}");
    fs::remove_dir_all(&folder).expect("removed");
}

/// Four of five of the wanted words are among those that were read: fonts differ, and a reader of pictures may miss one.
fn can_be_read(wanted: &str, text: &str) -> bool {
    let bare = |word: &'_ str| {
        word.trim_matches(|c: char| !c.is_alphanumeric())
            .to_string()
    };
    let read: Vec<String> = text.split_whitespace().map(bare).collect();
    let words: Vec<String> = wanted.split_whitespace().map(bare).collect();
    let found = words.iter().filter(|&word| read.contains(word)).count();
    5 * found >= 4 * words.len()
}

/// What Chromium's console says of a page, and the words of the picture, one blank between them.
fn drawn(folder: &Path, page: &str) -> (String, String) {
    fs::write(folder.join("page.html"), page).expect("written");
    let _ = fs::remove_file(folder.join("shot.png"));
    let words = [
        "--headless",
        "--no-sandbox",
        "--disable-gpu",
        "--disable-dev-shm-usage",
        "--enable-logging=stderr",
        "--hide-scrollbars",
        "--force-device-scale-factor=2",
        "--window-size=390,844",
        "--screenshot=shot.png",
        "page.html",
    ];
    let mut chromium = Command::new("chromium");
    chromium.args(words).current_dir(folder).env("HOME", folder);
    let output = chromium.output().expect("it runs");
    let said = String::from_utf8_lossy(&output.stderr);
    assert!(output.status.success(), "{said}");
    let errors = said.lines().filter(|line| line.contains("CONSOLE"));
    let text = peers::output("tesseract", folder, &["shot.png", "-", "--psm", "6"]);
    let text = text.split_whitespace().collect::<Vec<_>>().join(" ");
    (errors.collect::<Vec<_>>().join("\n"), text)
}
