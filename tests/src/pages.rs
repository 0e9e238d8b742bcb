//! The pages that a reader sees, as text: quoted passages, tables, links, and the header's list of
//! refusals, so that tests can hold them against each other, the code and the calls.

use std::path::{Path, PathBuf};

/// The repository's top folder.
pub fn top() -> PathBuf {
    Path::new(env!("CARGO_MANIFEST_DIR")).join("..")
}

/// The text of a file, by its path from the top.
pub fn text_of(path: &str) -> String {
    std::fs::read_to_string(top().join(path)).unwrap_or_else(|error| panic!("{path}: {error}"))
}

/// README.md and the pages of docs/, by their paths from the top.
pub fn pages() -> Vec<String> {
    let mut pages = vec!["README.md".to_string(), "tests/README.md".to_string()];
    for folder in ["docs", "docs/landings"] {
        for entry in std::fs::read_dir(top().join(folder)).expect("the folder is there") {
            let name = entry.expect("it can be read").file_name();
            let name = name.into_string().expect("plain names");
            if name.ends_with(".md") {
                pages.push(format!("{folder}/{name}"));
            }
        }
    }
    pages.sort();
    pages
}

/// A passage between fences: what stands behind the opening one, and the lines.
pub struct Passage {
    pub label: String,
    pub text: String,
}

/// The labelled passages of a page, in order.
pub fn passages(page: &str) -> Vec<Passage> {
    let mut passages = Vec::new();
    let mut open: Option<Passage> = None;
    for line in page.lines() {
        match (line.strip_prefix("```"), open.take()) {
            (Some(label), None) => {
                open = Some(Passage { label: label.to_string(), text: String::new() })
            }
            (Some(_), Some(passage)) => passages.push(passage),
            (None, Some(mut passage)) => {
                passage.text.push_str(line);
                passage.text.push('\n');
                open = Some(passage);
            }
            (None, None) => {}
        }
    }
    assert!(open.is_none(), "a passage has no end");
    passages
}

/// The passage with that label.
pub fn passage(page: &str, label: &str) -> String {
    let mut found = passages(page).into_iter().filter(|passage| passage.label == label);
    let text = found.next().unwrap_or_else(|| panic!("no passage {label}")).text;
    assert!(found.next().is_none(), "two passages {label}");
    text
}

/// The cells of each row of a page's tables.
pub fn rows(page: &str) -> Vec<Vec<&str>> {
    let lines = page.lines().filter_map(|line| line.strip_prefix('|')?.strip_suffix('|'));
    lines.map(|line| line.split('|').map(str::trim).collect()).collect()
}

/// The targets of a page's links, without those to other sites and to places in the same page.
pub fn links(page: &str) -> Vec<&str> {
    let targets = page.split("](").skip(1).filter_map(|rest| rest.split_once(')'));
    let targets = targets.map(|(target, _)| target.split('#').next().expect("the first part"));
    targets.filter(|target| !target.is_empty() && !target.contains("://")).collect()
}

/// The names between backticks that could be names of code: one word of letters, digits, - and _.
pub fn names(page: &str) -> Vec<&str> {
    let prose = page.lines().filter(|line| !line.starts_with("    "));
    let quoted = prose.flat_map(|line| line.split('`').skip(1).step_by(2));
    let plain = |c: char| c.is_ascii_alphanumeric() || c == '-' || c == '_';
    quoted.filter(|name| name.len() > 1 && name.chars().all(plain)).collect()
}

/// Number and text of each refusal in the header.
pub fn header_refusals(header: &str) -> Vec<(u32, &str)> {
    let entries = header.lines().filter_map(|line| line.trim().strip_prefix("ENTRY("));
    let parts = entries.map(|entry| {
        let (_name, rest) = entry.split_once(", ").expect("a name");
        let (number, rest) = rest.split_once(", \"").expect("a number");
        (number.parse().expect("a number"), rest.rsplit_once("\")").expect("a text").0)
    });
    parts.collect()
}

/// A text with runs of spaces as one.
pub fn single_spaced(text: &str) -> String {
    text.split_whitespace().collect::<Vec<_>>().join(" ")
}

/// All text of the files below a folder, with their names; what was built or proved is passed over.
pub fn all_text(folder: &str) -> String {
    let mut text = String::new();
    let mut folders = vec![top().join(folder)];
    while let Some(folder) = folders.pop() {
        for entry in std::fs::read_dir(folder).expect("the folder is there") {
            let path = entry.expect("it can be read").path();
            let name = path.file_name().expect("it has one").to_string_lossy().into_owned();
            if path.is_dir() {
                if name != "target" && name != "out" && name != "__pycache__" {
                    folders.push(path);
                }
                continue;
            }
            text.push_str(&name.replace('.', " "));
            text.push('\n');
            text.push_str(&String::from_utf8_lossy(&std::fs::read(&path).expect("readable")));
        }
    }
    text
}
