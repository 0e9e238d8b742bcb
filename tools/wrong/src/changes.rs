//! The changes that make wrong programs of a crate, one at a time, in a numbering that depends on the crate's text alone.

pub mod arguments;
mod comparisons;
mod conjuncts;
mod definitions;
mod numbers;
mod requires;

use crate::code::Code;
use crate::functions::functions_in;
use crate::repository::{module_of, Crate};
use arguments::{Scope, Signatures};
use std::fmt;
use std::path::Path;

#[derive(Clone, Copy, PartialEq, Eq, Debug)]
pub enum Kind {
    Numbers,
    Comparisons,
    Directions,
    Arguments,
    Conjuncts,
    Requires,
}

pub const KINDS: [Kind; 6] = [
    Kind::Numbers,
    Kind::Comparisons,
    Kind::Directions,
    Kind::Arguments,
    Kind::Conjuncts,
    Kind::Requires,
];

impl fmt::Display for Kind {
    fn fmt(&self, f: &mut fmt::Formatter) -> fmt::Result {
        f.pad(match self {
            Kind::Numbers => "numbers",
            Kind::Comparisons => "comparisons",
            Kind::Directions => "directions",
            Kind::Arguments => "arguments",
            Kind::Conjuncts => "conjuncts",
            Kind::Requires => "requires",
        })
    }
}

/// A stretch of a file's bytes and the text that stands there instead.
#[derive(Clone, Debug)]
pub struct Edit {
    pub start: usize,
    pub end: usize,
    pub new: String,
}

impl Edit {
    /// In place of token `first` up to token `end`, which is not part of it.
    fn of_tokens(code: &Code, first: usize, end: usize, new: String) -> Edit {
        Edit { start: code.tokens[first].start, end: code.tokens[end - 1].end, new }
    }

    pub fn apply(&self, text: &str) -> String {
        format!("{}{}{}", &text[..self.start], self.new, &text[self.end..])
    }
}

/// One wrong program: a crate with one edit.
#[derive(Clone, Debug)]
pub struct Change {
    pub crate_name: String,
    /// Its place among all changes of the crate, from 1 on.
    pub number: usize,
    pub kind: Kind,
    /// The file within the crate's folder.
    pub file: String,
    /// The function or the definition.
    pub within: String,
    pub line: usize,
    pub old: String,
    pub new: String,
    pub edit: Edit,
}

impl Change {
    pub fn label(&self) -> String {
        format!("{}:{}", self.crate_name, self.number)
    }

    /// The file within the repository.
    pub fn path(&self) -> String {
        format!("crates/{}/{}", self.crate_name, self.file)
    }

    fn new(made: &Crate, file: &str, text: &str, (kind, within, edit): Found) -> Change {
        let changed = edit.apply(text);
        Change {
            crate_name: made.name.clone(),
            number: 0,
            kind,
            file: file.to_string(),
            within,
            line: line_of(text, &edit),
            old: lines_at(text, edit.start, edit.end),
            new: lines_at(&changed, edit.start, edit.start + edit.new.len()),
            edit,
        }
    }
}

/// The line of the first sign that is replaced.
fn line_of(text: &str, edit: &Edit) -> usize {
    let replaced = &text[edit.start..edit.end];
    let blank = replaced.len() - replaced.trim_start().len();
    1 + text[..edit.start + blank].matches('\n').count()
}

/// The lines from byte `start` to byte `end`, on one line.
fn lines_at(text: &str, start: usize, end: usize) -> String {
    let first = text[..start].rfind('\n').map_or(0, |at| at + 1);
    let last = text[end..].find('\n').map_or(text.len(), |at| end + at);
    text[first..last].split_whitespace().collect::<Vec<_>>().join(" ")
}

type Found = (Kind, String, Edit);

/// All changes of a crate: kind by kind, in each by file and place.
pub fn changes_of(made: &Crate, known: &Signatures) -> Vec<Change> {
    let mut changes = Vec::new();
    for (file, text) in &made.files {
        let found = match Path::new(file).extension().and_then(|end| end.to_str()) {
            Some("rt") => in_code(made, file, text, known),
            _ => in_definitions(text),
        };
        changes.extend(found.into_iter().map(|found| Change::new(made, file, text, found)));
    }
    let rank = |kind: Kind| KINDS.iter().position(|other| *other == kind);
    changes.sort_by(|a, b| {
        let (left, right) = ((rank(a.kind), &a.file), (rank(b.kind), &b.file));
        left.cmp(&right).then(a.edit.start.cmp(&b.edit.start))
    });
    for (at, change) in changes.iter_mut().enumerate() {
        change.number = at + 1;
    }
    changes
}

fn in_code(made: &Crate, file: &str, text: &str, known: &Signatures) -> Vec<Found> {
    let code = Code::new(text.to_string());
    let scope = Scope::new(&module_of(&made.name, file), &code);
    let mut found = Vec::new();
    for function in functions_in(&code) {
        for kind in KINDS {
            let edits = match kind {
                Kind::Numbers => numbers::edits(&code, &function.body),
                Kind::Comparisons => comparisons::edits(&code, &function.body),
                Kind::Directions => comparisons::direction_edits(&code, &function.body),
                Kind::Arguments => arguments::edits(&code, &function.body, &scope, known),
                Kind::Conjuncts => conjuncts::body_edits(&code, &function.body),
                Kind::Requires => requires::edits(&code, &function.requires),
            };
            found.extend(edits.into_iter().map(|edit| (kind, function.name.clone(), edit)));
        }
    }
    found
}

fn in_definitions(text: &str) -> Vec<Found> {
    let code = definitions::read(text);
    let mut found = Vec::new();
    for definition in definitions::definitions_in(&code) {
        let edits = conjuncts::chain_edits(&code, &definition.tokens);
        found
            .extend(edits.into_iter().map(|edit| (Kind::Conjuncts, definition.name.clone(), edit)));
    }
    found
}

#[cfg(test)]
pub mod tests {
    use super::*;

    /// The line of each edit as it is after the edit.
    pub fn lines_changed(code: &Code, edits: &[Edit]) -> Vec<String> {
        let lines = edits.iter().map(|edit| {
            let end = edit.start + edit.new.len();
            lines_at(&edit.apply(&code.text), edit.start, end)
        });
        lines.collect()
    }

    fn crate_of(file: &str, text: &str) -> Crate {
        let files = vec![(file.to_string(), text.to_string())];
        Crate { name: "sample".to_string(), is_static: false, needs: Vec::new(), files }
    }

    /// The changed lines of one kind in a file of code.
    pub fn changed(kind: Kind, text: &str) -> Vec<String> {
        let all = changes_of(&crate_of("src/lib.rt", text), &Signatures::default());
        all.into_iter().filter(|change| change.kind == kind).map(|change| change.new).collect()
    }

    #[test]
    fn a_dropped_operand_stands_where_its_sign_does() {
        let text = "f x =\n    a\n    && b\n";
        let all = changes_of(&crate_of("specs/Tests.antt", text), &Signatures::default());
        assert_eq!((all.len(), all[0].line, all[0].within.as_str()), (1, 3, "f"));
        assert_eq!((all[0].old.as_str(), all[0].new.as_str()), ("a && b", "a"));
    }

    #[test]
    fn a_change_says_where_it_stands() {
        let text = "fn f() -> u32 {\n    if g(\n        1 < 2\n    ) {\n        return 3;\n    }\n    4\n}\n";
        let all = changes_of(&crate_of("src/lib.rt", text), &Signatures::default());
        let dropped = all.last().unwrap();
        assert_eq!((dropped.kind, dropped.line, dropped.number), (Kind::Conjuncts, 2, all.len()));
        assert_eq!(dropped.label(), format!("sample:{}", all.len()));
        assert_eq!(
            (dropped.old.as_str(), dropped.new.as_str()),
            ("if g( 1 < 2 ) { return 3; }", "")
        );
        assert_eq!(all[0].new, "2 < 2");
    }
}
