//! The definitions of a file of specs/: the name and the tokens of each, with comments and `use` lines left out.

use crate::code::Code;
use std::ops::Range;

pub struct Definition {
    pub name: String,
    pub tokens: Range<usize>,
}

/// A file of definitions read as tokens: comments become spaces, so that every place stays.
pub fn read(text: &str) -> Code {
    let mut blank = String::with_capacity(text.len());
    for line in text.split_inclusive('\n') {
        let comment = if line.starts_with("--") { Some(0) } else { line.find(" --") };
        let start = comment.unwrap_or(line.len());
        blank.push_str(&line[..start]);
        let rest = line[start..].bytes();
        blank.extend(rest.map(|byte| if byte == b'\n' { '\n' } else { ' ' }));
    }
    Code::new(blank)
}

/// A definition, an equation of one or a record starts with each line that is not indented, and ends before the next.
pub fn definitions_in(code: &Code) -> Vec<Definition> {
    let starts: Vec<usize> = (0..code.tokens.len()).filter(|at| starts_line(code, *at)).collect();
    let ends = starts.iter().skip(1).copied().chain([code.tokens.len()]);
    let ranges = starts.iter().zip(ends).map(|(start, end)| *start..end);
    let defined = ranges.filter(|tokens| code.word(tokens.start) != "use");
    defined.map(|tokens| Definition { name: name_of(code, &tokens), tokens }).collect()
}

fn starts_line(code: &Code, at: usize) -> bool {
    let start = code.tokens[at].start;
    start == 0 || code.text.as_bytes()[start - 1] == b'\n'
}

fn name_of(code: &Code, tokens: &Range<usize>) -> String {
    let mut words = tokens.clone().map(|at| code.word(at));
    let own = |word: &&str| !matches!(*word, "unfoldable" | "abbrev" | "pub" | "record" | "data");
    words.find(own).unwrap_or_default().to_string()
}

#[cfg(test)]
mod tests {
    use super::*;
    use crate::changes::conjuncts::chain_edits;
    use crate::changes::tests::lines_changed;

    const SAMPLE: &str = "-- a && b
use Rattle.std.specs.Prelude.{Bool, ◌&&◌}

unfoldable pub sizes : List ℕ → Bool
sizes corridor =
    within 1 64 (links_of corridor) -- x && y
    && (eqb (length corridor) 3
    && implies last (eqb a 0 && eqb b 0))

pub record Turns : Type 0 where
  pub converts : sized (told n && eqb room 3) ≡ x
";

    #[test]
    fn names_and_last_operands_are_found() {
        let code = read(SAMPLE);
        assert_eq!(code.text.len(), SAMPLE.len());
        let found = definitions_in(&code);
        let names: Vec<&str> = found.iter().map(|definition| definition.name.as_str()).collect();
        assert_eq!(names, ["sizes", "sizes", "Turns"]);
        let edits = found.iter().flat_map(|definition| chain_edits(&code, &definition.tokens));
        assert_eq!(
            lines_changed(&code, &edits.collect::<Vec<_>>()),
            [
                "&& (eqb (length corridor) 3)",
                "&& implies last (eqb a 0))",
                "pub converts : sized (told n) ≡ x"
            ]
        );
    }
}
