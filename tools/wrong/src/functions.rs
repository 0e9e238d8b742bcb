//! The functions of a file: name, types of the parameters, what the contract requires, and the tokens of the body.

use crate::code::{Code, Form};
use std::ops::Range;

#[derive(Debug)]
pub struct Function {
    pub name: String,
    /// The type of each parameter, its tokens with a space between.
    pub parameters: Vec<String>,
    /// The tokens of each `requires`, from that word to its closing brace.
    pub requires: Vec<Range<usize>>,
    /// The tokens between the braces of the body.
    pub body: Range<usize>,
}

pub fn functions_in(code: &Code) -> Vec<Function> {
    (0..code.tokens.len()).filter_map(|at| function_at(code, at)).collect()
}

fn function_at(code: &Code, at: usize) -> Option<Function> {
    if code.word(at) != "fn" || !code.is(at + 1, Form::Name) {
        return None;
    }
    let open = code.find(at + 2, code.tokens.len(), |word| word == "(");
    let close = code.pair(open)?;
    let parameters = code.parts(open + 1, close).iter().map(|part| type_of(code, *part)).collect();
    let (requires, body) = contract_and_body(code, close + 1)?;
    Some(Function { name: code.word(at + 1).to_string(), parameters, requires, body })
}

/// What stands after the colon of a parameter; `self` has none.
fn type_of(code: &Code, (first, end): (usize, usize)) -> String {
    let colon = code.find(first, end, |word| word == ":");
    let words: Vec<&str> = (colon + 1..end).map(|at| code.word(at)).collect();
    words.join(" ")
}

/// The first brace that opens no part of the contract opens the body.
fn contract_and_body(code: &Code, first: usize) -> Option<(Vec<Range<usize>>, Range<usize>)> {
    let mut requires = Vec::new();
    let mut at = first;
    while at < code.tokens.len() {
        let start = at;
        match code.word(at) {
            "requires" | "ensures" => {
                at = code.after(code.find(at, code.tokens.len(), |word| word == "{"));
            }
            "{" => return code.pair(at).map(|close| (requires, at + 1..close)),
            ";" => return None,
            _ => at = code.after(at),
        }
        if code.word(start) == "requires" {
            requires.push(start..at);
        }
    }
    None
}

#[cfg(test)]
mod tests {
    use super::*;

    const SAMPLE: &str = "
// The word at 3.
pub fn put<'a>(file: &'a mut [u8; 4], j: usize, k: usize) -> [u8; 4]
    requires in_file { j * 4 + 4 ≤ length file.old }
    ensures written { f {n = 1} 2 }
{
    j + k
}
fn none();
fn main() { put(a, 1, 2); }
";

    #[test]
    fn contracts_are_no_part_of_the_body() {
        let code = Code::new(SAMPLE.to_string());
        let found = functions_in(&code);
        let names: Vec<&str> = found.iter().map(|function| function.name.as_str()).collect();
        assert_eq!(names, ["put", "main"]);
        assert_eq!(found[0].parameters, ["& 'a mut [ u8 ; 4 ]", "usize", "usize"]);
        let required = &found[0].requires[..];
        assert_eq!(required.len(), 1);
        assert!(code
            .between(required[0].start, required[0].end)
            .starts_with("requires in_file { j * 4"));
        assert_eq!(code.between(found[0].body.start, found[0].body.end), "j + k");
        assert_eq!(code.between(found[1].body.start, found[1].body.end), "put(a, 1, 2);");
    }
}
