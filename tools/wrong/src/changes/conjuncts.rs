//! The last of several tests dropped: in a definition the last operand of a chain of `&&`; in a function's body that, or the last
//! test that returns early, or the second test of `if a { b } else { false }`.

use crate::changes::Edit;
use crate::code::Code;
use std::ops::Range;

/// What a last operand ends at, besides the bracket around it: what binds less than `&&`.
const OPERAND_ENDS: [&str; 11] = ["&&", "||", ";", ",", "{", "=", "→", "≡", "×", "⊎", "↔"];

pub fn body_edits(code: &Code, body: &Range<usize>) -> Vec<Edit> {
    let mut edits = chain_edits(code, body);
    edits.extend(early_return(code, body));
    edits.extend(body.clone().filter_map(|at| second_test(code, body, at)));
    edits
}

/// For each chain of `&&` among the tokens, its last operand dropped.
pub fn chain_edits(code: &Code, tokens: &Range<usize>) -> Vec<Edit> {
    let mut edits = Vec::new();
    for at in tokens.clone().filter(|at| code.word(*at) == "&&") {
        let around = code.inside(at).and_then(|open| code.pair(open)).unwrap_or(tokens.end);
        let end = code.find(at + 1, around.min(tokens.end), |word| OPERAND_ENDS.contains(&word));
        if code.word(end) != "&&" && !is_chain(code, at + 1, end) {
            let start = code.tokens[at - 1].end;
            let stop = code.tokens[end - 1].end;
            edits.push(Edit { start, end: stop, new: String::new() });
        }
    }
    edits
}

/// Whether an operand is a chain in brackets: then its own last operand is the chain's.
fn is_chain(code: &Code, first: usize, end: usize) -> bool {
    let whole = code.word(first) == "(" && code.pair(first) == Some(end - 1);
    whole && code.find(first + 1, end - 1, |word| word == "&&") < end - 1
}

/// The statements of a block: the first token of each, and the one after its last.
fn statements(code: &Code, block: &Range<usize>) -> Vec<(usize, usize)> {
    let mut found = Vec::new();
    let mut start = block.start;
    while start < block.end {
        let end = statement_end(code, start, block.end);
        found.push((start, end));
        start = end;
    }
    found
}

/// A statement ends with its semicolon, or, where it starts with the word of a block, with the last brace.
fn statement_end(code: &Code, start: usize, end: usize) -> usize {
    let of_block = matches!(code.word(start), "if" | "while" | "for" | "loop" | "match");
    let mut at = start;
    while at < end {
        let stop = code.find(at, end, |word| word == ";" || (of_block && word == "{"));
        let next = code.after(stop).min(end);
        // a brace before `=` closes the pattern of an `if let`
        if code.word(stop) == ";" || !matches!(code.word(next), "else" | "=") {
            return next;
        }
        at = next + 1;
    }
    end
}

/// The statement before the last one, where it is an `if` that only returns.
fn early_return(code: &Code, body: &Range<usize>) -> Option<Edit> {
    let all = statements(code, body);
    let [.., (first, end), _] = all[..] else { return None };
    let open = code.pair(end - 1)?;
    let alone = code.find(first, end, |word| word == "else") == end;
    if code.word(first) != "if" || code.word(open + 1) != "return" || !alone {
        return None;
    }
    Some(Edit::of_tokens(code, first, end, String::new()))
}

/// In `if a { b } else { false }` the test b made true.
fn second_test(code: &Code, body: &Range<usize>, at: usize) -> Option<Edit> {
    if code.word(at) != "if" {
        return None;
    }
    let open = code.find(at, body.end, |word| word == "{");
    let close = code.pair(open)?;
    let otherwise = (close + 1..close + 5).map(|at| code.word(at)).collect::<Vec<_>>();
    let one_expression = code.find(open + 1, close, |word| word == ";") == close;
    let settled = matches!(code.between(open + 1, close), "" | "true" | "false");
    (otherwise == ["else", "{", "false", "}"] && one_expression && !settled)
        .then(|| Edit::of_tokens(code, open + 1, close, "true".to_string()))
}

#[cfg(test)]
mod tests {
    use crate::changes::tests::changed;
    use crate::changes::Kind;

    #[test]
    fn the_last_early_return_is_dropped() {
        let text = "fn f(x: u32) -> u32 {\n    if x > 1 {\n        return 3;\n    }\n    if let A { n: _ } = x {\n        return 4;\n    }\n    g(0)\n}";
        assert_eq!(changed(Kind::Conjuncts, text), [""]);
        let other = "fn f(x: u32) -> u32 {\n    if x > 1 {\n        y = 3;\n    }\n    0\n}";
        assert!(changed(Kind::Conjuncts, other).is_empty());
    }

    #[test]
    fn the_second_of_two_tests_becomes_true() {
        let text = "fn f() -> bool {\n    if a < b { c < d } else { false }\n}";
        assert_eq!(changed(Kind::Conjuncts, text), ["if a < b { true } else { false }"]);
    }

    #[test]
    fn the_last_operand_of_a_chain_is_dropped() {
        let text = "fn f() -> bool {\n    if a && (b && c) { g(d && e && h) }\n}";
        assert_eq!(
            changed(Kind::Conjuncts, text),
            ["if a && (b) { g(d && e && h) }", "if a && (b && c) { g(d && e) }"]
        );
    }
}
