//! Each number in a function's body, one greater.

use crate::changes::Edit;
use crate::code::{Code, Form};
use std::ops::Range;

pub fn edits(code: &Code, body: &Range<usize>) -> Vec<Edit> {
    let numbers = body.clone().filter(|at| code.is(*at, Form::Number));
    let changed = numbers.filter(|at| !is_field(code, *at) && !is_length(code, *at));
    changed.map(|at| Edit::of_tokens(code, at, at + 1, one_greater(code.word(at)))).collect()
}

/// The number of a field, as in `x.0`.
fn is_field(code: &Code, at: usize) -> bool {
    at > 0 && code.word(at - 1) == "."
}

/// Whether a token stands after the semicolon of a bracket, `[u8; n]` or `[v; n]`: it is part of an array's length.
fn is_length(code: &Code, at: usize) -> bool {
    let Some(open) = code.inside(at) else { return false };
    let after_semicolon =
        code.word(open) == "[" && code.find(open + 1, at, |word| word == ";") < at;
    after_semicolon || is_length(code, open)
}

/// The number one greater, with its suffix: of a hexadecimal number or one with underscores in plain decimal digits.
fn one_greater(word: &str) -> String {
    let (digits, base) = match word.strip_prefix("0x") {
        Some(rest) => (rest, 16),
        None => (word, 10),
    };
    let end = digits.find(|c: char| !c.is_digit(base) && c != '_').unwrap_or(digits.len());
    let plain = digits[..end].replace('_', "");
    let value = u128::from_str_radix(&plain, base).expect("the digits of a number of 64 bits");
    format!("{}{}", value + 1, &digits[end..])
}

#[cfg(test)]
mod tests {
    use crate::changes::tests::changed;
    use crate::changes::Kind;

    #[test]
    fn each_number_of_a_body_is_one_greater() {
        let text = "fn f(x: u32) -> u32\n    ensures { result ≡ x + 9 }\n{\n    x.0 * 0x1F + 65_536u32 // 7\n}";
        assert_eq!(
            changed(Kind::Numbers, text),
            ["x.0 * 32 + 65_536u32 // 7", "x.0 * 0x1F + 65537u32 // 7"]
        );
    }

    #[test]
    fn lengths_and_text_are_left_out() {
        let text =
            "fn f() {\n    let x: [u8; 4] = [0u8; 2 * (3)];\n    put(b\"12\", b'3', &s[5..]);\n}";
        assert_eq!(
            changed(Kind::Numbers, text),
            ["let x: [u8; 4] = [1u8; 2 * (3)];", "put(b\"12\", b'3', &s[6..]);"]
        );
    }
}
