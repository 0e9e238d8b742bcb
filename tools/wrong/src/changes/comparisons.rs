//! Each comparison in a function's body exchanged: with or without the case of equal sides, or in the other direction.

use crate::changes::Edit;
use crate::code::{Code, Form};
use std::ops::Range;

const EQUAL_SIDES: [(&str, &str); 6] =
    [("<", "<="), ("<=", "<"), (">", ">="), (">=", ">"), ("==", "!="), ("!=", "==")];

const DIRECTION: [(&str, &str); 4] = [("<", ">"), (">", "<"), ("<=", ">="), (">=", "<=")];

pub fn edits(code: &Code, body: &Range<usize>) -> Vec<Edit> {
    exchanged(code, body, &EQUAL_SIDES)
}

pub fn direction_edits(code: &Code, body: &Range<usize>) -> Vec<Edit> {
    exchanged(code, body, &DIRECTION)
}

fn exchanged(code: &Code, body: &Range<usize>, signs: &[(&str, &str)]) -> Vec<Edit> {
    let mut edits = Vec::new();
    for at in body.clone().filter(|at| !code.is(at + 1, Form::Lifetime)) {
        let other = signs.iter().find(|sign| sign.0 == code.word(at));
        edits.extend(other.map(|sign| Edit::of_tokens(code, at, at + 1, sign.1.to_string())));
    }
    edits
}

#[cfg(test)]
mod tests {
    use crate::changes::tests::changed;
    use crate::changes::Kind;

    const SAMPLE: &str =
        "fn f(x: u32) -> bool\n    requires { 0 < x }\n{\n    g(x) -> a < b << 2 == c\n}";

    #[test]
    fn each_comparison_is_exchanged() {
        assert_eq!(
            changed(Kind::Comparisons, SAMPLE),
            ["g(x) -> a <= b << 2 == c", "g(x) -> a < b << 2 != c"]
        );
        assert_eq!(changed(Kind::Directions, SAMPLE), ["g(x) -> a > b << 2 == c"]);
    }
}
