//! The last thing that each `requires` of a contract asks of the caller, dropped: the last factor of a product, or all of it.

use crate::changes::Edit;
use crate::code::Code;
use std::ops::Range;

pub fn edits(code: &Code, requires: &[Range<usize>]) -> Vec<Edit> {
    requires.iter().filter_map(|clause| last_dropped(code, clause)).collect()
}

fn last_dropped(code: &Code, clause: &Range<usize>) -> Option<Edit> {
    let open = code.pair(clause.end - 1)?;
    let end = clause.end - 1;
    let mut last = None;
    let mut at = open + 1;
    while at < end {
        if code.word(at) == "×" {
            last = Some(at);
        }
        at = code.after(at);
    }
    let (start, stop) = match last {
        Some(sign) => (code.tokens[sign - 1].end, code.tokens[end - 1].end),
        None => (code.tokens[clause.start].start, code.tokens[clause.end - 1].end),
    };
    Some(Edit { start, end: stop, new: String::new() })
}

#[cfg(test)]
mod tests {
    use crate::changes::tests::changed;
    use crate::changes::Kind;

    #[test]
    fn the_last_factor_or_the_whole_is_dropped() {
        let text = "fn f(x: u32)\n    requires fits { (a ≤ 1) × (b × c) × Fits 2 x }\n    requires { x < 3 }\n    ensures { d × e }\n{\n}";
        assert_eq!(changed(Kind::Requires, text), ["requires fits { (a ≤ 1) × (b × c) }", ""]);
    }
}
