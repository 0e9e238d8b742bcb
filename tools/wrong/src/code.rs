//! The tokens of Rattle code with their places and brackets. Comments are passed over.

#[derive(Clone, Copy, PartialEq, Eq, Debug)]
pub enum Form {
    Name,
    Number,
    /// A byte string or a byte character.
    Text,
    Lifetime,
    /// An operator, a bracket or any other sign.
    Sign,
}

#[derive(Clone, Copy, Debug)]
pub struct Token {
    pub form: Form,
    pub start: usize,
    pub end: usize,
}

/// A file of code: its text, its tokens, and for each token the bracket that it stands in and, if it is a bracket, the other of its pair.
pub struct Code {
    pub text: String,
    pub tokens: Vec<Token>,
    inside: Vec<Option<usize>>,
    pair: Vec<Option<usize>>,
}

/// Signs of more than one character, longest first.
const SIGNS: [&str; 22] = [
    "..=", "<<=", ">>=", "->", "=>", "==", "!=", "<=", ">=", "&&", "||", "..", "::", "+=", "-=",
    "*=", "/=", "%=", "<<", ">>", "|=", "&=",
];

impl Code {
    pub fn new(text: String) -> Code {
        let tokens = tokens_of(&text);
        let mut code = Code { text, inside: Vec::new(), pair: vec![None; tokens.len()], tokens };
        code.match_brackets();
        code
    }

    fn match_brackets(&mut self) {
        let mut open: Vec<usize> = Vec::new();
        for at in 0..self.tokens.len() {
            let word = self.word(at).to_string();
            if matches!(word.as_str(), ")" | "]" | "}") {
                if let Some(first) = open.pop() {
                    self.pair[first] = Some(at);
                    self.pair[at] = Some(first);
                }
            }
            self.inside.push(open.last().copied());
            if matches!(word.as_str(), "(" | "[" | "{") {
                open.push(at);
            }
        }
    }

    /// The text of a token, empty past the last one.
    pub fn word(&self, at: usize) -> &str {
        self.tokens.get(at).map_or("", |token| &self.text[token.start..token.end])
    }

    pub fn is(&self, at: usize, form: Form) -> bool {
        self.tokens.get(at).is_some_and(|token| token.form == form)
    }

    /// The other bracket of a pair.
    pub fn pair(&self, at: usize) -> Option<usize> {
        self.pair.get(at).copied().flatten()
    }

    /// The opening bracket that a token stands in.
    pub fn inside(&self, at: usize) -> Option<usize> {
        self.inside.get(at).copied().flatten()
    }

    /// The text from token `first` up to token `end`, which is not part of it.
    pub fn between(&self, first: usize, end: usize) -> &str {
        if first >= end {
            return "";
        }
        &self.text[self.tokens[first].start..self.tokens[end - 1].end]
    }

    /// The first token of `first..end` that stands in no bracket there and that the test takes, or `end`.
    pub fn find(&self, first: usize, end: usize, test: impl Fn(&str) -> bool) -> usize {
        let mut at = first;
        while at < end {
            if test(self.word(at)) {
                return at;
            }
            at = self.after(at);
        }
        end
    }

    /// The tokens `first..end` cut at commas that stand in no bracket there: the first token of each part, and the one after its last.
    pub fn parts(&self, first: usize, end: usize) -> Vec<(usize, usize)> {
        let mut parts = Vec::new();
        let mut start = first;
        while start < end {
            let comma = self.find(start, end, |word| word == ",");
            parts.push((start, comma));
            start = comma + 1;
        }
        parts
    }

    /// The token after this one, or after its bracket where it opens one.
    pub fn after(&self, at: usize) -> usize {
        match self.pair(at) {
            Some(close) if close > at => close + 1,
            _ => at + 1,
        }
    }
}

fn tokens_of(text: &str) -> Vec<Token> {
    let mut tokens: Vec<Token> = Vec::new();
    let mut start = 0;
    while let Some(first) = text[start..].chars().next() {
        let rest = &text[start..];
        if first.is_whitespace() {
            start += first.len_utf8();
        } else if rest.starts_with("//") {
            start += rest.find('\n').unwrap_or(rest.len());
        } else {
            let field = tokens.last().is_some_and(|last| &text[last.start..last.end] == ".");
            let (form, length) = token_at(rest, first, field);
            tokens.push(Token { form, start, end: start + length });
            start += length;
        }
    }
    tokens
}

/// The form and the length of the token that the text starts with. After a dot a number is a field's, and has no fraction.
fn token_at(rest: &str, first: char, field: bool) -> (Form, usize) {
    if rest.starts_with("b\"") {
        return (Form::Text, 1 + quoted(&rest[1..], '"'));
    }
    if rest.starts_with("b'") {
        return (Form::Text, 1 + quoted(&rest[1..], '\''));
    }
    if first.is_ascii_digit() {
        return (Form::Number, number_length(rest, field));
    }
    if is_name(first) {
        return (Form::Name, name_length(rest));
    }
    if first == '\'' && rest[1..].starts_with(is_name) {
        return (Form::Lifetime, 1 + name_length(&rest[1..]));
    }
    let sign = SIGNS.iter().find(|sign| rest.starts_with(**sign));
    (Form::Sign, sign.map_or(first.len_utf8(), |sign| sign.len()))
}

pub fn is_name(c: char) -> bool {
    c.is_alphanumeric() || c == '_'
}

fn name_length(rest: &str) -> usize {
    rest.find(|c| !is_name(c)).unwrap_or(rest.len())
}

fn number_length(rest: &str, field: bool) -> usize {
    let whole = name_length(rest);
    let fraction = rest[whole..].strip_prefix('.');
    match fraction {
        Some(digits) if !field && digits.starts_with(|c: char| c.is_ascii_digit()) => {
            whole + 1 + name_length(digits)
        }
        _ => whole,
    }
}

/// The length of a text in quotes, from the opening one to the closing one.
fn quoted(rest: &str, quote: char) -> usize {
    let mut escaped = false;
    for (at, c) in rest.char_indices().skip(1) {
        if c == quote && !escaped {
            return at + c.len_utf8();
        }
        escaped = c == '\\' && !escaped;
    }
    rest.len()
}

#[cfg(test)]
mod tests {
    use super::*;

    fn words(text: &str) -> Vec<String> {
        let code = Code::new(text.to_string());
        (0..code.tokens.len()).map(|at| code.word(at).to_string()).collect()
    }

    #[test]
    fn fields_ranges_and_fractions_are_told_apart() {
        assert_eq!(words("x.0.1 <= 0..=2"), ["x", ".", "0", ".", "1", "<=", "0", "..=", "2"]);
        assert_eq!(words("1.5 + 2"), ["1.5", "+", "2"]);
    }

    #[test]
    fn comments_are_passed_over_and_text_is_one_token() {
        assert_eq!(
            words("a // b < c\nd b\"x \\\" 1\" b'\\'' 'l"),
            ["a", "d", "b\"x \\\" 1\"", "b'\\''", "'l"]
        );
    }

    #[test]
    fn parts_stop_at_commas_outside_brackets() {
        let code = Code::new("f(a, g(b, c), [d, e])".to_string());
        let parts = code.parts(2, code.pair(1).unwrap());
        let texts: Vec<&str> = parts.iter().map(|part| code.between(part.0, part.1)).collect();
        assert_eq!(texts, ["a", "g(b, c)", "[d, e]"]);
    }
}
