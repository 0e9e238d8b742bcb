//! Neighbouring arguments of one type exchanged, at each call of a function of the repository.

use crate::changes::Edit;
use crate::code::{Code, Form};
use crate::functions::functions_in;
use std::collections::HashMap;
use std::ops::Range;

/// The parameter types of the repository's functions, by path (`road::inner::share`), and the paths by name.
#[derive(Default)]
pub struct Signatures {
    types: HashMap<String, Vec<String>>,
    paths: HashMap<String, Vec<String>>,
}

impl Signatures {
    /// Adds the functions of a module.
    pub fn add(&mut self, module: &str, code: &Code) {
        for function in functions_in(code) {
            let path = format!("{module}::{}", function.name);
            self.paths.entry(function.name).or_default().push(path.clone());
            self.types.insert(path, function.parameters);
        }
    }

    /// The types of a path; where it is not known as it stands, those of the functions of its name, if they all have the same.
    fn of(&self, path: &str) -> Option<&Vec<String>> {
        let name = path.rsplit("::").next().unwrap_or(path);
        self.types.get(path).or_else(|| {
            let paths = self.paths.get(name)?;
            let first = self.types.get(&paths[0])?;
            paths.iter().all(|other| self.types.get(other) == Some(first)).then_some(first)
        })
    }
}

/// A file's module, and what each name stands for that its `use` lines bring in.
pub struct Scope {
    module: String,
    names: HashMap<String, String>,
}

impl Scope {
    pub fn new(module: &str, code: &Code) -> Scope {
        let mut names = HashMap::new();
        for at in 0..code.tokens.len() {
            let ghost = at > 0 && code.word(at - 1) == "ghost";
            if code.word(at) == "use" && !ghost {
                let end = code.find(at, code.tokens.len(), |word| word == ";");
                let path = code.between(at + 1, end);
                let name = path.rsplit([':', ' ']).next().unwrap_or(path);
                let known = path.split(" as ").next().unwrap_or(path);
                names.insert(name.to_string(), known.to_string());
            }
        }
        Scope { module: module.to_string(), names }
    }

    /// The path from the crate's name on of a path as the code has it.
    fn full(&self, path: &str) -> String {
        let (first, rest) = path.split_once("::").unwrap_or((path, ""));
        let known = match self.names.get(first) {
            Some(known) if rest.is_empty() => known.clone(),
            Some(known) => format!("{known}::{rest}"),
            None if rest.is_empty() => format!("{}::{path}", self.module),
            None => path.to_string(),
        };
        let own = self.module.split("::").next().unwrap_or(&self.module);
        let above = self.module.rsplit_once("::").map_or(own, |parts| parts.0);
        match known.split_once("::") {
            Some(("crate", rest)) => format!("{own}::{rest}"),
            Some(("self", rest)) => format!("{}::{rest}", self.module),
            Some(("super", rest)) => format!("{above}::{rest}"),
            _ => known,
        }
    }
}

pub fn edits(code: &Code, body: &Range<usize>, scope: &Scope, known: &Signatures) -> Vec<Edit> {
    let calls = body.clone().filter(|at| is_call(code, *at));
    calls.flat_map(|at| exchanged(code, at, scope, known)).collect()
}

/// A name and an opening bracket; a method's name has a dot before it, and its types are not looked for.
fn is_call(code: &Code, at: usize) -> bool {
    code.is(at, Form::Name) && code.word(at + 1) == "(" && code.word(at - 1) != "."
}

fn exchanged(code: &Code, at: usize, scope: &Scope, known: &Signatures) -> Vec<Edit> {
    let path = scope.full(code.between(path_start(code, at), at + 1));
    let (Some(types), Some(close)) = (known.of(&path), code.pair(at + 1)) else {
        return Vec::new();
    };
    let parts = code.parts(at + 2, close);
    if parts.len() != types.len() {
        return Vec::new();
    }
    let text = |i: usize| code.between(parts[i].0, parts[i].1);
    let of_one_type = (1..parts.len()).filter(|i| types[i - 1] == types[*i]);
    let differing = of_one_type.filter(|i| text(i - 1) != text(*i));
    differing
        .map(|i| {
            let (first, second) = (parts[i - 1], parts[i]);
            let gap = &code.text[code.tokens[first.1 - 1].end..code.tokens[second.0].start];
            let new = format!("{}{gap}{}", text(i), text(i - 1));
            Edit::of_tokens(code, first.0, second.1, new)
        })
        .collect()
}

/// The first token of a path that ends with this token.
fn path_start(code: &Code, at: usize) -> usize {
    if at >= 2 && code.word(at - 1) == "::" {
        path_start(code, at - 2)
    } else {
        at
    }
}

#[cfg(test)]
mod tests {
    use super::*;
    use crate::changes::tests::lines_changed;

    const CALLEES: &str = "
pub fn share(x: u32, part: u32, whole: u64) -> u32 { x }
pub fn copy(from: &[u8], at: usize, to: &mut [u8]) { }
";

    fn changed(caller: &str) -> Vec<String> {
        let code = Code::new(caller.to_string());
        let mut known = Signatures::default();
        known.add("road::inner", &Code::new(CALLEES.to_string()));
        known.add("lists::rows", &Code::new("fn copy(a: u8, b: u8) { }".to_string()));
        let scope = Scope::new("lists::scans", &code);
        let function = &functions_in(&code)[0];
        lines_changed(&code, &edits(&code, &function.body, &scope, &known))
    }

    #[test]
    fn neighbours_of_one_type_are_exchanged() {
        assert_eq!(
            changed("fn f() {\n    road::inner::share(g(a, b), 2, c)\n}"),
            ["road::inner::share(2, g(a, b), c)"]
        );
        assert!(changed("fn f() {\n    road::inner::share(a, a, c)\n}").is_empty());
    }

    #[test]
    fn the_use_lines_say_which_function_is_meant() {
        assert!(changed("use road::inner;\nfn f() {\n    inner::copy(a, b, c)\n}").is_empty());
        assert_eq!(
            changed("use crate::rows;\nfn f() {\n    rows::copy(a, b)\n}"),
            ["rows::copy(b, a)"]
        );
        assert!(changed("fn f() {\n    copy(a, b)\n}").is_empty());
    }
}
