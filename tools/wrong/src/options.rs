//! The command line.

use crate::changes::{Kind, KINDS};
use std::time::Duration;

pub const HELP: &str = "\
wrong: make wrong programs of crates, one change at a time, and see which of them the prover refuses

  cargo run --release --offline --manifest-path tools/wrong/Cargo.toml -- [OPTIONS] CRATE..

  --kinds A,B       kinds of change, of numbers, comparisons, directions, arguments, conjuncts, requires
                    (default: numbers,comparisons,arguments,conjuncts)
  --function NAME   only in the function or definition NAME
  --file PATH       only in files whose path ends with PATH, as src/inner/words.rt
  --list            print the changes and check nothing
  --sample N        at most N changes of each crate, spread evenly
  --from CRATE:N    start at this change, to go on after an interruption
  --jobs N          checks at a time (default 2)
  --limit SECONDS   stop a check that takes longer (default 600)
  --said            judge again what the checks of an earlier run said, and check nothing
  --whole           a whole check for each change, in place of one from the incremental folder

kinds of change
  numbers      each number in a function's body one greater. Left out: numbers in contracts (a contract is what the change is held to),
               in `ghost use` lines, comments and constants outside functions, byte strings and byte characters (text), the fields
               of tuples (`x.0`), and lengths of arrays, in a type or in `[v; n]`: another length is another type, or a room that is
               longer than need be
  comparisons  each `<` in a function's body exchanged with `<=`, each `>` with `>=`, each `==` with `!=`, and the other way round
  directions   each `<` exchanged with `>`, each `<=` with `>=`, and the other way round
  arguments    two neighbouring arguments exchanged, at each call where the function's parameters there are of one type. Left out:
               arguments with the same text, methods, constructors, and functions of the toolchain's libraries
  conjuncts    the last test dropped: the last operand of each chain of `&&` in definitions of specs/ and in functions' bodies, the
               last `if .. { return x; }` before the last statement of a function's body, and b in `if a { b } else { false }`
  requires     the last factor of each `requires` dropped, or all of it where it has one: no wrong program, but where it is accepted
               the contract asks for more than the function needs

verdicts
  accepted           the crate is proved with the change, by a whole check
  refused at a fact  the first error says that a fact was not shown
  refused by shape   the first error, or another in its file, says that the code or the proof no longer has the form that the other asks for
  unclear            the first error is of neither known form, or the time ran out
";

pub struct Options {
    pub crates: Vec<String>,
    pub kinds: Vec<Kind>,
    pub function: Option<String>,
    pub file: Option<String>,
    pub list: bool,
    pub sample: Option<usize>,
    pub from: Option<(String, usize)>,
    pub jobs: usize,
    pub limit: Duration,
    pub said: bool,
    pub whole: bool,
}

impl Options {
    pub fn parse(words: &[String]) -> Result<Options, String> {
        let mut options = Options {
            crates: Vec::new(),
            kinds: vec![Kind::Numbers, Kind::Comparisons, Kind::Arguments, Kind::Conjuncts],
            function: None,
            file: None,
            list: false,
            sample: None,
            from: None,
            jobs: 2,
            limit: Duration::from_secs(600),
            said: false,
            whole: false,
        };
        let mut rest = words.iter();
        while let Some(word) = rest.next() {
            match word.as_str() {
                "--list" => options.list = true,
                "--said" => options.said = true,
                "--whole" => options.whole = true,
                option if option.starts_with("--") => {
                    let value = rest.next().ok_or(format!("{option} takes a value"))?;
                    options.set(option, value)?;
                }
                name => options.crates.push(name.to_string()),
            }
        }
        if options.crates.is_empty() {
            return Err("no crate is named".to_string());
        }
        Ok(options)
    }

    fn set(&mut self, option: &str, value: &str) -> Result<(), String> {
        match option {
            "--kinds" => self.kinds = value.split(',').map(kind_named).collect::<Result<_, _>>()?,
            "--function" => self.function = Some(value.to_string()),
            "--file" => self.file = Some(value.to_string()),
            "--sample" => self.sample = Some(count(value)?),
            "--from" => {
                let (name, at) = value.split_once(':').ok_or("--from takes CRATE:NUMBER")?;
                self.from = Some((name.to_string(), count(at)?));
            }
            "--jobs" => self.jobs = count(value)?,
            "--limit" => self.limit = Duration::from_secs(count(value)? as u64),
            _ => return Err(format!("no option {option}")),
        }
        Ok(())
    }
}

fn kind_named(name: &str) -> Result<Kind, String> {
    let found = KINDS.into_iter().find(|kind| kind.to_string() == name);
    found.ok_or_else(|| format!("no kind of change is called {name}"))
}

fn count(value: &str) -> Result<usize, String> {
    let number = value.parse().ok().filter(|number| *number > 0);
    number.ok_or_else(|| format!("{value} is not a number above 0"))
}

#[cfg(test)]
mod tests {
    use super::*;

    fn parse(line: &str) -> Result<Options, String> {
        Options::parse(&line.split_whitespace().map(str::to_string).collect::<Vec<_>>())
    }

    #[test]
    fn options_are_read() {
        let options =
            parse("--kinds numbers,conjuncts --from road:3 --sample 5 road lists").unwrap();
        assert_eq!(options.kinds, [Kind::Numbers, Kind::Conjuncts]);
        assert_eq!(options.from, Some(("road".to_string(), 3)));
        assert_eq!((options.sample, options.jobs), (Some(5), 2));
        assert_eq!(options.crates, ["road", "lists"]);
    }

    #[test]
    fn bad_options_are_refused() {
        for line in ["", "--jobs 0 road", "--from 3 road", "--kinds signs road", "road --sample"] {
            assert!(parse(line).is_err(), "{line}");
        }
    }
}
