//! What a check says of a change: accepted, refused at a fact, refused by shape, or unclear.

use crate::room::Outcome;
use std::fmt;

#[derive(Clone, Copy, PartialEq, Eq, Debug)]
pub enum Verdict {
    Accepted,
    Fact,
    Shape,
    Unclear,
}

pub const VERDICTS: [Verdict; 4] =
    [Verdict::Accepted, Verdict::Fact, Verdict::Shape, Verdict::Unclear];

impl fmt::Display for Verdict {
    fn fmt(&self, f: &mut fmt::Formatter) -> fmt::Result {
        f.pad(match self {
            Verdict::Accepted => "accepted",
            Verdict::Fact => "refused at a fact",
            Verdict::Shape => "refused by shape",
            Verdict::Unclear => "unclear",
        })
    }
}

/// Words of errors that say that a fact was looked for and not found.
const FACT: [&str; 13] = [
    "`search`: no proof of",
    // the same at a goal that no file answers
    "`search` did not prove",
    "`omega`: ",
    "`omega` stopped at a bound of its own",
    "`omega` found no proof",
    "`cc` met a bound of its own before the equations had joined",
    "`simp` has no last argument, so what it leaves must be a path",
    "`rw` has no last argument, so what it leaves must be a path",
    // an equation of the proof that is of another value than the goal
    "`rw`: no occurrence of the path's",
    "`simp`: no equation of the list has an instance in the goal",
    // two sides of an equation, compared late
    "does not hold (this comparison",
    // the same, computed at once
    "computed as far as they go, the two values are",
    // the same, where the sides are records
    "as printed, the two values first differ",
];

/// Words of errors that say that code and proof no longer fit each other, whatever is true of the code.
const SHAPE: [&str; 7] = [
    // the code itself is refused before any proof: a type, a literal out of range
    "error[",
    // the proof names a branch, a call or a loop of the code that is not there
    "has no field",
    // the proof answers a goal that the code no longer has
    "that can be named from here",
    // the proof gives or takes several facts where the contract now has one
    "which is not a `×` type",
    "projects from a `×` type or a record",
    // the proof leaves a number to be told by the code, which no longer tells it
    "this entry's type is not yet determined",
    // a function without a proof file for which Rattle makes none, and names no fact that it lacks
    ": no proof: expected",
];

/// What a check says at its end where the crate is proved.
pub const PROVED: &str = "logic=proved";

/// What follows from another error, and is no reason by itself: a law that is cited, a function that is called.
const CONSEQUENCE: [&str; 3] = ["was not admitted", "which is not proved", "which are not proved"];

/// The verdict, and the error that it goes by.
pub fn judge(outcome: &Outcome) -> (Verdict, String) {
    match outcome.status {
        None => (Verdict::Unclear, "no answer within the time limit".to_string()),
        Some(0) if outcome.said.contains(PROVED) => (Verdict::Accepted, String::new()),
        Some(_) => of_errors(errors_in(&outcome.said)),
    }
}

/// The first error decides, unless another of the same file is one of shape: where a goal is gone, the goals after it have the names of
/// others, and a proof looks for the wrong facts.
fn of_errors(mut errors: Vec<String>) -> (Verdict, String) {
    let own = file_of(&errors[0]).to_string();
    let of_shape = |error: &String| file_of(error) == own && of_error(error) == Verdict::Shape;
    let decisive = errors.iter().position(of_shape).unwrap_or(0);
    let error = errors.swap_remove(decisive);
    (of_error(&error), error)
}

/// The proof file of an error, without its ending, or the function that wants one.
fn file_of(error: &str) -> &str {
    let place = error.split(": ").next().unwrap_or_default();
    place.split(".antt:").next().unwrap_or_default()
}

fn of_error(error: &str) -> Verdict {
    let says = |words: &[&str]| words.iter().any(|word| error.contains(word));
    if says(&FACT) {
        Verdict::Fact
    } else if says(&SHAPE) {
        Verdict::Shape
    } else {
        of_types(error).unwrap_or(Verdict::Unclear)
    }
}

/// Where a proof has one type and another is asked for: mostly two equations or inequalities, one of which is of no use for the other.
/// It is the shape where one type is a goal or a place in the code, or where one is the denial of what the other says: a proof then
/// answers another goal, or takes a branch for the other one.
fn of_types(error: &str) -> Option<Verdict> {
    let expected = quoted_after(error, "expected type `")?;
    let found = quoted_after(error, "but this has type `")?;
    let of_code = |kind: &str| {
        let head = kind.split(' ').next().unwrap_or_default();
        head.starts_with("goal.")
            || [".Goals.", ".Given.", ".Lts."].iter().any(|it| head.contains(it))
    };
    let denies = |kind: &str| kind.ends_with("→ Prim.⊥");
    let shape = of_code(expected) || of_code(found) || denies(expected) != denies(found);
    Some(if shape { Verdict::Shape } else { Verdict::Fact })
}

fn quoted_after<'a>(text: &'a str, words: &str) -> Option<&'a str> {
    let start = text.find(words)? + words.len();
    text[start..].split('`').next()
}

/// The errors that follow from no other, each with its further lines, which are indented. Where there is none: the functions for which
/// a proof file is wanted, which are reported after all errors; else all that was said.
fn errors_in(said: &str) -> Vec<String> {
    let follows = |line: &str| CONSEQUENCE.iter().any(|words| line.contains(words));
    let cause = |line: &str| is_error(line) && !follows(line);
    let wanted = |line: &str| line.contains(": no proof: expected") && !follows(line);
    let all = [paragraphs(said, cause), paragraphs(said, wanted), paragraphs(said, is_error)];
    let found = all.into_iter().find(|errors| !errors.is_empty());
    found.unwrap_or_else(|| vec![joined(said.lines())])
}

fn paragraphs(said: &str, starts: impl Fn(&str) -> bool) -> Vec<String> {
    let lines: Vec<&str> = said.lines().collect();
    let firsts = (0..lines.len()).filter(|at| starts(lines[*at]));
    let with_further = |at: usize| {
        let further = lines[at + 1..].iter().take_while(|line| line.starts_with(' '));
        joined(lines[at..=at].iter().chain(further).copied())
    };
    firsts.map(with_further).collect()
}

fn joined<'a>(lines: impl Iterator<Item = &'a str>) -> String {
    lines.flat_map(str::split_whitespace).collect::<Vec<_>>().join(" ")
}

fn is_error(line: &str) -> bool {
    line.contains(": error: ") || line.contains(": error[")
}

#[cfg(test)]
mod tests {
    use super::*;

    fn judged(status: i32, said: &str) -> (Verdict, String) {
        judge(&Outcome { status: Some(status), said: said.to_string(), seconds: 1.0 })
    }

    #[test]
    fn a_crate_that_is_proved_is_accepted() {
        let said =
            "fn road::inner::offer: proved\nlogic=proved functions=10 native=nat,char,string\n";
        assert_eq!(judged(0, said).0, Verdict::Accepted);
        assert_eq!(judged(2, "rt: the kit has no library oi").0, Verdict::Unclear);
        let stopped = judge(&Outcome { status: None, said: said.to_string(), seconds: 600.0 });
        assert_eq!(stopped.0, Verdict::Unclear);
    }

    #[test]
    fn a_fact_that_is_not_found_is_a_fact() {
        for error in [
            "./proofs/inner/sending/Answers.antt:9:105: error: `returns`: `search`: no proof of `mathlib.Core.Path.◌≡◌ 3 (unless fits 2)`\n  was found.",
            "./proofs/inner/merge/Answers.antt:21:81: error: `returns-2`: `omega`: the goal does not follow from what it read.",
            "./proofs/inner/place/put_run/Answers.antt:19:5: error: `put_word-requires`: `omega` stopped at a bound of its own: eliminating one atom",
            "./proofs/inner/calls/told_fits/Answers.antt:9:13: error: `returns`: `rw`: no occurrence of the path's right endpoint in the goal",
            "./proofs/inner/put_exit/Answers.antt:10:13: error: `returns`: `simp`: no equation of the list has an instance in the goal `result ≡ 0`",
            "./proofs/inner/gives/Answers.antt:10:13: error: `returns`: give a proof of that as the last argument, `simp L t`\n  `simp` has no last argument, so what it leaves must be a path whose two ends are equal",
            "./proofs/inner/kinds/own_agrees/Answers.antt:9:13: error: `returns`: give a proof of that as the last argument, `rw L t`\n  `rw` has no last argument, so what it leaves must be a path whose two ends are equal",
            "./proofs/inner/kinds/list_kind/Answers.antt:13:61: error: `returns-2`: list the missing equation with its arguments\n  `cc` met a bound of its own before the equations had joined `r` and `s`",
            "./proofs/inner/unpacked/downstream/Answers.antt:13:5: error: `word_of-requires`: `omega` found no proof, and no values at which the goal fails",
            "./proofs/Rates.antt:40:54: error: `reaches_facts`: `reaches junction` ≟ `leb a b && leb c d`\n  does not hold (this comparison, made at this position, had to wait",
            "./proofs/sized/Answers.antt:7:63: error: `returns`: computed as far as they go, the two values are `c .refusal .result` (found) and `Answer.refusal (unless fits 1) 0 0`",
            "./proofs/inner/words/link_at/Answers.antt:17:10: error: `returns`: as printed, the two values first differ where one has `record` (found), at the start",
            "fn lists::inner::words::node_word: no proof: expected answers in ./proofs/inner/words/node_word/Answers.antt; `search` did not prove `returns`",
        ] {
            assert_eq!(judged(1, &format!("fn a: proved\n{error}\nlogic=not-proved\n")).0, Verdict::Fact, "{error}");
        }
    }

    #[test]
    fn code_and_proof_that_do_not_fit_are_the_shape() {
        for error in [
            "src/inner.rt:72:24: error[mismatched-types]: expected `Flows`, found `Units`",
            "./proofs/inner/held_limit/Answers.antt:17:115: error: `returns`: record `Rattle.settings.proofs.inner.held_limit.Lts.Else1`\n  has no field `if-flow-eq0` (nearest: .if-flow-eq1)",
            "./proofs/inner/share/Answers.antt:15:96: error: `returns`: a tuple is checked against `result ≡ 0`\n  which is not a `×` type",
            "./proofs/inner/unpacked/downstream/Answers.antt:13:19: error: `word_of-requires`: replace that `_` with the term it stands for\n  this entry's type is not yet determined",
            "fn trial::say::put: no proof: expected `put_spec` in ./proofs/say/put/Proof.antt; the borrow checker does not cover this function yet",
            "./proofs/inner/held_limit/Answers.antt:20:12: error: `cast-most`: `goal.cast-most`: module `Rattle.settings.proofs.inner.held_limit.Goals` has no `cast-most` that can be named from here",
        ] {
            assert_eq!(judged(1, error).0, Verdict::Shape, "{error}");
        }
    }

    #[test]
    fn types_that_differ_are_told_apart() {
        let judged = |expected: &str, found: &str| {
            let types = format!("  expected type `{expected}`\n  but this has type `{found}`");
            judged(
                1,
                &format!(
                    "./proofs/Tests.antt:32:33: error: `within_holds`: the two types differ\n{types}"
                ),
            )
            .0
        };
        assert_eq!(
            judged("leb low x && leb x high ≡ true", "within low high x ≡ true"),
            Verdict::Fact
        );
        assert_eq!(judged("◌≡◌ {A = ℕ} (?10 c) (?11 c)", "x ≡ 0 → Prim.⊥"), Verdict::Shape);
        assert_eq!(judged("goal.returns-2", "x ≡ 0"), Verdict::Shape);
        assert_eq!(judged("fresh.Lts.Else1 c", "fresh.Lts.Start c"), Verdict::Shape);
    }

    #[test]
    fn what_follows_from_another_error_is_passed_over() {
        let follows = "./proofs/f/Answers.antt:12:19: error: `returns`: `close` was not admitted (it has holes), so this cannot be checked";
        let cause = "./proofs/g/Answers.antt:9:1: error: `returns`: `omega`: the goal does not follow\n    from what it read";
        let (verdict, error) = judged(1, &format!("{follows}\n{cause}\n"));
        assert_eq!(verdict, Verdict::Fact);
        assert!(
            error.starts_with("./proofs/g/Answers.antt")
                && error.ends_with("follow from what it read")
        );
        assert_eq!(judged(1, follows).0, Verdict::Unclear);
    }

    #[test]
    fn a_caller_of_what_is_not_proved_is_passed_over() {
        let cause = "fn normal::inner::input::refused: no proof: expected answers in ./proofs/inner/input/refused/Answers.antt; `search` did not prove `returns`";
        let caller = "fn normal::main: no proof: expected answers in ./proofs/main/Answers.antt; it calls `normal::inner::print`, which is not proved";
        let (verdict, error) = judged(1, &format!("{caller}\n{cause}\n"));
        assert_eq!((verdict, error.as_str()), (Verdict::Fact, cause));
    }

    #[test]
    fn a_need_that_is_gone_from_the_same_file_is_the_shape() {
        let fact =
            "./proofs/f/Answers.antt:14:15: error: `returns-3`: `search`: no proof of `result ≡ 0`";
        let gone = |file: &str| {
            format!("{file}:16:13: error: `returns-4`: `goal.returns-4`: module `Rattle.f.proofs.f.Goals`\n  has no `returns-4` that can be named from here")
        };
        let (verdict, error) = judged(1, &format!("{fact}\n{}", gone("./proofs/f/Answers.antt")));
        assert_eq!(verdict, Verdict::Shape);
        assert!(error.contains("goal.returns-4"));
        assert_eq!(
            judged(1, &format!("{fact}\n{}", gone("./proofs/g/Answers.antt"))).0,
            Verdict::Fact
        );
    }
}
