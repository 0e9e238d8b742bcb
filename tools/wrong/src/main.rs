//! Makes wrong programs of proved crates, one change at a time in a copy, and reports which of them the prover refuses.

mod changes;
mod code;
mod functions;
mod options;
mod report;
mod repository;
mod room;
mod tries;
mod verdict;

use changes::arguments::Signatures;
use changes::{changes_of, Change};
use code::Code;
use options::{Options, HELP};
use report::Report;
use repository::{module_of, Repository};
use std::env;
use std::process::ExitCode;

fn main() -> ExitCode {
    let words: Vec<String> = env::args().skip(1).collect();
    if words.iter().any(|word| word == "--help") {
        print!("{HELP}");
        return ExitCode::SUCCESS;
    }
    match Options::parse(&words).and_then(|options| run(&options)) {
        Ok(()) => ExitCode::SUCCESS,
        Err(message) => {
            eprintln!("wrong: {message} (--help says how to run it)");
            ExitCode::FAILURE
        }
    }
}

fn run(options: &Options) -> Result<(), String> {
    let folder = env::current_dir().map_err(|e| e.to_string())?;
    let repo = Repository::above(&folder)?;
    let known = signatures(&repo);
    let mut chosen = Vec::new();
    for name in &options.crates {
        let made = repo.named(name)?;
        chosen.push((made, select(changes_of(made, &known), options)));
    }
    if let Some((name, number)) = &options.from {
        let first = chosen.iter().position(|entry| entry.0.name == *name);
        chosen.drain(..first.ok_or(format!("--from names {name}, which is not tried"))?);
        chosen[0].1.retain(|change| change.number >= *number);
    }
    if options.list {
        chosen.iter().flat_map(|entry| &entry.1).for_each(report::list);
        return Ok(());
    }
    let mut report = Report::default();
    if options.said {
        for (made, changes) in &chosen {
            tries::judge_again(&repo, made, changes, &mut report);
        }
    } else {
        let kit = tries::kit()?;
        for (made, changes) in &chosen {
            tries::try_all(&repo, made, changes, options, &kit, &mut report)?;
        }
    }
    report.finish();
    Ok(())
}

fn signatures(repo: &Repository) -> Signatures {
    let mut known = Signatures::default();
    for made in &repo.crates {
        for (file, text) in made.files.iter().filter(|entry| entry.0.ends_with(".rt")) {
            known.add(&module_of(&made.name, file), &Code::new(text.clone()));
        }
    }
    known
}

/// The changes that the options leave, of one crate.
fn select(changes: Vec<Change>, options: &Options) -> Vec<Change> {
    let wanted = |change: &Change| {
        options.kinds.contains(&change.kind)
            && options.function.as_ref().is_none_or(|name| *name == change.within)
            && options.file.as_ref().is_none_or(|path| change.path().ends_with(path.as_str()))
    };
    let left: Vec<Change> = changes.into_iter().filter(wanted).collect();
    let most = options.sample.unwrap_or(left.len()).min(left.len());
    (0..most).map(|at| left[at * left.len() / most].clone()).collect()
}
