//! A copy of a crate among the temporary files, where changes are made and checked one after the other, seconds each: a check starts
//! from what the check of the unchanged crate left in its incremental folder. (In the checkout `rt ci` would refuse such a copy.)

use crate::changes::Change;
use crate::repository::{files_below, Crate, Repository};
use std::env;
use std::fs::{self, File};
use std::io;
use std::path::{Path, PathBuf};
use std::process::{self, Child, Command, Stdio};
use std::thread::sleep;
use std::time::{Duration, Instant};

pub struct Room {
    folder: PathBuf,
    crate_folder: PathBuf,
    /// What the check of the unchanged crate left, and the copy of it that a check may write to.
    base: PathBuf,
    work: PathBuf,
    log: PathBuf,
    prover: PathBuf,
    words: Vec<String>,
    limit: Duration,
}

/// What a check said, and with which exit status it ended; none where it was stopped at the time limit.
pub struct Outcome {
    pub status: Option<i32>,
    pub said: String,
    pub seconds: f64,
}

impl Room {
    /// A fresh copy of the crate for one of the jobs, with what the check in the checkout left.
    pub fn new(
        repo: &Repository,
        made: &Crate,
        kit: &Path,
        job: usize,
        limit: Duration,
    ) -> io::Result<Room> {
        let rooms = env::temp_dir().join(format!("wrong-{}", process::id()));
        let folder = rooms.join(format!("{}-{job}", made.name));
        let crate_folder = folder.join("crate");
        let from = repo.folder(&made.name);
        for part in ["src", "specs", "proofs"] {
            copy_folder(&from.join(part), &crate_folder.join(part))?;
        }
        let base = folder.join("base");
        copy_folder(&from.join("out/incremental"), &base)?;
        Ok(Room {
            crate_folder,
            base,
            work: folder.join("work"),
            log: folder.join("said"),
            prover: kit.join("bin/rattle"),
            words: check_words(repo, made, kit),
            limit,
            folder,
        })
    }

    /// Checks the crate unchanged, as the start of all later checks.
    pub fn check_base(&self) -> io::Result<Outcome> {
        self.check(Some(&self.base))
    }

    /// Takes over what the check of the unchanged crate left in another room.
    pub fn share_base(&self, other: &Room) -> io::Result<()> {
        renew(&other.base, &self.base)
    }

    /// Makes the change, checks, and undoes it. A whole check trusts nothing of an earlier one.
    pub fn try_change(&self, change: &Change, whole: bool) -> io::Result<Outcome> {
        let file = self.crate_folder.join(&change.file);
        let text = fs::read_to_string(&file)?;
        fs::write(&file, change.edit.apply(&text))?;
        let outcome = if whole {
            self.check(None)
        } else {
            renew(&self.base, &self.work).and_then(|()| self.check(Some(&self.work)))
        };
        fs::write(&file, text)?;
        outcome
    }

    fn check(&self, incremental: Option<&Path>) -> io::Result<Outcome> {
        let said = File::create(&self.log)?;
        let mut command = Command::new(&self.prover);
        command.arg("check").args(&self.words).current_dir(&self.crate_folder);
        if let Some(folder) = incremental {
            command.arg("--incremental").arg(folder);
        }
        command.stdin(Stdio::null()).stdout(said.try_clone()?).stderr(said);
        let began = Instant::now();
        let status = wait(command.spawn()?, began + self.limit)?;
        let said = String::from_utf8_lossy(&fs::read(&self.log)?).into_owned();
        Ok(Outcome { status, said, seconds: began.elapsed().as_secs_f64() })
    }
}

impl Drop for Room {
    /// The last room takes the folder of all of them with it.
    fn drop(&mut self) {
        let _ = fs::remove_dir_all(&self.folder);
        let _ = self.folder.parent().map(fs::remove_dir);
    }
}

/// The words with which `rt` has the prover check a crate, on one processor.
fn check_words(repo: &Repository, made: &Crate, kit: &Path) -> Vec<String> {
    let (own, libraries) = repo.needs(made);
    let is_program = made.files.iter().any(|(file, _)| file == "src/main.rt");
    let root = if is_program { "src/main.rt" } else { "src/lib.rt" };
    let of_kit = |part: &str| kit.join(part).display().to_string();
    let built = |name: &str| repo.folder(name).join("out/rlib").display().to_string();
    let mut words = vec!["--crate-name".to_string(), made.name.clone(), root.to_string()];
    let mut say = |option: &str, value: String| words.extend([option.to_string(), value]);
    for name in ["std"].into_iter().chain(libraries.iter().map(String::as_str)) {
        say("--extern", format!("{name}={}", of_kit(&format!("rlibs/{name}.rlib"))));
    }
    say("-L", format!("dependency={}", of_kit("rlibs")));
    for need in &own {
        say("--extern", format!("{need}={}/{need}.rlib", built(need)));
        say("-L", format!("dependency={}", built(need)));
    }
    say("--antt-project", of_kit("rattle/logic/antt-project.json"));
    say("--logic-built", of_kit("logic_built"));
    say("--jobs", "1".to_string());
    say("--links", format!("{}=", made.name));
    if made.is_static {
        say("--crate-type", "staticlib".to_string());
    }
    words
}

/// The exit status; a check that takes longer is stopped. (A check on one processor starts no other process.)
fn wait(mut child: Child, until: Instant) -> io::Result<Option<i32>> {
    loop {
        if let Some(status) = child.try_wait()? {
            return Ok(Some(status.code().unwrap_or(-1)));
        }
        if Instant::now() > until {
            child.kill()?;
            child.wait()?;
            return Ok(None);
        }
        sleep(Duration::from_millis(20));
    }
}

fn renew(from: &Path, to: &Path) -> io::Result<()> {
    if to.exists() {
        fs::remove_dir_all(to)?;
    }
    copy_folder(from, to)
}

/// What was checked is linked where that can be done: a check puts another file in the place of such a file, and changes none.
fn copy_folder(from: &Path, to: &Path) -> io::Result<()> {
    for file in files_below(from)? {
        let copy = to.join(file.strip_prefix(from).unwrap_or(&file));
        fs::create_dir_all(copy.parent().unwrap_or(to))?;
        let checked = file.extension().is_some_and(|ending| ending == "oantt");
        if !(checked && fs::hard_link(&file, &copy).is_ok()) {
            fs::copy(&file, &copy)?;
        }
    }
    Ok(())
}
