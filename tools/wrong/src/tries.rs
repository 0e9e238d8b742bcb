//! Tries the changes of a crate, several at a time, and hands each result to the report in the order of the changes.

use crate::changes::Change;
use crate::options::Options;
use crate::report::{Report, Tried};
use crate::repository::{Crate, Repository};
use crate::room::{Outcome, Room};
use crate::verdict::{judge, Verdict, PROVED};
use std::collections::BTreeMap;
use std::fs;
use std::io;
use std::path::{Path, PathBuf};
use std::process::Command;
use std::sync::atomic::{AtomicUsize, Ordering};
use std::sync::mpsc::{channel, Sender};
use std::thread;

/// The toolchain's folder, in which `rt doc` names a page.
pub fn kit() -> Result<PathBuf, String> {
    let done = Command::new("rt").arg("doc").output().map_err(|e| format!("rt: {e}"))?;
    let page = String::from_utf8_lossy(&done.stdout);
    let folder = Path::new(page.trim()).parent().map(Path::to_path_buf);
    folder.filter(|_| done.status.success()).ok_or("rt doc names no page".to_string())
}

/// Has `rt check` prove the crate as it stands and build what it stands on, over what earlier checks left.
fn prove(repo: &Repository, made: &Crate, jobs: usize) -> Result<(), String> {
    let mut command = Command::new("rt");
    command.args(["check", "--jobs", &jobs.to_string()]).current_dir(repo.folder(&made.name));
    let done = command.output().map_err(|e| format!("rt: {e}"))?;
    if done.status.success() {
        return Ok(());
    }
    let said = String::from_utf8_lossy(&done.stdout);
    Err(format!("crate {} is not proved as it stands:\n{said}", made.name))
}

pub fn try_all(
    repo: &Repository,
    made: &Crate,
    changes: &[Change],
    options: &Options,
    kit: &Path,
    report: &mut Report,
) -> Result<(), String> {
    if changes.is_empty() {
        return Ok(());
    }
    prove(repo, made, options.jobs)?;
    let said = said_folder(repo, made);
    fs::create_dir_all(&said).map_err(|e| e.to_string())?;
    let rooms = rooms(repo, made, kit, options)?;
    let next = AtomicUsize::new(0);
    let (done, results) = channel();
    thread::scope(|scope| {
        for room in &rooms {
            let (done, next, said) = (done.clone(), &next, &said);
            scope.spawn(move || work(room, changes, next, options.whole, said, &done));
        }
        drop(done);
        let mut waiting = BTreeMap::new();
        let mut shown = 0;
        for (at, result) in results {
            waiting.insert(at, result);
            while let Some(result) = waiting.remove(&shown) {
                report.add(&changes[shown], result.map_err(|e: io::Error| e.to_string())?);
                shown += 1;
            }
        }
        Ok(())
    })
}

/// What each check said, in a file named by the change's number.
fn said_folder(repo: &Repository, made: &Crate) -> PathBuf {
    repo.root.join("target/wrong/said").join(&made.name)
}

/// Judges what the checks of an earlier run said, of those changes that it tried.
pub fn judge_again(repo: &Repository, made: &Crate, changes: &[Change], report: &mut Report) {
    for change in changes {
        let file = said_folder(repo, made).join(change.number.to_string());
        if let Ok(said) = fs::read_to_string(file) {
            let status = if said.contains(PROVED) { Some(0) } else { Some(1) };
            let (verdict, error) = judge(&Outcome { status, said, seconds: 0.0 });
            report.add(change, Tried { verdict, error, seconds: 0.0 });
        }
    }
}

/// One room for each job. The unchanged crate is checked in the first, and must be proved.
fn rooms(
    repo: &Repository,
    made: &Crate,
    kit: &Path,
    options: &Options,
) -> Result<Vec<Room>, String> {
    let build = |job| Room::new(repo, made, kit, job, options.limit);
    let rooms: Vec<Room> =
        (1..=options.jobs).map(build).collect::<io::Result<_>>().map_err(|e| e.to_string())?;
    let base = rooms[0].check_base().map_err(|e| format!("rt: {e}"))?;
    if judge(&base).0 != Verdict::Accepted {
        return Err(format!("crate {} is not proved as it stands:\n{}", made.name, base.said));
    }
    println!("{}: proved unchanged in {:.1} s", made.name, base.seconds);
    for room in &rooms[1..] {
        room.share_base(&rooms[0]).map_err(|e| e.to_string())?;
    }
    Ok(rooms)
}

/// Takes the next change that nobody has taken, until none is left.
fn work(
    room: &Room,
    changes: &[Change],
    next: &AtomicUsize,
    whole: bool,
    said: &Path,
    done: &Sender<(usize, io::Result<Tried>)>,
) {
    loop {
        let at = next.fetch_add(1, Ordering::Relaxed);
        let Some(change) = changes.get(at) else { return };
        let result = try_one(room, change, whole, said);
        if done.send((at, result)).is_err() {
            return;
        }
    }
}

/// A change that the quick check accepts is checked whole before it counts as accepted.
fn try_one(room: &Room, change: &Change, whole: bool, said: &Path) -> io::Result<Tried> {
    let mut outcome = room.try_change(change, whole)?;
    let mut seconds = outcome.seconds;
    if !whole && judge(&outcome).0 == Verdict::Accepted {
        outcome = room.try_change(change, true)?;
        seconds += outcome.seconds;
    }
    fs::write(said.join(change.number.to_string()), &outcome.said)?;
    let (verdict, error) = judge(&outcome);
    Ok(Tried { verdict, error, seconds })
}
