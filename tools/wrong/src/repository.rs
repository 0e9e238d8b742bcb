//! The repository: the crates that crates.txt lists, what each stands on, and the files that are changed.

use std::fs;
use std::io;
use std::path::{Path, PathBuf};

pub struct Crate {
    pub name: String,
    /// Whether it is a static library, as crates.txt says.
    pub is_static: bool,
    /// The crates and libraries that it stands on.
    pub needs: Vec<String>,
    /// The files of src/ and specs/ by their path within the crate's folder, with their text.
    pub files: Vec<(String, String)>,
}

pub struct Repository {
    pub root: PathBuf,
    pub crates: Vec<Crate>,
}

impl Repository {
    /// The repository that holds the folder.
    pub fn above(folder: &Path) -> Result<Repository, String> {
        let root = folder.ancestors().find(|above| above.join("crates.txt").is_file());
        let root = root.ok_or("no crates.txt in this folder or above it")?.to_path_buf();
        let list = fs::read_to_string(root.join("crates.txt")).map_err(|e| e.to_string())?;
        let mut crates = Vec::new();
        for (name, is_static, needs) in listed(&list) {
            let files = files_of(&root.join("crates").join(&name));
            let files = files.map_err(|e| format!("crate {name}: {e}"))?;
            crates.push(Crate { name, is_static, needs, files });
        }
        Ok(Repository { root, crates })
    }

    pub fn named(&self, name: &str) -> Result<&Crate, String> {
        let found = self.crates.iter().find(|made| made.name == name);
        found.ok_or_else(|| format!("crates.txt does not list {name}"))
    }

    pub fn folder(&self, name: &str) -> PathBuf {
        self.root.join("crates").join(name)
    }

    /// What a crate stands on: crates of the repository, and libraries of the toolchain.
    pub fn needs(&self, made: &Crate) -> (Vec<String>, Vec<String>) {
        made.needs.iter().cloned().partition(|need| self.named(need).is_ok())
    }
}

/// The lines `NAME: NEED NEED` and `NAME staticlib: NEED NEED` of crates.txt.
fn listed(list: &str) -> Vec<(String, bool, Vec<String>)> {
    let lines = list.lines().map(|line| line.split('#').next().unwrap_or_default());
    let pairs = lines.filter_map(|line| line.split_once(':'));
    let split = |words: &str| words.split_whitespace().map(str::to_string).collect::<Vec<_>>();
    let read = |(head, needs)| {
        let (words, needs) = (split(head), split(needs));
        let is_static = words[1..].iter().any(|word| word == "staticlib");
        (words[0].clone(), is_static, needs)
    };
    pairs.filter(|(head, _)| !head.trim().is_empty()).map(read).collect()
}

fn files_of(folder: &Path) -> io::Result<Vec<(String, String)>> {
    let mut paths = Vec::new();
    for (part, ending) in [("src", "rt"), ("specs", "antt")] {
        let found = files_below(&folder.join(part))?;
        paths
            .extend(found.into_iter().filter(|path| path.extension().is_some_and(|e| e == ending)));
    }
    paths.sort();
    let read = |path: PathBuf| {
        let file = path.strip_prefix(folder).unwrap_or(&path).to_string_lossy().into_owned();
        Ok((file, fs::read_to_string(&path)?))
    };
    paths.into_iter().map(read).collect()
}

/// All files below a folder, none where there is no such folder.
pub fn files_below(folder: &Path) -> io::Result<Vec<PathBuf>> {
    let mut files = Vec::new();
    if folder.is_dir() {
        for entry in fs::read_dir(folder)? {
            let path = entry?.path();
            if path.is_dir() {
                files.extend(files_below(&path)?);
            } else {
                files.push(path);
            }
        }
    }
    Ok(files)
}

/// The path of a file's module: that of src/inner/words.rt in crate lists is lists::inner::words.
pub fn module_of(name: &str, file: &str) -> String {
    let path = file.trim_start_matches("src/").trim_end_matches(".rt");
    match path {
        "lib" | "main" => name.to_string(),
        _ => format!("{name}::{}", path.replace('/', "::")),
    }
}

#[cfg(test)]
mod tests {
    use super::*;

    #[test]
    fn crates_and_modules_are_named() {
        let list = listed("# all\ntables:\nroad: tables io # two\nhost staticlib: road\n");
        let needs = vec!["tables".to_string(), "io".to_string()];
        assert_eq!(list[1], ("road".to_string(), false, needs));
        assert_eq!(list[2], ("host".to_string(), true, vec!["road".to_string()]));
        assert_eq!((list.len(), list[0].2.len()), (3, 0));
        assert_eq!(module_of("lists", "src/inner/words.rt"), "lists::inner::words");
        assert_eq!(module_of("lists", "src/lib.rt"), "lists");
    }
}
