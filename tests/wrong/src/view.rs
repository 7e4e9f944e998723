//! A copy of a crate and of those below it, in which right programs are tried. What ./library or rt itself has kept of them is used, and left as it is.

use crate::edits::{entries, word, Edit};
use crate::system;
use std::collections::BTreeMap;
use std::fs::{self, File};
use std::io;
use std::path::{Path, PathBuf};
use std::process::{Command, ExitStatus, Stdio};

pub struct House {
    pub root: PathBuf,
    /// The lines of crates.txt, by the crate's name.
    lines: BTreeMap<String, String>,
}

/// What came of checking a crate.
pub struct Run {
    pub status: ExitStatus,
    pub log: String,
    pub cpu: f64,
}

impl Run {
    pub fn is_proved(&self) -> bool {
        let last = self.log.lines().rfind(|line| line.starts_with("logic="));
        self.status.success() && last.is_some_and(|line| is_word(line, "logic=proved"))
    }
}

fn is_word(line: &str, word: &str) -> bool {
    line.split(' ').next() == Some(word)
}

impl House {
    pub fn read(root: PathBuf) -> io::Result<House> {
        let list = fs::read_to_string(root.join("crates.txt"))?;
        let lines = list.lines().filter(|line| !line.starts_with('#'));
        let named = lines.filter_map(|line| {
            let name = line.split([':', ' ']).next()?;
            line.contains(':')
                .then(|| (name.to_string(), line.to_string()))
        });
        Ok(House {
            lines: named.collect(),
            root,
        })
    }

    /// The room for what is tried.
    pub fn room(&self) -> PathBuf {
        self.root.join("target/wrong")
    }

    fn crate_place(&self, name: &str) -> PathBuf {
        self.root.join("crates").join(name)
    }

    /// All crates below one.
    fn below(&self, name: &str) -> Vec<&str> {
        let mut found: Vec<&str> = Vec::new();
        let mut left = vec![name];
        while let Some(name) = left.pop() {
            let line = self.lines.get(name).map_or("", String::as_str);
            let words = line.split_once(':').map_or("", |(_, words)| words);
            for word in words.split_whitespace() {
                if self.lines.contains_key(word) && !found.contains(&word) {
                    found.push(word);
                    left.push(word);
                }
            }
        }
        found
    }
}

pub struct View<'a> {
    house: &'a House,
    name: String,
    place: PathBuf,
}

impl<'a> View<'a> {
    pub fn of(house: &'a House, name: &str) -> io::Result<View<'a>> {
        let place = house.room().join(name);
        if place.exists() {
            fs::remove_dir_all(&place)?;
        }
        let mut list = String::new();
        for one in house.below(name).into_iter().chain([name]) {
            let line = house.lines.get(one);
            let line =
                line.ok_or_else(|| io::Error::other(format!("crates.txt has no crate {one}")))?;
            list += &format!("{line}\n");
            let (from, to) = (house.crate_place(one), place.join("crates").join(one));
            fs::create_dir_all(&to)?;
            if one == name {
                share(
                    &from.join("out/incremental"),
                    &to.join("out/incremental"),
                    replaced,
                )?;
            } else {
                copy_sources(&from, &to)?;
                share(&from.join("out/rlib"), &to.join("out/rlib"), |_| true)?;
            }
        }
        fs::write(place.join("crates.txt"), list)?;
        let name = name.to_string();
        Ok(View { house, name, place })
    }

    /// Checks the crate with this edit made. The inner error is an edit that cannot be made.
    pub fn check(&self, edit: &Edit) -> io::Result<Result<Run, String>> {
        let own = self.place.join("crates").join(&self.name);
        copy_sources(&self.house.crate_place(&self.name), &own)?;
        if let Err(why) = edit.apply(&own) {
            return Ok(Err(why));
        }
        let path = self.place.join("log");
        let log = File::create(&path)?;
        let mut command = Command::new("rt");
        command
            .args(["check", "--jobs", "1"])
            .current_dir(&own)
            .stdin(Stdio::null())
            .stdout(log.try_clone()?)
            .stderr(log);
        let (status, cpu) = system::run(&mut command)?;
        let log = String::from_utf8_lossy(&fs::read(&path)?).into_owned();
        Ok(Ok(Run { status, log, cpu }))
    }

    pub fn remove(self) {
        // What is left behind lies below target/, and the next view of this name removes it.
        let _ = fs::remove_dir_all(&self.place);
    }
}

/// The files of a crate that are read, anew.
fn copy_sources(from: &Path, to: &Path) -> io::Result<()> {
    for part in ["src", "specs", "proofs"] {
        let (from, to) = (from.join(part), to.join(part));
        if to.exists() {
            fs::remove_dir_all(&to)?;
        }
        share(&from, &to, |_| false)?;
    }
    Ok(())
}

/// Of what rt keeps it replaces the checked modules, and writes in none of them.
fn replaced(path: &Path) -> bool {
    path.extension().is_some_and(|ending| ending == "oantt")
}

/// A copy of a folder, if it is there, or a second name for each file for which it may be that.
fn share(from: &Path, to: &Path, may_link: fn(&Path) -> bool) -> io::Result<()> {
    if !from.is_dir() {
        return Ok(());
    }
    fs::create_dir_all(to)?;
    for entry in entries(from)? {
        let place = to.join(word(&entry));
        if entry.is_dir() {
            share(&entry, &place, may_link)?;
        } else if !may_link(&entry) || fs::hard_link(&entry, &place).is_err() {
            fs::copy(&entry, place)?;
        }
    }
    Ok(())
}
