//! Calling the command, and what has come of it.

use outside::running::runner::{piped, run, Feed, Printed};
use std::cell::Cell;
use std::fs;
use std::path::{Path, PathBuf};
use std::process::Command;

/// How many runs were as they must be, or the first that was not.
pub type Tried = Result<u64, String>;

/// The program, and how often it was called.
pub struct Floe {
    program: PathBuf,
    made: Cell<u64>,
}

impl Floe {
    pub fn new(program: PathBuf) -> Floe {
        let made = Cell::new(0);
        Floe { program, made }
    }

    /// How many calls there were so far.
    pub fn made(&self) -> u64 {
        self.made.get()
    }

    /// What a test says that it has run is what it has run.
    pub fn counted(&self, tried: Tried) -> Tried {
        let (said, made) = (tried?, self.made.get());
        same(said, made, || "runs made, and runs counted".to_string())?;
        Ok(made)
    }

    pub fn program(&self) -> &PathBuf {
        &self.program
    }

    pub fn command(&self, words: &[&str]) -> Command {
        let mut command = self.called_by(&self.program);
        command.args(words);
        command
    }

    /// A call by another program, such as a shell, which calls this one once.
    pub fn called_by(&self, program: &Path) -> Command {
        self.made.set(self.made.get() + 1);
        piped(program)
    }

    /// A run with these bytes on standard input.
    pub fn run(&self, words: &[&str], input: &[u8]) -> Result<Printed, String> {
        run(&mut self.command(words), &Feed::whole(input))
    }

    /// The output of a run that must succeed without a word on standard error.
    pub fn output(&self, words: &[&str], input: &[u8]) -> Result<Vec<u8>, String> {
        let printed = self.run(words, input)?;
        if printed.status == Some(0) && printed.errors.is_empty() {
            return Ok(printed.output);
        }
        Err(format!("floe {words:?}: {}", printed.report()))
    }

    /// The output of a run that must succeed, and what it says on standard error beside.
    pub fn noted(&self, words: &[&str], input: &[u8]) -> Result<(Vec<u8>, String), String> {
        let printed = self.run(words, input)?;
        match printed.status {
            Some(0) => Ok((
                printed.output,
                String::from_utf8_lossy(&printed.errors).into_owned(),
            )),
            _ => Err(format!("floe {words:?}: {}", printed.report())),
        }
    }

    /// The status of a run that gives nothing, and what it says on standard error.
    pub fn failed(&self, words: &[&str], input: &[u8]) -> Result<(i32, String), String> {
        let printed = self.run(words, input)?;
        match printed.status {
            Some(status @ 1..) if printed.output.is_empty() => Ok((
                status,
                String::from_utf8_lossy(&printed.errors).into_owned(),
            )),
            _ => Err(format!("floe {words:?}: {}", printed.report())),
        }
    }

    /// The number and the words of a run that must be refused.
    pub fn refused(&self, words: &[&str], input: &[u8]) -> Result<(u8, String), String> {
        let printed = self.run(words, input)?;
        refusal(&printed).ok_or_else(|| format!("floe {words:?}: {}", printed.report()))
    }

    /// The output, or the number with its words: whichever it is, told as it must be.
    pub fn answer(
        &self,
        words: &[&str],
        input: &[u8],
    ) -> Result<Result<Vec<u8>, (u8, String)>, String> {
        let printed = self.run(words, input)?;
        match refusal(&printed) {
            Some(refused) => Ok(Err(refused)),
            None if printed.status == Some(0) && printed.errors.is_empty() => {
                Ok(Ok(printed.output))
            }
            None => Err(format!("floe {words:?}: {}", printed.report())),
        }
    }

    /// A text and the words after `floe`, and what must be printed.
    pub fn prints(&self, words: &[&str], text: &str, expected: &str) -> Result<(), String> {
        let output = self.output(words, text.as_bytes())?;
        same(String::from_utf8_lossy(&output).as_ref(), expected, || {
            format!("{words:?} of {text:?}")
        })
    }

    /// A file is shown as this text, which is written as the file.
    pub fn shows(&self, file: &[u8], text: &str) -> Result<(), String> {
        let shown = self.output(&["show", "-"], file)?;
        same(String::from_utf8_lossy(&shown).as_ref(), text, || {
            "show".to_string()
        })?;
        same(self.output(&["write", "-"], &shown)?, file.to_vec(), || {
            "write".to_string()
        })
    }
}

/// Status 1, nothing on standard output, and one line `refused N: words` on standard error.
fn refusal(printed: &Printed) -> Option<(u8, String)> {
    let errors = String::from_utf8(printed.errors.clone()).ok()?;
    let line = errors.strip_suffix('\n')?;
    let (number, words) = line.strip_prefix("refused ")?.split_once(": ")?;
    let is_told = printed.status == Some(1) && printed.output.is_empty() && !line.contains('\n');
    is_told.then_some(())?;
    Some((number.parse().ok()?, words.to_string()))
}

/// A folder of a test's own, which is gone afterwards.
pub fn in_folder(name: &str, test: impl FnOnce(&Path) -> Tried) -> Tried {
    let folder = std::env::temp_dir().join(format!("floe-{name}-{}", std::process::id()));
    fs::create_dir_all(&folder).map_err(|fault| fault.to_string())?;
    let tried = test(&folder);
    let _ = fs::remove_dir_all(&folder);
    tried
}

/// A file in a folder, and its path as a word.
pub fn file(folder: &Path, name: &str, content: &[u8]) -> Result<String, String> {
    let path = folder.join(name);
    fs::write(&path, content).map_err(|fault| fault.to_string())?;
    Ok(path.to_string_lossy().into_owned())
}

/// Nothing, or what is different.
pub fn same<T: PartialEq + std::fmt::Debug>(
    got: T,
    expected: T,
    what: impl Fn() -> String,
) -> Result<(), String> {
    if got == expected {
        return Ok(());
    }
    Err(format!(
        "{}\n  expected {expected:?}\n  got      {got:?}",
        what()
    ))
}
