//! The words after a command: file names and the like in their order, and options anywhere.

use crate::failure::Failure;
use crate::options::{Opt, Takes, BUDGET, HORIZON, MEMORY, STARTS, STARTS_FROM, WIDTH};
use crate::sheets;
use crate::text::lines::{digits, quoted};
use crate::text::part::is_near;
use std::collections::VecDeque;
use std::ffi::OsString;

#[derive(Debug)]
pub struct Arguments {
    words: VecDeque<OsString>,
    options: Vec<(&'static str, String)>,
}

/// Start times, or the sheet that has them, which is not read before it is needed.
pub enum Starts {
    Given(Vec<u16>),
    Listed(OsString),
}

impl Starts {
    pub fn read(self) -> Result<Vec<u16>, Failure> {
        match self {
            Starts::Given(starts) => Ok(starts),
            Starts::Listed(path) => sheets::starts::starts(&path),
        }
    }

    /// That none are named at all.
    pub fn is_none(&self) -> bool {
        matches!(self, Starts::Given(starts) if starts.is_empty())
    }
}

fn usage(message: String) -> Failure {
    Failure::Usage(message)
}

impl Arguments {
    /// Parts the options that a command knows from the other words. `-` alone is no option, and
    /// after `--` nothing is.
    pub fn new(words: impl Iterator<Item = OsString>, known: &[Opt]) -> Result<Arguments, Failure> {
        let mut arguments = Arguments {
            words: VecDeque::new(),
            options: Vec::new(),
        };
        let mut words: VecDeque<OsString> = words.collect();
        while let Some(word) = words.pop_front() {
            let text = word.to_string_lossy();
            if text == "--" {
                arguments.words.append(&mut words);
            } else if !is_option(&word) {
                arguments.words.push_back(word);
            } else {
                arguments.take(&text, &mut words, known)?;
            }
        }
        Ok(arguments)
    }

    /// One option more, and its value.
    fn take(
        &mut self,
        text: &str,
        words: &mut VecDeque<OsString>,
        known: &[Opt],
    ) -> Result<(), Failure> {
        let (name, value) = match text.split_once('=') {
            Some((name, value)) => (name, Some(value.to_string())),
            None => (text, None),
        };
        let unknown = || {
            let near = known.iter().map(|known| known.name);
            let near = near
                .filter(|known| known.starts_with(name) || is_near(name, known))
                .next();
            let near = near.map_or(String::new(), |near| format!("; there is {near}"));
            usage(format!("there is no option {} here{near}", quoted(name)))
        };
        let option = known.iter().find(|known| known.name == name);
        let Opt { name, takes } = *option.ok_or_else(unknown)?;
        if value.is_some() && takes == Takes::Nothing {
            return Err(usage(format!("{name} takes no value")));
        }
        let has_next = match takes {
            Takes::Nothing => false,
            Takes::Value => true,
            Takes::Maybe => words.front().is_some_and(|word| !is_option(word)),
        };
        let next = || match has_next {
            true => words
                .pop_front()
                .map(|word| word.to_string_lossy().into_owned()),
            false => Some(String::new()),
        };
        let missing = || usage(format!("{name} wants a value"));
        let value = value.or_else(next).ok_or_else(missing)?;
        if self.options.iter().any(|(given, _)| *given == name) {
            return Err(usage(format!("{name} is given twice")));
        }
        self.options.push((name, value));
        Ok(())
    }

    /// The next word, which has to be there.
    pub fn next(&mut self, what: &str) -> Result<OsString, Failure> {
        let missing = || usage(format!("{what} is missing"));
        self.words.pop_front().ok_or_else(missing)
    }

    /// All words that are left.
    pub fn rest(&mut self) -> Vec<String> {
        let words = self.words.drain(..);
        words
            .map(|word| word.to_string_lossy().into_owned())
            .collect()
    }

    /// Start times, in words and with commas between, or in a sheet.
    pub fn starts(&mut self) -> Result<Starts, Failure> {
        let words = self.rest();
        match self.option(&STARTS_FROM) {
            None => starts(&words.join(",")).map(Starts::Given),
            Some(path) if words.is_empty() => Ok(Starts::Listed(OsString::from(path))),
            Some(_) => Err(usage(
                "start times are given, and --starts-from too: one of them is enough".to_string(),
            )),
        }
    }

    pub fn end(&self) -> Result<(), Failure> {
        match self.words.front() {
            None => Ok(()),
            Some(word) => Err(usage(format!(
                "{} is a word too many",
                quoted(&word.to_string_lossy())
            ))),
        }
    }

    /// The value of an option that is given; of one without a value nothing.
    pub fn option(&self, option: &Opt) -> Option<&str> {
        let given = self.options.iter().find(|(name, _)| *name == option.name);
        given.map(|(_, value)| value.as_str())
    }

    pub fn has(&self, option: &Opt) -> bool {
        self.option(option).is_some()
    }

    /// The number of an option, between these two.
    fn number(&self, option: &Opt, least: u64, most: u64) -> Result<Option<u64>, Failure> {
        let number = |text| {
            let value = digits(text).filter(|value| (least..=most).contains(value));
            let name = option.name;
            let from = match least {
                0 => String::new(),
                least => format!("from {least} "),
            };
            value.ok_or_else(|| {
                usage(format!(
                    "{name} {}: a number {from}up to {most}",
                    quoted(text)
                ))
            })
        };
        self.option(option).map(number).transpose()
    }

    pub fn budget(&self) -> Result<Option<u32>, Failure> {
        let budget = self.number(&BUDGET, 0, u32::MAX.into())?;
        Ok(budget.map(|budget| budget as u32))
    }

    /// Mebibytes that are lent to the search.
    pub fn memory(&self) -> Result<Option<usize>, Failure> {
        let memory = self.number(&MEMORY, 0, 1 << 20)?;
        Ok(memory.map(|memory| memory as usize))
    }

    /// The ticks of the round, where they are no line of a text.
    pub fn horizon(&self) -> Result<Option<u16>, Failure> {
        let horizon = self.number(&HORIZON, 0, u16::MAX.into())?;
        Ok(horizon.map(|horizon| horizon as u16))
    }

    /// How wide a picture is.
    pub fn width(&self) -> Result<Option<f64>, Failure> {
        let width = self.number(&WIDTH, 480, 20_000)?;
        Ok(width.map(|width| width as f64))
    }

    /// The same as options alone.
    pub fn given_starts(&self) -> Result<Option<Starts>, Failure> {
        match (self.option(&STARTS), self.option(&STARTS_FROM)) {
            (Some(_), Some(_)) => Err(usage(
                "--starts and --starts-from are given: one of them is enough".to_string(),
            )),
            (Some(text), None) => Ok(Some(Starts::Given(starts(text)?))),
            (None, path) => Ok(path.map(|path| Starts::Listed(OsString::from(path)))),
        }
    }
}

/// Whether a word is an option: `-` alone is a file.
fn is_option(word: &OsString) -> bool {
    let text = word.to_string_lossy();
    text.starts_with('-') && text != "-"
}

fn starts(text: &str) -> Result<Vec<u16>, Failure> {
    if text.is_empty() {
        return Ok(Vec::new());
    }
    let start = |text: &str| {
        let value = digits(text).and_then(|value| u16::try_from(value).ok());
        value.ok_or_else(|| {
            usage(format!(
                "{} is not a start time: a number up to {}",
                quoted(text),
                u16::MAX
            ))
        })
    };
    text.split(',').map(start).collect()
}

#[cfg(test)]
mod tests {
    use super::*;
    use crate::options::{CSV, RUNS};

    fn parsed(words: &[&str]) -> Result<Arguments, Failure> {
        let known = [BUDGET, MEMORY, STARTS, WIDTH, CSV, RUNS];
        Arguments::new(words.iter().map(OsString::from), &known)
    }

    #[test]
    fn options_stand_anywhere() {
        for words in [
            ["--budget", "7", "a", "0,1", "2"],
            ["a", "0", "--budget=7", "1", "2"],
        ] {
            let mut arguments = parsed(&words).unwrap();
            assert_eq!(arguments.budget().unwrap(), Some(7));
            assert_eq!(arguments.next("FILE").unwrap(), "a");
            assert_eq!(arguments.starts().unwrap().read().unwrap(), [0, 1, 2]);
        }
        let mut after = parsed(&["--", "--budget"]).unwrap();
        assert_eq!(after.next("FILE").unwrap(), "--budget");
    }

    #[test]
    fn what_means_nothing_is_said() {
        let message = |words: &[&str]| {
            let arguments = match parsed(words) {
                Err(failure) => return failure.message().to_string(),
                Ok(arguments) => arguments,
            };
            let parts = [
                arguments.budget().map(|_| ()),
                arguments.memory().map(|_| ()),
                arguments.given_starts().map(|_| ()),
                arguments.width().map(|_| ()),
                arguments.end(),
            ];
            let failed = parts.into_iter().find_map(Result::err);
            failed.map_or(String::new(), |failure| failure.message().to_string())
        };
        assert_eq!(
            message(&["--bugdet", "7"]),
            "there is no option '--bugdet' here; there is --budget"
        );
        assert_eq!(
            message(&["--bud", "7"]),
            "there is no option '--bud' here; there is --budget"
        );
        assert_eq!(
            message(&["--tempo", "7"]),
            "there is no option '--tempo' here"
        );
        assert_eq!(message(&["--budget"]), "--budget wants a value");
        assert!(message(&["--budget", "-1"]).contains("a number up to 4294967295"));
        assert!(message(&["--budget=4294967296"]).contains("a number up to"));
        assert_eq!(
            message(&["--budget=1", "--budget=2"]),
            "--budget is given twice"
        );
        assert!(message(&["--memory=1048577"]).contains("a number up to 1048576"));
        assert_eq!(message(&["--memory=0"]), "");
        assert!(message(&["--starts", "1,,2"]).contains("not a start time"));
        assert!(message(&["--starts", "65536"]).contains("up to 65535"));
        assert_eq!(message(&["a"]), "'a' is a word too many");
        assert_eq!(message(&["--runs=1"]), "--runs takes no value");
        assert_eq!(message(&["--runs"]), "");
        assert!(message(&["--width", "7"]).contains("a number from 480 up to 20000"));
    }

    #[test]
    fn a_value_that_may_be_left_out_is_no_option() {
        for (words, file) in [
            (&["a", "--csv"][..], ""),
            (&["a", "--csv", "--runs"], ""),
            (&["a", "--csv", "plan.csv"], "plan.csv"),
            (&["a", "--csv", "-"], "-"),
            (&["--csv=plan.csv", "a"], "plan.csv"),
        ] {
            let mut arguments = parsed(words).unwrap();
            assert_eq!(arguments.option(&CSV), Some(file), "{words:?}");
            assert_eq!(arguments.next("FILE").unwrap(), "a");
            assert!(arguments.end().is_ok());
        }
    }
}
