//! Where a request comes from: one file, or a catalogue with sheets of jobs or tasks. What every command
//! that takes a request has in common.

mod files;

use crate::arguments::{Arguments, Starts};
use crate::failure::Failure;
use crate::options::{CATALOGUE, CSV, JOBS, PARTS, PARTS_FROM, SHEETS, TASKS};
use crate::order::{Files, Order};
use crate::request::Request;
use crate::streams;
use crate::text::catalogue::Catalogue;
use crate::wanted;
use std::ffi::OsString;

pub use files::{catalogue_or_request, tables_in, Rows};

/// Whether options stand in the place of a request's file.
fn is_given(arguments: &Arguments) -> bool {
    SHEETS.iter().any(|option| arguments.has(option))
}

/// The same, where words may stand for the files.
pub fn has_files(arguments: &Arguments) -> bool {
    [CATALOGUE, JOBS, TASKS, PARTS]
        .iter()
        .any(|option| arguments.has(option))
}

/// What a command's words name as its request: a file, or the options in its place. Nothing is read
/// before all words are known to mean something.
pub enum Source {
    File(OsString),
    Made(Paths),
}

impl Source {
    pub fn given(arguments: &mut Arguments) -> Result<Source, Failure> {
        match is_given(arguments) {
            true => Paths::given(arguments).map(Source::Made),
            false => arguments.next("REQUEST").map(Source::File),
        }
    }

    /// The same, of a command that takes no other words.
    pub fn alone(arguments: &mut Arguments) -> Result<Source, Failure> {
        let source = Source::given(arguments)?;
        match arguments.end() {
            Err(Failure::Usage(message)) if arguments.has(&PARTS) => Err(Failure::Usage(format!(
                "{message}: all parts stand behind {} in one word, with commas between",
                PARTS.name
            ))),
            ended => ended.map(|()| source),
        }
    }

    /// Start times and request cannot both be read from standard input.
    pub fn apart_from(&self, starts: &Starts) -> Result<(), Failure> {
        let of_starts = match starts {
            Starts::Listed(path) => Some(path),
            Starts::Given(_) => None,
        };
        match self {
            Source::File(path) => once([Some(path), of_starts]),
            Source::Made(paths) => once(paths.all().into_iter().chain([of_starts])),
        }
    }

    /// No file that is read is written to: not by another name for it either.
    pub fn spared_by(&self, output: Option<&str>, starts: Option<&Starts>) -> Result<(), Failure> {
        let Some(output) = output.filter(|output| !["", "-"].contains(output)) else {
            return Ok(());
        };
        let mut read = match self {
            Source::File(path) => vec![path],
            Source::Made(paths) => paths.all().into_iter().flatten().collect(),
        };
        if let Some(Starts::Listed(path)) = starts {
            read.push(path);
        }
        match read
            .into_iter()
            .find(|path| streams::is_one_file(path, output.as_ref()))
        {
            None => Ok(()),
            Some(path) => Err(Failure::Usage(format!(
                "{} {} is {}, which is read: nothing is written over it; give another name",
                CSV.name,
                streams::name(output.as_ref()),
                streams::name(path)
            ))),
        }
    }

    pub fn open(self) -> Result<Request, Failure> {
        match self {
            Source::File(path) => Request::open(&path),
            Source::Made(paths) => paths.order()?.request(),
        }
    }
}

/// The files that a request is made of.
#[derive(Default)]
pub struct Paths {
    pub catalogue: Option<OsString>,
    /// The jobs, or a text with the horizon and tasks or jobs.
    pub jobs: Option<OsString>,
    pub tasks: Option<OsString>,
    pub parts: Option<Parts>,
    pub horizon: Option<u16>,
}

/// The wanted parts, or the file that lists them.
pub enum Parts {
    Given(Vec<String>),
    Listed(OsString),
}

fn usage(message: &str) -> Failure {
    Failure::Usage(message.to_string())
}

impl Paths {
    /// By options alone.
    pub fn given(arguments: &Arguments) -> Result<Paths, Failure> {
        let path = |option| arguments.option(option).map(OsString::from);
        let given = |text: &str| {
            let names = text.split(',').filter(|name| !name.is_empty());
            Parts::Given(names.map(str::to_string).collect())
        };
        let parts = match (arguments.option(&PARTS), path(&PARTS_FROM)) {
            (Some(_), Some(_)) => {
                return Err(usage(
                    "--parts and --parts-from are given: one of them is enough",
                ))
            }
            (Some(text), None) => Some(given(text)),
            (None, listed) => listed.map(Parts::Listed),
        };
        let paths = Paths {
            catalogue: path(&CATALOGUE),
            jobs: path(&JOBS),
            tasks: path(&TASKS),
            parts,
            horizon: arguments.horizon()?,
        };
        match (&paths.catalogue, &paths.parts, &paths.jobs, &paths.tasks) {
            (None, Some(_), _, _) => Err(usage("parts of what? --catalogue FILE is missing")),
            (Some(_), None, _, _) => Err(usage(
                "which parts of the catalogue? --parts A,B,.. or --parts-from FILE is missing",
            )),
            (_, _, None, None) => Err(usage("--jobs FILE or --tasks FILE is missing")),
            _ => Ok(paths),
        }
    }

    /// Reads all files.
    pub fn order(self) -> Result<Order, Failure> {
        once(self.all())?;
        let name = |path: &Option<OsString>| path.as_deref().map_or(String::new(), streams::name);
        let names = Files {
            catalogue: name(&self.catalogue),
            jobs: name(&self.jobs),
            tasks: name(if self.tasks.is_some() {
                &self.tasks
            } else {
                &self.jobs
            }),
        };
        let wanted = match &self.parts {
            None => Vec::new(),
            Some(Parts::Given(parts)) => parts.clone(),
            Some(Parts::Listed(path)) => wanted::listed(path)?,
        };
        let catalogue = match &self.catalogue {
            None => Catalogue::default(),
            Some(path) => files::catalogue_in(path)?,
        };
        let (mut others, is_text) = match &self.jobs {
            None => (files::bare(self.horizon.unwrap_or(0)), false),
            Some(path) => files::without_devices(path, self.horizon, &wanted)?,
        };
        if let Some(path) = &self.tasks {
            let bytes = files::content(path, "a sheet of tasks")?;
            files::add_tasks(&mut others, path, &bytes)?;
        }
        let lacks_horizon = !is_text && self.horizon.is_none() && self.tasks.is_none();
        Ok(Order {
            catalogue,
            wanted,
            others,
            files: names,
            lacks_horizon,
        })
    }

    /// The files that there are.
    fn all(&self) -> [Option<&OsString>; 4] {
        let listed = match &self.parts {
            Some(Parts::Listed(path)) => Some(path),
            _ => None,
        };
        let Paths {
            catalogue,
            jobs,
            tasks,
            ..
        } = self;
        [catalogue.as_ref(), jobs.as_ref(), tasks.as_ref(), listed]
    }
}

/// Standard input can be read once.
fn once<'a>(paths: impl IntoIterator<Item = Option<&'a OsString>>) -> Result<(), Failure> {
    let inputs = paths.into_iter().flatten().filter(|path| *path == "-");
    match inputs.count() {
        0 | 1 => Ok(()),
        _ => Err(usage(
            "- is standard input, and is given twice: it can be read once, so that one of the two has to be a file",
        )),
    }
}
