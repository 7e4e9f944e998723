//! What devices, tasks and jobs are called, and the units of powers and ticks. A request file has no
//! place for any of it: names come from a text, or are the part numbers that a request was built from.

use crate::jobs::Job;
use crate::units::Units;

/// Names by the number of the device, task or job; what has none is nameless.
#[derive(Clone, Debug, Default, PartialEq, Eq)]
pub struct Names {
    pub devices: Vec<Option<String>>,
    pub tasks: Vec<Option<String>>,
    pub jobs: Vec<Option<String>>,
    pub units: Units,
}

fn at(names: &[Option<String>], number: usize) -> Option<&str> {
    names.get(number)?.as_deref()
}

impl Names {
    /// Part numbers are names of devices.
    pub fn of_parts(parts: &[String]) -> Names {
        Names {
            devices: parts.iter().cloned().map(Some).collect(),
            ..Names::default()
        }
    }

    pub fn device(&self, number: usize) -> Option<&str> {
        at(&self.devices, number)
    }

    pub fn task(&self, number: usize) -> Option<&str> {
        at(&self.tasks, number)
    }

    pub fn job(&self, number: usize) -> Option<&str> {
        at(&self.jobs, number)
    }

    /// The names of jobs: those that a task releases are called as it is.
    pub fn of_jobs(self, jobs: &[Job]) -> Names {
        let name = |(number, job): (usize, &Job)| {
            let name = match job.task {
                Some(task) => self.task(task),
                None => self.job(number),
            };
            name.map(str::to_string)
        };
        Names {
            jobs: jobs.iter().enumerate().map(name).collect(),
            ..self
        }
    }
}

/// A thing by its kind and number, and its name where it has one: `job 3`, `job 3 send`.
pub fn called(what: &str, number: usize, name: Option<&str>) -> String {
    match name {
        Some(name) => format!("{what} {number} {name}"),
        None => format!("{what} {number}"),
    }
}

/// The names as a column between others: as wide as the longest, `-` for what has none, and nothing
/// at all where nothing has a name.
pub fn column(names: &[Option<String>], count: usize) -> Vec<String> {
    let width = |name: &String| name.chars().count();
    let Some(widest) = names.iter().flatten().map(width).max() else {
        return vec![String::new(); count];
    };
    let name = |number| at(names, number).unwrap_or("-");
    (0..count)
        .map(|number| format!(" {:widest$}", name(number)))
        .collect()
}

#[cfg(test)]
mod tests {
    use super::*;

    fn some(names: &[&str]) -> Vec<Option<String>> {
        let name = |name: &&str| (!name.is_empty()).then(|| name.to_string());
        names.iter().map(name).collect()
    }

    #[test]
    fn a_column_is_as_wide_as_its_longest_name() {
        assert_eq!(
            column(&some(&["flash", "", "radio7"]), 3),
            [" flash ", " -     ", " radio7"]
        );
        assert_eq!(column(&some(&["", ""]), 2), ["", ""]);
        assert_eq!(column(&[], 1), [""]);
    }

    #[test]
    fn jobs_of_a_task_have_its_name() {
        let names = Names {
            tasks: some(&["send", ""]),
            ..Names::default()
        };
        let job = |task| Job {
            task: Some(task),
            release: 0,
            deadline: 4,
            running: 1,
            devices: Vec::new(),
        };
        let named = names.of_jobs(&[job(0), job(1), job(0)]);
        assert_eq!(named.jobs, some(&["send", "", "send"]));
    }
}
