//! The controls: right programs of another shape, which the prover must accept with the proofs as they stand, but for names of goals and steps that follow the
//! text of the code: those a control spells anew.

use crate::edits::Edit;
use crate::holding::{failed, passed, Verdict};
use crate::system;
use crate::view::{House, Run, View};
use std::collections::BTreeMap;
use std::sync::Mutex;
use std::thread;

/// Tries controls, those of a crate one after the other and crates side by side. `tell` gets a verdict on each.
pub fn try_all(
    house: &House,
    edits: &[Edit],
    tell: &(dyn Fn(Verdict) + Sync),
) -> Result<(), String> {
    let workers = system::workers()?;
    let mut by_crate: BTreeMap<&str, Vec<&Edit>> = BTreeMap::new();
    for edit in edits {
        by_crate.entry(&edit.krate).or_default().push(edit);
    }
    std::fs::create_dir_all(house.room())
        .map_err(|e| format!("target/wrong cannot be made: {e}"))?;
    let left = Mutex::new(by_crate.into_iter().collect::<Vec<_>>());
    let next = || {
        left.lock()
            .expect("no worker has failed with the list")
            .pop()
    };
    thread::scope(|scope| {
        let work = || {
            while let Some((name, edits)) = next() {
                try_crate(house, name, &edits, tell);
            }
        };
        let workers: Vec<_> = (0..workers).map(|_| scope.spawn(work)).collect();
        // One that fails has told less than it had to: that is seen by the number of verdicts.
        workers.into_iter().for_each(|worker| drop(worker.join()));
    });
    // Where another run is at work in it, it stays.
    let _ = std::fs::remove_dir(house.room());
    Ok(())
}

fn try_crate(house: &House, name: &str, edits: &[&Edit], tell: &dyn Fn(Verdict)) {
    let view = match View::of(house, name) {
        Ok(view) => view,
        Err(why) => {
            let said = format!("COULD NOT BE TRIED: {why}");
            return edits
                .iter()
                .for_each(|edit| tell(failed(edit, said.clone())));
        }
    };
    for edit in edits {
        tell(match view.check(edit) {
            Ok(Ok(run)) if run.is_proved() => passed(
                edit,
                format!("proved, as it must be ({:.1} s of CPU)", run.cpu),
            ),
            Ok(Ok(run)) => failed(
                edit,
                format!(
                    "REFUSED, and it is right ({}): {}",
                    run.status,
                    first_words(&run)
                ),
            ),
            Ok(Err(why)) => failed(edit, format!("BAD EDIT: {why}")),
            Err(why) => failed(edit, format!("COULD NOT BE TRIED: {why}")),
        });
    }
    view.remove();
}

fn first_words(run: &Run) -> String {
    let lines = run.log.lines();
    let line = lines
        .clone()
        .find(|line| line.contains("error") || line.contains("it is not proved"))
        .or(lines.last());
    line.unwrap_or("nothing is said")
        .chars()
        .take(300)
        .collect()
}
