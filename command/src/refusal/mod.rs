//! Refusals in words. The number is the library's; the words say what it means for the record at
//! hand.

mod records;
mod searching;
mod starts;

use crate::failure::Failure;
use crate::names::Names;
use crate::place::{File, Place};
use crate::text::reader::Places;
use records::fault;

pub use searching::{given_up, of_search};
pub use starts::{of_starts, of_steps};

/// What each number says by itself (docs/MANUAL.md lists them).
fn meaning(number: u8) -> &'static str {
    match number {
        1 => "a byte that is called for is not there",
        2 => "bytes follow the last section",
        3 => "more than 8 devices",
        4 => "a transition time of 0",
        5 => "the power asleep is not the lowest",
        6 => "more than 8 tasks",
        7 => "a period outside 1 to 4096",
        8 => "a running time outside 1 to the period",
        9 => "a device set names a device that the request lacks",
        10 => "the horizon is outside 1 to 4096",
        11 => "tasks together with a horizon or with jobs",
        12 => "more than 16 jobs",
        13 => "a job that does not fit its window or the horizon",
        14 => "not one start time for each job",
        15 => "a lent output is too short",
        16 => "a job starts before its release",
        17 => "a job ends after its deadline",
        18 => "two jobs overlap",
        19 => "no schedule meets all deadlines",
        20 => "the budget is smaller than the vertex count",
        21 => "a part number is not digits and capital letters, or there are more than 64 parts",
        22 => "a part number stands twice in the catalogue",
        23 => "a wanted part that the catalogue lacks",
        24 => "a job that runs for fewer ticks than some device takes to move",
        25 => "stepping is for devices of kind 1 that cost less to move than at work",
        26 => "a level count outside 1 to 4",
        27 => "a stray quote, or one that is open at the end of the line",
        28 => "not as many fields as the line has to have",
        29 => "a field that is not a number, or one that is too large",
        _ => "the library does not take this",
    }
}

fn failure(number: u8, place: Option<String>, words: String) -> Failure {
    let place = place.map_or(String::new(), |place| format!("{place}: "));
    Failure::Refused(format!("refused {number}: {place}{words}"))
}

/// A refusal that has no place.
pub fn plain(number: u8) -> Failure {
    words(number, meaning(number).to_string())
}

/// A refusal at a place that the caller names.
pub fn at(number: u8, place: String) -> Failure {
    said(number, place, meaning(number).to_string())
}

/// A refusal at a place, in words, that the caller names.
pub fn said(number: u8, place: String, words: String) -> Failure {
    failure(number, Some(place), words)
}

/// A refusal in words that have no place.
pub fn words(number: u8, words: String) -> Failure {
    failure(number, None, words)
}

/// The place of the fault of a file that is refused with this number, and what is wrong there.
pub fn placed(number: u8, file: &File) -> Option<(Place, String)> {
    // The place is that of this number, or it is not told.
    let place = file.fault(number)?;
    let words = fault(number, file, &place);
    Some((place, words.unwrap_or_else(|| meaning(number).to_string())))
}

/// A file that is refused, with the place of its fault and, where it came as text, the line.
pub fn of_file(number: u8, file: File, places: Option<&Places>, names: &Names) -> Failure {
    match placed(number, &file) {
        Some((place, words)) => {
            let described = place.describe(number, &file, places, names);
            said(number, described, words)
        }
        None => plain(number),
    }
}

pub fn plural(count: usize, noun: &str) -> String {
    if count == 1 {
        noun.to_string()
    } else {
        format!("{noun}s")
    }
}
