//! The figures that must come out, of the oracle, the library and the program: tests/figures.txt.

use crate::cases::tables::hex;

const TEXT: &str = include_str!("../../figures.txt");

#[derive(Clone, Copy, Debug, PartialEq, Eq)]
pub enum Operation {
    Check,
    Search,
    First,
    Possible,
    Rows,
    Margins,
    Mend,
    Step,
    Write,
    Build,
    ImportDevices,
    ImportJobs,
    ExportDevices,
    ExportJobs,
    ExportPlan,
    /// What the printing program prints.
    Print,
}

/// What is called: bytes as C lends them. What an operation does not take is empty.
#[derive(Clone, Debug)]
pub struct Call {
    pub operation: Operation,
    /// The file, the tables, the catalogue, the records or the sheet.
    pub given: Vec<u8>,
    pub starts: Vec<u8>,
    pub budget: u32,
    /// The bytes of the result buffer, and of the output if they are not just enough.
    pub result: usize,
    pub room: Option<usize>,
    pub catalogue: Vec<u8>,
    pub wanted: Vec<u8>,
}

/// The number, the job, the horizon, the energy and the count.
pub type Answer = (u8, u8, u16, u32, u32);

#[derive(Clone, Debug)]
pub struct Figure {
    pub name: &'static str,
    pub call: Call,
    pub answer: Answer,
    /// What the output begins with; and of mending what the list of moves begins with.
    pub written: Vec<u8>,
    pub moved: Vec<u8>,
}

/// The eleven bytes of an answer.
pub fn eleven((_, job, horizon, energy, count): Answer) -> Vec<u8> {
    let mut bytes = vec![job];
    bytes.extend(horizon.to_be_bytes());
    bytes.extend(energy.to_be_bytes());
    bytes.extend(count.to_be_bytes());
    bytes
}

fn operation(word: &str) -> Option<Operation> {
    Some(match word {
        "check" => Operation::Check,
        "search" => Operation::Search,
        "first" => Operation::First,
        "possible" => Operation::Possible,
        "rows" => Operation::Rows,
        "margins" => Operation::Margins,
        "mend" => Operation::Mend,
        "step" => Operation::Step,
        "write" => Operation::Write,
        "build" => Operation::Build,
        "import-devices" => Operation::ImportDevices,
        "import-jobs" => Operation::ImportJobs,
        "export-devices" => Operation::ExportDevices,
        "export-jobs" => Operation::ExportJobs,
        "export-plan" => Operation::ExportPlan,
        "print" => Operation::Print,
        _ => return None,
    })
}

fn sheet(text: &str) -> Vec<u8> {
    text.replace("\\r\\n", "\r\n").into_bytes()
}

fn part_number(text: &str) -> Vec<u8> {
    format!("{text:8}").into_bytes()
}

/// Numbers of two bytes.
fn pairs<'a>(words: impl Iterator<Item = &'a str>) -> Option<Vec<u8>> {
    let pair = |word: &str| word.parse::<u16>().map(u16::to_be_bytes);
    let pairs: Result<Vec<[u8; 2]>, _> = words.map(pair).collect();
    Some(pairs.ok()?.concat())
}

/// Numbers of four bytes, a negative one by its two's complement.
fn fours<'a>(words: impl Iterator<Item = &'a str>) -> Option<Vec<u8>> {
    let four = |word: &str| {
        word.parse::<i64>()
            .map(|number| (number as u32).to_be_bytes())
    };
    let fours: Result<Vec<[u8; 4]>, _> = words.map(four).collect();
    Some(fours.ok()?.concat())
}

impl Call {
    fn read(operation: Operation, given: &str, argument: &str) -> Option<Call> {
        let is_sheet = matches!(operation, Operation::ImportDevices | Operation::ImportJobs);
        let mut call = Call {
            operation,
            given: if is_sheet { sheet(given) } else { hex(given) },
            starts: Vec::new(),
            budget: 0,
            result: 11,
            room: None,
            catalogue: Vec::new(),
            wanted: Vec::new(),
        };
        let mut words = argument.split_whitespace();
        match operation {
            Operation::Search | Operation::Possible => {
                call.budget = words.next()?.parse().ok()?;
                if words.next() == Some("result") {
                    call.result = words.next()?.parse().ok()?;
                }
            }
            Operation::Write => {
                if words.next() == Some("room") {
                    call.room = Some(words.next()?.parse().ok()?);
                }
            }
            Operation::Build => {
                for word in words.by_ref().take_while(|word| *word != "want") {
                    let (number, record) = word.split_once('=')?;
                    call.catalogue.extend(part_number(number));
                    call.catalogue.extend(hex(record));
                }
                call.wanted = words.flat_map(part_number).collect();
            }
            _ => match argument.strip_prefix("bytes ") {
                Some(bytes) => call.starts = hex(bytes),
                None => call.starts = pairs(words)?,
            },
        }
        Some(call)
    }
}

fn written(operation: Operation, text: &str) -> Option<Vec<u8>> {
    let words = text.split_whitespace();
    Some(match operation {
        Operation::Check => Vec::new(),
        Operation::Search | Operation::First | Operation::Possible | Operation::Mend => {
            pairs(words)?
        }
        Operation::Rows => words.collect::<String>().into_bytes(),
        Operation::Margins | Operation::Step => fours(words)?,
        Operation::Write | Operation::Build => hex(text),
        Operation::ImportDevices | Operation::ImportJobs => hex(text),
        Operation::ExportDevices | Operation::ExportJobs | Operation::ExportPlan => sheet(text),
        Operation::Print => (text.replace(" / ", "\n") + "\n").into_bytes(),
    })
}

fn read(line: &'static str) -> Option<Figure> {
    let columns: Vec<&str> = line.split('|').map(str::trim).collect();
    let [name, word, given, argument, answer, text] = columns[..] else {
        return None;
    };
    let operation = operation(word)?;
    let numbers: Result<Vec<u32>, _> = answer.split_whitespace().map(str::parse).collect();
    let answer = match numbers.ok()?[..] {
        [number, job, horizon, energy, count] => {
            (number as u8, job as u8, horizon as u16, energy, count)
        }
        [] if operation == Operation::Print => (0, 0, 0, 0, 0),
        _ => return None,
    };
    let (text, moved) = text.split_once("moved").unwrap_or((text, ""));
    Some(Figure {
        name,
        call: Call::read(operation, given, argument)?,
        answer,
        written: written(operation, text)?,
        moved: pairs(moved.split_whitespace())?,
    })
}

pub fn all() -> Vec<Figure> {
    let lines = TEXT.lines().filter(|line| !line.starts_with('#'));
    let figure = |line| read(line).unwrap_or_else(|| panic!("tests/figures.txt: {line}"));
    lines.map(figure).collect()
}
