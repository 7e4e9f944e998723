//! What stands in the columns of each sheet.

/// A column: its name, and the largest number that it takes; that of part numbers takes none.
pub struct Column {
    pub name: &'static str,
    pub most: Option<u32>,
}

const fn number(name: &'static str, most: u32) -> Column {
    let most = Some(most);
    Column { name, most }
}

const BYTE: u32 = u8::MAX as u32;
const PAIR: u32 = u16::MAX as u32;

/// A sheet of devices, which is a catalogue.
pub static DEVICES: [Column; 5] = [
    Column {
        name: "part number",
        most: None,
    },
    number("T", BYTE),
    number("Pw", PAIR),
    number("Ps", PAIR),
    number("P0", PAIR),
];

pub static JOBS: [Column; 4] = [
    number("release", PAIR),
    number("deadline", PAIR),
    number("running time", PAIR),
    number("device set", BYTE),
];

pub static TASKS: [Column; 3] = [
    number("period", PAIR),
    number("running time", PAIR),
    number("device set", BYTE),
];

/// What is read of the sheet of a plan.
pub static PLAN: [Column; 2] = [number("job", BYTE), number("start", PAIR)];

/// The names of the columns, one after the other.
pub fn names(columns: &[Column]) -> String {
    let names: Vec<&str> = columns.iter().map(|column| column.name).collect();
    names.join(", ")
}
