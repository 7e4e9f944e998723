//! Tables written to files and read from them, through their doors, held to the writer and the
//! reader of the oracle.

use crate::expected::SHUT;
use crate::{library, outcome, Tester};
use outside::cases;
use outside::cases::random::Random;
use outside::oracle::writing::{draw, listed, written, Written};

const SEED: u64 = 12;
const TABLES: u64 = 10_000;
const FILES: u64 = 6_000;

pub fn test(tester: &mut Tester) {
    for number in 0..TABLES {
        let given = draw(&mut Random::new(SEED, number));
        let (bytes, file) = (given.bytes(), written(&given));
        tester.write(&bytes, &file);
        tester.write_shut(&bytes);
        if let Ok((horizon, file)) = file {
            tester.tables(&file, &Ok((horizon, bytes)));
        }
    }
    for number in 0..FILES {
        let file = cases::draw(SEED, number).file;
        let tables = listed(&file);
        tester.tables(&file, &tables);
        if let Ok((horizon, tables)) = tables {
            tester.write(&tables, &Ok((horizon, file)));
        }
    }
}

impl Tester {
    fn write(&mut self, tables: &[u8], file: &Written) {
        let needed = file.as_ref().map_or(0, |(_, bytes)| bytes.len());
        let mut after = self.buffers(needed);
        let expected = after.written(file);
        let number = library::write(tables, &mut after.lent, &mut after.result);
        self.compare("door_write", tables, expected, outcome(number, after));
    }

    /// The tables of another length or of another kind.
    fn write_shut(&mut self, tables: &[u8]) {
        let mut tables = tables.to_vec();
        match self.random.within(1, 4) {
            1 => tables.push(self.random.u8(0, 255)),
            2 => drop(tables.pop()),
            3 => tables.truncate(self.random.index(9)),
            _ => tables[0] = self.random.pick(&[0, 4, 5, 255]),
        }
        let mut after = self.buffers(300);
        let expected = after.untouched(SHUT);
        let number = library::write(&tables, &mut after.lent, &mut after.result);
        self.compare("door_write", &tables, expected, outcome(number, after));
    }

    fn tables(&mut self, file: &[u8], tables: &Written) {
        let needed = tables.as_ref().map_or(0, |(_, bytes)| bytes.len());
        let mut after = self.buffers(needed);
        let expected = after.written(tables);
        let number = library::tables(file, &mut after.lent, &mut after.result);
        self.compare("door_tables", file, expected, outcome(number, after));
    }
}
