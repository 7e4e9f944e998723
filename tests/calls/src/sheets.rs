//! Sheets through the doors, held to the oracle's own reader and writer: texts good and damaged,
//! tables good and damaged, and figures that must come out.

use crate::expected::Searched;
use crate::{library, outcome, Tester};
use outside::cases::random::Random;
use outside::oracle::sheets::{
    draw_table, draw_text, export_devices, export_jobs, import_devices, import_jobs, Made, Rows,
};

const SEED: u64 = 11;
const CALLS: u64 = 12_000;

type Door = fn(&[u8], &mut [u8], &mut [u8]) -> u8;

/// Each door, what it should come to, and the rows it is for.
struct Way {
    name: &'static str,
    door: Door,
    oracle: fn(&[u8]) -> Made,
    rows: Rows,
    is_import: bool,
}

const WAYS: [Way; 4] = [
    Way {
        name: "door_import_devices",
        door: library::import_devices,
        oracle: import_devices,
        rows: Rows::Devices,
        is_import: true,
    },
    Way {
        name: "door_import_jobs",
        door: library::import_jobs,
        oracle: import_jobs,
        rows: Rows::Jobs,
        is_import: true,
    },
    Way {
        name: "door_export_devices",
        door: library::export_devices,
        oracle: export_devices,
        rows: Rows::Devices,
        is_import: false,
    },
    Way {
        name: "door_export_jobs",
        door: library::export_jobs,
        oracle: export_jobs,
        rows: Rows::Jobs,
        is_import: false,
    },
];

pub fn test(tester: &mut Tester) -> Result<(), String> {
    for number in 0..CALLS {
        let mut random = Random::new(SEED, number);
        for way in &WAYS {
            let given = match way.is_import {
                true => draw_text(&mut random, way.rows),
                false => draw_table(&mut random, way.rows),
            };
            tester.sheet(way, &given);
        }
    }
    Ok(())
}

impl Tester {
    fn sheet(&mut self, way: &Way, given: &[u8]) {
        let made = (way.oracle)(given);
        let needed = made.as_ref().map_or(0, |(_, bytes)| bytes.len());
        let mut after = self.buffers(needed);
        let expected = after.made(&made);
        let number = (way.door)(given, &mut after.lent, &mut after.result);
        self.compare(way.name, given, expected, outcome(number, after));
    }

    pub fn plan_sheet(&mut self, searched: &Searched) {
        let starts = self.starts(searched);
        let mut after = self.buffers(searched.plan_size(&starts));
        let expected = searched.plan_sheet(&starts, &after);
        let (lent, result) = (&mut after.lent, &mut after.result);
        let number = library::export_plan(&searched.file, &starts, lent, result);
        self.compare(
            "door_export_plan",
            &searched.file,
            expected,
            outcome(number, after),
        );
    }
}
