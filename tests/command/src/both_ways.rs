//! write and show, one after the other and the other way round; and the lines that refusals name.

use crate::floe::{same, Floe, Tried};
use crate::texts::{self, end_of_fault, part_before, Drawn, Text};
use outside::cases::faults;
use outside::cases::random::Random;
use outside::cases::second;
use outside::cases::third;
use outside::cases::valid;
use outside::oracle::request::FileKind;

const SEED: u64 = 21;
const TABLES: u64 = 4_800;

pub fn test(floe: &Floe) -> Tried {
    // By kind, and by kind and number.
    let (mut runs, mut accepted, mut met) = (0, [0; 3], [[0; 27]; 3]);
    for number in 0..TABLES {
        let random = &mut Random::new(SEED, number);
        let tables = draw(random);
        let text = texts::write(random, &tables);
        if text.text.len() < 3 {
            continue;
        }
        let input = text.text.as_bytes();
        let named = |what: &str| format!("tables {number}, {what}:\n{}", text.text);
        let file = tables.bytes();
        let kind = tables.kind() as usize;
        let Err(refusal) = tables.read().map(|_| ()) else {
            same(floe.output(&["write", "-"], input)?, file.clone(), || {
                named("write")
            })?;
            let shown = floe.output(&["show", "-"], &file)?;
            same(floe.output(&["write", "-"], &shown)?, file.clone(), || {
                named("write of what was shown")
            })?;
            same(floe.output(&["show", "-"], input)?, shown, || {
                named("show of the text")
            })?;
            runs += 4;
            accepted[kind] += 1;
            continue;
        };
        let (got, said) = floe.refused(&["write", "-"], input)?;
        same(got, refusal, || named("write"))?;
        same(line_told(&said), line(&tables, &text, refusal), || {
            named(&format!("refused {refusal}: {said}"))
        })?;
        met[kind][usize::from(refusal)] += 1;
        runs += 1;
    }
    let missed: Vec<usize> = (3..=13)
        .filter(|&number| met.iter().any(|met| met[number] == 0))
        .chain([26].into_iter().filter(|&number| met[2][number] == 0))
        .collect();
    if !missed.is_empty() || accepted.iter().any(|&accepted| accepted < 700) {
        return Err(format!("{accepted:?} accepted; not met: {missed:?}"));
    }
    Ok(runs)
}

fn draw(random: &mut Random) -> Drawn {
    let mut tables = match random.within(1, 8) {
        1 => valid::job_list(random),
        2 => valid::task_list(random),
        3 => valid::tight_list(random),
        4 => valid::crowded_list(random),
        5 => valid::long_list(random),
        6 => valid::many_devices(random),
        7 => valid::most_energy(random),
        _ => valid::long_tasks(random),
    };
    let fault = random.within(1, 6);
    match random.pick(&[FileKind::First, FileKind::Second, FileKind::Third]) {
        FileKind::First => {
            if fault <= 2 {
                let number = random.pick(&faults::NUMBERS);
                faults::put(random, &mut tables, number);
            }
            // Such a field looks like a mark, and is none in a text of the first kind.
            if random.one_in(32) {
                tables.horizon = random.pick(&[0xFF02, 0xFF03]);
            }
            Drawn::First(tables)
        }
        FileKind::Second => {
            let mut second = second::apart(random, tables);
            match fault {
                1 => second::put_any(random, &mut second),
                2 => second::spoil(random, &mut second),
                _ => {}
            }
            Drawn::Second(second)
        }
        FileKind::Third => {
            let mut third = third::deepened(random, tables);
            match fault {
                1 => third::put_any(random, &mut third),
                2 => third::spoil(random, &mut third),
                _ => {}
            }
            // A line lists as many powers as it says it has levels, unless these are too many.
            for levels in &mut third.levels {
                if levels.count < levels.powers.len() as u8 {
                    levels.powers.truncate(levels.count.into());
                }
            }
            Drawn::Third(third)
        }
    }
}

fn line_told(said: &str) -> Option<usize> {
    let (_, rest) = said.split_once(" (line ")?;
    rest.split_once(',')?.0.parse().ok()
}

/// The line that a refusal has to name: that of the record at fault, or of the first too many.
fn line(drawn: &Drawn, text: &Text, refusal: u8) -> Option<usize> {
    let line = match refusal {
        3 => text.devices.get(8),
        6 => text.tasks.get(8),
        10 => text.horizon.as_ref(),
        11 if drawn.tables().horizon == 0 => text.jobs.first(),
        11 => text.horizon.as_ref(),
        12 => text.jobs.get(16),
        _ => {
            let mut file = drawn.bytes();
            if drawn.kind() == FileKind::First && file[0] == 0xFF {
                file[1] = 0xFF;
            }
            let (name, _) = part_before(&file, end_of_fault(&file)?)?;
            let (section, number) = name.split_once(' ')?;
            let number: usize = number.parse().ok()?;
            match section {
                "device" => text.devices.get(number),
                "task" => text.tasks.get(number),
                _ => text.jobs.get(number),
            }
        }
    };
    line.copied()
}
