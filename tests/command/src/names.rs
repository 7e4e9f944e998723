//! Names and units of a text: shown by every command, kept by show, and used in device sets.

use crate::floe::{same, Floe, Tried};

const NAMED: &str = "horizon 12\nunit power mW\nunit tick 10 ms\n\
    device 1 5 1 3 name thermo\ndevice 2 9 2 4 name flash\n\
    job 0 12 2 thermo name read\njob 0 12 3 flash,thermo\n";

/// What follows `-` in a call, and what is printed.
const PRINTED: [(&[&str], &str); 8] = [
    (
        &["plan"],
        "energy 89 (890 µJ)\n\
         job 0 read start 0 (0 ms) margin 10 (100 ms)\n\
         job 1 -    start 9 (90 ms) margin 0 (0 ms)\n\
         device 0 thermo WWDSSSSSUWWW\n\
         device 1 flash  DDSSSSSUUWWW\n",
    ),
    (
        &["plan", "--runs"],
        "energy 89 (890 µJ)\n\
         job 0 read start 0 (0 ms) margin 10 (100 ms)\n\
         job 1 -    start 9 (90 ms) margin 0 (0 ms)\n\
         device 0 thermo W×2 D×1 S×5 U×1 W×3\n\
         device 1 flash  D×2 S×5 U×2 W×3\n",
    ),
    (
        &["possible"],
        "yes\n\
         job 0 read start 0 (0 ms) margin 10 (100 ms)\n\
         job 1 -    start 2 (20 ms) margin 7 (70 ms)\n",
    ),
    (
        &["verdict", "0", "2"],
        "energy 103 (1.03 mJ)\n\
         job 0 read start 0 (0 ms) margin 10 (100 ms)\n\
         job 1 -    start 2 (20 ms) margin 7 (70 ms)\n",
    ),
    (
        &["rows", "0", "2", "--runs"],
        "energy 103 (1.03 mJ)\n\
         device 0 thermo W×5 D×1 S×5 U×1\n\
         device 1 flash  W×5 D×2 S×3 U×2\n",
    ),
    (
        &["step", "0", "9"],
        "stepped 148 (1.48 mJ)\nleast 89 (890 µJ)\n\
         device 0 thermo stepped 60 (600 µJ) least 36 (360 µJ)\n\
         device 1 flash  stepped 88 (880 µJ) least 53 (530 µJ)\n",
    ),
    (
        &["mend", "0", "1"],
        "moved 1\njob 0 read start 0 (0 ms)\njob 1 -    start 2 (20 ms) was 1 (10 ms)\n",
    ),
    (
        &["check"],
        "horizon 12 (120 ms)\ndevices 2\ntasks 0\njobs 2\n",
    ),
];

/// Texts that say the same as another.
const SAME: [(&str, &str); 5] = [
    // A name may be used before it is given.
    (
        "job 0 5 2 b,a\nhorizon 5\ndevice 1 5 1 3 name a\ndevice 1 5 1 3 name b",
        "horizon 5\ndevice 1 5 1 3\ndevice 1 5 1 3\njob 0 5 2 0,1",
    ),
    (
        "task 4 1 00417 name poll\ndevice 1 5 1 3 name 00417 # 417\n",
        "device 1 5 1 3\ntask 4 1 0",
    ),
    (
        "kind 3\nhorizon 5\ndevice 1 10 4 2 3 1 name deep\njob 0 5 2 deep",
        "kind 3\nhorizon 5\ndevice 1 10 4 2 3 1\njob 0 5 2 0",
    ),
    // A number stays one, whatever the names are.
    (
        "horizon 5\ndevice 1 5 1 3 name x\ndevice 1 5 1 3\njob 0 5 2 x,1",
        "horizon 5\ndevice 1 5 1 3\ndevice 1 5 1 3\njob 0 5 2 0,1",
    ),
    (
        "horizon 5\nunit tick 1 h\nunit power W\njob 0 5 2 -",
        "horizon 5\njob 0 5 2 -",
    ),
];

/// Texts whose names or units are none, with line and column.
const WRONG: [(&str, usize, usize, &str); 17] = [
    ("device 1 5 1 3 name\n", 1, 21, "a name is missing"),
    (
        "device 1 5 1 3 name a b\n",
        1,
        23,
        "'b' is a word too many: a name is one word",
    ),
    ("device 1 5 1 name a\n", 1, 14, "P0 is missing"),
    ("device 1 5 1 3 name a,b\n", 1, 21, "'a,b' is no name"),
    ("device 1 5 1 3 name name\n", 1, 21, "'name' is no name"),
    ("job 0 5 2 0 name -\n", 1, 18, "'-' is no name"),
    ("job 0 5 2 0 name \"a\n", 1, 18, "is no name"),
    (
        "job 0 5 2 0 name abcdefghijklmnopqrstuvwxy\n",
        1,
        18,
        "is too long a name: at most 24 characters",
    ),
    (
        "device 1 5 1 3 name a\njob 0 5 2 b\n",
        2,
        11,
        "'b' is not a device number, or one of the names a; '-' stands for no device",
    ),
    (
        "device 1 5 1 3 name a\ndevice 1 5 1 3 name a\njob 0 5 2 1,a\n",
        3,
        13,
        "'a' is the name of the devices 0 and 1: write the number",
    ),
    (
        "device 1 5 1 3 name 1\ndevice 1 5 1 3\njob 0 5 2 1\n",
        3,
        11,
        "'1' is the name of device 0 and the number of device 1: write 0 or 01",
    ),
    (
        "device 1 5 1 3 name a\njob 0 5 2 a,0\n",
        2,
        13,
        "device 0 is named twice",
    ),
    ("unit\n", 1, 6, "power or tick is missing"),
    (
        "unit energy J\n",
        1,
        6,
        "a unit of power and one of tick, not of 'energy'",
    ),
    ("unit tick ms\n", 1, 14, "of which unit is missing"),
    ("unit tick 0 ms\n", 1, 11, "'0' is not how many"),
    (
        "unit power mW\nunit power mW\n",
        2,
        1,
        "this unit is given twice",
    ),
];

pub fn test(floe: &Floe) -> Tried {
    for (words, expected) in PRINTED {
        let mut call = words.to_vec();
        call.insert(1, "-");
        floe.prints(&call, NAMED, expected)?;
    }
    for (text, other) in SAME {
        let files = [text, other].map(|text| floe.output(&["write", "-"], text.as_bytes()));
        let [file, expected] = files;
        same(file?, expected?, || text.to_string())?;
    }
    for (text, line, column, words) in WRONG {
        let (status, said) = floe.failed(&["check", "-"], text.as_bytes())?;
        let place = format!("floe: standard input: line {line}, column {column}: ");
        let is_said = said.starts_with(&place) && said.contains(words);
        same((status, is_said), (1, true), || format!("{text:?}: {said}"))?;
    }
    let runs = PRINTED.len() + 2 * SAME.len() + WRONG.len();
    Ok(runs as u64 + shown(floe)?)
}

/// show keeps names and units, and what it shows is shown again as it is; a picture has them, and what
/// would mean something in its language is spelt out.
fn shown(floe: &Floe) -> Tried {
    let text = "horizon 12\nunit power mW\nunit tick 10 ms\n\n\
        # device: T, Pw, Ps, P0\ndevice 1 5 1 3 name thermo\ndevice 2 9 2 4 name flash\n\n\
        # job: release, deadline, running time, devices\n\
        job 0 12 2 thermo name read\njob 0 12 3 thermo,flash\n";
    floe.prints(&["show", "-"], NAMED, text)?;
    floe.prints(&["show", "-"], text, text)?;
    let odd = NAMED.replace("thermo", "R&D<1>");
    let picture = floe.output(&["draw", "-"], odd.as_bytes())?;
    let picture = String::from_utf8_lossy(&picture);
    for words in [
        ">One round of 12 ticks (120 ms): energy 89 (890 µJ)<",
        ">job 0 read<",
        ">device 0 R&amp;D&lt;1&gt;<",
        "<title>device 1 flash: working for job 1, ticks 9 to 11</title>",
        ">T 2, Pw 9, Ps 2, P0 4 mW<",
        ">120 ms<",
    ] {
        same(picture.contains(words), true, || {
            format!("no {words} in {picture}")
        })?;
    }
    // A task's name is that of its jobs.
    let tasks = "device 1 5 1 3\ntask 4 1 0 name poll\ntask 8 1 - name send\n";
    let plan = floe.output(&["plan", "-"], tasks.as_bytes())?;
    let plan = String::from_utf8_lossy(&plan);
    let names: Vec<&str> = plan
        .lines()
        .filter_map(|line| line.split(' ').nth(2))
        .take(3)
        .collect();
    same(names, vec!["poll", "send", "poll"], || plan.to_string())?;
    Ok(4)
}
