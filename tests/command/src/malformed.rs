//! Texts that are no requests: each is answered with the line and the column where it goes wrong.

use crate::floe::{same, Floe, Tried};

/// A text, the line and the column, and some of the words.
const TEXTS: [(&str, usize, usize, &str); 71] = [
    ("horizont 5\n", 1, 1, "not with 'horizont'"),
    ("Horizon 5\n", 1, 1, "not with 'Horizon'"),
    ("horizon 5\n\n  devise 1 5 1 3\n", 3, 3, "not with 'devise'"),
    ("5\n6\n7\n", 1, 1, "not with '5'"),
    ("horizon 5\n= 3\n", 2, 1, "not with '='"),
    ("00 05 01\n", 1, 1, "not with '00'"),
    ("{\"horizon\": 5}\n", 1, 1, "not with '{\\\"horizon\\\":'"),
    ("horizon\n", 1, 9, "ticks is missing"),
    ("horizon # 5\n", 1, 9, "ticks is missing"),
    ("horizon 5 6\n", 1, 11, "'6' is a word too many"),
    ("horizon five\n", 1, 9, "'five' is not a number"),
    ("horizon -5\n", 1, 9, "'-5' is not a number"),
    ("horizon +5\n", 1, 9, "'+5' is not a number"),
    ("horizon 5.0\n", 1, 9, "'5.0' is not a number"),
    ("horizon 0x5\n", 1, 9, "'0x5' is not a number"),
    ("horizon 1e3\n", 1, 9, "'1e3' is not a number"),
    ("horizon 4,096\n", 1, 9, "'4,096' is not a number"),
    ("horizon \u{665}\n", 1, 9, "is not a number"),
    ("horizon 65536\n", 1, 9, "at most 65535"),
    ("horizon 18446744073709551621\n", 1, 9, "at most 65535"),
    ("horizon 5\nhorizon 5\n", 2, 1, "the first is in line 1"),
    ("horizon 5;\n", 1, 9, "'5;' is not a number"),
    (
        "horizon 5\rdevice 1 5 1 3\r",
        1,
        18,
        "'1' is a word too many",
    ),
    ("horizon\u{a0}5\n", 1, 1, "not with 'horizon\\u{a0}5'"),
    ("device\n", 1, 8, "T is missing: device takes T, Pw, Ps, P0"),
    ("device 1 5 1\n", 1, 14, "P0 is missing"),
    ("device 1 5 1 3 4\n", 1, 16, "'4' is a word too many"),
    (
        "device 256 5 1 3\n",
        1,
        8,
        "'256' is too large for T: at most 255",
    ),
    ("device 1 65536 1 3\n", 1, 10, "too large for Pw"),
    ("device 1 5 65536 3\n", 1, 12, "too large for Ps"),
    ("device 1 5 1 65536\n", 1, 14, "too large for P0"),
    ("device 1, 5, 1, 3\n", 1, 8, "'1,' is not a number"),
    ("device\t1\t5\t1\tx\n", 1, 14, "'x' is not a number"),
    ("task 4 1\n", 1, 10, "devices is missing"),
    ("task 4 1 - -\n", 1, 12, "'-' is a word too many"),
    ("task 65536 1 -\n", 1, 6, "too large for period"),
    ("task 4 x -\n", 1, 8, "'x' is not a number (running time)"),
    ("job 0 5 2\n", 1, 11, "devices is missing"),
    ("job 0 5 2 0 1\n", 1, 13, "'1' is a word too many"),
    ("job 0 5 2 0, 1\n", 1, 14, "'1' is a word too many"),
    ("job 0 5 2 0,\n", 1, 13, "a device number is missing"),
    ("job 0 5 2 ,0\n", 1, 11, "a device number is missing"),
    ("job 0 5 2 0,,1\n", 1, 13, "a device number is missing"),
    ("job 0 5 2 0,8\n", 1, 13, "they have the numbers 0 to 7"),
    ("job 0 5 2 0;1\n", 1, 11, "'0;1' is not a device number"),
    ("job 0 5 2 0,x\n", 1, 13, "'x' is not a device number"),
    ("job 0 5 2 --\n", 1, 11, "'--' is not a device number"),
    ("job 0 5 2 0,1,0\n", 1, 15, "device 0 is named twice"),
    (
        "job 0 5 99999999999999999999999 0\n",
        1,
        9,
        "too large for running time",
    ),
    ("kind 4\nhorizon 5\n", 1, 6, "there is no kind 4"),
    ("horizon 5\nkind 1\n", 2, 1, "before all other lines"),
    ("horizon 5\nkind 2\n", 2, 1, "before all other lines"),
    ("kind 2\nkind 2\n", 2, 1, "before all other lines"),
    ("kind 0\n", 1, 6, "there is no kind 0"),
    ("kind two\n", 1, 6, "'two' is not a number (kind)"),
    ("kind\n", 1, 6, "kind is missing"),
    (
        "kind 2\ndevice 1 5 1 3\n",
        2,
        16,
        "Pwake is missing: device takes wake, shut, Pw, Ps, Pwake, Pshut",
    ),
    (
        "kind 2\ndevice 1 3 9 1 4 2 7\n",
        2,
        20,
        "'7' is a word too many",
    ),
    (
        "kind 2\ndevice 1 256 9 1 4 2\n",
        2,
        10,
        "'256' is too large for shut: at most 255",
    ),
    (
        "kind 1\ndevice 1 3 9 1 4 2\n",
        2,
        16,
        "'4' is a word too many: device takes T, Pw, Ps, P0",
    ),
    ("horizon 5\nkind 3\n", 2, 1, "before all other lines"),
    (
        "kind 3\ndevice 1 10 4\n",
        2,
        15,
        "levels is missing: device takes T, Pw, P0, levels",
    ),
    (
        "kind 3\ndevice 1 10 4 2\n",
        2,
        17,
        "P1 is missing: device takes T, Pw, P0, levels, P1, P2",
    ),
    ("kind 3\ndevice 1 10 4 2 3\n", 2, 19, "P2 is missing"),
    (
        "kind 3\ndevice 1 10 4 2 3 1 0\n",
        2,
        21,
        "'0' is a word too many: device takes T, Pw, P0, levels, P1, P2",
    ),
    (
        "kind 3\ndevice 1 10 4 0 3\n",
        2,
        17,
        "'3' is a word too many",
    ),
    (
        "kind 3\ndevice 1 10 4 256 3\n",
        2,
        15,
        "'256' is too large for levels: at most 255",
    ),
    (
        "kind 3\ndevice 1 10 4 two 3 1\n",
        2,
        15,
        "'two' is not a number (levels)",
    ),
    (
        "kind 3\ndevice 1 10 4 2 3 65536\n",
        2,
        19,
        "'65536' is too large for P2: at most 65535",
    ),
    (
        "kind 3\ndevice x 10 4 1 3\n",
        2,
        8,
        "'x' is not a number (T)",
    ),
    ("horizon 5\nä ö job\n", 2, 1, "not with 'ä'"),
];

/// Bytes that are not text in UTF-8, with the column of the first.
const BYTES: [(&[u8], usize, usize); 4] = [
    (b"horizon \xFF\n", 1, 9),
    (b"horizon 5\nd\xC3\xA4\xC3\n", 2, 3),
    (b"horizon 5\n\x80job\n", 2, 1),
    (b"job 0 5 2 \xED\xA0\x80\n", 1, 11),
];

/// Texts that are requests all the same.
const RIGHT: [&str; 9] = [
    "horizon 5",
    "kind 1\nhorizon 5\n",
    "\u{FEFF}horizon 5\r\n",
    "\r\n\r\nhorizon 5\r\n\r\n",
    "horizon 00005 # \u{0}",
    "# ä \u{0} \u{7}\nhorizon 5",
    "###\nhorizon 5#6",
    "\t \thorizon\t \t5 ",
    "horizon 5\n#\n\n\n",
];

const RIGHT_SECOND: [&str; 3] = [
    "kind 2\nhorizon 5",
    "\u{FEFF}# kind 1\r\n\r\n\tkind  2\r\nhorizon 5\r\n",
    "kind 002#\nhorizon 5",
];

const RIGHT_THIRD: [&str; 2] = ["kind 3\nhorizon 5", "kind 003#\nhorizon 5"];

pub fn test(floe: &Floe) -> Tried {
    let texts = TEXTS
        .iter()
        .map(|(text, line, column, words)| (text.as_bytes(), *line, *column, *words));
    let bytes = BYTES
        .iter()
        .map(|(bytes, line, column)| (*bytes, *line, *column, "is not text in UTF-8"));
    let control = [(&b"horizon 5\0\n"[..], 1, 9, "'5\\0' is not a number")];
    let mut runs = 0;
    for (text, line, column, words) in texts.chain(bytes).chain(control) {
        for command in ["plan", "write", "show", "draw", "check"] {
            let printed = floe.run(&[command, "-"], text)?;
            let place = format!("floe: standard input: line {line}, column {column}: ");
            let errors = String::from_utf8_lossy(&printed.errors);
            let is_said = errors.starts_with(&place)
                && errors.contains(words)
                && errors.lines().count() == 1
                && printed.output.is_empty();
            same((printed.status, is_said), (Some(1), true), || {
                let text = String::from_utf8_lossy(text);
                format!("{command} of {text:?}: {}", printed.report())
            })?;
            runs += 1;
        }
    }
    let right = RIGHT.map(|text| (text, vec![0, 5, 0, 0, 0]));
    let second = RIGHT_SECOND.map(|text| (text, vec![0xFF, 2, 0, 5, 0, 0, 0]));
    let third = RIGHT_THIRD.map(|text| (text, vec![0xFF, 3, 0, 5, 0, 0, 0]));
    for (text, expected) in right.into_iter().chain(second).chain(third) {
        let file = floe.output(&["write", "-"], text.as_bytes())?;
        same(file, expected, || format!("{text:?}"))?;
        runs += 1;
    }
    // A long word is not repeated at length.
    let long = format!("horizon {}", "x".repeat(100_000));
    let printed = floe.run(&["check", "-"], long.as_bytes())?;
    same(printed.errors.len() < 200, true, || {
        "a long message".to_string()
    })?;
    Ok(runs + 1)
}
