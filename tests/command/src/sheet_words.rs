//! What is said of sheets as people save them, to the letter: each was tried as a newcomer would.

use crate::floe::{file, in_folder, same, Floe, Tried};
use std::path::Path;

const PARTS: &str = "\"00417\",1,5,1,3\r\n417,2,9,2,4\r\nFLASH8M,3,12,1,6\r\n";
const JOBS: &str = "0,8,3,1\r\n4,20,4,3\r\n";

/// A sheet of parts, one of jobs, the wanted parts, and what is said; PARTS and JOBS stand for the files.
type Row = (&'static str, &'static str, &'static str, &'static str);

const SAID: [Row; 39] = [
    // Semicolons, tabs, a comma for a point.
    (
        "417;1;5;1;3\r\n",
        JOBS,
        "417",
        "refused 28: line 1 of PARTS: 1 field, and 5 are wanted (part number, T, Pw, Ps, P0): there are semicolons where commas are wanted; in the dialogue on saving choose the comma as field delimiter",
    ),
    (
        PARTS,
        "0;8;3;1\r\n",
        "417",
        "refused 28: line 1 of JOBS: 1 field, and 4 are wanted (release, deadline, running time, device set): there are semicolons where commas are wanted; in the dialogue on saving choose the comma as field delimiter",
    ),
    (
        "417\t1\t5\t1\t3\r\n",
        JOBS,
        "417",
        "floe: PARTS: line 1, column 1: a line begins with part, not with '417'",
    ),
    (
        "A,1,5,1,3\r\nB\t1\t5\t1\t3\r\n",
        JOBS,
        "A",
        "refused 28: line 2 of PARTS: 1 field, and 5 are wanted (part number, T, Pw, Ps, P0): there are tabs where commas are wanted; in the dialogue on saving choose the comma as field delimiter",
    ),
    (
        "417,1,5,5,1,3\r\n",
        JOBS,
        "417",
        "refused 28: line 1 of PARTS: 6 fields, and 5 are wanted (part number, T, Pw, Ps, P0): a comma inside a number parts it in two",
    ),
    (
        "417,1,5\r\n",
        JOBS,
        "417",
        "refused 28: line 1 of PARTS: 3 fields, and 5 are wanted (part number, T, Pw, Ps, P0)",
    ),
    // Headers, marks for a spreadsheet program, empty lines.
    (
        "part,T,Pw,Ps,P0\r\n417,1,5,1,3\r\n",
        JOBS,
        "417",
        "refused 29: line 1 of PARTS, column 2 (T): 'T' is not a number: this looks like a header, and a sheet has none: take the line out",
    ),
    (
        "part number,T,Pw,Ps,P0\r\n417,1,5,1,3\r\n",
        JOBS,
        "417",
        "refused 29: line 1 of PARTS, column 2 (T): 'T' is not a number: this looks like a header, and a sheet has none: take the line out",
    ),
    (
        PARTS,
        "release,deadline,run,set\r\n0,8,3,1\r\n",
        "417",
        "refused 29: line 1 of JOBS, column 1 (release): 'release' is not a number: this looks like a header, and a sheet has none: take the line out",
    ),
    (
        "sep=,\r\n417,1,5,1,3\r\n",
        JOBS,
        "417",
        "refused 28: line 1 of PARTS: 'sep=,' is for a spreadsheet program and no line of the sheet: take it out",
    ),
    (
        "417,1,5,1,3\r\n\r\n\r\n",
        JOBS,
        "417",
        "refused 28: line 2 of PARTS: the line is empty, and 5 fields are wanted (part number, T, Pw, Ps, P0): take the empty lines out",
    ),
    (
        PARTS,
        "0,8,3,1\r\n,,,\r\n",
        "417",
        "refused 29: line 2 of JOBS, column 1 (release): the line is empty but for its commas: take the empty lines out",
    ),
    // Numbers that are none.
    (
        "417,1,1.5,1,3\r\n",
        JOBS,
        "417",
        "refused 29: line 1 of PARTS, column 3 (Pw): '1.5' is not a whole number (round it, or choose a smaller unit): digits alone are wanted, at most 65535",
    ),
    (
        "417,1,\"1,5\",1,3\r\n",
        JOBS,
        "417",
        "refused 29: line 1 of PARTS, column 3 (Pw): '1,5' is not a whole number (round it, or choose a smaller unit): digits alone are wanted, at most 65535",
    ),
    (
        "A,1,5,1,3\r\n417,1,5 mW,1,3\r\n",
        JOBS,
        "417",
        "refused 29: line 2 of PARTS, column 3 (Pw): '5 mW' has more than a number in it (a unit does not belong there): digits alone are wanted, at most 65535",
    ),
    (
        "417, 1,5,1,3\r\n",
        JOBS,
        "417",
        "refused 29: line 1 of PARTS, column 2 (T): ' 1' has a blank before or after the number: digits alone are wanted, at most 255",
    ),
    (
        "417,256,5,1,3\r\n",
        JOBS,
        "417",
        "refused 29: line 1 of PARTS, column 2 (T): '256' is too large: digits alone are wanted, at most 255",
    ),
    (
        PARTS,
        "0,8,-3,1\r\n",
        "417",
        "refused 29: line 1 of JOBS, column 3 (running time): '-3' has a sign: digits alone are wanted, at most 65535",
    ),
    (
        PARTS,
        "0,8,,1\r\n",
        "417",
        "refused 29: line 1 of JOBS, column 3 (running time): '' is empty: digits alone are wanted, at most 65535",
    ),
    (
        PARTS,
        "0,8,3,x\r\n",
        "417",
        "refused 29: line 1 of JOBS, column 4 (device set): 'x' is not a number: digits alone are wanted, at most 255",
    ),
    // Quotes.
    (
        "\"4\"17,1,5,1,3\r\n",
        JOBS,
        "417",
        "refused 27: line 1 of PARTS, column 1 (part number): '\\\"4\\\"17' has a stray quote: quotes stand around a whole field, and one inside is written twice",
    ),
    (
        "417,1,5,1,3\r\n\"A,1,5,1,3\r\n",
        JOBS,
        "417",
        "refused 27: line 2 of PARTS, column 1 (part number): '\\\"A,1,5,1,3' has a quote that is still open at the end of the line: close it",
    ),
    // Part numbers.
    (
        "ABCDEFGHI,1,5,1,3\r\n",
        JOBS,
        "417",
        "refused 21: line 1 of PARTS, column 1 (part number): 'ABCDEFGHI' is too long, with 9 characters: a part number is up to 8 digits and capital letters",
    ),
    (
        "flash8m,3,12,1,6\r\n417,1,5,1,3\r\n",
        JOBS,
        "417",
        "refused 21: line 1 of PARTS, column 1 (part number): 'flash8m' has small letters: a part number is up to 8 digits and capital letters",
    ),
    (
        "417,1,5,1,3\r\nAB-12,1,5,1,3\r\n",
        JOBS,
        "417",
        "refused 21: line 2 of PARTS, column 1 (part number): 'AB-12' has the character '-': a part number is up to 8 digits and capital letters",
    ),
    (
        "part flash8m 3 12 1 6\n",
        JOBS,
        "417",
        "refused 21: line 1 of PARTS: 'flash8m' has small letters: a part number is up to 8 digits and capital letters",
    ),
    (
        "part ABCDEFGHI 3 12 1 6\n",
        JOBS,
        "417",
        "floe: PARTS: line 1, column 6: 'ABCDEFGHI' is too long, with 9 characters: a part number is up to 8 digits and capital letters",
    ),
    (
        "417,1,5,1,3\r\nA,1,5,1,3\r\n\"417\",2,9,2,4\r\n",
        JOBS,
        "417",
        "refused 22: line 3 of PARTS: part '417' stands in line 1 already: take one of the two out",
    ),
    (
        "part 417 1 5 1 3\n\npart 417 1 5 1 3\n",
        JOBS,
        "417",
        "refused 22: line 3 of PARTS: part '417' stands in line 1 of PARTS already: take one of the two out",
    ),
    // Wanted parts that are nearly there. None is guessed.
    (
        "\"00417\",1,5,1,3\r\n",
        JOBS,
        "417",
        "refused 23: part '417': PARTS lacks it; it has 00417 (line 1 of PARTS), which has another number of zeros in front",
    ),
    (
        PARTS,
        JOBS,
        "flash8m",
        "refused 23: part 'flash8m': PARTS lacks it; it has FLASH8M (line 3 of PARTS), which has capital letters",
    ),
    (
        PARTS,
        JOBS,
        "417,FLASH9M",
        "refused 23: part 'FLASH9M': PARTS lacks it; it has FLASH8M (line 3 of PARTS), which differs in one character",
    ),
    (PARTS, JOBS, "RADIO", "refused 23: part 'RADIO': PARTS lacks it"),
    // What the file would be refused for, by where it was read.
    (
        "A,1,5,1,3\r\n417,0,5,1,3\r\n",
        JOBS,
        "A,417",
        "refused 4: part '417' (line 2 of PARTS): a transition time of 0",
    ),
    (
        "417,1,5,3,3\r\n",
        JOBS,
        "417,417",
        "refused 5: part '417' (line 1 of PARTS): Ps 3 is not below P0 3",
    ),
    (
        PARTS,
        "0,8,3,1\r\n4,20,4,4\r\n",
        "417,FLASH8M",
        "refused 9: job 1 (line 2 of JOBS): names device 2, and the request has 2 devices",
    ),
    (
        PARTS,
        "0,8,9,1\r\n",
        "417",
        "refused 13: job 0 (line 1 of JOBS): release 0 + running time 9 > deadline 8",
    ),
    (
        PARTS,
        JOBS,
        "417,417,417,417,417,417,417,417,417",
        "refused 3: 9 devices, at most 8",
    ),
    // Of a jobs' text.
    (
        PARTS,
        "horizon 20\njob 0 8 3 417\njob 4 20 4 418\n",
        "417",
        "floe: JOBS: line 3, column 12: there is no device '418': they have the numbers 0 to 7, or one of the names 417",
    ),
];

pub fn test(floe: &Floe) -> Tried {
    in_folder("words", |folder| {
        Ok(said(floe, folder)? + taken(floe, folder)?)
    })
}

/// The files of a row, and the words that make a request of them.
fn words<'a>(parts: &'a str, jobs: &'a str, wanted: &'a str, is_text: bool) -> Vec<&'a str> {
    let mut words = vec!["--catalogue", parts, "--jobs", jobs, "--parts", wanted];
    if !is_text {
        words.extend(["--horizon", "20"]);
    }
    words
}

fn said(floe: &Floe, folder: &Path) -> Tried {
    for (parts, jobs, wanted, expected) in SAID {
        let [parts_file, jobs_file] = [("parts.csv", parts), ("jobs.csv", jobs)]
            .map(|(name, sheet)| file(folder, name, sheet.as_bytes()));
        let (parts_file, jobs_file) = (parts_file?, jobs_file?);
        let is_text = jobs.starts_with("horizon");
        let mut call = vec!["plan"];
        call.extend(words(&parts_file, &jobs_file, wanted, is_text));
        let (status, said) = floe.failed(&call, b"")?;
        let said = said
            .replace(&parts_file, "PARTS")
            .replace(&jobs_file, "JOBS");
        same((status, said), (1, format!("{expected}\n")), || {
            format!("{parts:?}, {jobs:?}, {wanted}")
        })?;
    }
    Ok(SAID.len() as u64)
}

/// Sheets whose lines end in LF alone are taken, and that is said once for each; so are a mark in front
/// and quotes everywhere, of which nothing is said.
fn taken(floe: &Floe, folder: &Path) -> Tried {
    let bare = |sheet: &str| sheet.replace("\r\n", "\n");
    let [parts, jobs] = [("parts.csv", PARTS), ("jobs.csv", JOBS)]
        .map(|(name, sheet)| file(folder, name, sheet.as_bytes()));
    let (parts, jobs) = (parts?, jobs?);
    let bare_parts = file(folder, "bare-parts.csv", bare(PARTS).as_bytes())?;
    let bare_jobs = file(folder, "bare-jobs.csv", bare(JOBS).as_bytes())?;
    let plan = |parts: &str, jobs: &str| {
        let mut call = vec!["plan"];
        call.extend(words(parts, jobs, "417,FLASH8M", false));
        floe.noted(&call, b"")
    };
    let (expected, silence) = plan(&parts, &jobs)?;
    same(silence, String::new(), || "sheets in CR LF".to_string())?;
    let note = |path: &str| {
        format!("floe: {path}: its lines end in LF alone; it is taken as if they ended in CR LF\n")
    };
    let (both, said) = plan(&bare_parts, &bare_jobs)?;
    same(both, expected.clone(), || "sheets in LF".to_string())?;
    same(said, note(&bare_parts) + &note(&bare_jobs), || {
        "a note for each".to_string()
    })?;
    let returns = file(folder, "cr.csv", PARTS.replace('\n', "").as_bytes())?;
    let (of_returns, said) = plan(&returns, &jobs)?;
    let note = note(&returns).replace("LF alone", "CR alone");
    same((of_returns, said), (expected.clone(), note), || {
        "a sheet in CR".to_string()
    })?;
    let wide: Vec<u8> = format!("\u{FEFF}{PARTS}")
        .encode_utf16()
        .flat_map(u16::to_le_bytes)
        .collect();
    let wide = file(folder, "wide.csv", &wide)?;
    let (status, said) = floe.failed(&["export", "catalogue", &wide], b"")?;
    let words =
        format!("floe: {wide}: it is text in UTF-16: save it as CSV, and not as Unicode text\n");
    same((status, said), (1, words), || "UTF-16".to_string())?;
    let marked = format!(
        "\u{FEFF}{}",
        PARTS.replace("417,2,9", "\"417\",\"2\",\"9\"")
    );
    let marked = file(folder, "marked.csv", marked.as_bytes())?;
    same(plan(&marked, &jobs)?, (expected, String::new()), || {
        "a mark and quotes".to_string()
    })?;
    Ok(5)
}
