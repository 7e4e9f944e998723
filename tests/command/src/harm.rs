//! What a command must not do to whoever calls it: abort for want of memory, write over what it reads, put formulas
//! into a sheet, move the terminal, say more than a screen, or wait without a word.

use crate::floe::{file, in_folder, same, Floe, Tried};
use crate::pty;
use crate::svg;
use outside::running::runner::{run, Feed, Printed};
use std::ffi::{CString, OsStr};
use std::fs;
use std::os::unix::ffi::OsStrExt;
use std::os::unix::fs::{symlink, MetadataExt, PermissionsExt};
use std::path::Path;
use std::thread;

const TEXT: &str = "horizon 5\ndevice 1 5 1 3\njob 0 5 2 0\n";
const PARTS: &str = "\"00417\",1,5,1,3\r\n\"FLASH8M\",3,12,1,6\r\n";
const JOBS: &str = "0,8,3,1\r\n4,20,4,3\r\n";
/// As much as is read of a file.
const MOST: usize = 16 << 20;

pub fn test(floe: &Floe) -> Tried {
    const PARTS: [fn(&Floe, &Path) -> Result<(), String>; 10] = [
        memory,
        millions,
        inputs,
        replaced,
        names,
        terminal_bytes,
        long_messages,
        named_pipe,
        other_files,
        tabs,
    ];
    in_folder("harm", |folder| {
        let tried = PARTS.iter().filter_map(|part| part(floe, folder).err());
        let failures: Vec<String> = tried.collect();
        match failures.is_empty() {
            true => Ok(floe.made()),
            false => Err(failures.join("\n")),
        }
    })
}

/// The command after these words of shell, in which `$@` are the words of the call.
fn by_shell(floe: &Floe, before: &str, words: &[&str], input: &[u8]) -> Result<Printed, String> {
    let mut command = floe.called_by(Path::new("sh"));
    let line = format!("{before}; exec \"$@\"");
    command
        .args(["-c", &line, "sh"])
        .arg(floe.program())
        .args(words);
    run(&mut command, &Feed::whole(input))
}

fn words_of(printed: &Printed) -> String {
    String::from_utf8_lossy(&printed.errors).into_owned()
}

/// With less memory than is usual there is the same plan; what is asked for and cannot be had is said.
fn memory(floe: &Floe, _: &Path) -> Result<(), String> {
    let plan = floe.output(&["plan", "-"], TEXT.as_bytes())?;
    for limit in [100_000, 60_000, 30_000] {
        let before = format!("ulimit -v {limit}");
        let printed = by_shell(floe, &before, &["plan", "-"], TEXT.as_bytes())?;
        same(printed.clean()?, plan.clone(), || format!("in {limit} KiB"))?;
    }
    for limit in [100_000, 60_000] {
        let before = format!("ulimit -v {limit}");
        let call = ["plan", "-", "--memory", "200"];
        let printed = by_shell(floe, &before, &call, TEXT.as_bytes())?;
        let said = "--memory 200: there is not so much to be had";
        let is_said = words_of(&printed).contains(said);
        let got = (printed.status, is_said, printed.output.is_empty());
        same(got, (Some(2), true, true), || printed.report())?;
    }
    Ok(())
}

/// Millions of fields, lines and parts take no memory each, and the word on them is short.
fn millions(floe: &Floe, folder: &Path) -> Result<(), String> {
    let parts = file(folder, "few.csv", PARTS.as_bytes())?;
    let request = file(folder, "few.txt", TEXT.as_bytes())?;
    let rows: String = (0..1_200_000).map(|job| format!("{job},0\r\n")).collect();
    let of_parts = [
        "plan",
        "--catalogue",
        &parts,
        "--parts-from",
        "-",
        "--jobs",
        &request,
    ];
    let trials: [(&[&str], String, &str); 6] = [
        (
            &["plan", "--jobs", "-", "--horizon", "20"],
            ",".repeat(MOST),
            "16777217 fields",
        ),
        (
            &["plan", "--tasks", "-"],
            ",".repeat(MOST),
            "16777217 fields",
        ),
        (
            &["plan", "--jobs", "-", "--horizon", "20"],
            format!("1,{}", "\n".repeat(MOST - 2)),
            "2 fields",
        ),
        (
            &["verdict", &request, "--starts-from", "-"],
            rows,
            "'256' is too large",
        ),
        (
            &["verdict", &request, "--starts-from", "-"],
            ",".repeat(MOST),
            "empty but for its commas",
        ),
        (&of_parts, "A\n".repeat(MOST / 2), "more than 1000 parts"),
    ];
    for (words, input, said) in trials {
        let printed = by_shell(floe, "ulimit -v 200000", words, input.as_bytes())?;
        let is_said = words_of(&printed).contains(said) && printed.errors.len() < 700;
        same((printed.status, is_said), (Some(1), true), || {
            format!("{words:?}: {}", printed.report())
        })?;
    }
    Ok(())
}

/// Nothing is written over a file that is read, by whatever name.
fn inputs(floe: &Floe, folder: &Path) -> Result<(), String> {
    let at = |name: &str| folder.join(name).to_string_lossy().into_owned();
    let request = file(folder, "request.txt", TEXT.as_bytes())?;
    let (parts, jobs) = (
        file(folder, "parts.csv", PARTS.as_bytes())?,
        file(folder, "jobs.csv", JOBS.as_bytes())?,
    );
    let wanted = file(folder, "wanted.txt", b"00417\nFLASH8M\n")?;
    let tasks = file(folder, "tasks.csv", b"4,1,1\r\n")?;
    let starts = file(folder, "starts.csv", b"0,0\r\n")?;
    let failed = |fault: std::io::Error| fault.to_string();
    symlink(&request, at("link.txt")).map_err(failed)?;
    fs::hard_link(&request, at("other.txt")).map_err(failed)?;
    let around = at("../")
        + &format!(
            "{}/request.txt",
            folder.file_name().unwrap_or_default().to_string_lossy()
        );
    let sheets = [
        "plan",
        "--catalogue",
        &parts,
        "--parts-from",
        &wanted,
        "--jobs",
        &jobs,
        "--horizon",
        "20",
    ];
    let of_tasks = [
        "plan",
        "--catalogue",
        &parts,
        "--parts",
        "00417",
        "--tasks",
        &tasks,
    ];
    let mut trials: Vec<(Vec<&str>, &str)> = Vec::new();
    let (link, other) = (at("link.txt"), at("other.txt"));
    for output in [&request, &link, &other, &around] {
        trials.push((vec!["plan", &request], output));
        trials.push((vec!["export", "plan", &request], output));
    }
    for output in [&parts, &wanted, &jobs] {
        trials.push((sheets.to_vec(), output));
    }
    trials.push((of_tasks.to_vec(), &tasks));
    trials.push((
        vec!["export", "plan", &request, "--starts-from", &starts],
        &starts,
    ));
    for (mut words, output) in trials {
        words.extend(["--csv", output]);
        let (status, said) = floe.failed(&words, b"")?;
        let is_said = said.contains(", which is read: nothing is written over it");
        same((status, is_said), (2, true), || {
            format!("{words:?}: {said}")
        })?;
    }
    let from = format!("exec <{request}");
    let printed = by_shell(floe, &from, &["plan", "-", "--csv", &request], b"")?;
    same(printed.status, Some(2), || printed.report())?;
    for (path, content) in [(&request, TEXT), (&parts, PARTS), (&jobs, JOBS)] {
        same(
            fs::read_to_string(path).map_err(failed)?,
            content.to_string(),
            || path.clone(),
        )?;
    }
    Ok(())
}

/// A file is replaced as a whole, keeps its mode, and stays what it was where that fails; a link stays a link, and
/// what has two names keeps both. Nothing is left beside.
fn replaced(floe: &Floe, folder: &Path) -> Result<(), String> {
    let failed = |fault: std::io::Error| fault.to_string();
    let room = folder.join("room");
    fs::create_dir(&room).map_err(failed)?;
    let at = |name: &str| room.join(name).to_string_lossy().into_owned();
    let sheet = "0,0,3\r\n";
    let plan = |output: &str| floe.output(&["plan", "-", "--csv", output], TEXT.as_bytes());
    let holds = |path: &str, content: &str| {
        let read = fs::read_to_string(path).map_err(|fault| format!("{path}: {fault}"))?;
        same(read.as_str(), content, || path.to_string())
    };
    plan(&at("new.csv"))?;
    holds(&at("new.csv"), sheet)?;
    let old = file(&room, "old.csv", b"what was")?;
    fs::set_permissions(&old, fs::Permissions::from_mode(0o640)).map_err(failed)?;
    symlink(&old, at("link.csv")).map_err(failed)?;
    plan(&at("link.csv"))?;
    holds(&old, sheet)?;
    let kept = fs::metadata(&old).map_err(failed)?.mode() & 0o777;
    let is_link = fs::symlink_metadata(at("link.csv"))
        .map_err(failed)?
        .is_symlink();
    same((kept, is_link), (0o640, true), || {
        "mode and link".to_string()
    })?;
    let two = file(&room, "two.csv", b"what was")?;
    fs::hard_link(&two, at("names.csv")).map_err(failed)?;
    plan(&two)?;
    holds(&at("names.csv"), sheet)?;

    symlink(at("far.csv"), at("dangling.csv")).map_err(failed)?;
    plan(&at("dangling.csv"))?;
    holds(&at("far.csv"), sheet)?;

    let spared = file(&room, "spared.csv", b"what was")?;
    let limit = "trap '' XFSZ; ulimit -f 0";
    let printed = by_shell(
        floe,
        limit,
        &["plan", "-", "--csv", &spared],
        TEXT.as_bytes(),
    )?;
    let is_said = words_of(&printed).starts_with("floe: cannot write to ");
    same((printed.status, is_said), (Some(3), true), || {
        printed.report()
    })?;
    holds(&spared, "what was")?;

    let there = fs::read_dir(&room).map_err(failed)?.count();
    same(there, 8, || "files in the folder".to_string())
}

/// Names that a spreadsheet would work out, or that hide or move something, are none; letters of all kinds are.
fn names(floe: &Floe, _: &Path) -> Result<(), String> {
    let formulas = ["=cmd|'/Ccalc'!A0", "+1", "-x", "@SUM"];
    let hidden = [
        "a\u{202E}b",
        "a\u{FFFE}",
        "a\u{FFFF}",
        "\u{200B}a",
        "a\u{7F}",
        "a\u{1B}[31m",
        "a\u{85}",
        "a\u{2028}b",
    ];
    let of_formulas = formulas.map(|name| {
        (
            name,
            "takes what begins with = + - or @ for a formula; put a letter in front",
        )
    });
    let of_hidden = hidden.map(|name| {
        (
            name,
            "cannot be seen, or moves what is seen; write it without",
        )
    });
    for (name, words) in of_formulas.into_iter().chain(of_hidden) {
        for text in [
            format!("horizon 5\ndevice 1 5 1 3 name {name}\njob 0 5 2 0\n"),
            format!("horizon 5\njob 0 5 2 - name {name}\n"),
            format!("task 5 2 - name {name}\n"),
            format!("unit power {name}\nhorizon 5\njob 0 5 2 -\n"),
        ] {
            let (status, said) = floe.failed(&["plan", "-"], text.as_bytes())?;
            let is_said = said.contains(words) && !said.contains(name);
            let is_said = is_said || formulas.contains(&name) && said.contains(words);
            same((status, is_said), (1, true), || format!("{text:?}: {said}"))?;
        }
    }
    for name in ["é", "e\u{301}", "温度", "λ", "a-b", "x=1", "R&D<1>", "🛰"] {
        let text = format!("horizon 5\ndevice 1 5 1 3 name {name}\njob 0 5 2 {name} name {name}\n");
        let plan = floe.output(&["plan", "-"], text.as_bytes())?;
        let is_shown = String::from_utf8_lossy(&plan).contains(&format!("job 0 {name} "));
        same(is_shown, true, || name.to_string())?;
        let picture = floe.output(&["draw", "-"], text.as_bytes())?;
        svg::shapes(&String::from_utf8_lossy(&picture))?;
    }
    Ok(())
}

/// No byte of what was given moves the terminal: of a file's name, of its content, or of a word.
fn terminal_bytes(floe: &Floe, folder: &Path) -> Result<(), String> {
    let odd = folder.join("a\u{1B}[31mb\u{202E}c.txt");
    let odd = odd.to_string_lossy().into_owned();
    let parts = file(folder, "parts.csv", PARTS.as_bytes())?;
    let text = file(folder, "by-name.txt", b"horizon 20\njob 0 8 3 thermo\n")?;
    let list = file(folder, "list.txt", b"A\x1B[2J\nB\x07\n")?;
    let wrong = file(folder, "a\u{1B}[31mwrong.txt", b"horizon x\n")?;
    let escape = "\u{1B}]0;title\u{7}";
    for words in [
        &["plan", &odd][..],
        &["plan", &wrong],
        &["check", &text, escape],
        &["export", escape],
        &[escape],
        &["plan", "-", &format!("--{escape}")],
        &[
            "plan",
            "--catalogue",
            &parts,
            "--parts",
            escape,
            "--jobs",
            &text,
        ],
        &[
            "plan",
            "--catalogue",
            &parts,
            "--parts-from",
            &list,
            "--jobs",
            &text,
        ],
        &["plan", &text, "--csv", &format!("{odd}/sheet.csv")],
    ] {
        let printed = floe.run(words, b"")?;
        let shown = printed
            .errors
            .iter()
            .all(|&byte| byte >= b' ' || byte == b'\n');
        let said = words_of(&printed);
        let is_clean = shown && !said.contains('\u{202E}') && printed.output.is_empty();
        same(is_clean && !said.is_empty(), true, || {
            format!("{words:?}: {said:?}")
        })?;
    }
    Ok(())
}

/// A message is no longer than a screen, whatever was given.
fn long_messages(floe: &Floe, folder: &Path) -> Result<(), String> {
    const SCREEN: usize = 2_000;
    let parts = file(folder, "parts.csv", PARTS.as_bytes())?;
    let text = file(folder, "by-name.txt", b"horizon 20\njob 0 8 3 thermo\n")?;
    let many: String = (0..900)
        .map(|part| format!("P{part}{}\n", "X".repeat(400)))
        .collect();
    let list = file(folder, "many.txt", many.as_bytes())?;
    let deep = folder
        .join("d".repeat(250))
        .join("e".repeat(250))
        .join("f".repeat(250));
    let deep = deep.to_string_lossy();
    let named: String = (0..300_000)
        .map(|k| format!("device 1 5 1 3 name n{k:020}\n"))
        .collect();
    let named = named + "horizon 5\njob 0 5 2 thermo\n";
    for (words, input) in [
        (
            &[
                "plan",
                "--catalogue",
                &parts,
                "--parts-from",
                &list,
                "--jobs",
                &text,
            ][..],
            "",
        ),
        (&["plan", &deep], ""),
        (&["plan", "-"], &named),
    ] {
        let printed = floe.run(words, input.as_bytes())?;
        let is_short = (1..SCREEN).contains(&printed.errors.len());
        same((printed.status.is_some(), is_short), (true, true), || {
            format!("{} bytes for {words:?}", printed.errors.len())
        })?;
    }
    Ok(())
}

extern "C" {
    fn mkfifo(path: *const std::ffi::c_char, mode: u32) -> i32;
}

/// A pipe with a name that nobody writes to yet: a terminal is told what is waited for, and nobody else.
fn named_pipe(floe: &Floe, folder: &Path) -> Result<(), String> {
    let path = folder.join("pipe");
    let name = CString::new(path.as_os_str().as_bytes()).map_err(|fault| fault.to_string())?;
    // SAFETY: the name ends in a zero, and is read alone.
    same(unsafe { mkfifo(name.as_ptr(), 0o600) }, 0, || {
        "a pipe".to_string()
    })?;
    let plan = floe.output(&["plan", "-"], TEXT.as_bytes())?;
    let word = path.to_string_lossy().into_owned();
    // Opening it waits for the other side.
    let write = |path: &OsStr| {
        let path = path.to_os_string();
        thread::spawn(move || fs::write(path, TEXT))
    };
    write(path.as_os_str());
    let (printed, shown) = pty::shown(floe.command(&["plan", &word]))?;
    let is_told = shown.starts_with(&format!(
        "\rfloe: waiting for what {word} brings; Ctrl-C ends it"
    )) && shown.ends_with(&format!("\r\x1b[K{}", String::from_utf8_lossy(&plan)));
    same((printed.status, is_told), (Some(0), true), || shown.clone())?;
    write(path.as_os_str());
    same(floe.output(&["plan", &word], b"")?, plan, || {
        "not on a terminal".to_string()
    })
}

/// What a spreadsheet program keeps for itself, with a word on what to do.
fn other_files(floe: &Floe, folder: &Path) -> Result<(), String> {
    let wide = |text: &str| {
        text.encode_utf16()
            .flat_map(u16::to_le_bytes)
            .collect::<Vec<u8>>()
    };
    let sheet = "\"00417\",1,5,1,3\r\n";
    let marked = [&b"\xFF\xFE"[..], &wide(sheet)].concat();
    let big: Vec<u8> = sheet.encode_utf16().flat_map(u16::to_be_bytes).collect();
    for (content, words) in [
        (
            &b"PK\x03\x04\x14\x00\x06\x00\x08\x00"[..],
            "(.xlsx or .ods): save it as CSV",
        ),
        (
            b"\xD0\xCF\x11\xE0\xA1\xB1\x1A\xE1",
            "(.xls): save it as CSV",
        ),
        (&marked, "it is text in UTF-16: save it as CSV"),
        (&wide(sheet), "it is text in UTF-16: save it as CSV"),
        (&big, "it is text in UTF-16: save it as CSV"),
        (&wide(TEXT), "it is text in UTF-16: save it as CSV"),
    ] {
        let path = file(folder, "foreign", content)?;
        let request = file(folder, "request.txt", TEXT.as_bytes())?;
        for call in [
            &["plan", &path][..],
            &["plan", "--jobs", &path, "--horizon", "20"],
            &["plan", "--tasks", &path],
            &[
                "plan",
                "--catalogue",
                &path,
                "--parts",
                "00417",
                "--tasks",
                &request,
            ],
            &["verdict", &request, "--starts-from", &path],
        ] {
            let (status, said) = floe.failed(call, b"")?;
            same((status, said.contains(words)), (1, true), || {
                format!("{content:02X?} {call:?}: {said}")
            })?;
        }
    }
    Ok(())
}

/// Tabs where commas are wanted, with a word on what to do; in a text a tab is a blank.
fn tabs(floe: &Floe, folder: &Path) -> Result<(), String> {
    let tabs = |text: &str| text.replace(',', "\t");
    let parts = file(folder, "tabs.csv", tabs(PARTS).as_bytes())?;
    let jobs = file(folder, "tabbed.csv", tabs(JOBS).as_bytes())?;
    for call in [
        &["export", "catalogue", &parts][..],
        &["plan", "--jobs", &jobs, "--horizon", "20"],
        &["plan", "--tasks", &jobs],
    ] {
        let (status, said) = floe.failed(call, b"")?;
        let words = "choose the comma as field delimiter";
        same((status, said.contains(words)), (1, true), || {
            format!("{call:?}: {said}")
        })?;
    }
    let text = file(folder, "tabs.txt", TEXT.replace(' ', "\t").as_bytes())?;
    floe.output(&["plan", &text], b"").map(|_| ())
}
