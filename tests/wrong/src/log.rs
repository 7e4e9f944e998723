//! What rt says of the wrong programs that it has tried, in `rt ci` or `rt must-fail`: of each a line
//!
//!     rt: must-fail CRATE/LABEL.edit: refused, as it must be: ./proofs/FOLDER/Answers.antt:6:22: error: `GOAL`: why
//!     rt: must-fail CRATE/LABEL.edit: refused, as it must be: note: src/FILE.rt:27:1: it is not proved that so and so holds (`GOAL`)
//!
//! whose last part, the first error that is no misfit, is cut off after 160 characters.

/// What came of a try.
#[derive(Clone, PartialEq, Eq, Debug)]
pub enum Told {
    Refused(Complaint),
    /// Refused only because the proofs name what the edit took away.
    Misfit(String),
    /// Refused only by a limit of the prover, which gave no verdict.
    Limit(String),
    /// Not refused, not tried, or no edit that can be tried.
    Other(String),
}

/// The error that refuses a program: where it is, the goal or law there, and what is said of it.
#[derive(Clone, PartialEq, Eq, Debug)]
pub struct Complaint {
    pub place: Place,
    pub goal: Goal,
    pub text: String,
}

#[derive(Clone, PartialEq, Eq, Debug)]
pub enum Place {
    /// A proof, by its folder below proofs/, or a file of laws.
    Proof(String),
    /// A file below src/, and a line.
    Source(String, usize),
    /// None that can be read.
    Nowhere,
}

/// A goal, of which a line that is cut off may have the beginning alone, or nothing.
#[derive(Clone, PartialEq, Eq, Debug)]
pub enum Goal {
    Whole(String),
    Begun(String),
}

/// All that a log says, in its order: crate/label, and what came of it.
pub fn read(log: &str) -> Vec<(String, Told)> {
    let lines = log.lines().filter_map(|line| {
        let (name, said) = line.strip_prefix("rt: must-fail ")?.split_once(".edit: ")?;
        Some((name.to_string(), told(said)))
    });
    lines.collect()
}

fn told(said: &str) -> Told {
    let Some(why) = said.strip_prefix("refused, as it must be") else {
        return Told::Other(said.to_string());
    };
    if why.starts_with(" (only because ") {
        Told::Misfit(said.to_string())
    } else if why.starts_with(" (only by a limit") {
        Told::Limit(said.to_string())
    } else {
        let complaint = complaint(why.strip_prefix(": ").unwrap_or_default());
        match is_misfit(&complaint.text) {
            true => Told::Misfit(said.to_string()),
            false => Told::Refused(complaint),
        }
    }
}

/// Whether an error tells only that a proof was written for other code.
fn is_misfit(text: &str) -> bool {
    const WORDS: [&str; 6] = [
        "can be named from here",
        "was not admitted",
        "not in scope",
        "has no field",
        "has no `",
        "`rw`: no ",
    ];
    // As they begin, where the line is cut off before its words.
    const FRONTS: [&str; 2] = ["`: record `", "`: `goal."];
    let has = |words: &&str| text.contains(words);
    WORDS.iter().any(|words| has(words))
        || FRONTS.iter().any(|front| has(front))
        || takes_arguments(text)
}

/// Whether it is said how many arguments something takes.
fn takes_arguments(text: &str) -> bool {
    text.split("takes ").skip(1).any(|rest| {
        let word = rest.trim_start_matches(|c: char| c.is_ascii_digit());
        word.len() < rest.len() && word.starts_with(" argument")
    })
}

/// The error of a line that may be cut off anywhere.
fn complaint(text: &str) -> Complaint {
    let is_note = text.starts_with("note: ");
    let (path, rest) = split_place(text.strip_prefix("note: ").unwrap_or(text));
    let goal = match is_note {
        true => in_brackets(rest),
        false => in_front(rest),
    };
    Complaint {
        place: place(path),
        goal,
        text: text.to_string(),
    }
}

/// `FILE:LINE:COLUMN` as (file, line), and what stands behind it.
fn split_place(text: &str) -> ((&str, usize), &str) {
    let nowhere = (("", 0), text);
    let Some((front, rest)) = text.split_once(": ") else {
        return nowhere;
    };
    let mut parts = front.rsplitn(3, ':');
    let (column, line, file) = (parts.next(), parts.next(), parts.next());
    match (file, line.map(str::parse), column.map(str::parse::<usize>)) {
        (Some(file), Some(Ok(line)), Some(Ok(_))) => ((file, line), rest),
        _ => nowhere,
    }
}

fn place((file, line): (&str, usize)) -> Place {
    let file = file.strip_prefix("./").unwrap_or(file);
    if let Some(file) = file.strip_prefix("src/") {
        return Place::Source(file.to_string(), line);
    }
    let inner = file.strip_prefix("proofs/");
    match inner.or(file.strip_prefix("specs/")) {
        Some(inner) => Place::Proof(proof_of(inner).to_string()),
        None => Place::Nowhere,
    }
}

/// The proof that a file below proofs/ is part of: its folder, or a file of laws.
fn proof_of(file: &str) -> &str {
    let file = file.strip_suffix(".antt").unwrap_or(file);
    let own = ["/Answers", "/Invariants", "/Proof"];
    let folder = own.iter().find_map(|own| file.strip_suffix(own));
    folder.unwrap_or(file)
}

/// The goal of `` error: `GOAL`: why ``.
fn in_front(rest: &str) -> Goal {
    let rest = rest.strip_prefix("error: ").unwrap_or(rest);
    match rest.strip_prefix('`') {
        Some(rest) => quoted(rest, '`'),
        // Cut off in front of it, or an error that has none.
        None => Goal::Begun(String::new()),
    }
}

/// The goal of `` it is not proved that so and so holds (`GOAL`) ``.
fn in_brackets(rest: &str) -> Goal {
    match rest.split_once("(`") {
        Some((_, rest)) => quoted(rest, '`'),
        None => Goal::Begun(String::new()),
    }
}

fn quoted(rest: &str, end: char) -> Goal {
    match rest.split_once(end) {
        Some((name, _)) => Goal::Whole(name.to_string()),
        None => Goal::Begun(rest.to_string()),
    }
}

#[cfg(test)]
mod tests {
    use super::{read, Complaint, Goal, Place, Told};

    fn refused(why: &str) -> Complaint {
        let line = format!("rt: must-fail a/b.edit: refused, as it must be: {why}\n");
        match read(&line).as_slice() {
            [(name, Told::Refused(one))] if name == "a/b" => one.clone(),
            other => panic!("{other:?}"),
        }
    }

    fn is(why: &str, place: Place, goal: Goal) {
        let one = refused(why);
        assert_eq!((one.place, one.goal), (place, goal), "{why}");
    }

    fn proof(name: &str) -> Place {
        Place::Proof(name.to_string())
    }

    fn whole(name: &str) -> Goal {
        Goal::Whole(name.to_string())
    }

    #[test]
    fn places_and_goals() {
        is(
            "./proofs/writer/write_row/Answers.antt:24:39: error: `returns-then-is_idle`: expected type `idle c",
            proof("writer/write_row"),
            whole("returns-then-is_idle"),
        );
        is(
            "./proofs/copy/Invariants.antt:2:3: error: `loop-i`: no",
            proof("copy"),
            whole("loop-i"),
        );
        is(
            "./proofs/copy/Proof.antt:2:3: error: `returns`: no",
            proof("copy"),
            whole("returns"),
        );
        is(
            "./proofs/Chosen.antt:52:22: error: `chosen`: as printed",
            proof("Chosen"),
            whole("chosen"),
        );
        is(
            "./specs/Records.antt:5:2: error: `size`: no",
            proof("Records"),
            whole("size"),
        );
        is(
            "note: src/lines.rt:12:9: it is not proved that what the function ensures holds when it returns (`returns-then-s`); `search` gave up at one of its limits",
            Place::Source("lines.rt".to_string(), 12),
            whole("returns-then-s"),
        );
    }

    #[test]
    fn lines_that_are_cut_off() {
        is(
            "./proofs/copy/Answers.antt:24:39: error: `returns-then",
            proof("copy"),
            Goal::Begun("returns-then".to_string()),
        );
        is(
            "note: src/lib.rt:12:9: it is not proved that a ≤ b (`retu",
            Place::Source("lib.rt".to_string(), 12),
            Goal::Begun("retu".to_string()),
        );
        for (why, place) in [
            ("./proofs/copy/Answers.antt:24:39: err", proof("copy")),
            (
                "note: src/lib.rt:12:9: it is not proved that ",
                Place::Source("lib.rt".to_string(), 12),
            ),
            ("./proofs/copy/Ans", Place::Nowhere),
            ("", Place::Nowhere),
        ] {
            is(why, place, Goal::Begun(String::new()));
        }
    }

    #[test]
    fn no_fact_that_fails() {
        let misfits = [
            "refused, as it must be (only because a proof file names what the edit took away, so this says little): ./proofs/a/Answers.antt:1:1: error: `x`",
            "refused, as it must be: ./proofs/a/Answers.antt:1:1: error: `x` does not fit: `rw`: no place",
            "refused, as it must be: ./proofs/a/Answers.antt:1:1: error: `x`: it takes 2 arguments",
            "refused, as it must be: ./proofs/a/Answers.antt:1:1: error: `x`: `goal.x`: module",
            "refused, as it must be: ./proofs/a/Answers.antt:1:1: error: `x`: record `Rattle.a.proofs.x.Lts.In-After-refu",
        ];
        for said in misfits {
            let log = format!("rt: must-fail a/b.edit: {said}\n");
            assert!(matches!(read(&log)[0].1, Told::Misfit(_)), "{said}");
        }
        let limit = "rt: must-fail a/b.edit: refused, as it must be (only by a limit of the prover, which gave no verdict): ./proofs/a/Answers.antt:1:1: error: `x`\n";
        assert!(matches!(read(limit)[0].1, Told::Limit(_)));
        for said in ["NOT REFUSED: x", "BAD EDIT: x", "NOT TRIED: x"] {
            let log = format!("rt: must-fail a/b.edit: {said}\n");
            assert_eq!(read(&log)[0].1, Told::Other(said.to_string()));
        }
    }

    #[test]
    fn other_lines() {
        let log = "== a\nlogic=proved\nrt: a proved\nrt: a: trying its must-fail edits (2)\nrt: ok; must-fail edits: 2 refused\n2 passed, 0 failed\n";
        assert_eq!(read(log), []);
    }
}
