//! Holds the program to what it must not pass over, in a small house whose rt is a stand-in that says what a file has, and refuses what its edits say.

use std::fs;
use std::os::unix::fs::PermissionsExt;
use std::path::{Path, PathBuf};
use std::process::Command;

/// It notes what it is asked for, and where. A check finds the crates below it with what was kept of them, and what was kept of its own.
const RT: &str = r#"#!/bin/sh
echo "$*" >>"$RUNS"
case $1 in
must-fail)
    [ -e crates.txt ] || exit 2
    cat "$LOG"
    exit 1
    ;;
check) ;;
*) exit 2 ;;
esac
[ "$(basename "$PWD")" = walls ] || exit 2
[ -e out/incremental/module.oantt ] && [ -e ../ground/out/rlib/ground.rlib ] && [ -e ../ground/proofs/Lib.antt ] || exit 2
[ "$(cat ../../crates.txt | wc -l)" -eq 2 ] && [ ! -e ../roof ] || exit 2
while read -r line; do
    case $line in
    *killed*) kill -9 $$ ;;
    *broken*) echo "error: no such thing" && exit 1 ;;
    *wrong*) echo "./proofs/one/Answers.antt:1:1: error: \`returns\`: false" && echo "logic=not-proved functions=2" && exit 1 ;;
    *silent*) exit 0 ;;
    *doubted*) echo "logic=proved-in-part" && exit 0 ;;
    *taken-back*) echo "logic=proved" && echo "logic=not-proved" && exit 0 ;;
    esac
done <src/lib.rt
echo "logic=proved functions=2"
"#;

const WALLS: &str = "// law
fn one() -> u32 {
    right one
}

pub fn two() -> u32
    ensures { two }
{
    right two
}
";

struct House {
    room: PathBuf,
}

/// What the program says at its end, with its status and what rt was asked for.
struct Said {
    text: String,
    status: Option<i32>,
    asked: String,
}

impl Said {
    fn ends(&self, status: i32, last: &str) {
        assert_eq!(self.status, Some(status), "{}", self.text);
        assert!(
            self.text
                .lines()
                .last()
                .is_some_and(|line| line.starts_with(last)),
            "{}",
            self.text
        );
    }

    fn has(&self, words: &str) {
        assert!(
            self.text.contains(words),
            "'{words}' is not said: {}",
            self.text
        );
    }
}

impl House {
    /// A house of three crates; the edits are of the one in the middle.
    fn new(name: &str) -> House {
        // A path with blanks.
        let room =
            std::env::temp_dir().join(format!("floebucket wrong {name} {}", std::process::id()));
        let house = House { room };
        let _ = fs::remove_dir_all(&house.room);
        house.write("bin/rt", RT);
        fs::set_permissions(house.room.join("bin/rt"), fs::Permissions::from_mode(0o755)).unwrap();
        house.write(
            "house/crates.txt",
            "# All.\nground:\nwalls: ground io\nroof: ground walls\n",
        );
        for name in ["ground", "walls", "roof"] {
            house.write(&format!("house/crates/{name}/src/lib.rt"), WALLS);
            house.write(&format!("house/crates/{name}/proofs/Lib.antt"), "");
            house.write(&format!("house/crates/{name}/out/rlib/{name}.rlib"), "");
            house.write(
                &format!("house/crates/{name}/out/incremental/module.oantt"),
                "",
            );
        }
        house.write(
            "house/crates/walls/src/turning.rt",
            "#[cycle(turn_twist)]\npub fn turn() {\n    twist()\n}\n",
        );
        house.write(
            "house/crates/walls/proofs/turning/+turn_twist/Answers.antt",
            "",
        );
        house
    }

    fn write(&self, path: &str, text: &str) {
        let path = self.room.join(path);
        fs::create_dir_all(path.parent().unwrap()).unwrap();
        fs::write(path, text).unwrap();
    }

    fn read(&self, path: &str) -> String {
        fs::read_to_string(self.room.join(path)).unwrap()
    }

    /// A wrong program, with the line of its fact.
    fn wrong(&self, label: &str, fact: &str) {
        let text = format!("It is so.\n{fact}\nfile: src/lib.rt\nold: right one\nnew: left one\n");
        self.write(
            &format!("house/crates/walls/must-fail/{label}.edit"),
            &text.replace("\n\n", "\n"),
        );
    }

    /// A control.
    fn right(&self, old: &str, new: &str) {
        let text = format!("It is so.\nfile: src/lib.rt\nold: {old}\nnew: {new}\n");
        self.write("house/crates/walls/must-pass/same.right", &text);
    }

    /// What rt says of wrong programs: label, and the words behind it.
    fn says(&self, all: &[(&str, &str)]) {
        let lines = all
            .iter()
            .map(|(label, said)| format!("rt: must-fail walls/{label}.edit: {said}\n"));
        let text = "== walls\nlogic=proved\n".to_string() + &lines.collect::<String>();
        self.write("log", &(text + "1 passed, 0 failed\n"));
    }

    fn run(&self, words: &[&str]) -> Said {
        self.run_in(&self.room.join("house"), words, &[])
    }

    fn run_in(&self, place: &Path, words: &[&str], settings: &[(&str, &str)]) -> Said {
        let runs = self.room.join("runs");
        let _ = fs::remove_file(&runs);
        let path = format!("{}:/usr/bin:/bin", self.room.join("bin").display());
        let output = Command::new(env!("CARGO_BIN_EXE_wrong"))
            .args(words)
            .current_dir(place)
            .env("PATH", path)
            .env("RUNS", &runs)
            .env("LOG", self.room.join("log"))
            .env_remove("RT_JOBS")
            .envs(settings.iter().copied())
            .output()
            .unwrap();
        let text =
            String::from_utf8(output.stdout).unwrap() + &String::from_utf8(output.stderr).unwrap();
        Said {
            text,
            status: output.status.code(),
            asked: fs::read_to_string(runs).unwrap_or_default(),
        }
    }

    /// Holds the wrong programs by the log that is there.
    fn hold(&self) -> Said {
        self.run(&["--log", "../log"])
    }
}

impl Drop for House {
    fn drop(&mut self) {
        let _ = fs::remove_dir_all(&self.room);
    }
}

const ONE: &str = "refused, as it must be: ./proofs/one/Answers.antt:6:22: error: `returns`: false";

#[test]
fn each_at_its_fact() {
    let house = House::new("facts");
    house.wrong("one", "fact: one: returns");
    house.wrong("two", "fact: two: loop-i-init");
    house.wrong("law", "fact: Laws: law_of");
    house.wrong("turn", "fact: turning/+turn_twist: returns-2");
    house.wrong("long", "fact: two: returns-then-this-and-that");
    house.wrong("gone", "fact: two: returns-then-this-and-that");
    house.says(&[
        ("one", ONE),
        (
            "two",
            "refused, as it must be: note: src/lib.rt:6:1: it is not proved that it holds at first (`loop-i-init`); `search` gave up",
        ),
        (
            "law",
            "refused, as it must be: ./proofs/Laws.antt:6:22: error: `law_of`: false",
        ),
        (
            "turn",
            "refused, as it must be: note: src/turning.rt:3:5: it is not proved that it holds (`returns-2`)",
        ),
        (
            "long",
            "refused, as it must be: ./proofs/two/Answers.antt:6:22: error: `returns-then-th",
        ),
        (
            "gone",
            "refused, as it must be: note: src/lib.rt:9:5: it is not proved that a very long",
        ),
    ]);
    let said = house.hold();
    said.ends(0, "wrong: 6 passed, 0 failed");
    said.has("wrong walls/one: refused at one: returns\n");
    said.has("wrong walls/turn: refused at turning/+turn_twist: returns-2\n");
    said.has(
        "wrong walls/long: refused at two: returns-then-this-and-that, as far as rt's line goes\n",
    );
    assert_eq!(said.asked, "");
    // A single one, from any folder of the house, and by the log of which the path is whole.
    let inside = house.room.join("house/crates/walls");
    let log = house.room.join("log");
    house
        .run_in(&inside, &["--log", log.to_str().unwrap(), "walls/one"], &[])
        .ends(0, "wrong: 1 passed, 0 failed");
}

#[test]
fn what_fails() {
    let house = House::new("fails");
    house.wrong("one", "fact: one: returns");
    house.wrong("two", "fact: two: loop-i-init");
    let two = |said: &str, words: &str| {
        house.says(&[("one", ONE), ("two", said)]);
        let said = house.hold();
        said.ends(1, "wrong: 1 passed, 1 failed");
        said.has(words);
    };
    let refused = |said: &str, words: &str| two(&format!("refused, as it must be{said}"), words);
    two(
        "NOT REFUSED: the crate is still proved",
        "wrong walls/two: NOT REFUSED",
    );
    two(
        "NOT TRIED: its check was killed",
        "wrong walls/two: NOT TRIED: its check",
    );
    two("BAD EDIT: it changes nothing", "wrong walls/two: BAD EDIT");
    refused(" (only because a proof file names what the edit took away): ./proofs/two/Answers.antt:1:1: error: `loop-i-init`", "NO FACT FAILS");
    refused(
        " (only by a limit of the prover): ./proofs/two/Answers.antt:1:1: error: `loop-i-init`",
        "NO FACT FAILS",
    );
    refused(
        ": ./proofs/two/Answers.antt:1:1: error: `loop-i-init` does not fit: `rw`: no place",
        "NO FACT FAILS",
    );
    refused(
        ": ./proofs/two/Answers.antt:1:1: error: `loop-i-init`: it takes 2 arguments",
        "NO FACT FAILS",
    );
    refused("", "NO PLACE can be read");
    refused(": error", "NO PLACE can be read");
    for other in [
        // Another proof, goal, beginning of a goal, function, file, or no function at all.
        ": ./proofs/one/Answers.antt:1:1: error: `loop-i-init`: false",
        ": ./proofs/turning/two/Answers.antt:1:1: error: `loop-i-init`: false",
        ": ./proofs/two.antt:1:1: error: `loop-i`: false",
        ": ./proofs/two/Answers.antt:1:1: error: `loop-i`: false",
        ": ./proofs/two/Answers.antt:1:1: error: `loop-j",
        ": note: src/lib.rt:3:1: it is not proved that it holds (`loop-i-init`)",
        ": note: src/turning.rt:3:1: it is not proved that it holds (`loop-i-init`)",
        ": note: src/lib.rt:9:1: it is not proved that it holds (`loop-i`)",
    ] {
        refused(other, "ANOTHER FACT: two: loop-i-init is named");
    }
    refused(
        ": note: src/lib.rt:1:1: it is not proved that it holds (`loop-i-init`)",
        "NO PLACE can be read",
    );
    refused(
        ": note: src/gone.rt:1:1: it is not proved that it holds (`loop-i-init`)",
        "NO PLACE can be read",
    );

    // One of which nothing is said, one that is told twice, one that is not there, and none that names its fact.
    house.says(&[("one", ONE)]);
    let said = house.hold();
    said.ends(1, "wrong: 1 passed, 1 failed");
    said.has("wrong walls/two: NOT TRIED: rt says nothing of it");
    let good = "refused, as it must be: ./proofs/two/Answers.antt:1:1: error: `loop-i-init`: false";
    house.says(&[("one", ONE), ("two", good), ("one", ONE)]);
    let said = house.hold();
    said.ends(1, "wrong: 1 passed, 1 failed");
    said.has("wrong walls/one: TOLD 2 TIMES");
    house.says(&[("one", ONE), ("two", good), ("three", ONE)]);
    let said = house.hold();
    said.ends(1, "wrong: 2 passed, 1 failed");
    said.has("wrong walls/three: TOLD ALONE");
    house.wrong("two", "");
    house.says(&[("one", ONE), ("two", good)]);
    let said = house.hold();
    said.ends(1, "wrong: 1 passed, 1 failed");
    said.has(
        "NO FACT is named; it is refused by: ./proofs/two/Answers.antt:1:1: error: `loop-i-init`",
    );
}

#[test]
fn rt_is_asked_where_there_is_no_log() {
    let house = House::new("asked");
    house.wrong("one", "fact: one: returns");
    house.says(&[("one", ONE), ("two", "NOT REFUSED")]);
    let said = house.run(&["walls/one"]);
    said.ends(0, "wrong: 1 passed, 0 failed");
    assert_eq!(said.asked, "must-fail walls\n");
    house.right("right one", "one right");
    house.says(&[("one", ONE)]);
    let said = house.run(&[]);
    said.ends(0, "wrong: 2 passed, 0 failed");
    assert_eq!(said.asked, "must-fail walls\ncheck --jobs 1\n");
}

#[test]
fn controls() {
    let house = House::new("controls");
    house.wrong("one", "fact: one: returns");
    house.right("right one", "one right");
    let said = house.run(&["--controls"]);
    said.ends(0, "wrong: 1 passed, 0 failed");
    said.has("wrong walls/same: proved, as it must be (");
    assert_eq!(said.asked, "check --jobs 1\n");
    assert!(!house.room.join("house/target/wrong").exists());
    assert_eq!(house.read("house/crates/walls/src/lib.rt"), WALLS);
    for (new, words) in [
        ("wrong one", "REFUSED, and it is right (exit status: 1): ./proofs/one/Answers.antt:1:1: error: `returns`"),
        ("killed one", "REFUSED, and it is right (signal: 9"),
        ("broken one", "REFUSED, and it is right (exit status: 1): error: no such thing"),
        ("silent one", "REFUSED, and it is right (exit status: 0): nothing is said"),
        ("doubted one", "REFUSED, and it is right (exit status: 0): logic=proved-in-part"),
        ("taken-back one", "REFUSED, and it is right (exit status: 0)"),
    ] {
        house.right("right one", new);
        let said = house.run(&["--controls"]);
        said.ends(1, "wrong: 0 passed, 1 failed");
        said.has(words);
    }
    for old in ["left one", "right"] {
        house.right(old, "one right");
        let said = house.run(&["--controls", "walls"]);
        said.ends(1, "wrong: 0 passed, 1 failed");
        said.has("BAD EDIT: a text to replace is not in src/lib.rt, or more than once");
        assert_eq!(said.asked, "");
    }
    house.right("right one", "one right");
    house.write("house/crates.txt", "ground:\n");
    let said = house.run(&["--controls"]);
    said.ends(1, "wrong: 0 passed, 1 failed");
    said.has("COULD NOT BE TRIED: crates.txt has no crate walls");
}

#[test]
fn facts_are_written() {
    let house = House::new("written");
    house.wrong("one", "fact: two: loop-again");
    house.wrong("two", "");
    house.wrong("turn", "fact: turning/+turn_twist: returns-2");
    house.wrong("long", "fact: one: returns");
    house.says(&[
        ("one", ONE),
        (
            "two",
            "refused, as it must be: note: src/lib.rt:9:5: it is not proved that it holds (`returns`)",
        ),
        (
            "turn",
            "refused, as it must be: note: src/turning.rt:3:5: it is not proved that it holds (`returns-3`)",
        ),
        (
            "long",
            "refused, as it must be: ./proofs/two/Answers.antt:6:22: error: `returns-then-th",
        ),
    ]);
    let said = house.run(&["--facts", "--log", "../log"]);
    said.ends(1, "wrong: 3 passed, 1 failed");
    said.has("wrong walls/one: is at one: returns, and was at two: loop-again");
    said.has("wrong walls/two: is at two: returns, and was at none");
    said.has("wrong walls/long: ITS GOAL IS CUT OFF");
    for (label, fact) in [
        ("one", "one: returns"),
        ("two", "two: returns"),
        ("turn", "turning/+turn_twist: returns-3"),
        ("long", "one: returns"),
    ] {
        assert_eq!(
            house.read(&format!("house/crates/walls/must-fail/{label}.edit")),
            format!("It is so.\nfact: {fact}\nfile: src/lib.rt\nold: right one\nnew: left one\n")
        );
    }
    house
        .run(&["--log", "../log", "walls/one", "walls/two", "walls/turn"])
        .ends(0, "wrong: 3 passed, 0 failed");
    house.says(&[("one", "NOT REFUSED")]);
    let said = house.run(&["--facts", "--log", "../log", "walls/one", "walls/two"]);
    said.ends(1, "wrong: 0 passed, 2 failed");
    said.has("wrong walls/one: NOT REFUSED");
    said.has("wrong walls/two: NOT TRIED");
}

#[test]
fn nothing_to_try_is_no_success() {
    let house = House::new("nothing");
    house.says(&[]);
    let none = "wrong: there is no edit below crates/";
    house.run(&[]).ends(2, none);
    house.hold().ends(2, none);
    house.wrong("one", "fact: one: returns");
    house.run(&["--controls"]).ends(2, none);
    house.hold().ends(1, "wrong: 0 passed, 1 failed");
    house
        .run(&["walls/none"])
        .ends(2, "wrong: there is no edit walls/none");
    house
        .run(&["--all"])
        .ends(2, "wrong: there is no option --all");
    house.run(&["--log"]).ends(2, "wrong: --log wants a file");
    house
        .run(&["--log", "../none"])
        .ends(2, "wrong: ../none cannot be read");
    house
        .run(&["--controls", "--facts"])
        .ends(2, "wrong: --controls goes with names alone");
    house
        .run_in(&house.room, &[], &[])
        .ends(2, "wrong: there is no crates.txt");
    house.right("right one", "one right");
    let place = house.room.join("house");
    for jobs in ["0", "abc", ""] {
        house
            .run_in(&place, &["--controls"], &[("RT_JOBS", jobs)])
            .ends(2, "wrong: RT_JOBS is a number, 1 or more");
    }
    house
        .run_in(&place, &["--controls"], &[("RT_JOBS", "1")])
        .ends(0, "wrong: 1 passed, 0 failed");
    // What nobody would try.
    for file in ["must-fail/two.wrong", "must-pass/two.edit"] {
        let path = format!("house/crates/walls/{file}");
        house.write(&path, "It is so.\n");
        house
            .run(&[])
            .ends(2, &format!("wrong: crates/walls/{file} is tried by nobody"));
        fs::remove_file(house.room.join(path)).unwrap();
    }
    fs::remove_file(house.room.join("bin/rt")).unwrap();
    house
        .run(&[])
        .ends(2, "wrong: rt (the Rattle toolchain) cannot be called");
    let said = house.run(&["--controls"]);
    said.ends(1, "wrong: 0 passed, 1 failed");
    said.has("COULD NOT BE TRIED");
}
