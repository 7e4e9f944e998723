//! Which function a line of a file of Rattle belongs to, by the layout that `rt fmt` keeps.

/// The function of which a line (from 1 on) is part: its attributes, its header, its contract or its body.
pub fn function_at(text: &str, wanted: usize) -> Option<String> {
    let rest = text.lines().skip(wanted.saturating_sub(1));
    let attributes = rest.take_while(|line| line.trim_start().starts_with("#["));
    let wanted = wanted + attributes.count();
    let mut open: Option<(String, &str)> = None;
    for (number, line) in (1..).zip(text.lines()) {
        let indent = &line[..line.len() - line.trim_start().len()];
        if let Some(name) = function_name(line) {
            open = Some((name, indent));
        }
        let Some((name, outer)) = &open else { continue };
        if number >= wanted {
            return (number == wanted).then(|| name.clone());
        }
        let is_end = |rest: &str| rest == "}" || rest == ";";
        let is_one_line =
            function_name(line).is_some() && (line.ends_with('}') || line.ends_with(';'));
        if line.strip_prefix(outer).is_some_and(is_end) || is_one_line {
            open = None;
        }
    }
    None
}

/// The name of the function that a line begins to declare.
fn function_name(line: &str) -> Option<String> {
    let mut rest = line.trim_start();
    for word in ["pub ", "pub(crate) ", "const ", "unsafe ", "extern \"C\" "] {
        rest = rest.strip_prefix(word).unwrap_or(rest);
    }
    let rest = rest.strip_prefix("fn ")?;
    let end = rest.find(|c: char| !c.is_alphanumeric() && c != '_')?;
    Some(rest[..end].to_string())
}

/// Whether a proof, by the folder below proofs/ that has it, is that of a function of the file, which lies below src/. The functions of a cycle of calls have one
/// proof, in a folder that begins with + and names them all, joined by _.
pub fn is_proof_of(proof: &str, file: &str, function: &str) -> bool {
    let (folder, own) = proof.rsplit_once('/').unwrap_or(("", proof));
    folder == module(file) && (own == function || is_cycle_of(own, function))
}

pub fn is_cycle_of(folder: &str, function: &str) -> bool {
    folder.strip_prefix('+').is_some_and(|names| {
        names.match_indices(function).any(|(at, _)| {
            let (before, after) = (&names[..at], &names[at + function.len()..]);
            (before.is_empty() || before.ends_with('_'))
                && (after.is_empty() || after.starts_with('_'))
        })
    })
}

/// The module of a file below src/, which is the folder of its functions' proofs.
pub fn module(file: &str) -> &str {
    match file.strip_suffix(".rt").unwrap_or(file) {
        "lib" | "main" => "",
        module => module,
    }
}

#[cfg(test)]
mod tests {
    use super::{function_at, is_proof_of};

    const TEXT: &str = "use a::b;
// fn none() {
const TEN: u32 = 10;

fn plain(x: u32) -> u32 {
    if x == 1 {
        2
    }
}

#[cycle(long_short)]
pub fn long(
    x: u32,
) -> bool
    requires { x < ten }
{
    true
}

mod inner {
    fn inside() {
        1
    }
}

pub(crate) fn shown() {
    2
}
";

    #[test]
    fn lines_and_their_functions() {
        let of = |line| function_at(TEXT, line);
        for line in [5, 6, 8, 9] {
            assert_eq!(of(line).as_deref(), Some("plain"), "{line}");
        }
        for line in 11..=18 {
            assert_eq!(of(line).as_deref(), Some("long"), "{line}");
        }
        assert_eq!(of(22).as_deref(), Some("inside"));
        assert_eq!(of(27).as_deref(), Some("shown"));
        for line in [1, 2, 3, 4, 10, 19, 20, 24, 25, 99] {
            assert_eq!(of(line), None, "{line}");
        }
    }

    #[test]
    fn proofs_and_their_functions() {
        assert!(is_proof_of("copy", "lib.rt", "copy"));
        assert!(is_proof_of("writer/write_run", "writer.rt", "write_run"));
        assert!(is_proof_of(
            "walk/+below_enter_once",
            "walk.rt",
            "enter_once"
        ));
        for (proof, file, function) in [
            ("copy", "copying.rt", "copy"),
            ("writer/write_run", "writer.rt", "write"),
            ("walk/+below_enter_once", "walk.rt", "ter"),
            ("walk/+below_enter_once", "lib.rt", "below"),
            ("walk/below_enter", "walk.rt", "below"),
        ] {
            assert!(!is_proof_of(proof, file, function), "{proof} {function}");
        }
    }
}
