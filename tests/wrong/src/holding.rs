//! Whether a wrong program is refused at the fact that it names, by what rt says of it.

use crate::edits::{entries, word, Edit, Fact};
use crate::functions::{function_at, is_cycle_of, is_proof_of, module};
use crate::log::{Complaint, Goal, Place, Told};
use std::fs;
use std::path::Path;

/// The word on one edit, or on a name that is none.
pub struct Verdict {
    pub of: String,
    pub passed: bool,
    pub said: String,
}

pub fn passed(of: &dyn ToString, said: String) -> Verdict {
    Verdict {
        of: of.to_string(),
        passed: true,
        said,
    }
}

pub fn failed(of: &dyn ToString, said: String) -> Verdict {
    Verdict {
        of: of.to_string(),
        passed: false,
        said,
    }
}

/// The words on edits by all that a log says of them. `is_whole`: whether the log is of all edits there are, so that it has no other name.
pub fn hold(root: &Path, edits: &[Edit], told: &[(String, Told)], is_whole: bool) -> Vec<Verdict> {
    let mut verdicts: Vec<Verdict> = edits
        .iter()
        .map(|edit| {
            let name = edit.to_string();
            let all: Vec<&Told> = told
                .iter()
                .filter_map(|(of, told)| (*of == name).then_some(told))
                .collect();
            match all.as_slice() {
                [] => failed(edit, "NOT TRIED: rt says nothing of it".to_string()),
                [one] => match held(root, edit, one) {
                    Ok(said) => passed(edit, said),
                    Err(said) => failed(edit, said),
                },
                _ => failed(edit, format!("TOLD {} TIMES", all.len())),
            }
        })
        .collect();
    let others = told
        .iter()
        .map(|(name, _)| name)
        .filter(|name| is_whole && !edits.iter().any(|edit| edit.to_string() == **name));
    verdicts
        .extend(others.map(|name| failed(name, "TOLD ALONE: there is no such edit".to_string())));
    verdicts
}

fn held(root: &Path, edit: &Edit, told: &Told) -> Result<String, String> {
    let complaint = refused(told)?;
    let Some(fact) = &edit.fact else {
        return Err(format!(
            "NO FACT is named; it is refused by: {}",
            complaint.text
        ));
    };
    let is_place = match found(root, edit, complaint)? {
        Found::Proof(proof) => proof == fact.proof,
        Found::Function(file, function) => is_proof_of(&fact.proof, &file, &function),
    };
    let is_goal = match &complaint.goal {
        Goal::Whole(goal) => *goal == fact.goal,
        Goal::Begun(front) => fact.goal.starts_with(front.as_str()),
    };
    if !is_place || !is_goal {
        let text = &complaint.text;
        return Err(format!(
            "ANOTHER FACT: {fact} is named, and it is refused by: {text}"
        ));
    }
    Ok(match complaint.goal {
        Goal::Whole(_) => format!("refused at {fact}"),
        Goal::Begun(_) => format!("refused at {fact}, as far as rt's line goes"),
    })
}

/// The error that refuses an edit, if a fact does.
fn refused(told: &Told) -> Result<&Complaint, String> {
    match told {
        Told::Refused(complaint) => Ok(complaint),
        Told::Misfit(said) | Told::Limit(said) => Err(format!("NO FACT FAILS: {said}")),
        Told::Other(said) => Err(said.clone()),
    }
}

/// Where an error is.
enum Found {
    Proof(String),
    /// A file below src/, and the function in it.
    Function(String, String),
}

/// An edit moves no line, so that the crate's own file tells the function.
fn found(root: &Path, edit: &Edit, complaint: &Complaint) -> Result<Found, String> {
    let nowhere = || format!("NO PLACE can be read: {}", complaint.text);
    match &complaint.place {
        Place::Proof(proof) => Ok(Found::Proof(proof.clone())),
        Place::Source(file, line) => {
            let path = root.join("crates").join(&edit.krate).join("src").join(file);
            let text = fs::read_to_string(path).map_err(|_| nowhere())?;
            let function = function_at(&text, *line).ok_or_else(nowhere)?;
            Ok(Found::Function(file.clone(), function))
        }
        Place::Nowhere => Err(nowhere()),
    }
}

/// The fact at which rt has refused an edit, for its file.
pub fn fact_by_rt(root: &Path, edit: &Edit, told: &Told) -> Result<Fact, String> {
    let complaint = refused(told)?;
    let goal = match &complaint.goal {
        Goal::Whole(goal) => goal.clone(),
        Goal::Begun(_) => return Err(format!("ITS GOAL IS CUT OFF: {}", complaint.text)),
    };
    let proof = match found(root, edit, complaint)? {
        Found::Proof(proof) => proof,
        Found::Function(file, function) => proof_of(root, edit, &file, &function),
    };
    Ok(Fact { proof, goal })
}

/// The proof of a function: that of its cycle, if it has one.
fn proof_of(root: &Path, edit: &Edit, file: &str, function: &str) -> String {
    let folder = module(file);
    let place = root
        .join("crates")
        .join(&edit.krate)
        .join("proofs")
        .join(folder);
    let names = entries(&place).unwrap_or_default();
    let cycle = names
        .iter()
        .map(|path| word(path))
        .find(|name| is_cycle_of(name, function));
    let own = cycle.unwrap_or(function.to_string());
    match folder {
        "" => own,
        _ => format!("{folder}/{own}"),
    }
}
