//! Pictures of crowded rounds, of many ticks: every width, both backgrounds, and labels that can be read.

use crate::floe::{same, Floe, Tried};
use crate::svg::shapes;
use outside::cases::random::Random;
use std::path::Path;

const SEED: u64 = 39;

/// Sixteen jobs and eight devices, in rounds of many ticks, with names and units: as wide as is asked
/// for, on either background, and no two labels over each other.
pub fn test(floe: &Floe) -> Tried {
    let mut runs = 0;
    for (seed, horizon) in [(1, 1000), (2, 1000), (3, 4096), (4, 4096), (5, 200)] {
        let text = crowded(&mut Random::new(SEED, seed), horizon);
        let starts = floe.output(&["possible", "-"], text.as_bytes())?;
        let starts = String::from_utf8_lossy(&starts).into_owned();
        let words: Vec<&str> = starts.split_whitespace().collect();
        let starts = words.windows(2).filter(|pair| pair[0] == "start");
        let starts: Vec<&str> = starts.map(|pair| pair[1]).collect();
        let starts = starts.join(",");
        runs += 1;
        for width in [None, Some("480"), Some("760"), Some("1600"), Some("20000")] {
            let mut words = vec!["draw", "-", "--starts", &starts];
            words.extend(width.map(|_| "--width"));
            words.extend(width);
            let picture = floe.output(&words, text.as_bytes())?;
            let picture = String::from_utf8_lossy(&picture);
            let named = |fault: String| format!("{horizon} ticks, width {width:?}: {fault}");
            let shapes = shapes(&picture).map_err(named)?;
            shapes.apart().map_err(named)?;
            if let Some(width) = width.filter(|width| *width != "480") {
                let is_wide = picture.contains(&format!(
                    "<svg xmlns=\"http://www.w3.org/2000/svg\" width=\"{width}\""
                ));
                same(is_wide, true, || named("it is not as wide".to_string()))?;
            }
            // Every job is told on the processor, inside its block or above it.
            if width != Some("480") {
                let is_told = |job: &usize| {
                    shapes
                        .labels
                        .iter()
                        .any(|label| names_job(&label.text, *job))
                };
                let untold: Vec<usize> = (0..16).filter(|job| !is_told(job)).collect();
                same(untold, Vec::new(), || {
                    named("jobs without a label".to_string())
                })?;
            }
            runs += 1;
        }
        for (theme, has_dark) in [("--light", false), ("--dark", true)] {
            let picture =
                floe.output(&["draw", "-", "--starts", &starts, theme], text.as_bytes())?;
            let picture = String::from_utf8_lossy(&picture);
            let is_dark = picture.contains(".page { fill: #14191f; }");
            let asks = picture.contains("prefers-color-scheme");
            same((is_dark, asks), (has_dark, false), || theme.to_string())?;
            runs += 1;
        }
    }
    let example = Path::new(env!("CARGO_MANIFEST_DIR")).join("../../examples/recorder.txt");
    let long = floe.output(&["draw", &example.to_string_lossy()], b"")?;
    let long = String::from_utf8_lossy(&long);
    shapes(&long)?.apart()?;
    same(
        long.contains("@media (prefers-color-scheme: dark)"),
        true,
        || "no dark".to_string(),
    )?;
    Ok(runs + 1)
}

/// Whether a label above a block or in one is that of a job.
fn names_job(text: &str, job: usize) -> bool {
    let number = job.to_string();
    text == number || text == format!("job {job}") || text.starts_with(&format!("{job} "))
}

/// Jobs one after the other, some of them of a tick, with room around them.
fn crowded(random: &mut Random, horizon: u64) -> String {
    let mut text = format!("horizon {horizon}\nunit power mW\nunit tick 10 ms\n");
    for device in 0..8 {
        let t = random.within(1, horizon / 200 + 1);
        text += &format!(
            "device {t} {} 9 90 name device-{device}\n",
            random.within(100, 900)
        );
    }
    let mut at = 0;
    for job in 0..16 {
        let room = (horizon - at) / (16 - job);
        let running = match random.one_in(3) {
            true => 1,
            false => random.within(1, room.max(2) - 1),
        };
        let release = random.within(at, at + room - running);
        let from = release.saturating_sub(random.within(0, horizon / 9));
        let to = (release + running + random.within(0, horizon / 9)).min(horizon);
        let devices = random.within(0, 7);
        text += &format!("job {from} {to} {running} {devices} name job-{job}\n");
        at = release + running;
    }
    text
}
