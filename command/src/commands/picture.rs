//! draw.

use super::searching::{best, Way};
use crate::arguments::{Arguments, Starts};
use crate::drawing::{picture, Round, Theme};
use crate::failure::Failure;
use crate::options::{BUDGET, DARK, LIGHT, MEMORY};
use crate::plan::{Origin, Plan};
use crate::source::Source;

pub fn draw(mut arguments: Arguments) -> Result<Vec<u8>, Failure> {
    let (way, starts) = (Way::given(&arguments)?, arguments.given_starts()?);
    let (width, theme) = (arguments.width()?, theme(&arguments)?);
    for option in [BUDGET, MEMORY] {
        if starts.is_some() && arguments.has(&option) {
            let name = option.name;
            let message =
                format!("with start times nothing is searched, so that {name} means nothing");
            return Err(Failure::Usage(message));
        }
    }
    let source = Source::alone(&mut arguments)?;
    if let Some(starts) = &starts {
        source.apart_from(starts)?;
    }
    let request = source.open()?;
    let plan = match starts.map(Starts::read).transpose()? {
        None => best(&request, way)?,
        Some(starts) => Plan::of_starts(&request.file, &starts, Origin::Given)
            .map_err(|refused| request.not_judged(refused, &starts))?,
    };
    let (horizon, tables) = request.tables()?;
    let round = Round::new(horizon, &tables, plan, request.names())?;
    Ok(picture(&round, width, theme).into_bytes())
}

/// The background: what the viewer prefers, unless it is said.
fn theme(arguments: &Arguments) -> Result<Theme, Failure> {
    match (arguments.has(&LIGHT), arguments.has(&DARK)) {
        (false, false) => Ok(Theme::Preferred),
        (true, false) => Ok(Theme::Light),
        (false, true) => Ok(Theme::Dark),
        (true, true) => {
            let message = "--light and --dark are given: one of them is enough";
            Err(Failure::Usage(message.to_string()))
        }
    }
}
