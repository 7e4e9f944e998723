//! The options of the commands, each once.

/// Whether a value goes with an option.
#[derive(Clone, Copy, Debug, PartialEq, Eq)]
pub enum Takes {
    Nothing,
    Value,
    /// A value, unless the option stands last or before another.
    Maybe,
}

#[derive(Clone, Copy, Debug)]
pub struct Opt {
    pub name: &'static str,
    pub takes: Takes,
}

const fn opt(name: &'static str, takes: Takes) -> Opt {
    Opt { name, takes }
}

pub const BUDGET: Opt = opt("--budget", Takes::Value);
pub const MEMORY: Opt = opt("--memory", Takes::Value);
pub const STARTS: Opt = opt("--starts", Takes::Value);
pub const STARTS_FROM: Opt = opt("--starts-from", Takes::Value);
pub const CSV: Opt = opt("--csv", Takes::Maybe);
pub const RUNS: Opt = opt("--runs", Takes::Nothing);
pub const WIDTH: Opt = opt("--width", Takes::Value);
pub const DARK: Opt = opt("--dark", Takes::Nothing);
pub const LIGHT: Opt = opt("--light", Takes::Nothing);
pub const TEXT: Opt = opt("--text", Takes::Nothing);
pub const MEND: Opt = opt("--mend", Takes::Nothing);

/// A request from sheets, in the place of REQUEST.
pub const CATALOGUE: Opt = opt("--catalogue", Takes::Value);
pub const JOBS: Opt = opt("--jobs", Takes::Value);
pub const TASKS: Opt = opt("--tasks", Takes::Value);
pub const PARTS: Opt = opt("--parts", Takes::Value);
pub const PARTS_FROM: Opt = opt("--parts-from", Takes::Value);
pub const HORIZON: Opt = opt("--horizon", Takes::Value);
pub const SHEETS: [Opt; 6] = [CATALOGUE, JOBS, TASKS, PARTS, PARTS_FROM, HORIZON];
