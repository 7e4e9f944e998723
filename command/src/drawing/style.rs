//! Colours, hatchings and letters. Every state has a shape of its own besides its colour: working is
//! high, asleep low, the two moves are slopes that are hatched the way they go.

/// Light, dark, or as the viewer prefers.
#[derive(Clone, Copy, Debug, PartialEq, Eq)]
pub enum Theme {
    Preferred,
    Light,
    Dark,
}

/// What is the same on every background.
const SHAPES: &str = r##"text { font-family: "Helvetica Neue", Helvetica, Arial, "Liberation Sans", sans-serif; font-size: 12px; font-variant-numeric: tabular-nums; }
.title { font-size: 19px; font-weight: 600; }
.small { font-size: 10.5px; }
.tiny { font-size: 9.5px; text-anchor: middle; }
.name { font-size: 13px; }
.strong { font-size: 13px; font-weight: 600; }
.middle { text-anchor: middle; }
.end { text-anchor: end; }
.inside { font-weight: 600; font-size: 11px; text-anchor: middle; }
.grid, .mark, .axis, .rule, .apart { stroke-width: 1; }
.leader { stroke-width: 0.75; }
.edge { stroke-width: 1.5; }
.unused, .down, .up { stroke-width: 0.75; }
.down { fill: url(#falling); }
.up { fill: url(#rising); }
.hatch { stroke-width: 1.2; }
"##;

/// The hatchings, by classes that have the colours.
const HATCHINGS: &str = r##"<defs>
<pattern id="falling" width="6" height="6" patternUnits="userSpaceOnUse"><rect class="falling" width="6" height="6"/><path class="hatch" d="M-1,-1 L7,7 M-1,5 L1,7 M5,-1 L7,1"/></pattern>
<pattern id="rising" width="6" height="6" patternUnits="userSpaceOnUse"><rect class="rising" width="6" height="6"/><path class="hatch" d="M-1,7 L7,-1 M-1,1 L1,-1 M5,7 L7,5"/></pattern>
</defs>
"##;

/// Colours by what they are for.
struct Palette {
    page: &'static str,
    band: &'static str,
    text: &'static str,
    soft: &'static str,
    grid: &'static str,
    axis: &'static str,
    job: &'static str,
    /// What stands on a job or on a device that works.
    inside: &'static str,
    window: &'static str,
    used: &'static str,
    unused: &'static str,
    asleep: &'static str,
    moving: &'static str,
    falling: &'static str,
    rising: &'static str,
}

const LIGHT: Palette = Palette {
    page: "#ffffff",
    band: "#f5f7fa",
    text: "#1f2933",
    soft: "#616e7c",
    grid: "#dde3ea",
    axis: "#7b8794",
    job: "#3e4c59",
    inside: "#ffffff",
    window: "#d3dbe4",
    used: "#1767a8",
    unused: "#a9cdec",
    asleep: "#9aa5b1",
    moving: "#b4590a",
    falling: "#fbd9a5",
    rising: "#fff3d6",
};

const DARK: Palette = Palette {
    page: "#14191f",
    band: "#1b222a",
    text: "#e6ebf0",
    soft: "#9fb0c0",
    grid: "#2b3540",
    axis: "#7b8794",
    job: "#b9c6d3",
    inside: "#10151a",
    window: "#3a4754",
    used: "#5aa9e6",
    unused: "#274b69",
    asleep: "#6b7a89",
    moving: "#e69a4a",
    falling: "#5d3a12",
    rising: "#3a2c14",
};

impl Palette {
    fn rules(&self) -> String {
        let Palette {
            page,
            band,
            text,
            soft,
            grid,
            axis,
            job,
            inside,
            window,
            used,
            unused,
            asleep,
            moving,
            falling,
            rising,
        } = self;
        format!(
            "text {{ fill: {text}; }}
.soft, .small, .tiny {{ fill: {soft}; }}
.inside {{ fill: {inside}; }}
.page {{ fill: {page}; }}
.band {{ fill: {band}; }}
.grid {{ stroke: {grid}; }}
.mark, .axis, .leader {{ stroke: {axis}; }}
.rule {{ stroke: {soft}; }}
.job, .flag {{ fill: {job}; }}
.edge {{ stroke: {job}; }}
.window {{ fill: {window}; }}
.used {{ fill: {used}; }}
.unused {{ fill: {unused}; stroke: {used}; }}
.down, .up, .hatch {{ stroke: {moving}; }}
.asleep {{ fill: {asleep}; }}
.apart {{ stroke: {page}; }}
.falling {{ fill: {falling}; }}
.rising {{ fill: {rising}; }}
"
        )
    }
}

/// The rules and hatchings of a picture.
pub fn style(theme: Theme) -> String {
    let colours = match theme {
        Theme::Light => LIGHT.rules(),
        Theme::Dark => DARK.rules(),
        Theme::Preferred => {
            let (light, dark) = (LIGHT.rules(), DARK.rules());
            format!("{light}@media (prefers-color-scheme: dark) {{\n{dark}}}\n")
        }
    };
    format!("<style>\n{SHAPES}{colours}</style>\n{HATCHINGS}")
}
