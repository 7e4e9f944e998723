//! The rows of the picture: the ticks, the processor, the jobs and the sum; those of the devices stand
//! beside (devices.rs).

use super::labels::{placed, Wanted};
use super::legend;
use super::scale::Scale;
use super::style::{style, Theme};
use super::svg::{finish, grouped, text_width, Area, Svg};
use super::words::{device_name, figures, job_called, job_name, subtitle, ticks, title};
use super::{JobLine, Round, Stretch};

pub const EDGE: f64 = 24.0;
const NARROWEST: f64 = 640.0;

/// Where the numbers at the right end, from the right end of the round.
const START: f64 = 62.0;
pub const LAST: f64 = 124.0;

const PROCESSOR: f64 = 30.0;
const JOB: f64 = 20.0;

/// How much a row of labels takes above the processor.
const ABOVE: f64 = 17.0;

/// What is narrower than this would not be seen: blocks that have neighbours, and a job in its window.
const THINNEST: f64 = 1.0;
const THINNEST_JOB: f64 = 2.5;

pub struct Chart<'a> {
    pub round: &'a Round,
    /// What lies under the grid.
    pub under: Svg,
    pub svg: Svg,
    pub scale: Scale,
    pub y: f64,
}

/// The whole picture of a round, so wide if that is asked for.
pub fn picture(round: &Round, width: Option<f64>, theme: Theme) -> String {
    let left = EDGE + names_width(round) + 18.0;
    let of_round = width.map(|width| (width - left - LAST - EDGE).max(60.0));
    let mut chart = Chart {
        round,
        under: Svg::default(),
        svg: Svg::default(),
        scale: Scale::new(left, round.horizon, of_round),
        y: 0.0,
    };
    let narrowest = if width.is_some() { 0.0 } else { NARROWEST };
    let width = (chart.scale.right() + LAST + EDGE).max(narrowest);
    chart.heading();
    let top = chart.y;
    chart.y += if round.names.units.tick.is_some() {
        40.0
    } else {
        26.0
    };
    chart.processor();
    chart.jobs();
    chart.devices();
    let grid = chart.grid(top);
    chart.sum();
    let y = legend::draw(
        &mut chart.svg,
        (EDGE, width - EDGE),
        chart.y + 34.0,
        round.asleep,
    );
    let layers = [chart.under, grid, chart.svg];
    finish(&layers, (width, y + EDGE), &title(round), &style(theme))
}

/// How much room the names of the rows take.
fn names_width(round: &Round) -> f64 {
    let devices = round.devices.iter();
    let figures = devices.map(|device| text_width(&figures(round, device), 10.5));
    let jobs = (0..round.jobs.len()).map(|job| text_width(&job_name(round, job), 13.0));
    let devices = 0..round.devices.len();
    let devices = devices.map(|device| text_width(&device_name(round, device), 13.5));
    figures.chain(jobs).chain(devices).fold(84.0, f64::max)
}

impl Chart<'_> {
    fn heading(&mut self) {
        self.y = EDGE + 18.0;
        self.svg.text("title", EDGE, self.y, &title(self.round));
        self.y += 20.0;
        self.svg.text("soft", EDGE, self.y, &subtitle(self.round));
        self.y += 22.0;
    }

    /// The tick scale at the top, with times where a tick is one, and its lines through all rows.
    fn grid(&self, top: f64) -> Svg {
        let mut svg = Svg::default();
        let units = &self.round.names.units;
        let has_times = units.tick.is_some();
        let (axis, bottom) = (top + if has_times { 34.0 } else { 20.0 }, self.y);
        let (left, right) = (self.scale.x(0), self.scale.right());
        svg.text("small", EDGE, axis - 8.0, "tick");
        if has_times {
            svg.text("small", EDGE, axis - 21.0, "time");
        }
        for tick in self.scale.marks() {
            let x = self.scale.x(tick);
            svg.line("mark", (x, axis - 3.0), (x, axis));
        }
        for tick in self.scale.labels() {
            let x = self.scale.x(tick);
            svg.line("grid", (x, axis), (x, bottom));
            svg.line("axis", (x, axis - 5.0), (x, axis));
            svg.text("small middle", x, axis - 8.0, &grouped(tick as u64));
            if let Some(time) = units.time(tick as i64) {
                svg.text("small middle", x, axis - 21.0, &time);
            }
        }
        svg.line("axis", (left, axis), (right, axis));
        svg
    }

    /// The part of the picture over a stretch of ticks, which is wide enough to be seen.
    pub fn area(&self, (from, to): Stretch, y: f64, height: f64) -> Area {
        Area {
            x: self.scale.x(from),
            y,
            width: self.scale.width(to - from).max(THINNEST),
            height,
        }
    }

    /// A block that keeps apart from its neighbours, if that leaves something of it.
    pub fn block(&mut self, class: &str, area: Area, title: &str) {
        let apart = if area.width < 5.0 { "" } else { " apart" };
        let class = format!("{class}{apart}");
        self.svg.rect(&class, area, Some(title));
    }

    pub fn middle(&self, stretch: Stretch) -> f64 {
        (self.scale.x(stretch.0) + self.scale.x(stretch.1)) / 2.0
    }

    /// A label in the middle of a stretch: the longest of the given ones that has room. Whether one had.
    pub fn label(&mut self, class: &str, stretch: Stretch, y: f64, labels: &[String]) -> bool {
        let width = self.scale.width(stretch.1 - stretch.0) - 4.0;
        let fits = |label: &&String| text_width(label, 11.5) <= width;
        let fitting = labels.iter().find(fits);
        if let Some(label) = fitting {
            self.svg.text(class, self.middle(stretch), y, label);
        }
        fitting.is_some()
    }

    /// What a block of a job is called: in full, by its name, or by its number.
    pub fn job_labels(&self, number: usize) -> Vec<String> {
        let name = self.round.names.job(number);
        let name = name.map(|name| format!("{number} {name}"));
        name.into_iter()
            .chain([format!("job {number}"), number.to_string()])
            .collect()
    }

    /// The numbers of jobs above their blocks, where these are too narrow; with lines to where they
    /// belong, if they are to be drawn.
    pub fn above(&mut self, jobs: &[usize], y: f64, lines_to: Option<f64>) {
        let mut jobs: Vec<usize> = jobs.to_vec();
        jobs.sort_by_key(|&job| self.round.jobs[job].start);
        let wanted = |&job: &usize| Wanted {
            middle: self.middle(self.round.jobs[job].runs()),
            width: text_width(&job.to_string(), 9.5) + 4.0,
        };
        let wanted: Vec<Wanted> = jobs.iter().map(wanted).collect();
        let (left, right) = (self.scale.x(0) - 6.0, self.scale.right() + 6.0);
        let places = placed(&wanted, left, right);
        for ((job, label), place) in jobs.iter().zip(&wanted).zip(places) {
            let Some(x) = place else { continue };
            match lines_to {
                Some(top) => {
                    self.svg.line("leader", (x, y + 2.0), (label.middle, top));
                }
                // Without a line it stands over its block, or nowhere.
                None if (x - label.middle).abs() > label.width => continue,
                None => {}
            }
            self.svg.text("tiny", x, y, &job.to_string());
        }
    }

    fn processor(&mut self) {
        let has_room = |line: &JobLine, number: usize| {
            let width = self.scale.width(line.job.running) - 4.0;
            text_width(&number.to_string(), 11.5) <= width
        };
        let jobs = self.round.jobs.iter().enumerate();
        let narrow = jobs.filter(|(number, line)| !has_room(line, *number));
        let narrow: Vec<usize> = narrow.map(|(number, _)| number).collect();
        if !narrow.is_empty() {
            self.y += ABOVE;
        }
        let top = self.y + 3.0;
        let height = PROCESSOR - 8.0;
        self.svg.text("strong", EDGE, top + 15.0, "processor");
        let (left, right, base) = (self.scale.x(0), self.scale.right(), top + height);
        self.svg.line("axis", (left, base), (right, base));
        for (number, line) in self.round.jobs.iter().enumerate() {
            let name = job_called(self.round, number);
            let title = format!("{name} runs in {}", ticks(line.runs()));
            let area = self.area(line.runs(), top, height);
            self.block("job", area, &title);
            let labels = self.job_labels(number);
            self.label("inside", line.runs(), top + 15.0, &labels);
        }
        self.above(&narrow, top - 7.0, Some(top));
        if !self.round.jobs.is_empty() {
            self.svg
                .text("small end", right + START, base - 4.0, "start");
            self.svg
                .text("small end", right + LAST, base - 4.0, "margin");
        }
        self.y += PROCESSOR;
    }

    fn jobs(&mut self) {
        for (number, line) in self.round.jobs.iter().enumerate() {
            self.band(number, JOB);
            let base = self.y + 14.0;
            let name = job_name(self.round, number);
            self.svg.text("name", EDGE, base, &name);
            self.window(number, line);
            let right = self.scale.right();
            let start = grouped(line.start as u64);
            self.svg.text("end", right + START, base, &start);
            let margin = grouped(line.margin.unsigned_abs().into());
            self.svg.text("end", right + LAST, base, &margin);
            self.y += JOB;
        }
    }

    /// A light stripe from the names to the numbers, for every other row.
    pub fn band(&mut self, number: usize, height: f64) {
        if number % 2 == 1 {
            return;
        }
        let area = Area {
            x: EDGE - 6.0,
            y: self.y,
            width: self.scale.right() + LAST + 6.0 - (EDGE - 6.0),
            height,
        };
        self.under.rect("band", area, None);
    }

    /// The ticks from a job's release to its deadline, with the job in them.
    fn window(&mut self, number: usize, line: &JobLine) {
        let name = job_called(self.round, number);
        let (release, deadline) = (line.job.release, line.job.deadline);
        let (top, height) = (self.y + 7.0, 9.0);
        let title = format!("{name}: released at {release}, due at {deadline}");
        let area = self.area((release, deadline), top, height);
        self.svg.rect("window", area, Some(&title));
        let title = format!("{name} runs in {}", ticks(line.runs()));
        let mut area = self.area(line.runs(), top, height);
        area.width = area.width.max(THINNEST_JOB);
        area.x = area.x.min(self.scale.right() - area.width);
        self.svg.rect("job", area, Some(&title));
        let (from, to) = (self.scale.x(release), self.scale.x(deadline));
        flag(&mut self.svg, from, self.y + 1.0, 1.0);
        flag(&mut self.svg, to, self.y + 1.0, -1.0);
    }

    fn sum(&mut self) {
        let right = self.scale.right();
        self.y += 6.0;
        self.svg
            .line("rule", (EDGE - 6.0, self.y), (right + LAST + 6.0, self.y));
        self.y += 18.0;
        self.svg.text("strong", EDGE, self.y, "energy in all");
        let energy = grouped(self.round.energy);
        self.svg.text("strong end", right + LAST, self.y, &energy);
    }
}

/// A release or a deadline: an upright line with a flag to the right (1) or to the left (-1).
pub fn flag(svg: &mut Svg, x: f64, y: f64, side: f64) {
    svg.line("edge", (x, y), (x, y + 16.0));
    let points = [(x, y), (x + 6.5 * side, y + 2.5), (x, y + 5.0)];
    svg.polygon("flag", &points, None);
}
