//! The rows of the devices: high at work, low asleep, and slopes in between.

use super::chart::{Chart, EDGE, LAST};
use super::svg::{grouped, Svg};
use super::words::{device_name, figures, job_called, state, ticks};
use super::Run;

const DEVICE: f64 = 46.0;

/// Heights of a device at work and at its deepest sleep.
pub const HIGH: f64 = 28.0;
pub const LOW: f64 = 5.0;

/// The height between these two, of which 1 is the first and 0 the other.
fn height(part: f64) -> f64 {
    LOW + (HIGH - LOW) * part
}

impl Chart<'_> {
    pub fn devices(&mut self) {
        if self.round.devices.is_empty() {
            return;
        }
        self.y += 24.0;
        let right = self.scale.right();
        self.svg
            .text("small end", right + LAST, self.y - 4.0, "energy");
        for number in 0..self.round.devices.len() {
            self.device(number);
        }
    }

    fn device(&mut self, number: usize) {
        let device = &self.round.devices[number];
        self.band(number, DEVICE);
        let base = self.y + (DEVICE + HIGH) / 2.0;
        let name = device_name(self.round, number);
        self.svg.text("strong", EDGE, base - 14.0, &name);
        let figures = figures(self.round, device);
        self.svg.text("small", EDGE, base, &figures);
        let mut narrow = Vec::new();
        for run in &device.runs {
            self.run(number, run, base, &mut narrow);
        }
        self.above(&narrow, base - HIGH - 1.5, None);
        let energy = grouped(device.energy);
        self.svg
            .text("end", self.scale.right() + LAST, base - 7.0, &energy);
        self.y += DEVICE;
    }

    fn run(&mut self, device: usize, run: &Run, base: f64, narrow: &mut Vec<usize>) {
        let name = device_name(self.round, device);
        let title = format!("{name}: {}, {}", state(run.letter), ticks(run.ticks));
        let (from, to) = (self.scale.x(run.ticks.0), self.scale.x(run.ticks.1));
        match run.letter {
            b'W' => self.working(device, run, base, &title, narrow),
            b'D' | b'U' => {
                let points = [(from, height(run.from)), (to, height(run.to))];
                slope(&mut self.svg, run.letter, points, base, Some(&title));
            }
            letter => {
                let height = height(run.to);
                let area = self.area(run.ticks, base - height, height);
                self.svg.rect("asleep", area, Some(&title));
                let count = grouped((run.ticks.1 - run.ticks.0) as u64);
                let labels = match letter {
                    b'1'..=b'4' => vec![
                        format!("level {}: {count}", letter as char),
                        (letter as char).to_string(),
                    ],
                    _ => vec![format!("asleep {count}")],
                };
                self.label("small middle", run.ticks, base - height - 4.0, &labels);
            }
        }
    }

    /// Work that no job asks for is light, and what a job asks for dark, with the job's number. Jobs
    /// whose blocks are too narrow for it are noted.
    fn working(
        &mut self,
        device: usize,
        run: &Run,
        base: f64,
        title: &str,
        narrow: &mut Vec<usize>,
    ) {
        let area = self.area(run.ticks, base - HIGH, HIGH);
        self.svg.rect("unused", area, Some(title));
        let name = device_name(self.round, device);
        for (number, line) in self.round.jobs.iter().enumerate() {
            let (from, to) = line.runs();
            let uses = line.job.devices.contains(&device);
            if uses && run.ticks.0 <= from && to <= run.ticks.1 {
                let job = job_called(self.round, number);
                let title = format!("{name}: working for {job}, {}", ticks((from, to)));
                let area = self.area((from, to), base - HIGH, HIGH);
                self.block("used", area, &title);
                let labels = self.job_labels(number);
                if !self.label("inside", (from, to), base - HIGH / 2.0 + 4.0, &labels) {
                    narrow.push(number);
                }
            }
        }
    }
}

/// A move down (D) or up (U), from a place and a height to others.
pub fn slope(svg: &mut Svg, letter: u8, ends: [(f64, f64); 2], base: f64, title: Option<&str>) {
    let class = if letter == b'D' { "down" } else { "up" };
    let [(from, left), (to, right)] = ends;
    let points = [
        (from, base - left),
        (to, base - right),
        (to, base),
        (from, base),
    ];
    svg.polygon(class, &points, title);
}
