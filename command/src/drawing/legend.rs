//! What the shapes mean.

use super::chart::flag;
use super::devices::{slope, HIGH, LOW};
use super::svg::{text_width, Area, Svg};

const SWATCH: f64 = 30.0;
const LINE: f64 = 42.0;

type Draw = fn(&mut Svg, f64, f64);

struct Entry {
    /// Nothing for sleep, of which the kind of the request has the words.
    words: &'static str,
    /// How wide the shape is, and how it is drawn from the left end of its base line.
    width: f64,
    draw: Draw,
}

const fn entry(words: &'static str, width: f64, draw: Draw) -> Entry {
    Entry { words, width, draw }
}

const ENTRIES: [Entry; 8] = [
    entry("job", SWATCH, |svg, x, base| {
        rect(svg, "job", x, base, 20.0)
    }),
    entry("release", 8.0, |svg, x, base| {
        flag(svg, x + 1.0, base - 17.0, 1.0)
    }),
    entry("deadline", 8.0, |svg, x, base| {
        flag(svg, x + 7.0, base - 17.0, -1.0)
    }),
    entry("W: works for a job", SWATCH, |svg, x, base| {
        rect(svg, "used", x, base, HIGH)
    }),
    entry("W: works, not used", SWATCH, |svg, x, base| {
        rect(svg, "unused", x, base, HIGH)
    }),
    entry("D: going down", SWATCH, |svg, x, base| {
        slope(svg, b'D', [(x, HIGH), (x + SWATCH, LOW)], base, None)
    }),
    entry("", SWATCH, |svg, x, base| rect(svg, "asleep", x, base, LOW)),
    entry("U: coming up", SWATCH, |svg, x, base| {
        slope(svg, b'U', [(x, LOW), (x + SWATCH, HIGH)], base, None)
    }),
];

fn rect(svg: &mut Svg, class: &str, x: f64, base: f64, height: f64) {
    let area = Area {
        x,
        y: base - height,
        width: SWATCH,
        height,
    };
    svg.rect(class, area, None);
}

/// Draws the legend into lines from `left` that end before `right`, and says where it ends.
pub fn draw(svg: &mut Svg, (left, right): (f64, f64), top: f64, asleep: &str) -> f64 {
    let (mut x, mut base) = (left, top + HIGH);
    for entry in &ENTRIES {
        let words = if entry.words.is_empty() {
            asleep
        } else {
            entry.words
        };
        let width = entry.width + 7.0 + text_width(words, 10.5);
        if x > left && x + width > right {
            (x, base) = (left, base + LINE);
        }
        (entry.draw)(svg, x, base);
        svg.text("soft", x + entry.width + 7.0, base - 5.0, words);
        x += width + 20.0;
    }
    base
}
