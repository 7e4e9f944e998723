//! Reading a picture: a well-formed SVG whose shapes lie on its page, and whose texts lie apart.

use std::collections::BTreeSet;

/// The titles and texts of a picture, and where the texts stand.
pub struct Shapes {
    pub titles: BTreeSet<String>,
    pub texts: BTreeSet<String>,
    pub labels: Vec<Label>,
}

/// A text, and the part of the picture that it takes, about.
pub struct Label {
    pub text: String,
    x: (f64, f64),
    y: (f64, f64),
}

impl Label {
    /// By the sizes that the picture's classes have.
    fn new(text: &str, attributes: &Attributes) -> Result<Label, String> {
        let class = attributes.iter().find(|(name, _)| *name == "class");
        let classes: Vec<&str> = class.map_or("", |(_, class)| class).split(' ').collect();
        let has = |class: &str| classes.contains(&class);
        let sizes = [
            ("title", 19.0),
            ("small", 10.5),
            ("tiny", 9.5),
            ("name", 13.0),
            ("strong", 13.0),
            ("inside", 11.0),
        ];
        let size = sizes.iter().find(|(class, _)| has(class));
        let size = size.map_or(12.0, |(_, size)| *size);
        let (x, y) = (number(attributes, "x")?, number(attributes, "y")?);
        let width = 0.52 * size * text.chars().count() as f64;
        let from = if has("end") {
            x - width
        } else if has("middle") || has("tiny") || has("inside") {
            x - width / 2.0
        } else {
            x
        };
        Ok(Label {
            text: text.to_string(),
            x: (from, from + width),
            y: (y - 0.7 * size, y),
        })
    }

    fn lies_over(&self, other: &Label) -> bool {
        let meets = |one: (f64, f64), two: (f64, f64)| one.0 < two.1 && two.0 < one.1;
        meets(self.x, other.x) && meets(self.y, other.y)
    }
}

impl Shapes {
    /// No two texts lie over each other.
    pub fn apart(&self) -> Result<(), String> {
        for (place, label) in self.labels.iter().enumerate() {
            let mut others = self.labels[..place].iter();
            if let Some(other) = others.find(|other| label.lies_over(other)) {
                return Err(format!("{:?} lies over {:?}", label.text, other.text));
            }
        }
        Ok(())
    }
}

/// Reads the SVG: every element is closed, every number a number, every place on the page.
pub fn shapes(svg: &str) -> Result<Shapes, String> {
    let mut shapes = Shapes {
        titles: BTreeSet::new(),
        texts: BTreeSet::new(),
        labels: Vec::new(),
    };
    let mut place = Vec::new();
    let mut open: Vec<String> = Vec::new();
    let mut size = (0.0, 0.0);
    let mut rest = svg;
    while let Some(at) = rest.find('<') {
        let between = &rest[..at];
        match open.last().map(String::as_str) {
            // The first title is the picture's own.
            Some("title") if open.len() > 2 => {
                shapes.titles.insert(between.to_string());
            }
            Some("text") => {
                shapes.texts.insert(between.to_string());
                shapes.labels.push(Label::new(between, &place)?);
            }
            Some("title" | "style") => {}
            _ if between.trim().is_empty() => {}
            _ => return Err(format!("stray text {between:?}")),
        }
        let end = at + rest[at..].find('>').ok_or("an open bracket")?;
        let tag = &rest[at + 1..end];
        rest = &rest[end + 1..];
        if let Some(name) = tag.strip_prefix('/') {
            if open.pop().as_deref() != Some(name) {
                return Err(format!("{name} is closed and not open"));
            }
            continue;
        }
        let (tag, is_whole) = match tag.strip_suffix('/') {
            Some(tag) => (tag, true),
            None => (tag, false),
        };
        let name = tag.split(' ').next().unwrap_or_default();
        let attributes = attributes(tag)?;
        if name == "svg" {
            size = (
                number(&attributes, "width")?,
                number(&attributes, "height")?,
            );
        } else if !open.iter().any(|name| name == "defs") {
            on_the_page(&attributes, size)?;
        }
        if !is_whole {
            open.push(name.to_string());
            place = attributes;
        }
    }
    if open.is_empty() && rest.trim().is_empty() {
        Ok(shapes)
    } else {
        Err(format!("left open: {open:?}"))
    }
}

type Attributes<'a> = Vec<(&'a str, &'a str)>;

fn attributes(tag: &str) -> Result<Attributes<'_>, String> {
    let mut found = Vec::new();
    let mut rest = tag.split_once(' ').map_or("", |(_, rest)| rest).trim();
    while !rest.is_empty() {
        let (name, after) = rest
            .split_once("=\"")
            .ok_or(format!("no value in {rest:?}"))?;
        let (value, after) = after.split_once('"').ok_or(format!("no end in {rest:?}"))?;
        found.push((name, value));
        rest = after.trim_start();
    }
    Ok(found)
}

fn number(attributes: &Attributes, name: &str) -> Result<f64, String> {
    let value = attributes.iter().find(|(found, _)| *found == name);
    let (_, value) = value.ok_or(format!("no {name}"))?;
    finite(value)
}

fn finite(value: &str) -> Result<f64, String> {
    let number: f64 = value
        .parse()
        .map_err(|_| format!("{value:?} is no number"))?;
    if number.is_finite() {
        Ok(number)
    } else {
        Err(format!("{value} is not finite"))
    }
}

fn on_the_page(attributes: &Attributes, size: (f64, f64)) -> Result<(), String> {
    let mut places = Vec::new();
    for (name, value) in attributes {
        match *name {
            "x" | "x1" | "x2" => places.push((finite(value)?, 0.0)),
            "y" | "y1" | "y2" => places.push((0.0, finite(value)?)),
            "width" | "height" if finite(value)? <= 0.0 => {
                return Err(format!("{name} {value}"));
            }
            "points" => {
                for pair in value.split(' ') {
                    let (x, y) = pair.split_once(',').ok_or("a point without a comma")?;
                    places.push((finite(x)?, finite(y)?));
                }
            }
            _ => {}
        }
    }
    let inside = |&(x, y): &(f64, f64)| (0.0..=size.0).contains(&x) && (0.0..=size.1).contains(&y);
    match places.iter().find(|place| !inside(place)) {
        None => Ok(()),
        Some(place) => Err(format!("{place:?} is not on the page of {size:?}")),
    }
}
