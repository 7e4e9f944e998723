//! Elements of an SVG, as text.

use std::fmt::Write;

#[derive(Default)]
pub struct Svg {
    body: String,
}

#[derive(Clone, Copy)]
pub struct Area {
    pub x: f64,
    pub y: f64,
    pub width: f64,
    pub height: f64,
}

/// A number with as many decimals as it takes, two at most.
fn short(number: f64) -> String {
    let text = format!("{number:.2}");
    let text = text.trim_end_matches('0').trim_end_matches('.');
    if text == "-0" {
        "0".to_string()
    } else {
        text.to_string()
    }
}

/// Names may have characters that mean something in a picture's text.
fn escaped(text: &str) -> String {
    let text = text.replace('&', "&amp;").replace('<', "&lt;");
    text.replace('>', "&gt;")
}

impl Svg {
    fn element(&mut self, element: &str, title: Option<&str>) {
        let _ = match title {
            None => writeln!(self.body, "<{element}/>"),
            Some(title) => {
                let tag = element.split(' ').next().unwrap_or(element);
                let title = escaped(title);
                writeln!(self.body, "<{element}><title>{title}</title></{tag}>")
            }
        };
    }

    pub fn rect(&mut self, class: &str, area: Area, title: Option<&str>) {
        let [x, y, width, height] = [area.x, area.y, area.width, area.height].map(short);
        let element = format!(
            "rect class=\"{class}\" x=\"{x}\" y=\"{y}\" width=\"{width}\" height=\"{height}\""
        );
        self.element(&element, title);
    }

    pub fn polygon(&mut self, class: &str, points: &[(f64, f64)], title: Option<&str>) {
        let points: Vec<String> = points
            .iter()
            .map(|&(x, y)| format!("{},{}", short(x), short(y)))
            .collect();
        let element = format!("polygon class=\"{class}\" points=\"{}\"", points.join(" "));
        self.element(&element, title);
    }

    pub fn line(&mut self, class: &str, from: (f64, f64), to: (f64, f64)) {
        let [x1, y1, x2, y2] = [from.0, from.1, to.0, to.1].map(short);
        let element =
            format!("line class=\"{class}\" x1=\"{x1}\" y1=\"{y1}\" x2=\"{x2}\" y2=\"{y2}\"");
        self.element(&element, None);
    }

    /// Text whose place is its left end, its middle or its right end, as the class says.
    pub fn text(&mut self, class: &str, x: f64, y: f64, text: &str) {
        let [x, y] = [x, y].map(short);
        let text = escaped(text);
        let _ = writeln!(
            self.body,
            "<text class=\"{class}\" x=\"{x}\" y=\"{y}\">{text}</text>"
        );
    }
}

/// The whole file: layers, of which each lies over the one before.
pub fn finish(layers: &[Svg], size: (f64, f64), title: &str, style: &str) -> String {
    let [width, height] = [size.0, size.1].map(|number| short(number.ceil()));
    let layers: String = layers.iter().map(|layer| layer.body.as_str()).collect();
    let title = escaped(title);
    format!(
        "<svg xmlns=\"http://www.w3.org/2000/svg\" width=\"{width}\" height=\"{height}\" \
         viewBox=\"0 0 {width} {height}\" role=\"img\">\n<title>{title}</title>\n{style}\
         <rect class=\"page\" width=\"{width}\" height=\"{height}\"/>\n{layers}</svg>\n"
    )
}

/// A number with commas between the thousands.
pub fn grouped(number: u64) -> String {
    let digits = number.to_string();
    let mut groups: Vec<String> = digits
        .as_bytes()
        .rchunks(3)
        .map(|group| String::from_utf8_lossy(group).into_owned())
        .collect();
    groups.reverse();
    groups.join(",")
}

/// About how wide a text is whose letters have this size.
pub fn text_width(text: &str, size: f64) -> f64 {
    0.58 * size * text.chars().count() as f64
}

#[cfg(test)]
mod tests {
    use super::*;

    #[test]
    fn thousands_are_grouped() {
        let texts = [0, 999, 1000, 2_147_450_880].map(grouped);
        assert_eq!(texts, ["0", "999", "1,000", "2,147,450,880"]);
    }

    #[test]
    fn names_are_escaped() {
        assert_eq!(escaped("R&D<1>"), "R&amp;D&lt;1&gt;");
    }

    #[test]
    fn numbers_are_short() {
        let texts = [0.0, -0.001, 12.0, 0.5, 1.239].map(short);
        assert_eq!(texts, ["0", "0", "12", "0.5", "1.24"]);
    }
}
