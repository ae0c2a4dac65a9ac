//! Curves as a picture (SVG): a panel each, side by side, with a line for the proved library and
//! one for the peer.

use crate::growth::Curve;
use std::fmt::Write;

/// A panel, the space around its axes, and the axes themselves.
const PANEL: (f64, f64) = (340.0, 250.0);
const LEFT: f64 = 48.0;
const TOP: f64 = 30.0;
const AXES: (f64, f64) = (270.0, 176.0);

/// The lines' names and classes, in the order of a curve's times.
const LINES: [&str; 2] = ["proved", "peer"];

const STYLE: &str = "
  rect { fill: #fff }
  text { font: 11px sans-serif; fill: #222 }
  .title { font-size: 12px }
  .right { text-anchor: end }
  .middle { text-anchor: middle }
  .axis { stroke: #222; stroke-width: 1 }
  .grid { stroke: #ddd; stroke-width: 0.6 }
  polyline { fill: none; stroke-width: 1.8; stroke-linejoin: round }
  .proved { stroke: #1f5fa8 }
  .peer { stroke: #b5541c; stroke-dasharray: 5 3 }
";

/// The picture of all curves.
pub fn svg(curves: &[Curve]) -> String {
    let (width, height) = (PANEL.0 * curves.len() as f64, PANEL.1);
    let mut text = format!(
        "<svg xmlns=\"http://www.w3.org/2000/svg\" width=\"{width}\" height=\"{height}\" \
         viewBox=\"0 0 {width} {height}\">\n<style>{STYLE}</style>\n\
         <rect width=\"100%\" height=\"100%\"/>\n"
    );
    for (number, curve) in curves.iter().enumerate() {
        Panel::new(number, curve).draw(&mut text);
    }
    text.push_str("</svg>\n");
    text
}

/// A curve with its scales, both from 0.
struct Panel<'a> {
    curve: &'a Curve,
    left: f64,
    most_across: f64,
    most_up: f64,
}

impl Panel<'_> {
    fn new(number: usize, curve: &Curve) -> Panel<'_> {
        let across = curve.points.iter().map(|point| point.0 as f64);
        let up = curve.points.iter().flat_map(|point| point.1);
        Panel {
            curve,
            left: PANEL.0 * number as f64 + LEFT,
            most_across: across.fold(1.0, f64::max),
            // A tenth more leaves room for the lines' names.
            most_up: 1.1 * up.fold(1e-9, f64::max),
        }
    }

    fn x(&self, number: f64) -> f64 {
        self.left + AXES.0 * number / self.most_across
    }

    fn y(&self, micros: f64) -> f64 {
        TOP + AXES.1 * (1.0 - micros / self.most_up)
    }

    fn draw(&self, text: &mut String) {
        let (left, bottom) = (self.left, TOP + AXES.1);
        let title = self.curve.title;
        let _ = writeln!(
            text,
            "<text class=\"title\" x=\"{left}\" y=\"{:.1}\">µs, {title}</text>",
            TOP - 14.0
        );
        self.ticks_up(text);
        self.ticks_across(text);
        let right = left + AXES.0;
        let _ = writeln!(
            text,
            "<path class=\"axis\" fill=\"none\" d=\"M{left} {TOP} V{bottom} H{right}\"/>\n\
             <text class=\"middle\" x=\"{:.1}\" y=\"{:.1}\">{}</text>",
            left + AXES.0 / 2.0,
            bottom + 34.0,
            self.curve.axis
        );
        for (line, name) in LINES.iter().enumerate() {
            self.line(line, name, text);
        }
    }

    fn ticks_up(&self, text: &mut String) {
        let (left, right) = (self.left, self.left + AXES.0);
        for tick in ticks(self.most_up) {
            let y = self.y(tick);
            let _ = writeln!(
                text,
                "<path class=\"grid\" d=\"M{left} {y:.1} H{right}\"/>\
                 <text class=\"right\" x=\"{:.1}\" y=\"{:.1}\">{tick}</text>",
                left - 5.0,
                y + 4.0
            );
        }
    }

    fn ticks_across(&self, text: &mut String) {
        let bottom = TOP + AXES.1;
        // Words and arrows are counted in powers of two.
        for quarter in 0..=4 {
            let tick = self.most_across * f64::from(quarter) / 4.0;
            let (x, y) = (self.x(tick), bottom + 16.0);
            let _ = writeln!(
                text,
                "<path class=\"axis\" d=\"M{x:.1} {bottom} v4\"/>\
                 <text class=\"middle\" x=\"{x:.1}\" y=\"{y:.1}\">{tick}</text>"
            );
        }
    }

    /// One of the two lines, with its name at three quarters of its way.
    fn line(&self, line: usize, name: &str, text: &mut String) {
        let place = |&(number, times): &(usize, [f64; 2])| {
            format!("{:.1},{:.1}", self.x(number as f64), self.y(times[line]))
        };
        let places: Vec<String> = self.curve.points.iter().map(place).collect();
        let (number, times) = self.curve.points[3 * self.curve.points.len() / 4];
        let _ = writeln!(
            text,
            "<polyline class=\"{name}\" points=\"{}\"/>\
             <text class=\"right\" x=\"{:.1}\" y=\"{:.1}\">{name}</text>",
            places.join(" "),
            self.x(number as f64) - 6.0,
            self.y(times[line]) - 6.0
        );
    }
}

/// From three to seven round numbers from 0 up to the most.
fn ticks(most: f64) -> Vec<f64> {
    let power = 10f64.powf(most.log10().floor());
    let steps = [0.2, 0.5, 1.0, 2.0].map(|step| step * power);
    let fits = |step: &&f64| most / **step <= 7.0;
    let step = steps.iter().find(fits).unwrap_or(&power);
    (0..=(most / step) as usize)
        .map(|count| count as f64 * step)
        .collect()
}
