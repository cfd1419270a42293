//! The cost of a call against the size, a panel for each kind of call.

use crate::table::{Panel, Point};
use std::fmt::Write;

const COLUMNS: usize = 4;
const PANEL: (f64, f64) = (250.0, 190.0);
/// The lines' part of a panel: left, top, width, height.
const AREA: (f64, f64, f64, f64) = (42.0, 36.0, 190.0, 116.0);

/// Of the costs of a point.
const COLOURS: [&str; 3] = ["#1f5fa8", "#c2571a", "#3a9a6a"];

/// The names are those of the costs of every point.
pub fn svg(names: &[&str], panels: &[Panel]) -> String {
    let rows = (panels.len() + 1).div_ceil(COLUMNS);
    let (width, height) = (PANEL.0 * COLUMNS as f64, PANEL.1 * rows as f64);
    let mut svg = format!(
        "<svg xmlns=\"http://www.w3.org/2000/svg\" viewBox=\"0 0 {width} {height}\" width=\"{width}\" height=\"{height}\" font-family=\"sans-serif\" font-size=\"11\">\n"
    );
    line(
        &mut svg,
        "<rect width=\"100%\" height=\"100%\" fill=\"white\"/>",
    );
    for (at, panel) in panels.iter().enumerate() {
        open(&mut svg, at);
        draw(&mut svg, panel);
    }
    open(&mut svg, panels.len());
    legend(&mut svg, names);
    svg + "</svg>\n"
}

fn line(svg: &mut String, text: &str) {
    svg.push_str(text);
    svg.push('\n');
}

/// Starts the panel at a place, which `</g>` ends.
fn open(svg: &mut String, at: usize) {
    let x = PANEL.0 * (at % COLUMNS) as f64;
    let y = PANEL.1 * (at / COLUMNS) as f64;
    line(svg, &format!("<g transform=\"translate({x} {y})\">"));
}

fn text(svg: &mut String, x: f64, y: f64, style: &str, text: &str) {
    line(
        svg,
        &format!("<text x=\"{x:.1}\" y=\"{y:.1}\" {style}>{text}</text>"),
    );
}

fn draw(svg: &mut String, panel: &Panel) {
    let (left, top, width, height) = AREA;
    let most = panel
        .points
        .iter()
        .flat_map(|point| point.costs.iter().copied())
        .fold(0.0, f64::max);
    let step = tick(most);
    let top_value = (most / step).ceil() * step;
    let y = |nanos: f64| top + height * (1.0 - nanos / top_value);
    let powers = |size: usize| f64::from(size.ilog2());
    let (first, last) = (
        panel.points[0].size,
        panel.points[panel.points.len() - 1].size,
    );
    let x = |size: usize| {
        left + width * (powers(size) - powers(first)) / (powers(last) - powers(first))
    };

    let title = match panel.layer {
        Some(layer) => format!("{layer}: {}", panel.name),
        None => panel.name.to_string(),
    };
    text(svg, left, top - 14.0, "font-weight=\"bold\"", &title);
    let mut nanos = 0.0;
    while nanos <= top_value {
        let at = y(nanos);
        line(
            svg,
            &format!(
                "<line x1=\"{left}\" x2=\"{}\" y1=\"{at:.1}\" y2=\"{at:.1}\" stroke=\"#ddd\"/>",
                left + width
            ),
        );
        text(
            svg,
            left - 5.0,
            at + 4.0,
            "text-anchor=\"end\" fill=\"#555\"",
            &format!("{nanos}"),
        );
        nanos += step;
    }
    for size in [16, 64, 256, 1024, 4096] {
        let middle = "text-anchor=\"middle\" fill=\"#555\"";
        text(svg, x(size), top + height + 15.0, middle, &size.to_string());
    }
    for (at, colour) in COLOURS[..panel.points[0].costs.len()].iter().enumerate() {
        curve(svg, panel, colour, |p| (x(p.size), y(p.costs[at])));
    }
    line(svg, "</g>");
}

fn curve(svg: &mut String, panel: &Panel, colour: &str, place: impl Fn(&Point) -> (f64, f64)) {
    let mut points = String::new();
    let mut dots = String::new();
    for point in &panel.points {
        let (x, y) = place(point);
        let _ = write!(points, "{x:.1},{y:.1} ");
        let _ = write!(
            dots,
            "<circle cx=\"{x:.1}\" cy=\"{y:.1}\" r=\"2\" fill=\"{colour}\"/>"
        );
    }
    line(
        svg,
        &format!(
            "<polyline points=\"{}\" fill=\"none\" stroke=\"{colour}\" stroke-width=\"1.6\"/>",
            points.trim_end()
        ),
    );
    line(svg, &dots);
}

/// A round step of which at most five fit.
fn tick(most: f64) -> f64 {
    let mut step = 1.0;
    loop {
        for factor in [1.0, 2.0, 5.0] {
            if most <= 5.0 * factor * step {
                return factor * step;
            }
        }
        step *= 10.0;
    }
}

fn legend(svg: &mut String, names: &[&str]) {
    let (left, top, ..) = AREA;
    for (at, (colour, name)) in COLOURS.iter().zip(names).enumerate() {
        let y = top + 18.0 * at as f64;
        line(
            svg,
            &format!(
                "<line x1=\"{left}\" x2=\"{}\" y1=\"{y}\" y2=\"{y}\" stroke=\"{colour}\" stroke-width=\"2\"/>",
                left + 24.0
            ),
        );
        text(svg, left + 32.0, y + 4.0, "", name);
    }
    let below = top + 18.0 * names.len() as f64 + 18.0;
    text(svg, left, below, "", "up: nanoseconds of a call");
    text(svg, left, below + 16.0, "", "across: keys held");
    line(svg, "</g>");
}
