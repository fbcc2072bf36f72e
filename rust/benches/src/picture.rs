//! The picture: nanoseconds a row against the share of true values, as SVG.

use crate::by_hand::ByHand;
use crate::lists::Lists;
use crate::ours::Ours;
use crate::timed::least;
use std::fmt::Write;
use std::fs;
use std::time::Duration;

const LEN: usize = 1 << 20;
const EACH: Duration = Duration::from_millis(100);
const SHARES: [u64; 15] = [1, 5, 10, 20, 50, 100, 200, 300, 400, 500, 600, 700, 800, 900, 990];
// Each line: the call, whose it is, its color, and its dashes.
const LINES: &[(&str, &str, &str, &str)] = &[
    ("rank intersection", "row-mask", "#1f77b4", ""),
    ("rank intersection", "by hand", "#1f77b4", "4 3"),
    ("choose", "row-mask", "#d62728", ""),
    ("choose", "by hand", "#d62728", "4 3"),
];

// The frame, in the picture's units.
const LEFT: f64 = 60.0;
const TOP: f64 = 20.0;
const WIDTH: f64 = 600.0;
const HEIGHT: f64 = 300.0;

struct Line {
    name: String,
    color: &'static str,
    dashes: &'static str,
    points: Vec<(f64, f64)>,
}

pub fn write(path: &str) {
    let lines = lines();
    let most =
        lines.iter().flat_map(|line| &line.points).map(|(_, time)| *time).fold(0.0, f64::max);
    fs::write(path, svg(&lines, (most * 2.0).ceil() / 2.0)).expect("the picture can be written");
}

/// The points of each line: shares in percent, and nanoseconds a row.
fn lines() -> Vec<Line> {
    let mut lines: Vec<Line> = LINES
        .iter()
        .map(|(call, who, color, dashes)| Line {
            name: format!("{call}, {who}"),
            color,
            dashes,
            points: vec![],
        })
        .collect();
    for share in SHARES {
        for (line, time) in lines.iter_mut().zip(times(&Lists::new(LEN, share, 0))) {
            line.points.push((share as f64 / 10.0, time / LEN as f64));
        }
    }
    lines
}

/// The time of each line's call, or of the best of its calls.
fn times(lists: &Lists) -> Vec<f64> {
    let (ours, by_hand) = (Ours(lists), ByHand(lists));
    let mut calls = Vec::new();
    let mut ends = Vec::new();
    for &(call, who, ..) in LINES {
        match who {
            "by hand" => calls.extend(by_hand.calls(call)),
            _ => calls.extend(ours.call(call)),
        }
        ends.push(calls.len());
    }
    let times = least(&mut calls, EACH);
    let starts = [0].into_iter().chain(ends.iter().copied());
    let best = |(start, end): (usize, &usize)| {
        times[start..*end].iter().copied().fold(f64::INFINITY, f64::min)
    };
    starts.zip(&ends).map(best).collect()
}

fn svg(lines: &[Line], most: f64) -> String {
    let mut svg = format!(
        "<svg xmlns=\"http://www.w3.org/2000/svg\" viewBox=\"0 0 {} {}\" font-family=\"sans-serif\" \
         font-size=\"12\">\n<rect width=\"100%\" height=\"100%\" fill=\"white\"/>\n",
        LEFT + WIDTH + 20.0,
        TOP + HEIGHT + 130.0
    );
    axes(&mut svg, most);
    for (number, line) in lines.iter().enumerate() {
        drawn(&mut svg, line, most);
        legend(&mut svg, line, TOP + HEIGHT + 60.0 + 18.0 * number as f64);
    }
    svg + "</svg>\n"
}

fn x(percent: f64) -> f64 {
    LEFT + WIDTH * percent / 100.0
}

fn y(time: f64, most: f64) -> f64 {
    TOP + HEIGHT * (1.0 - time / most)
}

fn axes(svg: &mut String, most: f64) {
    let (right, bottom) = (LEFT + WIDTH, TOP + HEIGHT);
    for step in 0..=10 {
        let (percent, at) = (10 * step, x(f64::from(10 * step)));
        writeln!(
            svg,
            "<text x=\"{at:.0}\" y=\"{:.0}\" text-anchor=\"middle\">{percent}</text>",
            bottom + 16.0
        )
        .unwrap();
    }
    for step in 0..=5 {
        let time = most * f64::from(step) / 5.0;
        let at = y(time, most);
        writeln!(svg, "<path d=\"M{LEFT} {at:.1}H{right}\" stroke=\"#ddd\"/>").unwrap();
        writeln!(
            svg,
            "<text x=\"{:.0}\" y=\"{:.1}\" text-anchor=\"end\">{time:.1}</text>",
            LEFT - 6.0,
            at + 4.0
        )
        .unwrap();
    }
    writeln!(svg, "<path d=\"M{LEFT} {TOP}V{bottom}H{right}\" fill=\"none\" stroke=\"black\"/>")
        .unwrap();
    let middle = LEFT + WIDTH / 2.0;
    writeln!(
        svg,
        "<text x=\"{middle}\" y=\"{}\" text-anchor=\"middle\">true values, of 100</text>",
        bottom + 36.0
    )
    .unwrap();
    let across = TOP + HEIGHT / 2.0;
    writeln!(
        svg,
        "<text transform=\"translate(16 {across}) rotate(-90)\" text-anchor=\"middle\">nanoseconds a row</text>"
    )
    .unwrap();
}

fn drawn(svg: &mut String, line: &Line, most: f64) {
    let points: Vec<String> = line
        .points
        .iter()
        .map(|(share, time)| format!("{:.1},{:.1}", x(*share), y(*time, most)))
        .collect();
    writeln!(
        svg,
        "<polyline points=\"{}\" fill=\"none\" stroke=\"{}\" stroke-width=\"2\" stroke-dasharray=\"{}\"/>",
        points.join(" "),
        line.color,
        line.dashes
    )
    .unwrap();
}

fn legend(svg: &mut String, line: &Line, at: f64) {
    writeln!(
        svg,
        "<path d=\"M{LEFT} {at}h40\" stroke=\"{}\" stroke-width=\"2\" stroke-dasharray=\"{}\"/>\n\
         <text x=\"{}\" y=\"{}\">{}</text>",
        line.color,
        line.dashes,
        LEFT + 50.0,
        at + 4.0,
        line.name
    )
    .unwrap();
}
