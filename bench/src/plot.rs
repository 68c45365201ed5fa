//! Two plots as SVG: the ratios as bars, and time against size as lines. Both axes of time are logarithmic.

use std::fmt::Write;

const WIDTH: f64 = 900.0;

fn open(height: f64, title: &str) -> String {
    format!(
        "<svg xmlns=\"http://www.w3.org/2000/svg\" viewBox=\"0 0 {WIDTH} {height}\" font-family=\"sans-serif\" \
         font-size=\"12\">\n<rect width=\"100%\" height=\"100%\" fill=\"white\"/>\n<text x=\"10\" y=\"20\" \
         font-size=\"14\">{title}</text>\n"
    )
}

fn text(out: &mut String, x: f64, y: f64, anchor: &str, words: &str) {
    let _ = writeln!(out, "<text x=\"{x:.0}\" y=\"{y:.0}\" text-anchor=\"{anchor}\">{words}</text>");
}

fn line(out: &mut String, from: (f64, f64), to: (f64, f64), colour: &str, width: usize) {
    let ((a, b), (c, d)) = (from, to);
    let _ = writeln!(
        out,
        "<line x1=\"{a:.0}\" y1=\"{b:.0}\" x2=\"{c:.0}\" y2=\"{d:.0}\" stroke=\"{colour}\" stroke-width=\"{width}\"/>"
    );
}

/// The Rust's time over the library's, a bar to the right of 1 where the library is faster.
pub fn ratios(title: &str, rows: &[(String, f64)]) -> String {
    const LEFT: f64 = 390.0;
    const STEP: f64 = 26.0;
    let height = 50.0 + STEP * rows.len() as f64;
    let mut out = open(height, title);
    let at = |ratio: f64| LEFT + 84.0 * (3.0 + ratio.clamp(0.001, 100.0).log10());
    for power in [0.001, 0.01, 0.1, 1.0, 10.0, 100.0] {
        line(&mut out, (at(power), 45.0), (at(power), height - 5.0), if power == 1.0 { "black" } else { "#ccc" }, 1);
        text(&mut out, at(power), 40.0, "middle", &format!("{power}"));
    }
    for (k, (name, ratio)) in rows.iter().enumerate() {
        let y = 50.0 + STEP * k as f64;
        let (from, to) = (at(1.0).min(at(*ratio)), at(1.0).max(at(*ratio)));
        let colour = if *ratio < 1.0 { "#c0504d" } else { "#4f81bd" };
        let width = (to - from).max(1.0);
        let _ =
            writeln!(out, "<rect x=\"{from:.0}\" y=\"{y:.0}\" width=\"{width:.0}\" height=\"16\" fill=\"{colour}\"/>");
        text(&mut out, LEFT - 10.0, y + 12.0, "end", name);
        text(&mut out, WIDTH - 10.0, y + 12.0, "end", &crate::ratio(*ratio));
    }
    out + "</svg>\n"
}

/// The powers of ten, in microseconds, that a plot may have as its lowest and highest line.
const POWERS: [(i32, &str); 7] =
    [(0, "1 µs"), (1, "10 µs"), (2, "100 µs"), (3, "1 ms"), (4, "10 ms"), (5, "100 ms"), (6, "1 s")];

const COLOURS: [&str; 6] = ["#4f81bd", "#c0504d", "#76923c", "#8064a2", "#e36c09", "#31859b"];

/// The library's time at each part of a limit, a line for each limit, its name at its end or below the one above it.
pub fn growth(title: &str, parts: &[&str], lines: &[(String, Vec<f64>)]) -> String {
    let tens = |seconds: f64| (seconds.max(1e-6) * 1e6).log10().min(6.0);
    let times = || lines.iter().flat_map(|(_, times)| times).map(|seconds| tens(*seconds));
    let (low, high) = (times().fold(6.0, f64::min).floor(), times().fold(0.0, f64::max).ceil());
    let height = 90.0 + 120.0 * (high - low);
    let mut out = open(height, title);
    let x = |k: usize| 80.0 + 160.0 * k as f64;
    let y = |tens: f64| height - 40.0 - 120.0 * (tens - low);
    for (power, name) in POWERS.iter().map(|(power, name)| (f64::from(*power), name)) {
        if (low..=high).contains(&power) {
            line(&mut out, (x(0), y(power)), (x(parts.len() - 1), y(power)), "#ccc", 1);
            text(&mut out, x(0) - 8.0, y(power) + 4.0, "end", name);
        }
    }
    for (k, part) in parts.iter().enumerate() {
        text(&mut out, x(k), height - 18.0, "middle", part);
    }
    let mut ends = Vec::new();
    for (at, (name, times)) in lines.iter().enumerate() {
        let colour = COLOURS[at % COLOURS.len()];
        let points: Vec<(f64, f64)> = times.iter().enumerate().map(|(k, time)| (x(k), y(tens(*time)))).collect();
        points.windows(2).for_each(|pair| line(&mut out, pair[0], pair[1], colour, 2));
        for (x, y) in &points {
            let _ = writeln!(out, "<circle cx=\"{x:.0}\" cy=\"{y:.0}\" r=\"3\" fill=\"{colour}\"/>");
        }
        ends.extend(points.last().map(|(_, y)| (*y, name, colour)));
    }
    ends.sort_by(|one, other| one.0.total_cmp(&other.0));
    let mut lowest = 0.0;
    for (y, name, colour) in ends {
        lowest = f64::max(y, lowest + 18.0);
        line(&mut out, (x(parts.len() - 1), y), (x(parts.len() - 1) + 20.0, lowest), colour, 1);
        text(&mut out, x(parts.len() - 1) + 24.0, lowest + 4.0, "start", name);
    }
    out + "</svg>\n"
}
