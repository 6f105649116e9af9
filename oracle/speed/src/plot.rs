//! Time against size as an SVG: a panel for each shape, two lines in it.

use crate::tables::Series;
use std::fmt::Write;

const COLUMNS: usize = 3;
const PANEL: (f64, f64) = (300.0, 220.0);
/// Around the part of a panel that has the lines: left, top, right, bottom.
const AROUND: (f64, f64, f64, f64) = (56.0, 34.0, 20.0, 40.0);
const HEAD: f64 = 34.0;
const OURS: (&str, &str, &str) = ("the proved port", "#0b61a4", "");
const RUST: (&str, &str, &str) = ("the Rust", "#d95f02", " stroke-dasharray=\"5 3\"");
const LARGEST_KILOBYTES: f64 = 16.0;

/// The lines' place in a panel: from kilobytes and microseconds to its points.
struct Scale {
    left: f64,
    top: f64,
    most: f64,
}

impl Scale {
    fn x(&self, kilobytes: f64) -> f64 {
        let width = PANEL.0 - AROUND.0 - AROUND.2;
        self.left + AROUND.0 + width * kilobytes / LARGEST_KILOBYTES
    }

    fn y(&self, microseconds: f64) -> f64 {
        let height = PANEL.1 - AROUND.1 - AROUND.3;
        self.top + AROUND.1 + height * (1.0 - microseconds / self.most)
    }
}

pub fn plot(series: &[Series]) -> String {
    let rows = series.len().div_ceil(COLUMNS);
    let (width, height) = (PANEL.0 * COLUMNS as f64, HEAD + PANEL.1 * rows as f64);
    let mut svg = format!(
        "<svg xmlns=\"http://www.w3.org/2000/svg\" viewBox=\"0 0 {width} {height}\" width=\"{width}\" height=\"{height}\" \
         font-family=\"sans-serif\" font-size=\"11\" fill=\"#222\">\n<title>Time against size, by shape</title>\n\
         <rect width=\"{width}\" height=\"{height}\" fill=\"#fff\"/>\n"
    );
    for (number, (name, colour, dashes)) in [OURS, RUST].into_iter().enumerate() {
        let x = 56.0 + 150.0 * number as f64;
        let _ = writeln!(
            svg,
            "<line x1=\"{x}\" y1=\"20\" x2=\"{}\" y2=\"20\" stroke=\"{colour}\" stroke-width=\"2\"{dashes}/>\
             <text x=\"{}\" y=\"24\">{name}</text>",
            x + 28.0,
            x + 34.0
        );
    }
    for (number, one) in series.iter().enumerate() {
        let left = PANEL.0 * (number % COLUMNS) as f64;
        let top = HEAD + PANEL.1 * (number / COLUMNS) as f64;
        panel(&mut svg, one, left, top);
    }
    svg + "</svg>\n"
}

fn panel(svg: &mut String, (shape, points): &Series, left: f64, top: f64) {
    let times = points.iter().flat_map(|(_, time)| [time.ours, time.rust]);
    let step = step(times.max().unwrap_or(1) as f64 / 1000.0);
    let most = step * 4.0;
    let scale = Scale { left, top, most };
    axes(svg, &scale, step);
    let _ = writeln!(
        svg,
        "<text x=\"{}\" y=\"{}\" font-size=\"13\" font-weight=\"bold\">{shape}</text>",
        scale.x(0.0),
        top + 20.0
    );
    let ours: Vec<_> = points
        .iter()
        .map(|(size, time)| (*size, time.ours))
        .collect();
    let rust: Vec<_> = points
        .iter()
        .map(|(size, time)| (*size, time.rust))
        .collect();
    for (line, (_, colour, dashes)) in [(ours, OURS), (rust, RUST)] {
        let places = line.iter().map(|(size, time)| {
            let (x, y) = (*size as f64 / 1024.0, *time as f64 / 1000.0);
            format!("{:.1},{:.1}", scale.x(x), scale.y(y))
        });
        let places: Vec<String> = places.collect();
        let _ = writeln!(
            svg,
            "<polyline points=\"{}\" fill=\"none\" stroke=\"{colour}\" stroke-width=\"2\"{dashes}/>",
            places.join(" ")
        );
    }
}

/// A quarter of an axis that has room for `most`: 1, 1.5, 2, 2.5, 3, 4, 5 or 7.5 times a power of ten.
fn step(most: f64) -> f64 {
    let least = (most / 4.0).max(1e-3);
    let power = 10f64.powf(least.log10().floor());
    let nice = [1.0, 1.5, 2.0, 2.5, 3.0, 4.0, 5.0, 7.5, 10.0];
    let found = nice.into_iter().find(|factor| factor * power >= least);
    found.unwrap_or(10.0) * power
}

fn axes(svg: &mut String, scale: &Scale, step: f64) {
    let (start, end, floor) = (scale.x(0.0), scale.x(LARGEST_KILOBYTES), scale.y(0.0));
    for quarter in 0..=4 {
        let value = (step * f64::from(quarter) * 1000.0).round() / 1000.0;
        let y = scale.y(value);
        let shade = if quarter == 0 { "#222" } else { "#ddd" };
        let _ = writeln!(
            svg,
            "<line x1=\"{start}\" y1=\"{y:.1}\" x2=\"{end}\" y2=\"{y:.1}\" stroke=\"{shade}\"/>\
             <text x=\"{}\" y=\"{:.1}\" text-anchor=\"end\">{value}</text>",
            start - 6.0,
            y + 4.0
        );
    }
    let _ = writeln!(
        svg,
        "<line x1=\"{start}\" y1=\"{}\" x2=\"{start}\" y2=\"{floor}\" stroke=\"#222\"/>\
         <text x=\"{start}\" y=\"{}\" text-anchor=\"end\" fill=\"#666\">\u{b5}s</text>",
        scale.y(scale.most),
        scale.y(scale.most) - 8.0
    );
    for kilobytes in [0, 4, 8, 12, 16] {
        let x = scale.x(f64::from(kilobytes));
        let unit = if kilobytes == 16 { " KB" } else { "" };
        let _ = writeln!(
            svg,
            "<line x1=\"{x:.1}\" y1=\"{floor}\" x2=\"{x:.1}\" y2=\"{}\" stroke=\"#222\"/>\
             <text x=\"{x:.1}\" y=\"{}\" text-anchor=\"middle\">{kilobytes}{unit}</text>",
            floor + 4.0,
            floor + 17.0
        );
    }
}
