//! Time against size, as a picture: a panel for each kind, both axes in powers of ten.

use crate::inputs::SIZES;
use crate::timing::{Job, Row};
use std::fmt::Write;

const PANEL: (f64, f64) = (230.0, 190.0);
const MARGIN: (f64, f64) = (46.0, 34.0);
const COLUMNS: usize = 3;

/// The lines of a panel, each with its colour.
const LINES: [(Job, &str, &str); 3] = [
    (Job::OursPlain, "#1d4ed8", "ours, from bytes"),
    (Job::RustPlain, "#b91c1c", "the Rust, from bytes"),
    (Job::RustPlainOfTree, "#b45309", "the Rust, of a tree"),
];

/// The times are in units of our own for the smallest file of the kind, since seconds would speak of the machine.
pub fn svg(rows: &[Row]) -> String {
    let kinds: Vec<&[Row]> = rows.chunks(SIZES.len()).collect();
    let down = kinds.len().div_ceil(COLUMNS) as f64;
    let (width, height) = (COLUMNS as f64 * PANEL.0 + 20.0, down * PANEL.1 + 54.0);
    let mut out = format!(
        "<svg xmlns=\"http://www.w3.org/2000/svg\" width=\"{width}\" height=\"{height}\" \
         font-family=\"sans-serif\" font-size=\"11\">\n<rect width=\"100%\" height=\"100%\" fill=\"white\"/>\n"
    );
    for (number, kind) in kinds.iter().enumerate() {
        let left = (number % COLUMNS) as f64 * PANEL.0;
        let top = (number / COLUMNS) as f64 * PANEL.1;
        let _ = write!(
            out,
            "<g transform=\"translate({left},{top})\">\n{}</g>\n",
            panel(kind)
        );
    }
    out + &legend(height - 22.0) + "</svg>\n"
}

fn legend(top: f64) -> String {
    let mut out = format!(
        "<text x=\"60\" y=\"{}\">Time of the plain page against the file's size, in times ours of the kind's smallest file</text>\n",
        top - 14.0
    );
    for (number, (_, colour, words)) in LINES.iter().enumerate() {
        let left = 60.0 + number as f64 * 190.0;
        let _ = writeln!(
            out,
            "<path d=\"M{left} {top}h22\" stroke=\"{colour}\" stroke-width=\"2\"/><text x=\"{}\" y=\"{}\">{words}</text>",
            left + 28.0,
            top + 4.0
        );
    }
    out
}

/// The axes go over these powers of ten: bytes, and times ours of the smallest file.
const BYTES: (f64, f64) = (2.9, 4.9);
const TIMES: (f64, f64) = (-1.5, 3.0);

fn across(bytes: f64) -> f64 {
    let part = (bytes.log10() - BYTES.0) / (BYTES.1 - BYTES.0);
    MARGIN.0 + part * (PANEL.0 - MARGIN.0 - 8.0)
}

fn up(times: f64) -> f64 {
    let part = (times.log10() - TIMES.0) / (TIMES.1 - TIMES.0);
    PANEL.1 - MARGIN.1 - part * (PANEL.1 - MARGIN.1 - 24.0)
}

fn panel(kind: &[Row]) -> String {
    let mut out = format!(
        "<text x=\"{}\" y=\"16\" font-weight=\"bold\">{}</text>\n",
        MARGIN.0, kind[0].kind
    );
    for size in SIZES {
        let x = across(size as f64);
        let (bottom, words) = (up(10_f64.powf(TIMES.0)), size / 1_000);
        let _ = writeln!(
            out,
            "<path d=\"M{x:.1} 24V{bottom:.1}\" stroke=\"#ddd\"/><text x=\"{x:.1}\" y=\"{:.1}\" text-anchor=\"middle\">{words} KB</text>",
            bottom + 14.0
        );
    }
    for power in -1..=3 {
        let y = up(10_f64.powi(power));
        let _ = writeln!(
            out,
            "<path d=\"M{} {y:.1}H{}\" stroke=\"#ddd\"/><text x=\"{}\" y=\"{:.1}\" text-anchor=\"end\">{}</text>",
            MARGIN.0,
            PANEL.0 - 8.0,
            MARGIN.0 - 4.0,
            y + 4.0,
            10_f64.powi(power)
        );
    }
    let unit = kind[0].time(Job::OursPlain);
    for (job, colour, _) in LINES {
        let points = kind.iter().map(|row| {
            let (x, y) = (across(row.length as f64), up(row.time(job) / unit));
            format!("{x:.1},{y:.1}")
        });
        let points: Vec<String> = points.collect();
        let _ = writeln!(
            out,
            "<polyline points=\"{}\" fill=\"none\" stroke=\"{colour}\" stroke-width=\"2\"/>",
            points.join(" ")
        );
    }
    out
}
