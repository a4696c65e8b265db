//! The table as a small picture: for each stream a bar for each number of cells, by the ratio of our time to the original's.
use crate::Figure;
use std::fmt::Write;

/// A stream with the original's nanoseconds, and ours with a label each.
pub struct Row {
    pub stream: String,
    pub original: Figure,
    pub ours: Vec<(String, Figure)>,
}

const LINE: usize = 16;
const WIDTH: usize = 840;

/// Where the columns end that stand left of the bars.
const TIME: usize = 330;
const RATIO: usize = 390;

/// The bars' scale is logarithmic, from a tenth of the original's time to a thousand times it.
const BARS: f64 = 410.0;
const DECADE: f64 = 100.0;
const DECADES: [(&str, f64); 5] = [("0.1", 0.1), ("1", 1.0), ("10", 10.0), ("100", 100.0), ("1,000", 1000.0)];

fn place(ratio: f64) -> f64 {
    BARS + (ratio.clamp(0.1, 1000.0).log10() + 1.0) * DECADE
}

fn text(out: &mut String, x: usize, y: usize, rest: &str, words: &str) {
    let words = words.replace('&', "&amp;").replace('<', "&lt;");
    let _ = writeln!(out, "<text x=\"{x}\" y=\"{y}\"{rest}>{words}</text>");
}

fn bar(out: &mut String, y: usize, ratio: f64) {
    let (from, to) = (place(ratio.min(1.0)), place(ratio.max(1.0)));
    let colour = if ratio <= 1.0 { "#2a7" } else { "#c84" };
    let _ = writeln!(out, "<rect x=\"{from:.0}\" y=\"{}\" width=\"{:.0}\" height=\"11\" fill=\"{colour}\"/>", y - 10, (to - from).max(1.0));
}

fn scale(out: &mut String, top: usize, bottom: usize) {
    for (label, ratio) in DECADES {
        let x = place(ratio) as usize;
        text(out, x, top - 4, " text-anchor=\"middle\" fill=\"#666\"", label);
        let colour = if ratio == 1.0 { "#333" } else { "#ccc" };
        let _ = writeln!(out, "<line x1=\"{x}\" y1=\"{top}\" x2=\"{x}\" y2=\"{bottom}\" stroke=\"{colour}\"/>");
    }
}

pub fn svg(run: &str, rows: &[Row]) -> String {
    let lines: usize = rows.iter().map(|r| r.ours.len() + 2).sum();
    let (top, height) = (5 * LINE, LINE * (lines + 6));
    let mut out = format!(
        "<svg xmlns=\"http://www.w3.org/2000/svg\" width=\"{WIDTH}\" height=\"{height}\" font-family=\"sans-serif\" font-size=\"11\">\n\
         <rect width=\"{WIDTH}\" height=\"{height}\" fill=\"white\"/>\n"
    );
    text(&mut out, 8, LINE + 4, " font-size=\"14\" font-weight=\"bold\"", "Nanoseconds a datagram: ours from bytes, the original's from frames");
    text(&mut out, 8, 2 * LINE + 6, "", run);
    text(&mut out, TIME, top - 4, " text-anchor=\"end\" fill=\"#666\"", "median (least to most)");
    text(&mut out, place(10.0) as usize, top - 4 - LINE, " text-anchor=\"middle\" fill=\"#666\"", "ours as a multiple of the original");
    text(&mut out, RATIO, top - 4, " text-anchor=\"end\" fill=\"#666\"", "ratio");
    scale(&mut out, top, height - LINE);
    let mut y = top + LINE;
    for row in rows {
        text(&mut out, 8, y, " font-weight=\"bold\"", &row.stream);
        y += LINE;
        text(&mut out, 20, y, "", "the original");
        text(&mut out, TIME, y, " text-anchor=\"end\"", &row.original.told());
        for (label, ours) in &row.ours {
            y += LINE;
            let ratio = ours.median / row.original.median;
            text(&mut out, 20, y, "", label);
            text(&mut out, TIME, y, " text-anchor=\"end\"", &ours.told());
            text(&mut out, RATIO, y, " text-anchor=\"end\"", &format!("{ratio:.2}"));
            bar(&mut out, y, ratio);
        }
        y += LINE;
    }
    out + "</svg>\n"
}
