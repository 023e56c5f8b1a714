//! The plot of the instruction counts: every peer on every workload, and how the first peer's cost grows.

use crate::counts::{per_byte, Counts};
use crate::peers::Peer;
use crate::workloads::WORKLOADS;
use crate::SIZES;

const COLOURS: [&str; 5] = ["#0b4f9c", "#d9730d", "#2e8b57", "#8a4fb0", "#888888"];
const ROW: f64 = 24.0;
const TOP: f64 = 70.0;
/// Room for a workload's name.
const NAMES: f64 = 230.0;
const LEFT: f64 = NAMES;
const WIDTH: f64 = 420.0;
const SECOND: f64 = LEFT + WIDTH + 90.0;
const GROWTH: f64 = 220.0;

/// Instructions per byte, as the powers of ten from the least to the greatest that is drawn.
struct Scale(i32, i32);

const OF_PEERS: Scale = Scale(-2, 3);
const OF_GROWTH: Scale = Scale(-1, 2);

impl Scale {
    /// Where the value is: 0 for the least, 1 for the greatest.
    fn share(&self, value: f64) -> f64 {
        ((value.log10() - f64::from(self.0)) / f64::from(self.1 - self.0)).clamp(0.0, 1.0)
    }

    fn powers(&self) -> impl Iterator<Item = f64> {
        (self.0..=self.1).map(|power| 10f64.powi(power))
    }
}

/// The plot as SVG.
pub fn draw(counts: &Counts) -> String {
    let height = TOP + ROW * WORKLOADS.len() as f64 + 50.0;
    let mut svg = format!(
        "<svg xmlns=\"http://www.w3.org/2000/svg\" width=\"{:.0}\" height=\"{height:.0}\" \
         font-family=\"sans-serif\" font-size=\"12\">\n<rect width=\"100%\" height=\"100%\" fill=\"white\"/>\n",
        SECOND + GROWTH + NAMES
    );
    peers(&mut svg, counts, height - 50.0);
    growth(&mut svg, counts, height - 50.0);
    svg.push_str("</svg>\n");
    svg
}

fn text(svg: &mut String, x: f64, y: f64, anchor: &str, words: &str) {
    let words = words.replace('&', "&amp;").replace('<', "&lt;").replace('`', "");
    svg.push_str(&format!("<text x=\"{x:.1}\" y=\"{y:.1}\" text-anchor=\"{anchor}\">{words}</text>\n"));
}

fn line(svg: &mut String, from: (f64, f64), to: (f64, f64), colour: &str) {
    svg.push_str(&format!(
        "<line x1=\"{:.1}\" y1=\"{:.1}\" x2=\"{:.1}\" y2=\"{:.1}\" stroke=\"{colour}\"/>\n",
        from.0, from.1, to.0, to.1
    ));
}

/// A row for each workload, a dot for each peer.
fn peers(svg: &mut String, counts: &Counts, bottom: f64) {
    text(svg, LEFT, 20.0, "start", "Instructions per byte, 1 MiB (further left is less work)");
    for (peer, known) in Peer::ALL.iter().enumerate() {
        let x = LEFT + 84.0 * peer as f64;
        dot(svg, x + 5.0, 40.0, peer);
        text(svg, x + 14.0, 44.0, "start", known.name());
    }
    for power in OF_PEERS.powers() {
        let x = LEFT + WIDTH * OF_PEERS.share(power);
        line(svg, (x, TOP - 8.0), (x, bottom), "#dddddd");
        text(svg, x, bottom + 16.0, "middle", &power.to_string());
    }
    for (index, workload) in WORKLOADS.iter().enumerate() {
        let y = TOP + ROW * (index as f64 + 0.5);
        text(svg, LEFT - 10.0, y + 4.0, "end", workload.name);
        line(svg, (LEFT, y), (LEFT + WIDTH, y), "#eeeeee");
        for peer in (0..Peer::ALL.len()).rev() {
            if let Some(count) = per_byte(counts, index, SIZES.len() - 1, peer) {
                dot(svg, LEFT + WIDTH * OF_PEERS.share(count), y, peer);
            }
        }
    }
}

fn dot(svg: &mut String, x: f64, y: f64, peer: usize) {
    let radius = if peer == 0 { 5.5 } else { 4.0 };
    svg.push_str(&format!("<circle cx=\"{x:.1}\" cy=\"{y:.1}\" r=\"{radius}\" fill=\"{}\"/>\n", COLOURS[peer]));
}

/// A line for each workload: flat is linear.
fn growth(svg: &mut String, counts: &Counts, bottom: f64) {
    let name = Peer::ALL[0].name();
    text(svg, SECOND, 20.0, "start", &format!("Instructions per byte of {name}, by size (flat is linear)"));
    let x = |step: usize| SECOND + GROWTH * step as f64 / (SIZES.len() - 1) as f64;
    let y = |count: f64| bottom - (bottom - TOP) * OF_GROWTH.share(count);
    for power in OF_GROWTH.powers() {
        line(svg, (SECOND, y(power)), (SECOND + GROWTH, y(power)), "#dddddd");
        text(svg, SECOND - 8.0, y(power) + 4.0, "end", &power.to_string());
    }
    for (step, size) in SIZES.iter().enumerate() {
        text(svg, x(step), bottom + 16.0, "middle", &(size >> 10).to_string());
    }
    text(svg, SECOND + GROWTH / 2.0, bottom + 34.0, "middle", "KiB");
    let mut ends = Vec::new();
    for (index, workload) in WORKLOADS.iter().enumerate() {
        let of = |step| y(per_byte(counts, index, step, 0).unwrap_or(0.0));
        let points: Vec<String> = (0..SIZES.len()).map(|step| format!("{:.1},{:.1}", x(step), of(step))).collect();
        svg.push_str(&format!(
            "<polyline points=\"{}\" fill=\"none\" stroke=\"{}\" stroke-width=\"1.5\"/>\n",
            points.join(" "),
            COLOURS[0]
        ));
        ends.push((of(SIZES.len() - 1), workload.name));
    }
    // The names, from the top down, each at its line or just below the name above it.
    ends.sort_by(|one, other| one.0.total_cmp(&other.0));
    let mut free = f64::NEG_INFINITY;
    for (end, name) in ends {
        let at = end.max(free);
        line(svg, (SECOND + GROWTH, end), (SECOND + GROWTH + 12.0, at), "#aaaaaa");
        text(svg, SECOND + GROWTH + 15.0, at + 4.0, "start", name);
        free = at + 13.0;
    }
}
