//! How cost grows: one panel for each kind of call, nodes to the right and nanoseconds upwards, both by powers of ten.

use std::fmt::Write;

use crate::lines::Line;

const COLUMNS: usize = 4;
const WIDTH: f64 = 250.0;
const HEIGHT: f64 = 230.0;
const HEAD: f64 = 44.0;
/// The frame of a panel, from its own corner.
const LEFT: f64 = 50.0;
const TOP: f64 = 26.0;
const RIGHT: f64 = 192.0;
const BOTTOM: f64 = 196.0;

const STYLE: &str = "
.back { fill: #ffffff } .frame { fill: none; stroke: #6e7781 } .grid { stroke: #d8dee4 }
text { font: 11px sans-serif; fill: #1f2328 } .head { font-size: 14px } .title { font-size: 12px; font-weight: bold }
.rust { stroke: #b3470b } .port { stroke: #0a5fc2 } polyline { fill: none; stroke-width: 2 }
text.rust { fill: #b3470b; stroke: none } text.port { fill: #0a5fc2; stroke: none } circle.rust { fill: #b3470b } rect.port { fill: #0a5fc2 }
@media (prefers-color-scheme: dark) {
.back { fill: #0d1117 } .frame { stroke: #8b949e } .grid { stroke: #30363d } text { fill: #e6edf3 }
.rust { stroke: #ffa657 } .port { stroke: #79c0ff }
text.rust { fill: #ffa657 } text.port { fill: #79c0ff } circle.rust { fill: #ffa657 } rect.port { fill: #79c0ff }
}
";

/// The points of one side in a panel: nodes and nanoseconds.
type Points = Vec<(f64, f64)>;

struct Panel {
    title: &'static str,
    rust: Points,
    port: Points,
}

fn panels(lines: &[Line]) -> Vec<Panel> {
    let mut panels: Vec<Panel> = Vec::new();
    for line in lines {
        if let (Some((title, nodes)), Some(rust)) = (line.plot, line.rust) {
            if !panels.iter().any(|p| p.title == title) {
                panels.push(Panel { title, rust: Vec::new(), port: Vec::new() });
            }
            let panel = panels.iter_mut().find(|p| p.title == title).unwrap();
            panel.rust.push((nodes as f64, rust));
            panel.port.push((nodes as f64, line.port));
        }
    }
    panels
}

/// Nanoseconds in two or three digits and a unit.
fn spelt(ns: f64) -> String {
    let (value, unit) = match ns {
        n if n < 1e3 => (n, "ns"),
        n if n < 1e6 => (n / 1e3, "µs"),
        n => (n / 1e6, "ms"),
    };
    if value < 10.0 {
        format!("{:.1} {}", value, unit)
    } else {
        format!("{:.0} {}", value, unit)
    }
}

/// From 10 to 1,000 nodes, and the powers of ten around all times.
struct Scale {
    low: f64,
    high: f64,
}

impl Scale {
    fn of(panels: &[Panel]) -> Scale {
        let times: Vec<f64> = panels.iter().flat_map(|p| p.rust.iter().chain(&p.port)).map(|p| p.1.log10()).collect();
        let low = times.iter().cloned().fold(f64::INFINITY, f64::min).floor();
        let high = times.iter().cloned().fold(f64::NEG_INFINITY, f64::max).ceil();
        Scale { low, high }
    }

    fn x(&self, nodes: f64) -> f64 {
        LEFT + (RIGHT - LEFT) * (nodes.log10() - 1.0) / 2.0
    }

    fn y(&self, ns: f64) -> f64 {
        BOTTOM - (BOTTOM - TOP) * (ns.log10() - self.low) / (self.high - self.low)
    }
}

fn grid(out: &mut String, scale: &Scale) {
    for power in scale.low as i32..=scale.high as i32 {
        let ns = 10f64.powi(power);
        let y = scale.y(ns);
        writeln!(out, "<line class='grid' x1='{LEFT}' x2='{RIGHT}' y1='{y:.1}' y2='{y:.1}'/>").unwrap();
        let label = match power {
            0..=2 => format!("{:.0} ns", ns),
            3..=5 => format!("{:.0} µs", ns / 1e3),
            _ => format!("{:.0} ms", ns / 1e6),
        };
        writeln!(out, "<text x='{:.1}' y='{:.1}' text-anchor='end'>{label}</text>", LEFT - 4.0, y + 4.0).unwrap();
    }
    for nodes in [10.0, 100.0, 1000.0] {
        let x = scale.x(nodes);
        writeln!(out, "<line class='grid' x1='{x:.1}' x2='{x:.1}' y1='{TOP}' y2='{BOTTOM}'/>").unwrap();
        writeln!(out, "<text x='{x:.1}' y='{:.1}' text-anchor='middle'>{nodes:.0}</text>", BOTTOM + 14.0).unwrap();
    }
    let (w, h) = (RIGHT - LEFT, BOTTOM - TOP);
    writeln!(out, "<rect class='frame' x='{LEFT}' y='{TOP}' width='{w}' height='{h}'/>").unwrap();
}

/// A side's line with a mark at each point, and its time at the last one, moved by so much.
fn side(out: &mut String, scale: &Scale, class: &str, points: &Points, moved: f64) {
    let at: Vec<(f64, f64)> = points.iter().map(|p| (scale.x(p.0), scale.y(p.1))).collect();
    let joined: Vec<String> = at.iter().map(|p| format!("{:.1},{:.1}", p.0, p.1)).collect();
    writeln!(out, "<polyline class='{class}' points='{}'/>", joined.join(" ")).unwrap();
    for (x, y) in &at {
        match class {
            "rust" => writeln!(out, "<circle class='rust' cx='{x:.1}' cy='{y:.1}' r='3'/>"),
            _ => writeln!(out, "<rect class='port' x='{:.1}' y='{:.1}' width='6' height='6'/>", x - 3.0, y - 3.0),
        }
        .unwrap();
    }
    let (last, ns) = (at[at.len() - 1], points[points.len() - 1].1);
    let (x, y) = (last.0 + 7.0, last.1 + 4.0 + moved);
    writeln!(out, "<text class='{class}' x='{x:.1}' y='{y:.1}'>{}</text>", spelt(ns)).unwrap();
}

fn panel(out: &mut String, scale: &Scale, p: &Panel) {
    writeln!(out, "<text class='title' x='{LEFT}' y='{:.1}'>{}</text>", TOP - 8.0, p.title).unwrap();
    grid(out, scale);
    let end = |points: &Points| scale.y(points[points.len() - 1].1);
    let (rust, port) = (end(&p.rust), end(&p.port));
    let apart = ((12.0 - (rust - port).abs()) / 2.0).max(0.0);
    let up = if rust <= port { -apart } else { apart };
    side(out, scale, "rust", &p.rust, up);
    side(out, scale, "port", &p.port, -up);
}

/// The panels as one SVG, legible on light and on dark ground.
pub fn draw(lines: &[Line]) -> String {
    let panels = panels(lines);
    if panels.is_empty() {
        return String::new();
    }
    let scale = Scale::of(&panels);
    let (width, height) = (COLUMNS as f64 * WIDTH, HEAD + ((panels.len() + COLUMNS - 1) / COLUMNS) as f64 * HEIGHT);
    let mut out = String::new();
    writeln!(out, "<svg xmlns='http://www.w3.org/2000/svg' viewBox='0 0 {width} {height}' role='img'>").unwrap();
    writeln!(out, "<title>Time of one call at 10, 100 and 1,000 nodes, the Rust and the port</title>").unwrap();
    writeln!(out, "<style>{STYLE}</style>").unwrap();
    writeln!(out, "<rect class='back' width='{width}' height='{height}'/>").unwrap();
    writeln!(out, "<text class='head' x='12' y='22'>Time of one call at 10, 100 and 1,000 nodes:</text>").unwrap();
    writeln!(
        out,
        "<circle class='rust' cx='382' cy='18' r='4'/><text class='head rust' x='391' y='22'>the Rust</text>"
    )
    .unwrap();
    writeln!(out, "<rect class='port' x='474' y='14' width='8' height='8'/><text class='head port' x='487' y='22'>the port</text>")
        .unwrap();
    for (k, p) in panels.iter().enumerate() {
        let (x, y) = ((k % COLUMNS) as f64 * WIDTH, HEAD + (k / COLUMNS) as f64 * HEIGHT);
        writeln!(out, "<g transform='translate({x},{y})'>").unwrap();
        panel(&mut out, &scale, p);
        writeln!(out, "</g>").unwrap();
    }
    out + "</svg>\n"
}
