//! The picture: moves and tree above, a row of frames below.

use crate::layout::{faces, is_seam, open_seams, places, Point};
use std::fmt::Write;
use weight_mover::text::Drawing;
use weight_mover::{Answer, Edge};

const WIDTH: f64 = 1240.0;
const MARGIN: f64 = 32.0;
const GAP: f64 = 24.0;
const TOP: f64 = 118.0;
/// Up to so many vertices there is room for numbers.
const FEW: usize = 16;
const FRAMES: [f64; 5] = [0.0, 0.25, 0.5, 0.75, 1.0];

const BEFORE: [u8; 3] = [47, 92, 168];
const AFTER: [u8; 3] = [214, 92, 50];
const SKIN: &str = "#f8eadf";
const MESH: &str = "#d8bfae";
const SEAM: &str = "#b3432b";
const INK: &str = "#2b2622";
const FAINT: &str = "#8a7d73";

/// A part of the picture that shows the whole patch.
struct Panel {
    left: f64,
    top: f64,
    width: f64,
    height: f64,
}

/// The patch as it is drawn in one panel.
struct View<'a> {
    drawing: &'a Drawing,
    answer: &'a Answer,
    points: Vec<Point>,
    faces: &'a [Vec<usize>],
    edges: &'a [Edge],
    /// Radius of the greatest amount.
    radius: f64,
    /// The greatest amount on a vertex, before or after.
    heaviest: f64,
    /// Whether the panel has room for numbers.
    labels: bool,
}

/// Draws the patch and its answer.
pub fn svg(drawing: &Drawing, answer: &Answer) -> String {
    let n = answer.vertices();
    let edges: Vec<Edge> = drawing.patch.graph().iter().collect();
    let mut places = match drawing.places.as_slice() {
        [] => places(n, &edges),
        given => given.to_vec(),
    };
    open_seams(&mut places, &edges);
    let faces = faces(&places, &edges);
    let (low, high) = bounds(&places);
    let shape = ((high.1 - low.1) / (high.0 - low.0).max(1e-9)).clamp(0.3, 0.75);

    let border = if n <= FEW { 50.0 } else { 26.0 };
    let half = (WIDTH - 2.0 * MARGIN - GAP) / 2.0;
    let tall = ((half - 2.0 * border) * shape + 2.0 * border).round();
    let fifth = (WIDTH - 2.0 * MARGIN - 4.0 * GAP) / 5.0;
    let low_row = TOP + tall + 64.0;
    let short = ((fifth - 40.0) * shape + 40.0).round();
    let height = low_row + short + MARGIN;

    let view = |panel: &Panel, labels: bool| {
        let border = if labels { border } else { 20.0 };
        let points = fit(&places, panel, border);
        let (mu, nu) = drawing.patch.measures();
        View {
            drawing,
            answer,
            radius: radius(&points, &edges).min(border - 5.0),
            points,
            faces: &faces,
            edges: &edges,
            heaviest: *mu.iter().chain(nu).max().unwrap_or(&1).max(&1) as f64,
            labels: labels && n <= FEW,
        }
    };

    let mut out = String::new();
    let _ = write!(
        out,
        "<svg xmlns=\"http://www.w3.org/2000/svg\" viewBox=\"0 0 {WIDTH} {height}\" width=\"{WIDTH}\" \
         height=\"{height}\" font-family=\"Helvetica, Arial, sans-serif\">\n\
         <rect width=\"100%\" height=\"100%\" fill=\"#fffdfb\"/>\n"
    );
    header(&mut out, drawing, answer, &edges);

    let left = Panel {
        left: MARGIN,
        top: TOP,
        width: half,
        height: tall,
    };
    let right = Panel {
        left: MARGIN + half + GAP,
        ..left
    };
    let note = match edges.iter().any(is_seam) {
        true => "thicker: more; dotted: a seam",
        false => "thicker: more",
    };
    caption(&mut out, &left, "Moves of the plan", note);
    view(&left, true).moves(&mut out);
    let note = "arrows: flow on the tree; dark: high potential";
    caption(&mut out, &right, "Spanning tree and potential", note);
    view(&right, true).tree(&mut out);

    for (k, time) in FRAMES.into_iter().enumerate() {
        let frame = Panel {
            left: MARGIN + k as f64 * (fifth + GAP),
            top: low_row,
            width: fifth,
            height: short,
        };
        let name = match k {
            0 => "Before".to_string(),
            4 => "After".to_string(),
            _ => format!("{:.0} % of the way", time * 100.0),
        };
        caption(&mut out, &frame, &name, "");
        view(&frame, false).frame(&mut out, time);
    }
    out.push_str("</svg>\n");
    out
}

fn header(out: &mut String, drawing: &Drawing, answer: &Answer, edges: &[Edge]) {
    let title = match drawing.title.as_str() {
        "" => "A patch",
        title => title,
    };
    let kind = match drawing.patch.given_tree() {
        Some(_) => "given tree",
        None => "best answer",
    };
    let facts = format!(
        "{kind}: cost {}, {}, {}, {}",
        grouped(answer.cost),
        counted(answer.moves as usize, "move", "moves"),
        counted(answer.vertices(), "vertex", "vertices"),
        counted(edges.len(), "edge", "edges"),
    );
    text(out, (MARGIN, 46.0), 24.0, INK, "start", 600, &escape(title));
    text(out, (MARGIN, 72.0), 14.0, FAINT, "start", 400, &facts);

    // The legend, at the right.
    let y = 41.0;
    let (before, after) = (colour(0.0), colour(1.0));
    let _ = write!(
        out,
        "<circle cx=\"{}\" cy=\"{y}\" r=\"8\" fill=\"{before}\" fill-opacity=\"0.85\"/>\n\
         <circle cx=\"{}\" cy=\"{y}\" r=\"8\" fill=\"none\" stroke=\"{after}\" stroke-width=\"3\"/>\n",
        WIDTH - 196.0,
        WIDTH - 102.0
    );
    text(out, (WIDTH - 182.0, y + 5.0), 14.0, INK, "start", 400, "before");
    text(out, (WIDTH - 87.0, y + 5.0), 14.0, INK, "start", 400, "after");
    let note = "areas show amounts";
    text(out, (WIDTH - MARGIN, 72.0), 13.0, FAINT, "end", 400, note);
}

fn caption(out: &mut String, panel: &Panel, name: &str, note: &str) {
    let Panel {
        left,
        top,
        width,
        height,
    } = panel;
    let line = top - 10.0;
    text(out, (left + 2.0, line), 14.0, INK, "start", 600, name);
    text(out, (left + width - 2.0, line), 12.0, FAINT, "end", 400, note);
    let _ = writeln!(
        out,
        "<rect x=\"{left:.1}\" y=\"{top:.1}\" width=\"{width:.1}\" height=\"{height:.1}\" rx=\"8\" \
         fill=\"white\" stroke=\"#eadfd6\"/>"
    );
}

impl View<'_> {
    /// The faces and edges of the patch.
    fn mesh(&self, out: &mut String) {
        for face in self.faces {
            let corners: Vec<String> = face.iter().map(|&x| pair(self.points[x])).collect();
            let _ = writeln!(out, "<polygon points=\"{}\" fill=\"{SKIN}\"/>", corners.join(" "));
        }
        let thin = if self.labels { 1.6 } else { 1.0 };
        let (seams, skin): (Vec<&Edge>, Vec<&Edge>) = self.edges.iter().partition(|e| is_seam(e));
        self.lines(out, &skin, &format!("stroke=\"{MESH}\" stroke-width=\"{thin}\""));
        if !seams.is_empty() {
            let dots = format!(
                "class=\"seam\" stroke=\"{SEAM}\" stroke-width=\"{:.1}\" stroke-linecap=\"round\" stroke-dasharray=\"0 {:.1}\"",
                1.6 * thin,
                3.2 * thin
            );
            self.lines(out, &seams, &dots);
        }
    }

    /// Some edges as one path.
    fn lines(&self, out: &mut String, edges: &[&Edge], style: &str) {
        let mut path = String::new();
        for edge in edges {
            let (p, q) = ends(&self.points, edge);
            let _ = write!(path, "M{} L{} ", pair(p), pair(q));
        }
        let _ = writeln!(out, "<path d=\"{}\" {style} fill=\"none\"/>", path.trim_end());
    }

    fn size(&self, amount: f64) -> f64 {
        self.radius * (amount / self.heaviest).sqrt()
    }

    /// What is on each vertex before and after, with the plan's moves between them.
    fn moves(&self, out: &mut String) {
        self.mesh(out);
        let (mu, nu) = self.drawing.patch.measures();
        for (x, &p) in self.points.iter().enumerate() {
            disc(out, p, self.size(mu[x] as f64), &colour(0.0), 0.85);
            ring(out, p, self.size(nu[x] as f64), &colour(1.0));
        }
        let moves: Vec<_> = self.answer.entries().filter(|e| e.0 != e.1).collect();
        let most = moves.iter().map(|e| e.2).max().unwrap_or(1);
        for (k, &(from, to, amount)) in moves.iter().enumerate() {
            let share = (f64::from(amount) / f64::from(most)).sqrt();
            let label = self.labels.then(|| grouped(amount.into()));
            let broad = if self.labels { 3.0 } else { 2.0 };
            self.arc(out, k, (from, to), 1.0 + broad * share, label);
        }
        if self.labels {
            for (x, &(px, py)) in self.points.iter().enumerate() {
                let amounts = format!("{} \u{2192} {}", grouped(mu[x]), grouped(nu[x]));
                let size = self.size(mu[x].max(nu[x]) as f64).max(10.0);
                plate(out, (px, py + size + 15.0), 12.0, &amounts);
                number(out, (px, py), x);
            }
        }
    }

    /// One move as a bent arrow whose colour goes from before to after.
    fn arc(&self, out: &mut String, k: usize, ends: (usize, usize), width: f64, label: Option<String>) {
        let (p, q) = (self.points[ends.0], self.points[ends.1]);
        let (dx, dy) = (q.0 - p.0, q.1 - p.1);
        let length = dx.hypot(dy).max(1e-6);
        let (ux, uy) = (dx / length, dy / length);
        let bend = 0.2 * length;
        let middle = ((p.0 + q.0) / 2.0 + bend * uy, (p.1 + q.1) / 2.0 - bend * ux);
        // Leave the vertices visible at both ends, as far as the arrow is long enough.
        let room = if self.labels { 13.0_f64 } else { 3.0 }.min(length / 4.0);
        let toward = |a: Point, b: Point, by: f64| {
            let d = (b.0 - a.0).hypot(b.1 - a.1).max(1e-6);
            (a.0 + (b.0 - a.0) / d * by, a.1 + (b.1 - a.1) / d * by)
        };
        let head = 4.0 + 1.8 * width;
        let start = toward(p, middle, room);
        let tip = toward(q, middle, room);
        let neck = toward(tip, middle, head * 0.8);
        let (hx, hy) = ((tip.0 - neck.0) / (head * 0.8), (tip.1 - neck.1) / (head * 0.8));
        let wing = head * 0.5;
        let _ = write!(
            out,
            "<linearGradient id=\"m{k}\" gradientUnits=\"userSpaceOnUse\" x1=\"{:.1}\" y1=\"{:.1}\" x2=\"{:.1}\" \
             y2=\"{:.1}\"><stop offset=\"0\" stop-color=\"{}\"/><stop offset=\"1\" stop-color=\"{}\"/>\
             </linearGradient>\n\
             <path d=\"M{} Q{} {}\" fill=\"none\" stroke=\"url(#m{k})\" stroke-width=\"{width:.1}\" \
             stroke-opacity=\"0.75\" stroke-linecap=\"round\"/>\n\
             <polygon points=\"{} {} {}\" fill=\"{}\"/>\n",
            start.0,
            start.1,
            tip.0,
            tip.1,
            colour(0.0),
            colour(1.0),
            pair(start),
            pair(middle),
            pair(neck),
            pair(tip),
            pair((neck.0 - hy * wing, neck.1 + hx * wing)),
            pair((neck.0 + hy * wing, neck.1 - hx * wing)),
            colour(1.0),
        );
        if let Some(label) = label {
            let apex = (
                (start.0 + 2.0 * middle.0 + tip.0) / 4.0,
                (start.1 + 2.0 * middle.1 + tip.1) / 4.0,
            );
            plate(out, (apex.0, apex.1 + 4.0), 12.0, &label);
        }
    }

    /// The tree with the flow on its edges, the vertices shaded by the potential.
    fn tree(&self, out: &mut String) {
        self.mesh(out);
        let n = self.points.len();
        let root = self.answer.root;
        let flow = self.answer.flow();
        let most = flow.iter().map(|f| f.unsigned_abs()).max().unwrap_or(0).max(1);
        for (x, &carried) in flow.iter().enumerate().filter(|&(x, _)| x != root) {
            let up = self.answer.parents[x] as usize;
            let (p, q) = if carried >= 0 { (x, up) } else { (up, x) };
            let share = (carried.unsigned_abs() as f64 / most as f64).sqrt();
            self.channel(out, self.points[p], self.points[q], share, carried != 0);
        }
        let (low, high) = extent(&self.answer.potential);
        let spot = (self.radius * 0.5).clamp(3.5, 9.0);
        for x in 0..n {
            let level = (f64::from(self.answer.potential[x]) - low) / (high - low).max(1.0);
            let (px, py) = self.points[x];
            let name = match self.labels {
                true => self.answer.potential[x].to_string(),
                false => String::new(),
            };
            // A disc, or as wide as its number needs.
            let high = if self.labels { 13.0 } else { spot };
            let wide = high.max(3.6 * name.len() as f64 + 6.0);
            let _ = writeln!(
                out,
                "<rect x=\"{:.1}\" y=\"{:.1}\" width=\"{:.1}\" height=\"{:.1}\" rx=\"{high:.1}\" \
                 fill=\"{}\" stroke=\"{INK}\" stroke-width=\"{}\"/>",
                px - wide,
                py - high,
                2.0 * wide,
                2.0 * high,
                shade(level),
                if x == root { 3.0 } else { 1.2 },
            );
            let tone = if level > 0.5 { "white" } else { INK };
            text(out, (px, py + 4.0), 12.0, tone, "middle", 600, &name);
        }
        if self.labels && self.edges.len() <= 24 {
            for edge in self.edges {
                let (p, q) = ends(&self.points, edge);
                let at = ((p.0 + q.0) / 2.0, (p.1 + q.1) / 2.0 + 4.0);
                plate(out, at, 12.0, &grouped(edge.length.into()));
            }
        }
    }

    /// A tree edge, with an arrow where something flows.
    fn channel(&self, out: &mut String, p: Point, q: Point, share: f64, flows: bool) {
        let (dx, dy) = (q.0 - p.0, q.1 - p.1);
        let length = dx.hypot(dy).max(1e-6);
        let (ux, uy) = (dx / length, dy / length);
        let width = 1.6 + share * (self.radius * 0.35).clamp(2.0, 7.0);
        let tone = if flows { "#7a5c8e" } else { "#a89c94" };
        let _ = writeln!(
            out,
            "<path d=\"M{} L{}\" stroke=\"{tone}\" stroke-width=\"{width:.1}\" stroke-linecap=\"round\"/>",
            pair(p),
            pair(q)
        );
        if flows && length > 12.0 {
            let at = if self.labels { 0.72 } else { 0.58 };
            let head = (3.5 + width).min(length * 0.3);
            let tip = (p.0 + dx * at + ux * head * 0.6, p.1 + dy * at + uy * head * 0.6);
            let back = (tip.0 - ux * head * 1.2, tip.1 - uy * head * 1.2);
            let _ = writeln!(
                out,
                "<polygon points=\"{} {} {}\" fill=\"{tone}\" stroke=\"white\" stroke-width=\"0.8\"/>",
                pair(tip),
                pair((back.0 - uy * head * 0.8, back.1 + ux * head * 0.8)),
                pair((back.0 + uy * head * 0.8, back.1 - ux * head * 0.8)),
            );
        }
    }

    /// Where everything is at a time from 0 to 1, each part of the plan on its path in the tree.
    fn frame(&self, out: &mut String, time: f64) {
        self.mesh(out);
        let mut heaps: Vec<(Point, f64)> = Vec::new();
        for (from, to, amount) in self.answer.entries() {
            let at = along(&self.answer.tree_path(from, to), &self.points, time);
            let near = |heap: &&mut (Point, f64)| (heap.0 .0 - at.0).hypot(heap.0 .1 - at.1) < 0.5;
            match heaps.iter_mut().find(near) {
                Some(heap) => heap.1 += f64::from(amount),
                None => heaps.push((at, f64::from(amount))),
            }
        }
        heaps.sort_by(|a, b| b.1.total_cmp(&a.1));
        for (at, amount) in heaps {
            disc(out, at, self.size(amount).max(0.8), &colour(time), 0.85);
        }
    }
}

/// The point at a part of a path's drawn length.
fn along(path: &[usize], points: &[Point], time: f64) -> Point {
    let step = |s: &[usize]| {
        let (p, q) = (points[s[0]], points[s[1]]);
        (p, q, (q.0 - p.0).hypot(q.1 - p.1))
    };
    let total: f64 = path.windows(2).map(|s| step(s).2).sum();
    let mut left = total * time;
    for (p, q, length) in path.windows(2).map(step) {
        if left <= length && length > 0.0 {
            let part = left / length;
            return (p.0 + (q.0 - p.0) * part, p.1 + (q.1 - p.1) * part);
        }
        left -= length;
    }
    points[path[path.len() - 1]]
}

/// Where the two ends of an edge are drawn.
fn ends(points: &[Point], edge: &Edge) -> (Point, Point) {
    (points[edge.a as usize], points[edge.b as usize])
}

fn bounds(points: &[Point]) -> (Point, Point) {
    let far = f64::INFINITY;
    points.iter().fold(((far, far), (-far, -far)), |(low, high), p| {
        (
            (low.0.min(p.0), low.1.min(p.1)),
            (high.0.max(p.0), high.1.max(p.1)),
        )
    })
}

/// The places moved and scaled into a panel, with a border left free.
fn fit(places: &[Point], panel: &Panel, border: f64) -> Vec<Point> {
    let (low, high) = bounds(places);
    let (width, height) = (high.0 - low.0, high.1 - low.1);
    let across = (panel.width - 2.0 * border) / width.max(1e-9);
    let down = (panel.height - 2.0 * border) / height.max(1e-9);
    let scale = if width.max(height) < 1e-9 {
        1.0
    } else {
        across.min(down)
    };
    let centre = (panel.left + panel.width / 2.0, panel.top + panel.height / 2.0);
    let middle = ((low.0 + high.0) / 2.0, (low.1 + high.1) / 2.0);
    let place = |p: &Point| {
        (
            centre.0 + (p.0 - middle.0) * scale,
            centre.1 + (p.1 - middle.1) * scale,
        )
    };
    places.iter().map(place).collect()
}

/// A radius for the greatest amount, so that neighbours hardly overlap.
fn radius(points: &[Point], edges: &[Edge]) -> f64 {
    let length = |edge: &Edge| {
        let (p, q) = ends(points, edge);
        (p.0 - q.0).hypot(p.1 - q.1)
    };
    let mut lengths: Vec<f64> = edges.iter().map(length).collect();
    lengths.sort_by(f64::total_cmp);
    lengths
        .get(lengths.len() / 2)
        .map_or(f64::INFINITY, |middle| middle * 0.5)
}

fn extent(potential: &[i32]) -> (f64, f64) {
    let low = potential.iter().min().copied().unwrap_or(0);
    let high = potential.iter().max().copied().unwrap_or(0);
    (f64::from(low), f64::from(high))
}

/// The colour at a time from 0, before, to 1, after.
fn colour(time: f64) -> String {
    mix(BEFORE, AFTER, time)
}

/// The shade of a potential from 0, the lowest, to 1, the highest.
fn shade(level: f64) -> String {
    mix([253, 246, 227], [58, 62, 120], level)
}

fn mix(from: [u8; 3], to: [u8; 3], part: f64) -> String {
    let part = part.clamp(0.0, 1.0);
    let blend = |k: usize| f64::from(from[k]) + (f64::from(to[k]) - f64::from(from[k])) * part;
    format!(
        "#{:02x}{:02x}{:02x}",
        blend(0) as u8,
        blend(1) as u8,
        blend(2) as u8
    )
}

fn disc(out: &mut String, (x, y): Point, radius: f64, fill: &str, opacity: f64) {
    if radius > 0.0 {
        let _ = writeln!(
            out,
            "<circle cx=\"{x:.1}\" cy=\"{y:.1}\" r=\"{radius:.1}\" fill=\"{fill}\" fill-opacity=\"{opacity}\"/>"
        );
    }
}

fn ring(out: &mut String, (x, y): Point, radius: f64, stroke: &str) {
    if radius > 0.0 {
        let _ = writeln!(
            out,
            "<circle cx=\"{x:.1}\" cy=\"{y:.1}\" r=\"{radius:.1}\" fill=\"none\" stroke=\"{stroke}\" \
             stroke-width=\"2.2\"/>"
        );
    }
}

/// A vertex's number on a small white disc.
fn number(out: &mut String, at: Point, x: usize) {
    disc(out, at, 10.0, "white", 0.9);
    text(out, (at.0, at.1 + 4.0), 12.0, INK, "middle", 600, &x.to_string());
}

/// Text on a white plate, readable on lines.
fn plate(out: &mut String, (x, y): Point, size: f64, content: &str) {
    let width = size * (0.58 * content.chars().count() as f64 + 0.4);
    let _ = writeln!(
        out,
        "<rect x=\"{:.1}\" y=\"{:.1}\" width=\"{width:.1}\" height=\"{:.1}\" rx=\"4\" fill=\"white\" \
         fill-opacity=\"0.85\"/>",
        x - width / 2.0,
        y - size,
        size * 1.3
    );
    text(out, (x, y), size, INK, "middle", 400, content);
}

fn text(out: &mut String, (x, y): Point, size: f64, fill: &str, anchor: &str, weight: u32, content: &str) {
    if content.is_empty() {
        return;
    }
    let _ = writeln!(
        out,
        "<text x=\"{x:.1}\" y=\"{y:.1}\" font-size=\"{size}\" font-weight=\"{weight}\" fill=\"{fill}\" \
         text-anchor=\"{anchor}\">{content}</text>"
    );
}

fn pair((x, y): Point) -> String {
    format!("{x:.1},{y:.1}")
}

/// A number with its thousands apart.
fn grouped(value: u64) -> String {
    let digits = value.to_string();
    let mut groups: Vec<&[u8]> = digits.as_bytes().rchunks(3).collect();
    groups.reverse();
    String::from_utf8_lossy(&groups.join(&b","[..])).into_owned()
}

fn counted(count: usize, one: &str, several: &str) -> String {
    format!("{count} {}", if count == 1 { one } else { several })
}

fn escape(content: &str) -> String {
    content
        .replace('&', "&amp;")
        .replace('<', "&lt;")
        .replace('>', "&gt;")
}

#[cfg(test)]
mod tests {
    use super::{along, grouped};

    #[test]
    fn thousands() {
        let numbers = [0, 7, 999, 1_000, 65_535, 1_234_567].map(grouped);
        assert_eq!(numbers, ["0", "7", "999", "1,000", "65,535", "1,234,567"]);
    }

    #[test]
    fn points_along_a_path() {
        let points = [(0.0, 0.0), (2.0, 0.0), (2.0, 6.0)];
        assert_eq!(along(&[0, 1, 2], &points, 0.0), (0.0, 0.0));
        assert_eq!(along(&[0, 1, 2], &points, 0.5), (2.0, 2.0));
        assert_eq!(along(&[0, 1, 2], &points, 1.0), (2.0, 6.0));
        assert_eq!(along(&[1], &points, 0.5), (2.0, 0.0));
    }
}
