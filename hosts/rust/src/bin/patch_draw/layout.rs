//! Where to draw the vertices, and the faces between the edges.

use weight_mover::Edge;

/// A point of the drawing, x to the right and y down.
pub type Point = (f64, f64);

/// Places for the vertices of a connected graph, so that their distances in the drawing are near those in
/// the graph: classical scaling first, then stress majorization.
pub fn places(n: usize, edges: &[Edge]) -> Vec<Point> {
    if n == 1 {
        return vec![(0.0, 0.0)];
    }
    let wanted = distances(n, edges);
    let mut places = scaling(n, &wanted);
    for _ in 0..300 {
        places = (0..n).map(|i| majorize(i, n, &places, &wanted)).collect();
    }
    // Vertex 0 to the left and above.
    let flip = |at: f64| if at > 1e-6 { -1.0 } else { 1.0 };
    let (across, down) = (flip(places[0].0), flip(places[0].1));
    places.iter().map(|p| (p.0 * across, p.1 * down)).collect()
}

/// The middle one of some lengths, 1 if there are none.
fn median(mut lengths: Vec<f64>) -> f64 {
    lengths.sort_by(f64::total_cmp);
    lengths.get(lengths.len() / 2).copied().unwrap_or(1.0)
}

/// An edge between two vertices that are in one place.
pub fn is_seam(edge: &Edge) -> bool {
    edge.length == 0
}

/// Opens the seams: welded vertices that are drawn closer together than a third of a usual edge part, each
/// towards its own piece where there is one.
pub fn open_seams(places: &mut [Point], edges: &[Edge]) {
    let drawn = |places: &[Point], e: &Edge| {
        let (p, q) = (places[e.a as usize], places[e.b as usize]);
        (q.0 - p.0).hypot(q.1 - p.1)
    };
    let (seams, others): (Vec<&Edge>, Vec<&Edge>) = edges.iter().partition(|e| is_seam(e));
    let usual = median(
        others
            .iter()
            .map(|e| drawn(places, e))
            .filter(|d| *d > 0.0)
            .collect(),
    );
    let least = usual / 3.0;
    let closed = |e: &&Edge| drawn(places, e) < least;
    let narrow: Vec<&Edge> = seams.into_iter().filter(closed).collect();
    for e in &narrow {
        for x in [e.a as usize, e.b as usize] {
            let own = others.iter().filter_map(|o| match x {
                x if x == o.a as usize => Some(places[o.b as usize]),
                x if x == o.b as usize => Some(places[o.a as usize]),
                _ => None,
            });
            let own: Vec<Point> = own.collect();
            for near in &own {
                let part = 0.1 / own.len() as f64;
                places[x].0 += part * (near.0 - places[x].0);
                places[x].1 += part * (near.1 - places[x].1);
            }
        }
    }
    for _ in 0..100 {
        for e in &narrow {
            let (a, b) = (e.a as usize, e.b as usize);
            let (mut dx, mut dy) = (places[b].0 - places[a].0, places[b].1 - places[a].1);
            if dx.hypot(dy) < 1e-9 * usual {
                // No way out shows: a different one for each pair.
                let angle = 2.4 * a as f64 + 0.7 * b as f64;
                (dx, dy) = (angle.cos(), angle.sin());
            }
            let now = drawn(places, e);
            let by = (least - now).max(0.0) / 2.0 / dx.hypot(dy);
            places[a] = (places[a].0 - by * dx, places[a].1 - by * dy);
            places[b] = (places[b].0 + by * dx, places[b].1 + by * dy);
        }
    }
}

/// Distances in the graph, with lengths drawn towards their median: none so short that vertices collide.
fn distances(n: usize, edges: &[Edge]) -> Vec<f64> {
    let long = edges.iter().filter(|e| !is_seam(e));
    let median = median(long.map(|e| f64::from(e.length)).collect());
    let mut d = vec![f64::INFINITY; n * n];
    for &Edge { a, b, length } in edges {
        let (a, b) = (a as usize, b as usize);
        let length = (f64::from(length) / median).clamp(0.5, 2.5);
        d[a * n + b] = length;
        d[b * n + a] = length;
    }
    for i in 0..n {
        d[i * n + i] = 0.0;
    }
    for k in 0..n {
        for i in 0..n {
            for j in 0..n {
                d[i * n + j] = d[i * n + j].min(d[i * n + k] + d[k * n + j]);
            }
        }
    }
    d
}

/// The two leading coordinates of classical multidimensional scaling, by power iteration.
fn scaling(n: usize, d: &[f64]) -> Vec<Point> {
    let square = |i: usize, j: usize| d[i * n + j] * d[i * n + j];
    let mean = |i: usize| (0..n).map(|j| square(i, j)).sum::<f64>() / n as f64;
    let means: Vec<f64> = (0..n).map(mean).collect();
    let overall = means.iter().sum::<f64>() / n as f64;
    let mut b: Vec<f64> = (0..n * n)
        .map(|k| -0.5 * (square(k / n, k % n) - means[k / n] - means[k % n] + overall))
        .collect();
    let mut axis = || {
        let mut v: Vec<f64> = (0..n).map(|i| (i as f64 * 1.7 + 0.3).sin()).collect();
        let mut value = 0.0;
        for _ in 0..200 {
            let w: Vec<f64> = (0..n)
                .map(|i| (0..n).map(|j| b[i * n + j] * v[j]).sum())
                .collect();
            value = w.iter().map(|x| x * x).sum::<f64>().sqrt();
            if value < 1e-9 {
                return vec![0.0; n];
            }
            v = w.iter().map(|x| x / value).collect();
        }
        for k in 0..n * n {
            b[k] -= value * v[k / n] * v[k % n];
        }
        v.iter().map(|x| x * value.sqrt()).collect::<Vec<f64>>()
    };
    let (x, y) = (axis(), axis());
    x.into_iter().zip(y).collect()
}

/// One step of stress majorization for vertex i, with weights 1 / distance².
fn majorize(i: usize, n: usize, places: &[Point], wanted: &[f64]) -> Point {
    let (mut x, mut y, mut weights) = (0.0, 0.0, 0.0);
    for j in (0..n).filter(|&j| j != i) {
        let want = wanted[i * n + j];
        let weight = 1.0 / (want * want);
        let (dx, dy) = (places[i].0 - places[j].0, places[i].1 - places[j].1);
        let now = dx.hypot(dy);
        let pull = if now > 1e-9 { want / now } else { 0.0 };
        x += weight * (places[j].0 + dx * pull);
        y += weight * (places[j].1 + dy * pull);
        weights += weight;
    }
    (x / weights, y / weights)
}

/// The bounded faces of the drawing, none if two edges cross.
pub fn faces(places: &[Point], edges: &[Edge]) -> Vec<Vec<usize>> {
    let pairs: Vec<(usize, usize)> = edges.iter().map(|e| (e.a as usize, e.b as usize)).collect();
    if pairs.iter().any(|&p| pairs.iter().any(|&q| cross(places, p, q))) {
        return Vec::new();
    }
    // Round each vertex its neighbours by angle; a face keeps turning to the next neighbour.
    let mut around: Vec<Vec<usize>> = vec![Vec::new(); places.len()];
    for &(a, b) in &pairs {
        around[a].push(b);
        around[b].push(a);
    }
    for (x, neighbours) in around.iter_mut().enumerate() {
        let angle = |y: usize| (places[y].1 - places[x].1).atan2(places[y].0 - places[x].0);
        neighbours.sort_by(|&y, &z| angle(y).total_cmp(&angle(z)));
    }
    let mut seen: Vec<(usize, usize)> = Vec::new();
    let mut faces = Vec::new();
    for start in pairs.iter().flat_map(|&(a, b)| [(a, b), (b, a)]) {
        let mut face = Vec::new();
        let (mut x, mut y) = start;
        while !seen.contains(&(x, y)) {
            seen.push((x, y));
            face.push(x);
            let turn = around[y].iter().position(|&z| z == x).expect("a neighbour");
            let next = around[y][(turn + 1) % around[y].len()];
            (x, y) = (y, next);
        }
        if face.len() > 2 && area(places, &face) < -1e-9 {
            faces.push(face);
        }
    }
    faces
}

fn area(places: &[Point], face: &[usize]) -> f64 {
    let next = face.iter().cycle().skip(1);
    let sides = face.iter().zip(next).map(|(&x, &y)| (places[x], places[y]));
    sides.map(|(p, q)| p.0 * q.1 - q.0 * p.1).sum::<f64>() / 2.0
}

fn cross(places: &[Point], p: (usize, usize), q: (usize, usize)) -> bool {
    if p.0 == q.0 || p.0 == q.1 || p.1 == q.0 || p.1 == q.1 {
        return false;
    }
    let side = |a: usize, b: usize, c: usize| {
        let ((ax, ay), (bx, by), (cx, cy)) = (places[a], places[b], places[c]);
        (bx - ax) * (cy - ay) - (by - ay) * (cx - ax)
    };
    let apart = |(a, b): (usize, usize), (c, d): (usize, usize)| side(a, b, c) * side(a, b, d) < 0.0;
    apart(p, q) && apart(q, p)
}

#[cfg(test)]
mod tests {
    use super::{faces, open_seams, places, Point};
    use weight_mover::Edge;

    fn apart(p: Point, q: Point) -> f64 {
        (q.0 - p.0).hypot(q.1 - p.1)
    }

    #[test]
    fn seams_are_opened() {
        // Two pieces, 0 1 and 2 3, whose borders 1 and 2 were given one place.
        let edges = [(0, 1, 9), (1, 2, 0), (2, 3, 9)].map(Edge::from);
        let mut row = [(0.0, 0.0), (3.0, 0.0), (3.0, 0.0), (6.0, 0.0)];
        open_seams(&mut row, &edges);
        assert!((apart(row[1], row[2]) - 1.0).abs() < 1e-6);
        assert!(row[0].0 < row[1].0 && row[1].0 < row[2].0 && row[2].0 < row[3].0);

        let welded = [(0, 1, 0), (0, 2, 0), (1, 2, 0)].map(Edge::from);
        let mut heap = [(5.0, 5.0); 3];
        open_seams(&mut heap, &welded);
        for (x, y) in [(0, 1), (0, 2), (1, 2)] {
            assert!(apart(heap[x], heap[y]) > 0.3);
        }
    }

    #[test]
    fn other_places_stay() {
        let edges = [(0, 1, 9), (1, 2, 0)].map(Edge::from);
        let given = [(0.0, 0.0), (3.0, 0.0), (3.0, 2.0)];
        let mut row = given;
        open_seams(&mut row, &edges);
        assert_eq!(row, given);
    }

    #[test]
    fn a_line_is_drawn_straight() {
        let line = places(3, &[(0, 1, 10), (1, 2, 10)].map(Edge::from));
        assert!(line.iter().all(|p| p.1.abs() < 1e-3));
        assert!(((line[0].0 - line[2].0).abs() - 2.0).abs() < 1e-3);
    }

    #[test]
    fn bounded_faces() {
        let square = [(0.0, 0.0), (1.0, 0.0), (1.0, 1.0), (0.0, 1.0)];
        let ring = [(0, 1, 1), (0, 3, 1), (1, 2, 1), (2, 3, 1)].map(Edge::from);
        assert_eq!(faces(&square, &ring).len(), 1);
        let one_diagonal = [(0, 1, 1), (0, 2, 1), (0, 3, 1), (1, 2, 1), (2, 3, 1)].map(Edge::from);
        assert_eq!(faces(&square, &one_diagonal).len(), 2);
        let crossing = [(0, 1, 1), (0, 2, 1), (0, 3, 1), (1, 2, 1), (1, 3, 1), (2, 3, 1)].map(Edge::from);
        assert_eq!(faces(&square, &crossing).len(), 0);
    }
}
