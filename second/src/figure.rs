//! Figures in cells: which cells each has.
use crate::repaint::Painted;
use crate::rule::{Cell, Figure, Rules, Shape, Sheet};
use std::mem::replace;

impl Rules {
    /// Inks the figure's cells on the sheet.
    pub fn paint(&self, sheet: &mut Sheet, ink: u8, figure: &Figure) -> Painted {
        let places = self.places(sheet.shape, figure).into_iter();
        let set = places.map(|place| (place, replace(&mut sheet.bytes[place], ink))).collect();
        Painted { figure: figure.clone(), ink, set }
    }

    /// The bytes of the figure's cells on a sheet of this shape.
    pub fn places(&self, shape: Shape, figure: &Figure) -> Vec<usize> {
        match *figure {
            Figure::Circle(centre, r) => {
                self.of_ring(shape, centre, (r, r), |from_centre| (self.on_circle)(r, from_centre))
            }
            Figure::Ellipse(centre, a, b) => {
                self.of_ring(shape, centre, (a, b), |from_centre| (self.on_ellipse)(a, b, from_centre))
            }
            Figure::Line(..) | Figure::Curve(..) | Figure::Cubic(..) => self.of_lines(shape, &self.points(figure)),
        }
    }

    /// The points that the figure's lines join; of a ring none.
    pub fn points(&self, figure: &Figure) -> Vec<Cell> {
        match *figure {
            Figure::Line(from, to) => vec![from, to],
            Figure::Circle(..) | Figure::Ellipse(..) => Vec::new(),
            Figure::Curve(points, s) => self.joined(points, s, quadratic),
            Figure::Cubic(points, s) => self.joined(points, s, self.cubic),
        }
    }

    /// The points 0 to n of a curve of so many control points, whose N is over n to the power of one less.
    fn joined<const P: usize>(&self, points: [Cell; P], s: i64, weighed: fn(i64, i64, [i64; P]) -> i64) -> Vec<Cell> {
        let n: i64 = 1 << s;
        let over = n.pow(P as u32 - 1);
        let at = |i, coordinates| (self.floor)(2 * weighed(n, i, coordinates) + over, 2 * over);
        (0..=n).map(|i| (at(i, points.map(|(x, _)| x)), at(i, points.map(|(_, y)| y)))).collect()
    }

    /// Tries every cell of the lines between each point and the next.
    fn of_lines(&self, shape: Shape, points: &[Cell]) -> Vec<usize> {
        let cells = points.windows(2).flat_map(|pair| (self.drawn)(self, shape, pair[0], pair[1]));
        cells.filter_map(|cell| (self.place)(shape, cell)).collect()
    }

    /// Asks every cell of the sheet that is in the ring's box.
    fn of_ring(&self, shape: Shape, centre: Cell, reach: Cell, has: impl Fn(Cell) -> bool) -> Vec<usize> {
        let near = |centre: i64, reach: i64, side: i64| (centre - reach).max(0)..=(centre + reach).min(side - 1);
        let rows = near(centre.1, reach.1, shape.height);
        let cells = rows.flat_map(|y| near(centre.0, reach.0, shape.width).map(move |x| (x, y)));
        let ring = cells.filter(|(x, y)| has((x - centre.0, y - centre.1)));
        ring.filter_map(|cell| (self.place)(shape, cell)).collect()
    }
}

/// The cells of a line by its rule, which counts from the lesser end.
pub fn line_cells(from: Cell, to: Cell) -> Vec<Cell> {
    if (from.1, from.0) <= (to.1, to.0) {
        cells_from(from, to)
    } else {
        let mut cells = cells_from(to, from);
        cells.reverse();
        cells
    }
}

/// The cells n steps along the longer extent and floor((2nS + L) / (2L)) along the shorter, from one end to the other.
pub fn cells_from(from: Cell, to: Cell) -> Vec<Cell> {
    let extent = ((to.0 - from.0).abs(), (to.1 - from.1).abs());
    let towards = ((to.0 - from.0).signum(), (to.1 - from.1).signum());
    let (longer, shorter) = (extent.0.max(extent.1), extent.0.min(extent.1));
    if longer == 0 {
        return vec![from];
    }
    let cell = |n: i64| {
        let across = (2 * n * shorter + longer).div_euclid(2 * longer);
        let (along_x, along_y) = if extent.0 >= extent.1 { (n, across) } else { (across, n) };
        (from.0 + towards.0 * along_x, from.1 + towards.1 * along_y)
    };
    (0..=longer).map(cell).collect()
}

pub fn on_circle(r: i64, from_centre: Cell) -> bool {
    let (dx, dy) = (from_centre.0.abs(), from_centre.1.abs());
    let (x, y) = (dx.min(dy), dx.max(dy));
    let rest = r * r - x * x;
    (y >= 1 && y * (y - 1) < rest && rest <= y * (y + 1)) || (y == 0 && r == 0)
}

/// Nearest in its column or nearest in its row; with both axes 0, the centre.
pub fn on_ellipse(a: i64, b: i64, (x, y): Cell) -> bool {
    if (a, b) == (0, 0) {
        return (x, y) == (0, 0);
    }
    in_column(a, b, (x, y)) || in_column(b, a, (y, x))
}

/// Whether the cell is the one of its column that is nearest to the ellipse; with axes and coordinates exchanged, of its row.
pub fn in_column(a: i64, b: i64, from_centre: Cell) -> bool {
    let (x, y) = (from_centre.0.abs(), from_centre.1.abs());
    let edge = |odd: i64| a * a * odd * odd;
    let height = 4 * b * b * (a * a - x * x);
    x <= a && y <= b && height < edge(2 * y + 1) && (y == 0 || edge(2 * y - 1) <= height)
}

/// N for one coordinate of the ith point, by the formula of each degree.
fn quadratic(n: i64, i: i64, [c0, c1, c2]: [i64; 3]) -> i64 {
    (n - i).pow(2) * c0 + 2 * i * (n - i) * c1 + i.pow(2) * c2
}

pub fn cubic(n: i64, i: i64, [c0, c1, c2, c3]: [i64; 4]) -> i64 {
    (n - i).pow(3) * c0 + 3 * i * (n - i).pow(2) * c1 + 3 * i.pow(2) * (n - i) * c2 + i.pow(3) * c3
}

#[cfg(test)]
mod tests {
    use super::*;
    use crate::rule::{refusal, within, Sheet, LEAST, MOST};

    /// The cells of a figure about the middle of a sheet of 40 by 40.
    fn count(figure: Figure) -> usize {
        let mut bytes = vec![0; 1600];
        let mut sheet = Sheet { shape: Shape { width: 40, height: 40, pitch: 40 }, bytes: &mut bytes };
        assert_eq!(Rules::document().draw(&mut sheet, 1, &figure).number, 0);
        bytes.iter().filter(|&&byte| byte == 1).count()
    }

    #[test]
    fn lines_of_the_document() {
        assert_eq!(line_cells((0, 0), (2, 1)), [(0, 0), (1, 1), (2, 1)]);
        assert_eq!(line_cells((2, 1), (0, 0)), [(2, 1), (1, 1), (0, 0)]);
        assert_eq!(line_cells((0, 0), (5, 2)), [(0, 0), (1, 0), (2, 1), (3, 1), (4, 2), (5, 2)]);
        assert_eq!(line_cells((0, 0), (2, -1)), [(0, 0), (1, 0), (2, -1)]);
        assert_eq!(line_cells((0, 0), (1, 2)), [(0, 0), (1, 1), (1, 2)]);
        assert_eq!(line_cells((4, 4), (4, 4)), [(4, 4)]);
    }

    #[test]
    fn rings_of_the_document() {
        assert_eq!(count(Figure::Circle((20, 20), 0)), 1);
        assert_eq!(count(Figure::Circle((20, 20), 2)), 12);
        assert_eq!(count(Figure::Circle((20, 20), 3)), 16);
        assert_eq!(count(Figure::Ellipse((20, 20), 3, 2)), 16);
        assert_eq!(count(Figure::Ellipse((20, 20), 0, 0)), 1);
        for cell in [(0, 2), (1, 2), (2, 1), (3, 1), (3, 0)] {
            assert!(on_ellipse(3, 2, cell));
        }
    }

    #[test]
    fn flat_rings_have_no_holes() {
        assert_eq!(count(Figure::Ellipse((20, 20), 10, 1)), 38);
        assert!((-8..=8).all(|x| on_ellipse(10, 1, (x, 1)) && on_ellipse(10, 1, (x, -1))));
        assert!([9, 10].iter().all(|&x| on_ellipse(10, 1, (x, 0)) && on_ellipse(10, 1, (-x, 0))));
        for (a, b) in (1..=40).flat_map(|a| (1..=40).map(move |b| (a, b))) {
            assert!((-a..=a).all(|x| (-b..=b).any(|y| on_ellipse(a, b, (x, y)))), "a column of {a} by {b}");
            assert!((-b..=b).all(|y| (-a..=a).any(|x| on_ellipse(a, b, (x, y)))), "a row of {a} by {b}");
        }
    }

    #[test]
    fn equal_axes_are_the_circle() {
        for r in 0..=60 {
            let cells = (-r..=r).flat_map(|x| (-r..=r).map(move |y| (x, y)));
            assert!(cells.into_iter().all(|cell| on_ellipse(r, r, cell) == on_circle(r, cell)), "radius {r}");
        }
    }

    #[test]
    fn curves_of_the_document() {
        let joined = |points, s| Rules::document().joined(points, s, quadratic);
        assert_eq!(joined([(0, 0), (2, 4), (4, 0)], 1), [(0, 0), (2, 2), (4, 0)]);
        assert_eq!(joined([(-1, 0), (-1, -1), (0, 0)], 1), [(-1, 0), (-1, 0), (0, 0)]);
        assert_eq!(refusal(&Figure::Curve([(0, 0); 3], 7)), Some((4, 6)));
        assert_eq!(refusal(&Figure::Curve([(0, 0); 3], 6)), None);
        assert_eq!(refusal(&Figure::Line((0, 0), (16_384, 0))), Some((2, 2)));
    }

    fn cubic_points(points: [Cell; 4], s: i64) -> Vec<Cell> {
        Rules::document().joined(points, s, cubic)
    }

    #[test]
    fn cubics_by_hand() {
        assert_eq!(cubic_points([(1, 2), (9, 9), (-9, 9), (3, 4)], 0), [(1, 2), (3, 4)]);
        assert_eq!(cubic_points([(0, 0), (2, 4), (4, 4), (6, 0)], 1), [(0, 0), (3, 3), (6, 0)]);
        // in the middle -0.875 becomes -1, and -0.5 becomes 0
        assert_eq!(cubic_points([(-1, 0), (-1, 0), (-1, -1), (0, -1)], 1), [(-1, 0), (-1, 0), (0, -1)]);
        // beside the middle 4.5 becomes 5, and -4.5 becomes -4; 1.25 becomes 1, and 6.75 becomes 7
        let above = [(0, 0), (1, 5), (4, 6), (7, 5), (8, 0)];
        let below = [(0, 0), (1, -4), (4, -6), (7, -4), (8, 0)];
        assert_eq!(cubic_points([(0, 0), (0, 8), (8, 8), (8, 0)], 2), above);
        assert_eq!(cubic_points([(0, 0), (0, -8), (8, -8), (8, 0)], 2), below);
        // 0.6875, 2.5 and 5.0625 in x, and the same backwards
        assert_eq!(cubic_points([(0, 0), (0, 8), (4, 8), (8, 0)], 2), [(0, 0), (1, 5), (3, 6), (5, 5), (8, 0)]);
        assert_eq!(cubic_points([(8, 0), (4, 8), (0, 8), (0, 0)], 2), [(8, 0), (5, 5), (3, 6), (1, 5), (0, 0)]);
        assert_eq!(refusal(&Figure::Cubic([(0, 0); 4], 7)), Some((4, 8)));
        assert_eq!(refusal(&Figure::Cubic([(0, 0); 4], 6)), None);
        assert_eq!(refusal(&Figure::Cubic([(0, 0), (0, 0), (0, 16_384), (0, 0)], 7)), Some((2, 5)));
    }

    /// For the control values -h, 5h, -5h and h source document 001 prints the polynomial 32ht³ - 48ht² + 18ht - h.
    #[test]
    fn a_cubic_of_source_document_001() {
        assert_eq!(cubic_points([(-3, 0), (15, 4), (-15, 8), (3, 12)], 2), [(-3, 0), (3, 3), (0, 6), (-3, 9), (3, 12)]);
        for (h, s) in (0..=3_276).flat_map(|h| (0..=6).map(move |s| (h, s))) {
            let (n, over) = (1 << s, 1 << (3 * s));
            let printed = |i: i64| 32 * h * i.pow(3) - 48 * h * i.pow(2) * n + 18 * h * i * n.pow(2) - h * over;
            let nearest = |i: i64| (2 * printed(i) + over).div_euclid(2 * over);
            let found = cubic_points([(-h, 0), (5 * h, 0), (-5 * h, 0), (h, 0)], s);
            assert!((0..=n).all(|i| found[i as usize].0 == nearest(i)), "h = {h}, s = {s}");
        }
    }

    #[test]
    fn cubics_between_the_corners_of_the_limits() {
        let limit = |bits: i64| if bits % 2 == 0 { LEAST } else { MOST };
        for (four, s) in (0..256).flat_map(|four| (0..=6).map(move |s| (four, s))) {
            let [p0, p1, p2, p3] = [four, four >> 2, four >> 4, four >> 6].map(|bits| (limit(bits), limit(bits >> 1)));
            let found = cubic_points([p0, p1, p2, p3], s);
            assert_eq!((found[0], found[1 << s]), (p0, p3));
            assert!(found.iter().all(|&(x, y)| within(x) && within(y)));
            let backwards: Vec<Cell> = cubic_points([p3, p2, p1, p0], s).into_iter().rev().collect();
            assert_eq!(backwards, found);
        }
    }
}
