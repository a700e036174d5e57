//! The rules of drawing, each replaceable, and the order of the refusals.
use crate::figure::{cubic, line_cells, on_circle, on_ellipse};
use crate::native::Fill;
use crate::pbm::Pbm;
use crate::repaint::{Rectangle, Repainter};
use crate::rescue::Rescuer;
use crate::tally::Tallier;
use crate::writer::Writer;

pub const LEAST: i64 = -16_384;
pub const MOST: i64 = 16_383;

pub type Cell = (i64, i64);
/// A number that refuses, and the field that it names.
pub type Bad = (u32, usize);
/// A cell that a pen tells, and how many it has told then.
pub type Told = (Cell, u64);

#[derive(Clone, Debug, PartialEq)]
pub enum Figure {
    Line(Cell, Cell),
    Circle(Cell, i64),
    Ellipse(Cell, i64, i64),
    Curve([Cell; 3], i64),
    Cubic([Cell; 4], i64),
}

/// A number of the table, and the value and the rectangle that go with it; where there is none, what is lent for it stays
/// as it was.
#[derive(Clone, Copy, Debug, PartialEq)]
pub struct Reply {
    pub number: u32,
    pub value: Option<u64>,
    pub rectangle: Option<Rectangle>,
}

impl Reply {
    pub fn done(value: Option<u64>) -> Reply {
        Reply { number: 0, value, rectangle: None }
    }

    pub fn refused(number: u32) -> Reply {
        Reply { number, value: None, rectangle: None }
    }
}

/// What a sheet is said to be.
#[derive(Clone, Copy, Debug)]
pub struct Shape {
    pub width: i64,
    pub height: i64,
    pub pitch: i64,
}

pub struct Sheet<'a> {
    pub shape: Shape,
    pub bytes: &'a mut [u8],
}

/// The rules that a wrong program would have wrong, each replaceable; `Rules::document()` has them as they are written.
#[derive(Clone, Copy)]
pub struct Rules {
    /// The cells of a line, from the first named end to the second.
    pub line: fn(Cell, Cell) -> Vec<Cell>,
    /// The cells of a line that are tried on a sheet of this shape.
    pub drawn: fn(&Rules, Shape, Cell, Cell) -> Vec<Cell>,
    /// The byte of a cell on a sheet of this shape.
    pub place: fn(Shape, Cell) -> Option<usize>,
    /// Whether a circle of radius r, which the library draws as the ellipse of equal axes, has the cell (x, y) from its centre.
    pub on_circle: fn(i64, Cell) -> bool,
    /// Whether an ellipse of semi-axes a, b has the cell (x, y) from its centre.
    pub on_ellipse: fn(i64, i64, Cell) -> bool,
    /// N for the ith of a cubic's points 0 to n, from one coordinate of the control points.
    pub cubic: fn(i64, i64, [i64; 4]) -> i64,
    /// The whole number that a fraction with a positive denominator becomes.
    pub floor: fn(i64, i64) -> i64,
    /// The cell of a float.
    pub cell: fn(f64) -> Option<i64>,
    /// What a pen of these ends that has told so many cells tells until it is finished.
    pub asked: fn(&Rules, Cell, Cell, u64) -> Vec<Told>,
    /// The number 1 or 15 that refuses a sheet.
    pub no_sheet: fn(&Sheet) -> Option<u32>,
    /// The number 2, 3 or 4 that refuses a figure, and which of its fields, counted from 0, is named.
    pub refusal: fn(&Figure) -> Option<Bad>,
    /// The cells that a fill sets.
    pub territory: fn(&Sheet, Fill) -> Vec<Cell>,
    /// The reply 17 or 18 that refuses a fill on a sheet of this shape with this work slice.
    pub no_fill: fn(Shape, Fill, &mut [u32]) -> Option<Reply>,
    /// The number that refuses a record whose length is under 2.
    pub kindless: u32,
    /// Whether a file is read to its end before the first cell is written.
    pub reads_first: bool,
    /// The offset that a refusal tells, of a field that stands so far into the record at an offset.
    pub offset: fn(usize, usize) -> usize,
    /// What writes a file.
    pub writer: Writer,
    /// What rescues a file.
    pub rescuer: Rescuer,
    /// What tells which rectangle to repaint.
    pub repainter: Repainter,
    /// What keeps a tally of a sheet's rows.
    pub tallier: Tallier,
    /// What writes and reads pictures.
    pub pbm: Pbm,
}

impl Rules {
    pub fn document() -> Rules {
        Rules {
            line: line_cells,
            drawn: |rules, _, from, to| (rules.line)(from, to),
            place,
            on_circle,
            on_ellipse,
            cubic,
            floor: i64::div_euclid,
            cell: crate::metres::cell,
            asked,
            no_sheet,
            refusal,
            territory: crate::territory::territory,
            no_fill: crate::territory::no_fill,
            kindless: 16,
            reads_first: true,
            offset: |record, place| record + place,
            writer: Writer::document(),
            rescuer: Rescuer::document(),
            repainter: Repainter::document(),
            tallier: Tallier::document(),
            pbm: Pbm::document(),
        }
    }

    /// 1, 15, then the figure's own; the value is a line's number of cells on the sheet.
    pub fn draw(&self, sheet: &mut Sheet, ink: u8, figure: &Figure) -> Reply {
        if let Some(number) = (self.no_sheet)(sheet) {
            return self.refused(number);
        }
        if let Some((number, _)) = (self.refusal)(figure) {
            return self.refused(number);
        }
        let painted = self.paint(sheet, ink, figure);
        let cells = matches!(figure, Figure::Line(..)).then_some(painted.set.len() as u64);
        self.done(sheet.shape, cells, &[painted])
    }

    /// Lists a line's cells: 2, then 5.
    pub fn list(&self, xs: &mut [i32], ys: &mut [i32], from: Cell, to: Cell) -> Reply {
        if let Some((number, _)) = (self.refusal)(&Figure::Line(from, to)) {
            return Reply::refused(number);
        }
        let cells = (self.line)(from, to);
        if xs.len() < cells.len() || ys.len() < cells.len() {
            return Reply::refused(5);
        }
        for (i, &(x, y)) in cells.iter().enumerate() {
            xs[i] = x as i32;
            ys[i] = y as i32;
        }
        Reply::done(Some(cells.len() as u64))
    }
}

/// 1 for the sizes and the pitch, then 15 for the slice.
pub fn no_sheet(sheet: &Sheet) -> Option<u32> {
    let Shape { width, height, pitch } = sheet.shape;
    if !(1..=4096).contains(&width) || !(1..=4096).contains(&height) || !(width..=8192).contains(&pitch) {
        return Some(1);
    }
    (sheet.bytes.len() as i64 != pitch * height).then_some(15)
}

/// The first field that is outside its limits, in the order of the payload: the numbers 2, 3, 4 have that order too.
pub fn refusal(figure: &Figure) -> Option<Bad> {
    bad_fields(figure).first().copied()
}

/// Every field that is outside its limits, in the order of the payload.
pub fn bad_fields(figure: &Figure) -> Vec<Bad> {
    let coordinate = |c: i64| (!within(c), 2);
    let axis = |n: i64, other: i64| (!(0..=MOST).contains(&n) || (n == 0 && other != 0), 3);
    let curve = |points: &[Cell], s: i64| -> Vec<(bool, u32)> {
        let coordinates = points.iter().flat_map(|&(x, y)| [x, y]).map(coordinate);
        coordinates.chain([(s > 6, 4)]).collect()
    };
    let fields = match *figure {
        Figure::Line((x0, y0), (x1, y1)) => [x0, y0, x1, y1].map(coordinate).to_vec(),
        Figure::Circle((x, y), r) => vec![coordinate(x), coordinate(y), axis(r, r)],
        Figure::Ellipse((x, y), a, b) => vec![coordinate(x), coordinate(y), axis(a, b), axis(b, a)],
        Figure::Curve(points, s) => curve(&points, s),
        Figure::Cubic(points, s) => curve(&points, s),
    };
    let numbered = fields.into_iter().enumerate();
    numbered.filter_map(|(field, (bad, number))| bad.then_some((number, field))).collect()
}

/// Nothing after the last cell, nor for ends that no pen is begun from.
pub fn asked(rules: &Rules, from: Cell, to: Cell, told: u64) -> Vec<Told> {
    if (rules.refusal)(&Figure::Line(from, to)).is_some() {
        return Vec::new();
    }
    (rules.line)(from, to).into_iter().zip(1..).skip(told as usize).collect()
}

pub fn within(coordinate: i64) -> bool {
    (LEAST..=MOST).contains(&coordinate)
}

pub fn place(Shape { width, height, pitch }: Shape, (x, y): Cell) -> Option<usize> {
    ((0..width).contains(&x) && (0..height).contains(&y)).then_some((y * pitch + x) as usize)
}

#[cfg(test)]
mod tests {
    use super::*;

    #[test]
    fn sheets_of_the_document() {
        let refused = |len: usize, width: i64, height: i64, pitch: i64| {
            no_sheet(&Sheet { shape: Shape { width, height, pitch }, bytes: &mut vec![0; len] })
        };
        assert_eq!(refused(60, 10, 5, 12), None);
        assert_eq!(refused(50, 10, 5, 10), None);
        assert_eq!(refused(50, 10, 5, 12), Some(15));
        assert_eq!(refused(58, 10, 5, 12), Some(15));
        assert_eq!(refused(45, 10, 5, 9), Some(1));
        assert_eq!(refused(8192, 10, 1, 8192), None);
        assert_eq!(refused(8193, 10, 1, 8193), Some(1));
        assert_eq!(refused(0, 16, 4096, 1 << 20), Some(1));
        assert_eq!(place(Shape { width: 10, height: 5, pitch: 12 }, (9, 4)), Some(57));
        assert_eq!(place(Shape { width: 10, height: 5, pitch: 12 }, (10, 4)), None);
    }

    #[test]
    fn axes_within_their_limits() {
        let named = |a: i64, b: i64| refusal(&Figure::Ellipse((0, 0), a, b));
        assert_eq!([named(0, 0), named(1, 1), named(16_383, 1)], [None; 3]);
        assert_eq!([named(0, 1), named(0, 16_384), named(16_384, 0), named(-1, 0)], [Some((3, 2)); 4]);
        assert_eq!([named(1, 0), named(1, 16_384), named(1, -1)], [Some((3, 3)); 3]);
        assert_eq!(refusal(&Figure::Circle((0, 0), 0)), None);
        assert_eq!(refusal(&Figure::Circle((0, 0), 16_384)), Some((3, 2)));
    }
}
