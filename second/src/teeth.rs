//! Second programs that are wrong on purpose: a comparison that is worth anything catches each.
use crate::figure::{cells_from, cubic, in_column, line_cells, on_circle, on_ellipse};
use crate::rule::{asked, bad_fields, no_sheet, place, refusal, Bad, Cell, Figure, Rules, Shape, Sheet, Told};
use crate::teeth_fill::wrong_fills;
use crate::teeth_pbm::wrong_pictures;
use crate::teeth_repaint::wrong_repainters;
use crate::teeth_rescue::wrong_rescuers;
use crate::teeth_tally::wrong_talliers;
use crate::teeth_write::wrong_writers;

/// Each with what is wrong in it.
pub fn wrong_programs() -> Vec<(&'static str, Rules)> {
    let drawn = [wrong_figures(), wrong_fills(), wrong_repainters(), wrong_talliers()].concat();
    [drawn, wrong_writers(), wrong_rescuers(), wrong_pictures()].concat()
}

fn wrong_figures() -> Vec<(&'static str, Rules)> {
    let right = Rules::document();
    vec![
        ("a line walks from the first named end", Rules { line: cells_from, ..right }),
        ("a line leaves out its last cell", Rules { line: without_last, ..right }),
        ("a line is cut at the sheet's edge and the rest drawn afresh", Rules { drawn: cut, ..right }),
        ("a pen marks time after its first cell", Rules { asked: marks_time, ..right }),
        ("a finished pen answers its last cell again", Rules { asked: once_more, ..right }),
        ("an off-sheet x is wrapped into the next row", Rules { place: wrapped, ..right }),
        ("a row begins a width after the one before", Rules { place: unpadded, ..right }),
        ("a line goes on into the padding", Rules { place: in_padding, ..right }),
        ("a circle's outer edge has < for <=", Rules { on_circle: circle_outside_edge, ..right }),
        ("a circle's inner edge has <= for <", Rules { on_circle: circle_inside_edge, ..right }),
        ("an ellipse has no row rule", Rules { on_ellipse: in_column, ..right }),
        ("a flat ellipse has holes, by the slope conditions of the base", Rules { on_ellipse: sloped, ..right }),
        ("an ellipse's cells are nearest in column and row", Rules { on_ellipse: nearest_in_both, ..right }),
        ("a circle above 8,191 is a cell too large", Rules { on_circle: large_circle, ..right }),
        ("an ellipse above 8,191 is a cell too wide", Rules { on_ellipse: large_ellipse, ..right }),
        ("a curve's division drops the fraction", Rules { floor: |n, d| n / d, ..right }),
        ("a cubic has 1 - t³ for (1 - t)³", Rules { cubic: cube_within, ..right }),
        ("a cubic's inner control points are exchanged", Rules { cubic: exchanged, ..right }),
        ("a cubic's half is that of n²", Rules { cubic: half_of_square, ..right }),
        ("a cubic is weighed in 32 bits", Rules { cubic: |n, i, points| cubic(n, i, points) as i32 as i64, ..right }),
        ("a cell in metres drops the fraction", Rules { cell: dropped, ..right }),
        ("a cell in metres is the nearest", Rules { cell: nearest, ..right }),
        ("a coordinate of 16,384 is taken for 16,383", Rules { refusal: one_more, ..right }),
        ("a radius is refused before a coordinate", Rules { refusal: radius_first, ..right }),
        ("a single semi-axis of 0 is drawn", Rules { refusal: flat, ..right }),
        ("of a single semi-axis of 0 the other is named", Rules { refusal: other_named, ..right }),
        ("a semi-axis of 0 beside one above 16,383 is not named", Rules { refusal: larger_named, ..right }),
        ("an ellipse with both axes 0 is refused", Rules { refusal: no_centre, ..right }),
        ("an ellipse with both axes 0 has no cell", Rules { on_ellipse: from_one, ..right }),
        ("a circle of radius 0 is refused", Rules { refusal: no_point, ..right }),
        ("a curve's middle control point may be outside the limits", Rules { refusal: middle_free, ..right }),
        ("a cubic's third control point may be outside the limits", Rules { refusal: third_free, ..right }),
        ("s = 7 is drawn", Rules { refusal: seventh, ..right }),
        ("a file is drawn as it is read", Rules { reads_first: false, ..right }),
        ("a slice of another length is refused as a bad size", Rules { no_sheet: one_number, ..right }),
        ("a pitch one less than the width is refused as a bad slice", Rules { no_sheet: narrow, ..right }),
        ("a pitch of 8,193 is taken", Rules { no_sheet: one_byte_wider, ..right }),
        ("a pitch whose product of 32 bits is the slice's length is no bad size", Rules { no_sheet: wraps, ..right }),
        ("a slice is to have width x height bytes", Rules { no_sheet: by_width, ..right }),
        ("a length under 2 is refused as that of another kind", Rules { kindless: 10, ..right }),
        ("a refused file tells offset 0", Rules { offset: |_, _| 0, ..right }),
        ("a refused file tells the record's offset", Rules { offset: |record, _| record, ..right }),
        ("a refused file tells the last bad field", Rules { refusal: last_bad, ..right }),
    ]
}

pub fn without_last(from: Cell, to: Cell) -> Vec<Cell> {
    let mut cells = line_cells(from, to);
    cells.pop();
    cells
}

fn cut(_: &Rules, shape: Shape, from: Cell, to: Cell) -> Vec<Cell> {
    let mut cells = line_cells(from, to);
    cells.retain(|&cell| place(shape, cell).is_some());
    match cells[..] {
        [first, .., last] => line_cells(first, last),
        _ => cells,
    }
}

fn marks_time(rules: &Rules, from: Cell, to: Cell, told: u64) -> Vec<Told> {
    let cells = asked(rules, from, to, told);
    cells.iter().map(|_| cells[0]).collect()
}

fn once_more(rules: &Rules, from: Cell, to: Cell, told: u64) -> Vec<Told> {
    let mut cells = asked(rules, from, to, told);
    cells.extend(cells.last().copied());
    cells
}

fn wrapped(Shape { height, pitch, .. }: Shape, (x, y): Cell) -> Option<usize> {
    let place = y * pitch + x;
    (0..pitch * height).contains(&place).then_some(place as usize)
}

fn unpadded(shape: Shape, cell: Cell) -> Option<usize> {
    place(Shape { pitch: shape.width, ..shape }, cell)
}

fn in_padding(shape: Shape, cell: Cell) -> Option<usize> {
    place(Shape { width: shape.pitch, ..shape }, cell)
}

fn circle_outside_edge(r: i64, (x, y): Cell) -> bool {
    let (x, y) = (x.abs().min(y.abs()), x.abs().max(y.abs()));
    let rest = r * r - x * x;
    (y >= 1 && y * (y - 1) < rest && rest < y * (y + 1)) || (y == 0 && r == 0)
}

fn circle_inside_edge(r: i64, (x, y): Cell) -> bool {
    let (x, y) = (x.abs().min(y.abs()), x.abs().max(y.abs()));
    let rest = r * r - x * x;
    (y >= 1 && y * (y - 1) <= rest && rest <= y * (y + 1)) || (y == 0 && r == 0)
}

pub fn sloped(a: i64, b: i64, (x, y): Cell) -> bool {
    let (across, down) = (b * b * x.abs(), a * a * y.abs());
    (across <= down && in_column(a, b, (x, y))) || (across >= down && in_column(b, a, (y, x)))
}

pub fn nearest_in_both(a: i64, b: i64, (x, y): Cell) -> bool {
    in_column(a, b, (x, y)) && in_column(b, a, (y, x))
}

fn large_circle(r: i64, cell: Cell) -> bool {
    on_circle(r + i64::from(r > 8191), cell)
}

fn large_ellipse(a: i64, b: i64, cell: Cell) -> bool {
    on_ellipse(a + i64::from(a > 8191), b, cell)
}

fn cube_within(n: i64, i: i64, points: [i64; 4]) -> i64 {
    cubic(n, i, points) + (n.pow(3) - i.pow(3) - (n - i).pow(3)) * points[0]
}

fn exchanged(n: i64, i: i64, [c0, c1, c2, c3]: [i64; 4]) -> i64 {
    cubic(n, i, [c0, c2, c1, c3])
}

/// What is rounded, 2N + n³, becomes 2N + n².
fn half_of_square(n: i64, i: i64, points: [i64; 4]) -> i64 {
    cubic(n, i, points) - (n.pow(3) - n.pow(2)) / 2
}

fn dropped(q: f64) -> Option<i64> {
    crate::metres::cell(q.trunc())
}

fn nearest(q: f64) -> Option<i64> {
    crate::metres::cell((q + 0.5).floor())
}

fn one_more(figure: &Figure) -> Option<Bad> {
    let less = |(x, y): Cell| (if x == 16_384 { 16_383 } else { x }, if y == 16_384 { 16_383 } else { y });
    match *figure {
        Figure::Line(from, to) => refusal(&Figure::Line(less(from), less(to))),
        _ => refusal(figure),
    }
}

fn radius_first(figure: &Figure) -> Option<Bad> {
    match *figure {
        Figure::Circle(_, r) => refusal(&Figure::Circle((0, 0), r)).or_else(|| refusal(figure)),
        _ => refusal(figure),
    }
}

fn flat(figure: &Figure) -> Option<Bad> {
    match *figure {
        Figure::Ellipse(centre, a, b) => refusal(&Figure::Ellipse(centre, a.max(1), b.max(1))),
        _ => refusal(figure),
    }
}

fn other_named(figure: &Figure) -> Option<Bad> {
    match (figure, refusal(figure)) {
        (Figure::Ellipse(_, 0, 1..), Some((3, 2))) => Some((3, 3)),
        (Figure::Ellipse(_, 1.., 0), Some((3, 3))) => Some((3, 2)),
        (_, found) => found,
    }
}

fn larger_named(figure: &Figure) -> Option<Bad> {
    match (figure, refusal(figure)) {
        (Figure::Ellipse(_, 0, 16_384..), Some((3, 2))) => Some((3, 3)),
        (_, found) => found,
    }
}

fn no_centre(figure: &Figure) -> Option<Bad> {
    refusal(figure).or(matches!(figure, Figure::Ellipse(_, 0, 0)).then_some((3, 2)))
}

fn no_point(figure: &Figure) -> Option<Bad> {
    refusal(figure).or(matches!(figure, Figure::Circle(_, 0)).then_some((3, 2)))
}

fn from_one(a: i64, b: i64, (x, y): Cell) -> bool {
    in_column(a, b, (x, y)) || in_column(b, a, (y, x))
}

/// Within the limits for every number of 16 bits; larger ones stay refused, as their lines would not end in good time.
fn halved((x, y): Cell) -> Cell {
    (x / 2, y / 2)
}

fn middle_free(figure: &Figure) -> Option<Bad> {
    match *figure {
        Figure::Curve([p0, p1, p2], s) => refusal(&Figure::Curve([p0, halved(p1), p2], s)),
        _ => refusal(figure),
    }
}

fn third_free(figure: &Figure) -> Option<Bad> {
    match *figure {
        Figure::Cubic([p0, p1, p2, p3], s) => refusal(&Figure::Cubic([p0, p1, halved(p2), p3], s)),
        _ => refusal(figure),
    }
}

fn seventh(figure: &Figure) -> Option<Bad> {
    match *figure {
        Figure::Curve(points, 7) => refusal(&Figure::Curve(points, 6)),
        Figure::Cubic(points, 7) => refusal(&Figure::Cubic(points, 6)),
        _ => refusal(figure),
    }
}

fn one_number(sheet: &Sheet) -> Option<u32> {
    no_sheet(sheet).map(|_| 1)
}

fn narrow(sheet: &Sheet) -> Option<u32> {
    let Shape { width, pitch, .. } = sheet.shape;
    no_sheet(sheet).map(|number| if pitch == width - 1 { 15 } else { number })
}

/// Whether nothing is wrong with width and height.
fn sides(Shape { width, height, .. }: Shape) -> bool {
    [width, height].iter().all(|side| (1..=4096).contains(side))
}

fn one_byte_wider(sheet: &Sheet) -> Option<u32> {
    let Shape { height, pitch, .. } = sheet.shape;
    let taken = sides(sheet.shape) && pitch == 8193 && sheet.bytes.len() as i64 == pitch * height;
    no_sheet(sheet).filter(|_| !taken)
}

fn wraps(sheet: &Sheet) -> Option<u32> {
    let Shape { height, pitch, .. } = sheet.shape;
    let taken =
        sides(sheet.shape) && pitch * height >= 1 << 32 && pitch * height % (1 << 32) == sheet.bytes.len() as i64;
    no_sheet(sheet).map(|number| if taken { 15 } else { number })
}

fn by_width(sheet: &Sheet) -> Option<u32> {
    let Shape { width, height, .. } = sheet.shape;
    no_sheet(sheet).or((sheet.bytes.len() as i64 != width * height).then_some(15))
}

fn last_bad(figure: &Figure) -> Option<Bad> {
    let bad = bad_fields(figure);
    let (number, _) = *bad.first()?;
    bad.into_iter().rfind(|&(other, _)| other == number)
}
