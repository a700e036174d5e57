//! Drawings that tell a wrong rectangle on purpose.
use crate::repaint::{over, rectangle, Painted, Rectangle, Repainter, NONE};
use crate::rule::{Cell, Figure, Rules, Shape};
use std::slice::from_ref;

/// The first and the last column, and the first and the last row.
type Reach = [[i64; 2]; 2];

/// Each with what is wrong in it.
pub fn wrong_repainters() -> Vec<(&'static str, Rules)> {
    let right = Repainter::document();
    let wrong = vec![
        ("cells that had the ink already are not repainted", Repainter { told: changed, ..right }),
        ("cells off the sheet are counted, and their rectangle is cut", Repainter { told: unclipped, ..right }),
        ("a line's rectangle is that of its ends, cut", Repainter { told: of_ends, ..right }),
        ("a ring's rectangle is that of its axes, cut", Repainter { told: of_axes, ..right }),
        ("a curve's rectangle is that of its control points, cut", Repainter { told: of_control, ..right }),
        ("a ring's rows without a cell on the sheet are repainted", Repainter { told: ring_rows, ..right }),
        ("the left half of a ring is not repainted", Repainter { told: right_half, ..right }),
        ("of a curve only the first line is repainted", Repainter { told: first_line, ..right }),
        ("of a file only the last record is repainted", Repainter { told: last_record, ..right }),
        ("of a file only the records after one off the sheet are repainted", Repainter { told: afresh, ..right }),
        ("a record off the sheet is joined as a rectangle at (0, 0)", Repainter { told: zeros_joined, ..right }),
        ("a cell in the padding is repainted", Repainter { told: in_padding, ..right }),
        ("rows are taken for as long as the sheet is wide", Repainter { told: unpadded, ..right }),
        ("a rectangle is a column too narrow", Repainter { told: narrow, ..right }),
        ("the last column is told for the width", Repainter { told: last_column, ..right }),
        ("the rectangle's x and y are exchanged", Repainter { told: corner_exchanged, ..right }),
        ("the rectangle's width and height are exchanged", Repainter { told: sides_exchanged, ..right }),
        ("a rectangle's numbers have 8 bits", Repainter { told: few_bits, ..right }),
        ("a rectangle of one cell is told as none", Repainter { told: no_point, ..right }),
        ("none is told as the whole sheet", Repainter { told: whole_sheet, ..right }),
        ("none leaves the box as it was", Repainter { told: left, ..right }),
        ("a refused figure clears the box", Repainter { refused: Some(NONE), ..right }),
        ("a refused file clears the box", Repainter { refused_file: Some(NONE), ..right }),
    ];
    wrong.into_iter().map(|(what, repainter)| (what, Rules { repainter, ..Rules::document() })).collect()
}

fn changed(_: &Rules, shape: Shape, painted: &[Painted]) -> Option<Rectangle> {
    let changed = |one: &Painted| {
        let ink = one.ink;
        one.set.clone().into_iter().filter(move |&(_, before)| before != ink)
    };
    Some(rectangle(shape, painted.iter().flat_map(changed).map(|(place, _)| place)))
}

/// The columns and rows between these cells.
fn between(cells: &[Cell]) -> Reach {
    let ends = |numbers: Vec<i64>| [numbers.iter().min(), numbers.iter().max()].map(|end| *end.expect("a cell"));
    [ends(cells.iter().map(|cell| cell.0).collect()), ends(cells.iter().map(|cell| cell.1).collect())]
}

/// The columns and rows of a figure, also off the sheet.
pub fn reach(rules: &Rules, figure: &Figure) -> Reach {
    match *figure {
        Figure::Circle((x, y), r) => between(&[(x - r, y - r), (x + r, y + r)]),
        Figure::Ellipse((x, y), a, b) => between(&[(x - a, y - b), (x + a, y + b)]),
        Figure::Line(..) | Figure::Curve(..) | Figure::Cubic(..) => between(&rules.points(figure)),
    }
}

/// What is on the sheet of these columns and rows.
fn cut(shape: Shape, [columns, rows]: Reach) -> Rectangle {
    let [left, right] = [columns[0].max(0), columns[1].min(shape.width - 1)];
    let [top, bottom] = [rows[0].max(0), rows[1].min(shape.height - 1)];
    if left > right || top > bottom {
        return NONE;
    }
    [left, top, right - left + 1, bottom - top + 1].map(|number| number as u32)
}

/// The rectangle over each figure's own, which is made of the figure and its right one.
fn each(shape: Shape, painted: &[Painted], own: impl Fn(&Painted, Rectangle) -> Rectangle) -> Option<Rectangle> {
    let each = painted.iter().map(|one| own(one, over(shape, from_ref(one)))).filter(|own| *own != NONE);
    let corners = each.flat_map(|[x, y, width, height]| [(x, y), (x + width - 1, y + height - 1)]);
    Some(rectangle(shape, corners.map(|(x, y)| y as usize * shape.pitch as usize + x as usize)))
}

fn unclipped(rules: &Rules, shape: Shape, painted: &[Painted]) -> Option<Rectangle> {
    each(shape, painted, |one, _| cut(shape, reach(rules, &one.figure)))
}

fn of_ends(rules: &Rules, shape: Shape, painted: &[Painted]) -> Option<Rectangle> {
    each(shape, painted, |one, right| match one.figure {
        Figure::Line(..) => cut(shape, reach(rules, &one.figure)),
        _ => right,
    })
}

fn of_axes(rules: &Rules, shape: Shape, painted: &[Painted]) -> Option<Rectangle> {
    each(shape, painted, |one, right| match one.figure {
        Figure::Circle(..) | Figure::Ellipse(..) => cut(shape, reach(rules, &one.figure)),
        _ => right,
    })
}

fn of_control(_: &Rules, shape: Shape, painted: &[Painted]) -> Option<Rectangle> {
    each(shape, painted, |one, right| match one.figure {
        Figure::Curve(points, _) => cut(shape, between(&points)),
        Figure::Cubic(points, _) => cut(shape, between(&points)),
        _ => right,
    })
}

fn ring_rows(rules: &Rules, shape: Shape, painted: &[Painted]) -> Option<Rectangle> {
    each(shape, painted, |one, right| match one.figure {
        Figure::Circle(..) | Figure::Ellipse(..) => {
            let ([x, _, width, _], [_, rows]) = (right.map(i64::from), reach(rules, &one.figure));
            cut(shape, [[x, x + width - 1], rows])
        }
        _ => right,
    })
}

fn right_half(_: &Rules, shape: Shape, painted: &[Painted]) -> Option<Rectangle> {
    each(shape, painted, |one, right| match one.figure {
        Figure::Circle((x, _), _) | Figure::Ellipse((x, _), ..) => {
            let places = one.set.iter().map(|&(place, _)| place);
            rectangle(shape, places.filter(|&place| place as i64 % shape.pitch >= x))
        }
        _ => right,
    })
}

fn first_line(rules: &Rules, shape: Shape, painted: &[Painted]) -> Option<Rectangle> {
    each(shape, painted, |one, right| match rules.points(&one.figure)[..] {
        [from, to, ..] => rectangle(shape, rules.places(shape, &Figure::Line(from, to))),
        _ => right,
    })
}

fn last_record(_: &Rules, shape: Shape, painted: &[Painted]) -> Option<Rectangle> {
    Some(painted.last().map_or(NONE, |last| over(shape, from_ref(last))))
}

fn afresh(_: &Rules, shape: Shape, painted: &[Painted]) -> Option<Rectangle> {
    painted.rsplit(|one| one.set.is_empty()).next().map(|last| over(shape, last))
}

fn zeros_joined(_: &Rules, shape: Shape, painted: &[Painted]) -> Option<Rectangle> {
    let each = painted.iter().map(|one| over(shape, from_ref(one)));
    let joined = each.reduce(|[x0, y0, width0, height0], [x1, y1, width1, height1]| {
        let (x, y) = (x0.min(x1), y0.min(y1));
        [x, y, (x0 + width0).max(x1 + width1) - x, (y0 + height0).max(y1 + height1) - y]
    });
    Some(joined.unwrap_or(NONE))
}

fn in_padding(rules: &Rules, shape: Shape, painted: &[Painted]) -> Option<Rectangle> {
    let padded = Shape { width: shape.pitch, ..shape };
    Some(rectangle(shape, painted.iter().flat_map(|one| rules.places(padded, &one.figure))))
}

fn unpadded(_: &Rules, shape: Shape, painted: &[Painted]) -> Option<Rectangle> {
    let rows = shape.pitch * shape.height / shape.width + 1;
    Some(over(Shape { pitch: shape.width, height: rows, ..shape }, painted))
}

/// The right rectangle, changed where it is not none.
fn otherwise(shape: Shape, painted: &[Painted], change: fn(Rectangle) -> Rectangle) -> Option<Rectangle> {
    let right = over(shape, painted);
    Some(if right == NONE { NONE } else { change(right) })
}

fn narrow(_: &Rules, shape: Shape, painted: &[Painted]) -> Option<Rectangle> {
    otherwise(shape, painted, |[x, y, width, height]| [x, y, width - 1, height])
}

fn last_column(_: &Rules, shape: Shape, painted: &[Painted]) -> Option<Rectangle> {
    otherwise(shape, painted, |[x, y, width, height]| [x, y, x + width - 1, height])
}

fn corner_exchanged(_: &Rules, shape: Shape, painted: &[Painted]) -> Option<Rectangle> {
    otherwise(shape, painted, |[x, y, width, height]| [y, x, width, height])
}

fn sides_exchanged(_: &Rules, shape: Shape, painted: &[Painted]) -> Option<Rectangle> {
    otherwise(shape, painted, |[x, y, width, height]| [x, y, height, width])
}

fn few_bits(_: &Rules, shape: Shape, painted: &[Painted]) -> Option<Rectangle> {
    otherwise(shape, painted, |right| right.map(|number| number % 256))
}

fn no_point(_: &Rules, shape: Shape, painted: &[Painted]) -> Option<Rectangle> {
    otherwise(shape, painted, |right| if right[2..] == [1, 1] { NONE } else { right })
}

fn whole_sheet(_: &Rules, shape: Shape, painted: &[Painted]) -> Option<Rectangle> {
    let right = over(shape, painted);
    Some(if right == NONE { [0, 0, shape.width as u32, shape.height as u32] } else { right })
}

fn left(_: &Rules, shape: Shape, painted: &[Painted]) -> Option<Rectangle> {
    Some(over(shape, painted)).filter(|right| *right != NONE)
}
