//! Writers that are wrong on purpose.
use crate::rule::{Cell, Figure, Rules};
use crate::writer::{append, full, record, Buffer, Writer};

/// Each with what is wrong in it.
pub fn wrong_writers() -> Vec<(&'static str, Rules)> {
    let right = Writer::document();
    let wrong = vec![
        ("a circle is written as an ellipse", Writer { record: circle_as_ellipse, ..right }),
        ("an ellipse of equal axes is written as a circle", Writer { record: ellipse_as_circle, ..right }),
        ("a written length is one too great", Writer { record: one_longer, ..right }),
        ("numbers are written with the higher byte first", Writer { record: higher_first, ..right }),
        ("a coordinate below 0 is written without its sign", Writer { record: unsigned, ..right }),
        ("a point's y is written before its x", Writer { record: y_first, ..right }),
        ("s is written before the points", Writer { record: s_first, ..right }),
        ("a record that fills the buffer exactly is refused", Writer { full: one_spare, ..right }),
        ("the 2 bytes of a record's length need not be free", Writer { full: without_length, ..right }),
        ("a buffer filled above its length has bytes free", Writer { full: free_round, ..right }),
        ("a count that a record would take above 2^64 has bytes free", Writer { full: end_round, ..right }),
        ("a filled count is taken for its lower 32 bits", Writer { full: few_bits, ..right }),
        ("11 is given before 2, 3 and 4", Writer { append: full_first, ..right }),
        ("a refused write moves the count", Writer { append: counts_all, ..right }),
        ("a write that is refused with 11 puts what fits", Writer { append: puts_a_part, ..right }),
        ("a done write leaves the count", Writer { append: counts_none, ..right }),
        ("the byte after a written record is cleared", Writer { append: ends_with_0, ..right }),
        ("of a written s only the lowest byte is looked at", Writer { append: short_s, ..right }),
    ];
    wrong.into_iter().map(|(what, writer)| (what, Rules { writer, ..Rules::document() })).collect()
}

fn circle_as_ellipse(ink: u8, figure: &Figure) -> Vec<u8> {
    match *figure {
        Figure::Circle(centre, r) => record(ink, &Figure::Ellipse(centre, r, r)),
        _ => record(ink, figure),
    }
}

fn ellipse_as_circle(ink: u8, figure: &Figure) -> Vec<u8> {
    match *figure {
        Figure::Ellipse(centre, a, b) if a == b => record(ink, &Figure::Circle(centre, a)),
        _ => record(ink, figure),
    }
}

fn one_longer(ink: u8, figure: &Figure) -> Vec<u8> {
    let mut bytes = record(ink, figure);
    bytes[0] += 1;
    bytes
}

/// All but the ink and s have 2 bytes.
fn higher_first(ink: u8, figure: &Figure) -> Vec<u8> {
    let mut bytes = record(ink, figure);
    let (head, fields) = bytes.split_at_mut(5);
    head.chunks_exact_mut(2).chain(fields.chunks_exact_mut(2)).for_each(<[u8]>::reverse);
    bytes
}

/// The record of a figure whose points are changed.
fn moved(ink: u8, figure: &Figure, change: fn(Cell) -> Cell) -> Vec<u8> {
    let changed = match *figure {
        Figure::Line(from, to) => Figure::Line(change(from), change(to)),
        Figure::Circle(centre, r) => Figure::Circle(change(centre), r),
        Figure::Ellipse(centre, a, b) => Figure::Ellipse(change(centre), a, b),
        Figure::Curve(points, s) => Figure::Curve(points.map(change), s),
        Figure::Cubic(points, s) => Figure::Cubic(points.map(change), s),
    };
    record(ink, &changed)
}

fn unsigned(ink: u8, figure: &Figure) -> Vec<u8> {
    moved(ink, figure, |(x, y)| (x.abs(), y.abs()))
}

fn y_first(ink: u8, figure: &Figure) -> Vec<u8> {
    moved(ink, figure, |(x, y)| (y, x))
}

fn s_first(ink: u8, figure: &Figure) -> Vec<u8> {
    let mut bytes = record(ink, figure);
    if matches!(figure, Figure::Curve(..) | Figure::Cubic(..)) {
        bytes[5..].rotate_right(1);
    }
    bytes
}

fn one_spare(len: u64, filled: u64, more: u64) -> bool {
    full(len, filled, more + 1)
}

fn without_length(len: u64, filled: u64, more: u64) -> bool {
    full(len, filled, more - 2)
}

fn free_round(len: u64, filled: u64, more: u64) -> bool {
    len.wrapping_sub(filled) < more
}

fn end_round(len: u64, filled: u64, more: u64) -> bool {
    filled.wrapping_add(more) > len
}

fn few_bits(len: u64, filled: u64, more: u64) -> bool {
    full(len, filled % (1 << 32), more)
}

fn full_first(rules: &Rules, buffer: &mut Buffer, ink: u8, figure: &Figure) -> u32 {
    if full(buffer.bytes.len() as u64, buffer.filled, record(ink, figure).len() as u64) {
        return 11;
    }
    append(rules, buffer, ink, figure)
}

fn counts_all(rules: &Rules, buffer: &mut Buffer, ink: u8, figure: &Figure) -> u32 {
    let number = append(rules, buffer, ink, figure);
    if number != 0 {
        buffer.filled = buffer.filled.wrapping_add(record(ink, figure).len() as u64);
    }
    number
}

fn puts_a_part(rules: &Rules, buffer: &mut Buffer, ink: u8, figure: &Figure) -> u32 {
    let number = append(rules, buffer, ink, figure);
    if number == 11 {
        let filled = buffer.filled;
        buffer.put(&record(ink, figure));
        buffer.filled = filled;
    }
    number
}

fn counts_none(rules: &Rules, buffer: &mut Buffer, ink: u8, figure: &Figure) -> u32 {
    let filled = buffer.filled;
    let number = append(rules, buffer, ink, figure);
    buffer.filled = filled;
    number
}

fn ends_with_0(rules: &Rules, buffer: &mut Buffer, ink: u8, figure: &Figure) -> u32 {
    let number = append(rules, buffer, ink, figure);
    if number == 0 {
        let after = buffer.bytes.get_mut(buffer.filled as usize);
        after.into_iter().for_each(|byte| *byte = 0);
    }
    number
}

fn short_s(rules: &Rules, buffer: &mut Buffer, ink: u8, figure: &Figure) -> u32 {
    match *figure {
        Figure::Curve(points, s) => append(rules, buffer, ink, &Figure::Curve(points, s % 256)),
        Figure::Cubic(points, s) => append(rules, buffer, ink, &Figure::Cubic(points, s % 256)),
        _ => append(rules, buffer, ink, figure),
    }
}
