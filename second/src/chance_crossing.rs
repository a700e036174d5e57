//! Boundaries made at random: lines from one side of a sheet to the other, and rings on it, about it and through it.
use crate::crossing::Crossing;
use crate::random::Random;
use crate::rule::{Cell, Figure, Shape, LEAST, MOST};

impl Crossing {
    pub fn at_random(seed: u64) -> Crossing {
        let random = &mut Random(seed);
        let mut side = || random.one_of(&[3, 12, 12, 40]);
        let most = (side(), side());
        let (width, height) = (random.within(1, most.0), random.within(1, most.1));
        let shape = Shape { width, height, pitch: width + random.within(0, 3) };
        let upright = random.once_in(2);
        let figure = match (random.once_in(2), upright) {
            (true, _) => ring(random, shape),
            (false, true) => {
                let [from, to] = across(random, height, width).map(|(y, x)| (x, y));
                Figure::Line(from, to)
            }
            (false, false) => {
                let [from, to] = across(random, width, height);
                Figure::Line(from, to)
            }
        };
        Crossing { shape, figure, upright, seed: random.number() }
    }
}

/// The ends of a line that spans a side of this length and is no longer across, through a cell of the sheet or near it.
fn across(random: &mut Random, length: i64, height: i64) -> [Cell; 2] {
    let mut beyond = || match random.number() % 8 {
        0..4 => 0,
        4..7 => random.within(1, 20),
        _ => random.within(1, 2000),
    };
    let (first, last) = (-beyond(), length - 1 + beyond());
    let span = last - first;
    let rise = match random.number() % 8 {
        0 => span,
        1 => -span,
        2 => 0,
        _ => random.within(-span, span),
    };
    let (through, row) = (random.within(0, length - 1), random.within(-2, height + 1));
    let start = (row - rise * (through - first) / span.max(1)).clamp(LEAST + span, MOST - span);
    let (from, to) = ((first, start), (last, start + rise));
    if random.once_in(2) {
        [from, to]
    } else {
        [to, from]
    }
}

/// A ring of any shape; flat ones often, and some that are one cell.
fn ring(random: &mut Random, Shape { width, height, .. }: Shape) -> Figure {
    let centre = (random.within(-width, 2 * width), random.within(-height, 2 * height));
    let (a, b) = match random.number() % 8 {
        0 => (random.within(1, 60), random.within(1, 3)),
        1 => (random.within(1, 3), random.within(1, 60)),
        2 => (random.within(1, 3), random.within(1, 3)),
        3 if random.once_in(4) => (0, 0),
        _ => (random.within(1, width + 3), random.within(1, height + 3)),
    };
    Figure::Ellipse(centre, a, b)
}
