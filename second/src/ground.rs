//! What a sheet holds before figures are drawn on it: any bytes, or their ink; and before a territory on it is filled:
//! cells of open inks, and a boundary of some kind.
use crate::native::Fill;
use crate::random::Random;
use crate::rule::{no_sheet, place, Cell, Figure, Rules, Shape, Sheet};
use std::fmt;

/// A sheet of any bytes; seldom with this ink all over, or in half of them, as where the same is drawn once more.
pub fn inked(random: &mut Random, len: usize, ink: u8) -> Vec<u8> {
    let mut sheet = random.bytes(len);
    match random.number() % 16 {
        0 => sheet.fill(ink),
        1 => sheet.iter_mut().filter(|byte| **byte % 2 == 0).for_each(|byte| *byte = ink),
        _ => {}
    }
    sheet
}

/// A kind of boundary.
#[derive(Clone, Copy, Debug)]
pub enum Ground {
    /// Each cell by itself, so many times in 64.
    Noise(u32),
    /// So many lines.
    Lines(u32),
    /// So many circles and ellipses.
    Rings(u32),
    /// Walls with a gap at alternating ends, and so many cells between each and the next.
    Serpentine(u32),
    /// Walls with a gap at the same end, and so many cells between each and the next.
    Comb(u32),
    /// Walls along both sides, with doors, and so many cells between each and the next.
    Rooms(u32),
}

impl fmt::Display for Ground {
    fn fmt(&self, to: &mut fmt::Formatter) -> fmt::Result {
        match self {
            Ground::Noise(n) => write!(to, "noise {n}"),
            Ground::Lines(n) => write!(to, "lines {n}"),
            Ground::Rings(n) => write!(to, "rings {n}"),
            Ground::Serpentine(n) => write!(to, "serpentine {n}"),
            Ground::Comb(n) => write!(to, "comb {n}"),
            Ground::Rooms(n) => write!(to, "rooms {n}"),
        }
    }
}

impl Ground {
    /// The kind of this name.
    pub fn named(name: &str, n: u32) -> Option<Ground> {
        let kinds = [Ground::Noise, Ground::Lines, Ground::Rings, Ground::Serpentine, Ground::Comb, Ground::Rooms];
        kinds.map(|kind| kind(n)).into_iter().find(|kind| kind.to_string().split(' ').next() == Some(name))
    }

    /// Lays this boundary for a fill, with both inks at random in the padding; of a sheet that is refused, everywhere.
    pub fn lay(self, random: &mut Random, sheet: &mut Sheet, fill: Fill) {
        let open = open_inks(random, fill);
        let both = [&open[..], &[fill.boundary; 3]].concat();
        sheet.bytes.fill_with(|| random.one_of(&both));
        if no_sheet(sheet).is_some() {
            return;
        }
        self.wall(random, sheet, &open, fill.boundary);
        // holes, plugs, and a start that is not shut too often
        let Shape { width, height, .. } = sheet.shape;
        for _ in 0..random.within(0, 3) {
            let cell = (random.within(0, width - 1), random.within(0, height - 1));
            set(sheet, cell, random.one_of(&both));
        }
        match random.number() % 16 {
            0 => set(sheet, fill.cell(), fill.boundary),
            1..12 => set(sheet, fill.cell(), random.one_of(&open)),
            _ => {}
        }
    }

    fn wall(self, random: &mut Random, sheet: &mut Sheet, open: &[u8], boundary: u8) {
        let Shape { width, height, .. } = sheet.shape;
        let [turned, mirrored, upside_down] = [(); 3].map(|()| random.once_in(2));
        for y in 0..height {
            for x in 0..width {
                let (mut along, mut across) =
                    (if mirrored { width - 1 - x } else { x }, if upside_down { height - 1 - y } else { y });
                let mut length = width;
                if turned {
                    (along, across, length) = (across, along, height);
                }
                let ink = if self.shuts(random, (along, across), length) { boundary } else { random.one_of(open) };
                set(sheet, (x, y), ink);
            }
        }
        let (figures, rings) = match self {
            Ground::Lines(n) => (n, false),
            Ground::Rings(n) => (n, true),
            _ => (0, false),
        };
        for _ in 0..figures {
            let figure = figure(random, sheet.shape, rings);
            Rules::document().paint(sheet, boundary, &figure);
        }
    }

    /// Whether a kind made of walls has one at this cell; they go along, from 0 to the length.
    fn shuts(self, random: &mut Random, (along, across): Cell, length: i64) -> bool {
        let walled = |between: u32, at: i64| at % (i64::from(between) + 1) == i64::from(between);
        match self {
            Ground::Noise(n) => random.number() % 64 < n.into(),
            Ground::Lines(_) | Ground::Rings(_) => false,
            Ground::Serpentine(n) => {
                let odd = across / (i64::from(n) + 1) % 2 == 1;
                walled(n, across) && along != if odd { 0 } else { length - 1 }
            }
            Ground::Comb(n) => walled(n, across) && along != 0,
            Ground::Rooms(n) => (walled(n, across) || walled(n, along)) && !random.once_in(8),
        }
    }
}

/// One or more inks other than the boundary's, the territory's often among them.
fn open_inks(random: &mut Random, fill: Fill) -> Vec<u8> {
    let mut inks = vec![random.number() as u8];
    inks.extend([fill.territory, 0, random.number() as u8].iter().filter(|_| random.once_in(2)));
    inks.retain(|&ink| ink != fill.boundary);
    if inks.is_empty() {
        inks.push(fill.boundary ^ 1);
    }
    inks
}

fn set(sheet: &mut Sheet, cell: Cell, ink: u8) {
    if let Some(place) = place(sheet.shape, cell) {
        sheet.bytes[place] = ink;
    }
}

/// A line or ring through the sheet or about it.
fn figure(random: &mut Random, Shape { width, height, .. }: Shape, ring: bool) -> Figure {
    let mut point = || (random.within(-width / 2, width * 3 / 2), random.within(-height / 2, height * 3 / 2));
    let (from, to) = (point(), point());
    match (ring, random.once_in(2)) {
        (false, _) => Figure::Line(from, to),
        (true, true) => Figure::Circle(from, random.within(0, width.min(height))),
        (true, false) => Figure::Ellipse(from, random.within(1, width), random.within(1, height)),
    }
}
