//! Inputs of the library made at random: sound ones, and ones at and beyond every limit.
use crate::case::{places, Case, Job, Size, MOST_BYTES};
use crate::chance_file::{bad_record, damage, file, record};
use crate::metres::{Metres, Survey};
use crate::native::{Cells, Pen};
use crate::random::Random;

impl Case {
    pub fn figure(seed: u64) -> Case {
        let mut random = Random(seed);
        let job = match random.number() % 10 {
            0 => list(&mut random),
            kind => {
                let size = size(&mut random);
                let ink = random.number() as u8;
                match kind {
                    1 | 2 => Job::Cells(size, ink, line(&mut random, size)),
                    3 => Job::Cells(size, ink, circle(&mut random, size)),
                    4 => Job::Cells(size, ink, ellipse(&mut random, size)),
                    5 => Job::Cells(size, ink, curve(&mut random, size)),
                    6 => Job::Cells(size, ink, cubic(&mut random, size)),
                    _ => in_metres(&mut random, size, ink, kind),
                }
            }
        };
        Case { held: random.number(), job }
    }

    pub fn file(seed: u64) -> Case {
        let mut random = Random(seed);
        let size = size(&mut random);
        let bytes = file(&mut random, size);
        Case { held: random.number(), job: Job::File(size, bytes) }
    }

    /// A file of sound records and a bad one, on a sheet of the printing program's size.
    pub fn damaged(seed: u64) -> Case {
        let mut random = Random(seed);
        let pitch = pitch(&mut random, 16);
        let size = Size { len: 8 * pitch as usize, width: 16, height: 8, pitch: pitch as u32 };
        let mut bytes = Vec::new();
        for _ in 0..random.within(0, 4) {
            record(&mut random, size, true, &mut bytes);
        }
        bad_record(&mut random, &mut bytes);
        match random.number() % 4 {
            0 => damage(&mut random, &mut bytes),
            1 => record(&mut random, size, true, &mut bytes),
            _ => {}
        }
        Case { held: random.number(), job: Job::File(size, bytes) }
    }

    pub fn pen(seed: u64) -> Case {
        let mut random = Random(seed);
        let ends = ends(&mut random);
        let job = if random.once_in(2) { Job::Begin(ends) } else { Job::Next(pen(&mut random, ends)) };
        Case { held: random.number(), job }
    }
}

pub fn size(random: &mut Random) -> Size {
    let most = random.one_of(&[4, 16, 16, 64, 64]);
    let (mut width, mut height) = (random.within(1, most), random.within(1, most));
    match random.number() % 4000 {
        0 => (width, height) = (random.within(1, 4096), random.within(1, 4096)),
        1 => (width, height) = (4096, 4096),
        2..100 => width = random.one_of(&[4096, 4095, 1000, 300]),
        100..200 => height = random.one_of(&[4096, 4095, 1000, 300]),
        _ => {}
    }
    sized(random, width, height)
}

/// A sheet of these sides, with any pitch; or, seldom, one that is refused.
pub fn sized(random: &mut Random, mut width: i64, mut height: i64) -> Size {
    let mut pitch = pitch(random, width);
    let mut len = (pitch * height) as usize;
    if random.once_in(40) {
        let strange = random.one_of(&[0, 4097, 5000, 65_536, i64::from(i32::MAX), i64::from(u32::MAX)]);
        match random.number() % 3 {
            0 => width = strange,
            1 => height = strange,
            _ => (width, height) = (strange, strange),
        }
        pitch = pitch.max(width);
        len = wrapping(pitch, height).unwrap_or(len);
    }
    if random.once_in(40) {
        // at and beyond its limits, and so large that a product of 32 bits is that of a smaller one
        let around = (1 << 32) / height.max(1);
        let large = [around, around + 1, around + width, i64::from(i32::MAX), i64::from(u32::MAX)];
        let edge = [width - 1, width - 1, width, 8191, 8192, 8193, 8193, 0, 1];
        pitch = if random.once_in(2) { random.one_of(&large) } else { random.one_of(&edge) };
        pitch = pitch.clamp(0, i64::from(u32::MAX));
        len = wrapping(pitch, height).unwrap_or(len);
    }
    if random.once_in(40) {
        let other = random.within(0, 5000) as usize;
        len = random.one_of(&[0, 1, len.saturating_sub(1), len + 1, len + width.min(4096) as usize, len / 2, other]);
    }
    Size { len: len.min(MOST_BYTES), width: width as u32, height: height as u32, pitch: pitch as u32 }
}

/// A pitch for rows of this width, mostly with padding after them.
pub fn pitch(random: &mut Random, width: i64) -> i64 {
    match random.number() % 64 {
        0..16 => width,
        16 => random.within(width, 8192.min(width + 400)),
        17 => (width + 7) / 8 * 8,
        _ => width + random.within(1, 9),
    }
}

/// The length that a product of 32 bits would have, where it can be lent.
fn wrapping(pitch: i64, height: i64) -> Option<usize> {
    let product = (pitch as u32).wrapping_mul(height as u32) as usize;
    (product <= 1 << 20).then_some(product)
}

/// A coordinate on or near a side of this length, or far from it, or beyond the limits.
fn coordinate(random: &mut Random, side: u32) -> i32 {
    let side = i64::from(side.clamp(1, 4096));
    let chosen = match random.number() % 64 {
        0 => {
            random.one_of(&[16_384, -16_385, 16_385, 32_767, -32_768, 49_152, i64::from(i32::MAX), i64::from(i32::MIN)])
        }
        1..4 => random.one_of(&[16_383, -16_384, 16_382, -16_383]),
        4..10 => random.within(-16_384, 16_383),
        10..20 => random.within(-1000, 1000),
        20..40 => random.within(-side, 2 * side),
        _ => random.within(0, side - 1),
    };
    chosen as i32
}

/// A radius or semi-axis of any size, for a sheet with this side.
fn radius(random: &mut Random, side: u32) -> u32 {
    let side = i64::from(side.clamp(1, 4096));
    let chosen = match random.number() % 32 {
        0 => random.one_of(&[16_384, 16_385, 32_768, 65_535, 65_536, 70_000, i64::from(u32::MAX), 1 << 31]),
        1 => random.within(0, 70_000),
        2 => random.one_of(&[16_383, 16_382]),
        3..6 => random.within(0, 16_383),
        6..12 => random.one_of(&[0, 1, 2, 3]),
        _ => random.within(0, side),
    };
    chosen as u32
}

/// How far a cell of the sheet, any of them, is from this one.
fn to_the_sheet(random: &mut Random, size: Size, [x, y]: [i32; 2]) -> [f64; 2] {
    let mut far = |side: u32, from: i32| {
        let on = random.within(0, i64::from(side.clamp(1, 4096)) - 1);
        on.abs_diff(i64::from(from)) as f64
    };
    [far(size.width, x), far(size.height, y)]
}

fn point(random: &mut Random, size: Size) -> [i32; 2] {
    [coordinate(random, size.width), coordinate(random, size.height)]
}

pub fn line(random: &mut Random, size: Size) -> Cells {
    let ([x0, y0], [mut x1, mut y1]) = (point(random, size), point(random, size));
    match random.number() % 16 {
        0 => (x1, y1) = (x0, y0),
        1 => y1 = y0,
        2 => x1 = x0,
        3 => y1 = y0.wrapping_add(x1.wrapping_sub(x0)),
        // through a cell of the sheet to as far behind it
        4..8 => {
            let mut behind = |from: i32, side: u32| {
                let through = random.within(0, i64::from(side.clamp(1, 4096)) - 1);
                let about = 2 * through - i64::from(from) + random.within(-3, 3);
                about.clamp(-16_384, 16_383) as i32
            };
            (x1, y1) = (behind(x0, size.width), behind(y0, size.height));
        }
        _ => {}
    }
    Cells::Line([x0, y0, x1, y1])
}

/// A centre anywhere within the limits, and at them.
fn far_centre(random: &mut Random) -> [i32; 2] {
    [(); 2].map(|()| match random.number() % 16 {
        0 => -16_384,
        1 => 16_383,
        _ => random.within(-16_384, 16_383) as i32,
    })
}

/// The centre of a ring, and whether its size is to be what leads through the sheet.
fn centre(random: &mut Random, size: Size) -> ([i32; 2], bool) {
    match random.number() % 4 {
        0 => (far_centre(random), true),
        1 => (point(random, size), true),
        _ => (point(random, size), false),
    }
}

/// A centre at the middle of the sheet, and semi-axes that end past its sides, so that arcs in its corners are left.
fn about_the_middle(random: &mut Random, size: Size) -> ([i32; 2], [u32; 2]) {
    let mut about = |side: u32| {
        let side = i64::from(side.clamp(1, 4096));
        ((side / 2) as i32, (side / 2 + random.within(1, 1 + side / 6)) as u32)
    };
    let ((x, a), (y, b)) = (about(size.width), about(size.height));
    ([x, y], [a, b])
}

pub fn circle(random: &mut Random, size: Size) -> Cells {
    if random.once_in(8) {
        let (centre, [a, b]) = about_the_middle(random, size);
        return Cells::Circle(centre, a.max(b));
    }
    let (centre, through) = centre(random, size);
    if !through {
        return Cells::Circle(centre, radius(random, size.width));
    }
    let [x, y] = to_the_sheet(random, size, centre);
    Cells::Circle(centre, (x * x + y * y).sqrt() as u32)
}

pub fn ellipse(random: &mut Random, size: Size) -> Cells {
    if random.once_in(16) {
        return with_zeros(random, size);
    }
    if random.once_in(8) {
        let (centre, [a, b]) = about_the_middle(random, size);
        return Cells::Ellipse(centre, a, b);
    }
    if random.once_in(3) {
        return flat_ellipse(random, size);
    }
    let (centre, through) = centre(random, size);
    if !through {
        return Cells::Ellipse(centre, radius(random, size.width), radius(random, size.height));
    }
    // the semi-axes for which x / a = part and y / b is what is left
    let [x, y] = to_the_sheet(random, size, centre);
    let part = random.within(1, 63) as f64 / 64.0;
    Cells::Ellipse(centre, (x / part) as u32, (y / (1.0 - part * part).sqrt()) as u32)
}

/// Both axes are 0, or one is beside another of any size.
fn with_zeros(random: &mut Random, size: Size) -> Cells {
    let [a, b] = match random.number() % 4 {
        0 => [radius(random, size.width), 0],
        1 => [0, radius(random, size.height)],
        _ => [0, 0],
    };
    Cells::Ellipse(point(random, size), a, b)
}

/// One axis is 1 to 3, the other up to 300; the centre or the end of an axis is on the sheet.
fn flat_ellipse(random: &mut Random, size: Size) -> Cells {
    let (long, short) = (random.within(1, 300), random.within(1, 3));
    let (a, b) = if random.once_in(2) { (long, short) } else { (short, long) };
    let mut about = |side: u32, axis: i64| {
        let on = random.within(0, i64::from(side.clamp(1, 4096)) - 1);
        (on + random.one_of(&[0, axis, -axis])) as i32
    };
    Cells::Ellipse([about(size.width, a), about(size.height, b)], a as u32, b as u32)
}

pub fn curve(random: &mut Random, size: Size) -> Cells {
    Cells::Curve(control(random, size), pieces(random))
}

pub fn cubic(random: &mut Random, size: Size) -> Cells {
    Cells::Cubic(control(random, size), pieces(random))
}

/// Control points, x then y of each.
fn control<const N: usize>(random: &mut Random, size: Size) -> [i32; N] {
    std::array::from_fn(|i| coordinate(random, [size.width, size.height][i % 2]))
}

fn pieces(random: &mut Random) -> u32 {
    match random.number() % 32 {
        0 => random.within(7, 255) as u32,
        1 => random.one_of(&[7, 8, 31, 32, 63, 64, 255]),
        _ => random.within(0, 6) as u32,
    }
}

fn ends(random: &mut Random) -> [i32; 4] {
    let size = Size { len: 0, width: 64, height: 64, pitch: 64 };
    let Cells::Line(ends) = line(random, size) else { unreachable!() };
    ends
}

/// A pen on a line, at its last cell, after it, or in a state that no asking leads to.
fn pen(random: &mut Random, ends: [i32; 4]) -> Pen {
    let cells = places(ends) as i64;
    let told = match random.number() % 16 {
        0 => random.number() as u32,
        1 => random.one_of(&[u32::MAX, u32::MAX - 1, 1 << 31, 65_536, 32_768, 32_767]),
        2..5 => (cells + random.within(-2, 2)).max(0) as u32,
        _ => random.within(0, cells - 1) as u32,
    };
    let ends = if random.once_in(16) { [(); 4].map(|()| random.number() as i32) } else { ends };
    Pen { ends, told }
}

fn list(random: &mut Random) -> Job {
    let ends = ends(random);
    let cells = places(ends);
    let places = [(); 2].map(|()| match random.number() % 12 {
        0 => cells - 1,
        1 => random.within(0, cells as i64) as usize,
        2..6 => cells,
        _ => cells + random.within(0, 40) as usize,
    });
    Job::List(places, ends)
}

const STRANGE: [f64; 9] = [f64::NAN, f64::INFINITY, f64::NEG_INFINITY, -0.0, 0.0, f64::MAX, f64::MIN, 5e-324, -1e-310];

fn in_metres(random: &mut Random, size: Size, ink: u8, kind: u64) -> Job {
    let mut origin = || match random.number() % 32 {
        0 => random.one_of(&STRANGE),
        1..8 => random.one_of(&[0.0, -0.0, 1000.0, 1e9, -1e15, 1e-300]),
        _ => random.within(-1 << 40, 1 << 40) as f64 / random.one_of(&[1.0, 1024.0, 1000.0, 1e6]),
    };
    let (east, north) = (origin(), origin());
    let cell_size = match random.number() % 32 {
        0 => random.one_of(&STRANGE),
        1 => random.one_of(&[-1.0, -25.0, 1e300, 1e-300, 1e-320, 1e17, 1e-9]),
        2..12 => random.one_of(&[25.0, 1.0, 0.1, 0.3, 1.0 / 3.0, 1e-3]),
        _ => random.within(1, 1 << 40) as f64 / random.one_of(&[1e6, 1e9, 1e12]),
    };
    let survey = Survey { east, north, size: cell_size };
    let figure = match kind {
        7 => line(random, size),
        8 => circle(random, size),
        _ => ellipse(random, size),
    };
    let mut metres = |origin: f64, cell: i64| position(random, origin, cell_size, cell);
    let figure = match figure {
        Cells::Line([x0, y0, x1, y1]) => {
            let ends = [(east, x0), (north, y0), (east, x1), (north, y1)];
            Metres::Line(ends.map(|(origin, cell)| metres(origin, cell.into())))
        }
        Cells::Circle([x, y], r) => {
            Metres::Circle([metres(east, x.into()), metres(north, y.into()), metres(0.0, r.into())])
        }
        Cells::Ellipse([x, y], a, b) => {
            let [x, y] = [metres(east, x.into()), metres(north, y.into())];
            Metres::Ellipse([x, y, metres(0.0, a.into()), metres(0.0, b.into())])
        }
        Cells::Curve(..) | Cells::Cubic(..) => unreachable!("no curve is in metres"),
    };
    Job::Metres(size, ink, survey, figure)
}

/// A position in a cell: at its lower edge, next to that, or anywhere in it.
fn position(random: &mut Random, origin: f64, size: f64, cell: i64) -> f64 {
    let cell = if random.once_in(100) { -cell } else { cell };
    let edge = origin + cell as f64 * size;
    match random.number() % 16 {
        0 if random.once_in(4) => random.one_of(&STRANGE),
        0 => origin,
        1..4 => edge,
        4 | 5 => beside(edge, 1),
        6 | 7 => beside(edge, -1),
        _ => edge + size * (random.number() % 1_000_000) as f64 * 1e-6,
    }
}

/// The next float away from zero, or towards it.
fn beside(edge: f64, step: i64) -> f64 {
    if edge == 0.0 {
        return 5e-324 * step as f64;
    }
    f64::from_bits(edge.to_bits().wrapping_add_signed(step))
}
