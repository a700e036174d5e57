//! Record files made at random: sound ones, ones damaged at any byte, and ones with fields outside their limits.
use crate::case::Size;
use crate::chance::{circle, cubic, curve, ellipse, line};
use crate::native::Cells;
use crate::random::Random;

pub fn file(random: &mut Random, size: Size) -> Vec<u8> {
    let mut bytes = Vec::new();
    let records = if random.once_in(2000) { random.within(100, 400) } else { random.within(0, 6) };
    let (in_corners, rising) = (random.once_in(16), random.once_in(2));
    for _ in 0..records {
        if in_corners {
            let figure = in_corner(random, size, rising);
            write(random, figure, &mut bytes);
        } else {
            record(random, size, records > 6, &mut bytes);
        }
    }
    if random.once_in(2) {
        for _ in 0..random.within(1, 3) {
            damage(random, &mut bytes);
        }
    }
    bytes
}

pub fn record(random: &mut Random, size: Size, tame: bool, bytes: &mut Vec<u8>) {
    let kind = random.number();
    // of long files, most records are to be drawn
    let figure = if tame { sound(random) } else { of_kind(random, size, kind) };
    write(random, figure, bytes);
}

/// A figure of this kind, within the limits or not.
pub fn of_kind(random: &mut Random, size: Size, kind: u64) -> Cells {
    match kind % 5 {
        0 => line(random, size),
        1 => circle(random, size),
        2 => ellipse(random, size),
        3 => curve(random, size),
        _ => cubic(random, size),
    }
}

/// A small figure that is within the limits.
pub fn sound(random: &mut Random) -> Cells {
    let points @ [x, y, x1, y1, x2, y2, ..] = [(); 8].map(|()| random.within(-99, 99) as i32);
    let zeros = random.once_in(12);
    let [a, b] = [(); 2].map(|()| if zeros { 0 } else { random.within(1, 99) as u32 });
    let s = random.within(0, 6) as u32;
    match random.number() % 5 {
        0 => Cells::Line([x, y, x1, y1]),
        1 => Cells::Circle([x, y], a),
        2 => Cells::Ellipse([x, y], a, b),
        3 => Cells::Curve([x, y, x1, y1, x2, y2], s),
        _ => Cells::Cubic(points, s),
    }
}

/// A figure in one of two opposite quarters of the sheet: upper left and lower right or, where they are rising, lower
/// left and upper right.
fn in_corner(random: &mut Random, size: Size, rising: bool) -> Cells {
    let right = random.once_in(2);
    let halves = [(size.width, right), (size.height, right != rising)];
    let points @ [x0, y0, x1, y1, x2, y2, ..]: [i32; 8] = std::array::from_fn(|i| {
        let (side, second) = halves[i % 2];
        let side = i64::from(side.clamp(2, 4096));
        let from_edge = random.within(0, side / 2 - 1);
        (if second { side - 1 - from_edge } else { from_edge }) as i32
    });
    let centre = [(x0 + x1) / 2, (y0 + y1) / 2];
    let axes @ [a, b] = [x0.abs_diff(x1) / 2, y0.abs_diff(y1) / 2];
    match random.number() % 5 {
        0 => Cells::Curve([x0, y0, x1, y1, x2, y2], random.within(0, 6) as u32),
        1 => Cells::Cubic(points, random.within(0, 6) as u32),
        2 => Cells::Circle(centre, a.min(b)),
        3 if !axes.contains(&0) => Cells::Ellipse(centre, a, b),
        _ => Cells::Line([x0, y0, x1, y1]),
    }
}

fn write(random: &mut Random, figure: Cells, bytes: &mut Vec<u8>) {
    let (kind, numbers, s): (u16, Vec<i64>, Option<u32>) = match figure {
        Cells::Line(ends) => (1, ends.map(i64::from).to_vec(), None),
        Cells::Circle([x, y], r) => (2, vec![x.into(), y.into(), r.into()], None),
        Cells::Ellipse([x, y], a, b) => (3, vec![x.into(), y.into(), a.into(), b.into()], None),
        Cells::Curve(points, s) => (4, points.map(i64::from).to_vec(), Some(s)),
        Cells::Cubic(points, s) => (5, points.map(i64::from).to_vec(), Some(s)),
    };
    let length = 3 + 2 * numbers.len() + usize::from(s.is_some());
    bytes.extend((length as u16).to_le_bytes());
    bytes.extend(kind.to_le_bytes());
    bytes.push(random.number() as u8);
    bytes.extend(numbers.iter().flat_map(|&number| (number as u16).to_le_bytes()));
    bytes.extend(s.map(|s| s as u8));
}

/// A sound record in which one field is then spoilt, or more.
pub fn bad_record(random: &mut Random, bytes: &mut Vec<u8>) {
    let start = bytes.len();
    let figure = sound(random);
    write(random, figure, bytes);
    let fields = (bytes.len() - start - 4) / 2;
    for _ in 0..random.within(1, 3) {
        let (place, spoilt) = match random.number() % 8 {
            0 => (0, random.one_of(&[0, 1, 2, 10, 12, 16, 20, 300])),
            1 => (2, random.one_of(&[0, 4, 5, 6, 256, 257, 65_535])),
            // outside the limits of every field after the ink, or at the edge of some
            _ => {
                let spoilt = random.one_of(&[16_391, 20_007, 32_767, 32_775, 49_151, 16_384, 0, 16_383, 49_152]);
                (5 + 2 * random.within(0, fields as i64 - 1) as usize, spoilt)
            }
        };
        let field = bytes[start..].iter_mut().skip(place);
        field.zip(u16::to_le_bytes(spoilt)).for_each(|(byte, new)| *byte = new);
    }
}

pub fn damage(random: &mut Random, bytes: &mut Vec<u8>) {
    let at = random.number() as usize % (bytes.len() + 1);
    match random.number() % 8 {
        0 => bytes.truncate(at),
        1 => bytes.insert(at, random.number() as u8),
        2 if at < bytes.len() => drop(bytes.remove(at)),
        3 => bytes.push(random.number() as u8),
        // small numbers, as lengths and kinds are
        4 | 5 if at < bytes.len() => bytes[at] = random.within(0, 21) as u8,
        6 if at < bytes.len() => bytes[at] ^= 1 << random.within(0, 7),
        7 if random.once_in(4) => {
            bytes.resize(random.within(0, 40) as usize, 0);
            random.fill(bytes);
        }
        // a record without a payload
        _ => bytes.extend([random.within(0, 3) as u8, 0, random.within(0, 6) as u8, 0]),
    }
}
