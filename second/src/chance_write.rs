//! What is written to a buffer at random: one figure to any buffer, and sound files again.
use crate::again::{Again, Thrown};
use crate::case::{Case, Job, Size};
use crate::chance::pitch;
use crate::chance_file::{file, of_kind, sound};
use crate::native::Cells;
use crate::random::Random;
use crate::rule::Rules;
use crate::run::widened;
use crate::writer::{record, Buffer};

impl Case {
    /// One figure, within the limits or not, and a buffer of any length that is filled to any count.
    pub fn write(seed: u64) -> Case {
        let mut random = Random(seed);
        let size = Size { len: 0, width: 64, height: 64, pitch: 64 };
        let (ink, figure) = (random.number() as u8, any(&mut random, size));
        let (len, filled) = buffer(&mut random, taken(figure));
        Case { held: random.number(), job: Job::Write(len, filled, ink, figure) }
    }

    /// A file that is accepted, and a buffer that has room for it.
    pub fn again(seed: u64) -> Case {
        let mut random = Random(seed);
        let size = small(&mut random);
        let joined = if random.once_in(50) { random.within(4, 60) } else { random.within(1, 3) };
        let file: Vec<u8> = (0..joined).flat_map(|_| sound_records(&file(&mut random, size))).collect();
        let room = file.len() + random.one_of(&[0, 0, 0, 0, 1, 2, 10, 11, 12, 13, 17, 21, 22, 100]);
        let mut again = Again { size, room, thrown: Vec::new(), file };
        if random.once_in(2) {
            throw_in(&mut random, &mut again);
        }
        Case { held: random.number(), job: Job::Again(again) }
    }
}

/// A sheet that is not refused.
pub fn small(random: &mut Random) -> Size {
    let (width, height) = (random.within(1, 16), random.within(1, 16));
    let pitch = pitch(random, width);
    Size { len: (pitch * height) as usize, width: width as u32, height: height as u32, pitch: pitch as u32 }
}

/// A figure of any kind, one in four of them spoilt.
fn any(random: &mut Random, size: Size) -> Cells {
    let kind = random.number();
    let figure = of_kind(random, size, kind);
    if random.once_in(4) {
        spoilt(random, figure)
    } else {
        figure
    }
}

/// The figure with another number in one of its fields.
fn spoilt(random: &mut Random, mut figure: Cells) -> Cells {
    match &mut figure {
        Cells::Line(ends) => spoil(random, ends, &mut []),
        Cells::Circle(centre, r) => spoil(random, centre, &mut [r]),
        Cells::Ellipse(centre, a, b) => spoil(random, centre, &mut [a, b]),
        Cells::Curve(points, s) => spoil(random, points, &mut [s]),
        Cells::Cubic(points, s) => spoil(random, points, &mut [s]),
    }
    figure
}

fn spoil(random: &mut Random, coordinates: &mut [i32], others: &mut [&mut u32]) {
    let field = random.number() as usize % (coordinates.len() + others.len());
    match coordinates.get_mut(field) {
        Some(coordinate) => *coordinate = other(random, (*coordinate).into()) as i32,
        None => {
            let place = &mut others[field - coordinates.len()];
            **place = other(random, (**place).into()) as u32;
        }
    }
}

/// A number that is the same in its lowest byte or two, or in all bits but one, or any.
fn other(random: &mut Random, number: i64) -> i64 {
    match random.number() % 4 {
        0 => number + (random.within(1, 255) << 8),
        1 => number + (random.within(1, 65_535) << 16),
        2 => number ^ 1 << random.within(0, 31),
        _ => random.number() as i64,
    }
}

/// How many bytes a figure's record takes.
fn taken(figure: Cells) -> u64 {
    record(0, &widened(&figure)).len() as u64
}

/// The length of a buffer and how much of it is filled, where a record of so many bytes is to be written.
fn buffer(random: &mut Random, taken: u64) -> (usize, u64) {
    let most = if random.once_in(200) { 70_000 } else { random.one_of(&[0, 5, 100]) };
    let filled = random.within(0, most) as u64;
    let some = random.within(0, 40) as u64;
    let (len, filled) = match random.number() % 16 {
        0..3 => (filled + taken, filled),
        3 | 4 => (filled + taken - random.one_of(&[1, 1, 2]), filled),
        5 => (filled + taken + 1, filled),
        6 => (filled + random.within(0, taken as i64) as u64, filled),
        7 => (0, some % 2),
        8 => (filled + some, filled + some),
        9 => (filled + some, filled + some + random.one_of(&[1, 1, 2, 9, 40])),
        10 => (filled + some, u64::MAX - random.within(0, 40) as u64),
        11 => (filled + some, filled + (random.within(1, 3) << random.one_of(&[16, 31, 32, 48, 62])) as u64),
        12 => (filled + some, random.number()),
        _ => (filled + taken + some, filled),
    };
    (len as usize, filled)
}

/// The records of a file that are sound by themselves.
fn sound_records(mut file: &[u8]) -> Vec<u8> {
    let mut kept = Vec::new();
    while let [low, high, ..] = *file {
        let taken = 2 + usize::from(u16::from_le_bytes([low, high]));
        let (record, rest) = file.split_at(taken.min(file.len()));
        if Rules::document().read(record, |_, _| ()).is_ok() {
            kept.extend(record);
        }
        file = rest;
    }
    kept
}

/// Throws in figures at random, of those that the rules refuse where they are thrown in.
fn throw_in(random: &mut Random, again: &mut Again) {
    let mut filled = vec![0];
    let counted = Rules::document().read(&again.file, |ink, figure| {
        let before = filled[filled.len() - 1];
        filled.push(before + record(ink, &figure).len() as u64);
    });
    assert_eq!(counted, Ok(()), "a file that is written again is sound");
    let mut tried = vec![0; again.room];
    for _ in 0..random.within(1, 4) {
        let last = filled.len() - 1;
        // a sound one is seldom refused but at the end
        let (after, figure) = if random.once_in(2) {
            (last, sound(random))
        } else {
            let figure = any(random, again.size);
            (random.within(0, last as i64) as usize, spoilt(random, figure))
        };
        let mut buffer = Buffer { bytes: &mut tried, filled: filled[after] };
        let ink = random.number() as u8;
        if Rules::document().write(&mut buffer, ink, &widened(&figure)) != 0 {
            again.thrown.push(Thrown { after, ink, figure });
        }
    }
}

#[cfg(test)]
mod tests {
    use super::*;
    use crate::rule::{refusal, Figure};
    use std::collections::BTreeMap;

    type Seen = BTreeMap<(&'static str, &'static str), u32>;

    fn kind(figure: &Figure) -> &'static str {
        match figure {
            Figure::Line(..) => "line",
            Figure::Circle(..) => "circle",
            Figure::Ellipse(..) => "ellipse",
            Figure::Curve(..) => "curve",
            Figure::Cubic(..) => "cubic",
        }
    }

    /// That each kind of figure came with each of these at least so many times.
    fn all_seen(seen: &Seen, times: u32, whats: &[&'static str]) {
        for kind in ["line", "circle", "ellipse", "curve", "cubic"] {
            for &what in whats {
                let found = seen.get(&(kind, what)).copied().unwrap_or_default();
                assert!(found >= times, "{kind}, {what}: only {found} times");
            }
        }
    }

    /// What a buffer may be for a figure that takes so many bytes, and whether this one is.
    fn sorts(len: u64, filled: u64, more: u64, sound: bool) -> [(&'static str, bool); 11] {
        let spare = i128::from(len) - i128::from(filled) - i128::from(more);
        [
            ("exactly full", sound && spare == 0),
            ("a byte to spare", sound && spare == 1),
            ("a byte short", sound && spare == -1),
            ("two bytes short", sound && spare == -2),
            ("an empty buffer", sound && len == 0),
            ("filled to its length", sound && filled == len && len > more),
            ("filled above its length", sound && (len + 1..len + 10).contains(&filled) && len > more),
            ("a count near 2^64", sound && filled.checked_add(more).is_none() && len > more),
            ("a count whose lower 32 bits would do", sound && filled > len && filled % (1 << 32) + more <= len),
            ("a refused figure, with room", !sound && spare >= 0),
            ("a refused figure, without room", !sound && spare < 0),
        ]
    }

    #[test]
    fn buffers_of_every_sort_come_with_every_figure() {
        let mut seen = Seen::new();
        for seed in 0..20_000 {
            let Job::Write(len, filled, _, figure) = Case::write(seed).job else { unreachable!() };
            let (more, figure) = (taken(figure), widened(&figure));
            for (what, is) in sorts(len as u64, filled, more, refusal(&figure).is_none()) {
                *seen.entry((kind(&figure), what)).or_default() += u32::from(is);
            }
        }
        all_seen(&seen, 20, &sorts(0, 0, 0, true).map(|(what, _)| what));
    }

    #[test]
    fn files_are_sound_and_what_is_thrown_in_is_refused() {
        let (mut seen, mut thrown, mut exact, mut long) = (Seen::new(), BTreeMap::new(), 0, 0);
        for seed in 0..5000 {
            let Job::Again(again) = Case::again(seed).job else { unreachable!() };
            let count = |_, figure: Figure| *seen.entry((kind(&figure), "read")).or_default() += 1;
            assert_eq!(Rules::document().read(&again.file, count), Ok(()));
            for Thrown { figure, .. } in &again.thrown {
                let number = refusal(&widened(figure)).map_or(11, |(number, _)| number);
                *thrown.entry(number).or_insert(0) += 1;
            }
            exact += u32::from(again.room == again.file.len());
            long += u32::from(again.file.len() > 1000);
        }
        all_seen(&seen, 1000, &["read"]);
        assert!([2, 3, 4, 11].iter().all(|number| thrown[number] >= 100), "thrown in: {thrown:?}");
        assert!(exact >= 1000 && long >= 20, "{exact} are as long as the buffer, {long} long");
    }
}
