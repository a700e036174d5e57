//! Fills made at random: on small sheets and on long rows, with every kind of boundary, and refused for each reason.
use crate::case::{Case, Job, Size, MOST_WORK};
use crate::chance::sized;
use crate::ground::Ground;
use crate::native::Fill;
use crate::random::Random;

impl Case {
    pub fn fill(seed: u64) -> Case {
        let mut random = Random(seed);
        let (width, height) = sides(&mut random);
        let size = sized(&mut random, width, height);
        let boundary = random.number() as u8;
        let territory = if random.once_in(8) { boundary } else { random.number() as u8 };
        let fill = Fill { start: start(&mut random, size), boundary, territory };
        let places = places(&mut random, size);
        let ground = ground(&mut random);
        Case { held: random.number(), job: Job::Fill(size, fill, places, ground) }
    }
}

/// Small sides, or one at which rows of 16, 32, 256 or 512 cells, or those of the largest sheet, are just full or not.
fn sides(random: &mut Random) -> (i64, i64) {
    let small = |random: &mut Random, most: i64| random.within(1, most);
    let edge = |random: &mut Random| random.one_of(&[16, 32, 48, 64, 128, 256, 512, 768]) + random.within(-1, 1);
    let longest = |random: &mut Random| random.one_of(&[4096, 4096, 4095, 4094, 4064, 2049]);
    match random.number() % 4000 {
        0 if random.once_in(16) => (4096, 4096),
        0..2 => (random.within(200, 700), random.within(200, 700)),
        2..50 => (longest(random), small(random, 4)),
        50..80 => (small(random, 4), longest(random)),
        80..90 => (edge(random), edge(random)),
        90..800 => (edge(random), small(random, 8)),
        800..1200 => (small(random, 8), edge(random)),
        1200..2000 => (small(random, 4), small(random, 4)),
        2000..2600 => (small(random, 40), small(random, 40)),
        _ => (small(random, 16), small(random, 16)),
    }
}

/// A cell of the sheet, or one beyond any of its sides.
fn start(random: &mut Random, size: Size) -> [i32; 2] {
    let on = |random: &mut Random, side: u32| random.within(0, i64::from(side.clamp(1, 4096)) - 1);
    let (mut x, mut y) = (on(random, size.width), on(random, size.height));
    let (width, height, pitch) = (i64::from(size.width), i64::from(size.height), i64::from(size.pitch));
    let far = [i64::from(i32::MIN), i64::from(i32::MAX), 1 << 16, 1 << 24, -(1 << 16), 16_384, -16_385];
    match random.number() % 64 {
        0 => x = random.one_of(&[-1, width, width + 1, pitch - 1, pitch, -width, -pitch]),
        1 => y = random.one_of(&[-1, height, height + 1, -height]),
        2 => x = random.one_of(&far),
        3 => y = random.one_of(&far),
        // the cell that a number of 16 bits would have for this one
        4 if random.once_in(2) => x += random.one_of(&[1 << 16, -(1 << 16), 1 << 12]),
        4 => y += random.one_of(&[1 << 16, -(1 << 16), 1 << 12]),
        5 if random.once_in(2) => (x, y) = (random.number() as i64, random.number() as i64),
        _ => {}
    }
    [x as i32, y as i32]
}

/// As many places as the sheet has cells, fewer or more.
fn places(random: &mut Random, size: Size) -> usize {
    let cells = size.width as usize * size.height as usize;
    if cells > MOST_WORK {
        return random.within(0, 400) as usize;
    }
    let chosen = match random.number() % 32 {
        0 => cells.saturating_sub(1),
        1 => random.one_of(&[0, cells / 2, cells.saturating_sub(size.width as usize)]),
        2..20 => cells,
        _ => cells + random.within(1, 40) as usize,
    };
    chosen.min(MOST_WORK)
}

fn ground(random: &mut Random) -> Ground {
    let few = |random: &mut Random| random.within(1, 6) as u32;
    match random.number() % 16 {
        // at 26 in 64 the large territories come apart
        0..5 => Ground::Noise(random.one_of(&[0, 1, 4, 12, 19, 24, 26, 28, 32, 48, 64])),
        5..8 => Ground::Lines(few(random)),
        8..10 => Ground::Rings(few(random)),
        10..12 => Ground::Serpentine(few(random)),
        12..14 => Ground::Comb(few(random)),
        _ => Ground::Rooms(few(random)),
    }
}
