//! Calls that are lent a list, made at random: drawings and fills of every kind, whose inks are often 0, and counts afresh;
//! with lists that are right, wrong, or of another length.
use crate::again::Again;
use crate::case::{Case, Job};
use crate::chance::size;
use crate::random::Random;
use crate::tallied::{Call, Held, List, Tallied};

/// What a list has at most for a sheet that is refused for its height.
const MOST_ROWS: u32 = 5000;

impl Case {
    pub fn tallied(seed: u64) -> Case {
        let mut random = Random(seed);
        let (call, height) = if random.once_in(10) {
            let size = size(&mut random);
            (Call::Afresh(size), size.height)
        } else {
            let job = drawing(&mut random);
            let height = job.size().map_or(0, |size| size.height);
            (Call::Kept(Box::new(job)), height)
        };
        let mut list = list(&mut random, height.min(MOST_ROWS) as usize);
        if matches!(call, Call::Afresh(_)) && random.once_in(2) {
            list.held = Held::Noise;
        }
        Case { held: random.number(), job: Job::Tallied(Tallied { list, call }) }
    }
}

/// A case of another kind, with inks that a tally tells apart.
fn drawing(random: &mut Random) -> Job {
    let seed = random.number();
    let other = match random.number() % 16 {
        0..3 => Case::fill(seed),
        3 | 4 => Case::file(seed),
        5 | 6 => Case::again(seed),
        7 => Case::damaged(seed),
        _ => Case::figure(seed),
    };
    match other.job {
        Job::Cells(size, _, figure) => Job::Cells(size, ink(random), figure),
        Job::Metres(size, _, survey, figure) => Job::Metres(size, ink(random), survey, figure),
        Job::Fill(size, mut fill, places, ground) => {
            fill.boundary = ink(random);
            fill.territory = if random.once_in(8) { fill.boundary } else { ink(random) };
            Job::Fill(size, fill, places, ground)
        }
        Job::File(size, file) | Job::Again(Again { size, file, .. }) => Job::File(size, inked(random, file)),
        // one figure in ten is only listed
        _ => drawing(random),
    }
}

/// 0 in one of three.
fn ink(random: &mut Random) -> u8 {
    match random.number() % 12 {
        0..4 => 0,
        4 => 1,
        5 => random.one_of(&[2, 127, 128, 255]),
        _ => random.number() as u8,
    }
}

/// The file with other inks, as far as its lengths lead to records.
fn inked(random: &mut Random, mut file: Vec<u8>) -> Vec<u8> {
    let mut rest = &mut file[..];
    while let [low, high, _, _, place, ..] = rest {
        let taken = 2 + usize::from(u16::from_le_bytes([*low, *high]));
        *place = ink(random);
        rest = rest.get_mut(taken..).unwrap_or_default();
    }
    file
}

/// A list for a sheet of this height: three in four are right.
fn list(random: &mut Random, height: usize) -> List {
    let places = match random.number() % 48 {
        0 => height.saturating_sub(1),
        1 => height + 1,
        2 => 0,
        3 => height + random.within(2, 300) as usize,
        4 => random.within(0, 2 * height as i64) as usize,
        _ => height,
    };
    // most of another length are right as far as they go
    let held = match random.number() % 32 {
        0 => Held::Noise,
        1..6 => Held::Tally(wrong(random, places)),
        _ => Held::Tally(Vec::new()),
    };
    List { places, held }
}

/// A wrong place: the first, the last or any; seldom two, or two that have the sum of what is right.
fn wrong(random: &mut Random, places: usize) -> Vec<(usize, u32)> {
    if places == 0 {
        return Vec::new();
    }
    let at = |random: &mut Random| match random.number() % 4 {
        0 => 0,
        1 => places - 1,
        _ => random.within(0, places as i64 - 1) as usize,
    };
    let more = |random: &mut Random| match random.number() % 8 {
        0..3 => 1,
        3..6 => u32::MAX,
        6 => random.one_of(&[2, 256, 65_536, 1 << 31, 1 << 24]),
        _ => 1 + random.within(0, i64::from(u32::MAX) - 1) as u32,
    };
    let (first, second, much) = (at(random), at(random), more(random));
    match random.number() % 8 {
        0 if first != second => vec![(first, much), (second, much.wrapping_neg())],
        1 if first != second => vec![(first, much), (second, more(random))],
        _ => vec![(first, much)],
    }
}
