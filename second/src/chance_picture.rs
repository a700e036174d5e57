//! Sheets that are written as pictures, and pictures that are read onto sheets, made at random.
use crate::case::{Case, Job, Size};
use crate::chance::sized;
use crate::chance_header::{damage, header};
use crate::pbm::{self, row_bytes, BLANKS};
use crate::pictured::{Call, Pictured};
use crate::random::Random;

/// How many bytes of rows a picture has at most for a sheet of bad sizes.
const MOST_ROWS: i64 = 4096;

impl Case {
    pub fn pictured(seed: u64) -> Case {
        let mut random = Random(seed);
        let size = size(&mut random);
        let call = if random.once_in(3) { Call::Write(room(&mut random, size)) } else { picture(&mut random, size) };
        Case { held: random.number(), job: Job::Pictured(Pictured { size, call }) }
    }
}

/// A sheet of every width to 17, about a multiple of 8, about those of one digit more, or up to the greatest, and any pitch;
/// or, seldom, one that is refused.
fn size(random: &mut Random) -> Size {
    let width = match random.number() % 32 {
        0..16 => random.within(1, 17),
        16..24 => 8 * random.within(1, 12) + random.within(-1, 1),
        24 => random.one_of(&[99, 100, 101, 255, 256, 257, 999, 1000, 1001]),
        25 => random.one_of(&[4096, 4096, 4096, 4095, 4089, 4088]),
        26 => random.within(65, 600),
        _ => random.within(1, 64),
    };
    let height = match random.number() % 32 {
        0 | 1 if width < 18 => random.one_of(&[99, 100, 255, 256, 257, 999, 1000, 4095, 4096, 4096, 4096]),
        2..9 => 1,
        9 => random.within(10, 30),
        _ => random.within(1, 9),
    };
    let (width, height) = if random.once_in(30_000) { (4096, 4096) } else { (width, height) };
    sized(random, width, height)
}

/// How many bytes the header and the rows of a sheet's picture have; of bad sizes, so many as can be lent.
fn taken(size: Size) -> [i64; 2] {
    let shape = size.shape();
    let good = shape.width <= 4096 && shape.height <= 4096;
    let rows = row_bytes(shape) * shape.height;
    [pbm::header(shape).len() as i64, if good { rows } else { rows.min(MOST_ROWS) }]
}

/// How many bytes the rows would have without pad bits; of bad sizes, any number.
fn bits(size: Size) -> i64 {
    let bits = u64::from(size.width) * u64::from(size.height);
    (bits.div_ceil(8) as i64).min(taken(size)[1])
}

/// How long the buffer is that a sheet is written to.
fn room(random: &mut Random, size: Size) -> usize {
    let [header, rows] = taken(size);
    let all = header + rows;
    let room = match random.number() % 16 {
        0..6 => all,
        6 | 7 => all - 1,
        8 => 0,
        9 => all + 1,
        10 | 11 => all + random.within(2, 300),
        12 => random.within(0, all),
        13 => random.one_of(&[header, header - 1, header + 1, rows, rows - 1]),
        14 => header + bits(size),
        _ => all - row_bytes(size.shape()).min(rows),
    };
    room.max(0) as usize
}

/// A picture for a sheet: with a sound header or not, and all its rows or not.
fn picture(random: &mut Random, size: Size) -> Call {
    let mut head = header(random, [size.width, size.height]);
    if random.once_in(8) {
        (0..random.one_of(&[1, 1, 1, 2])).for_each(|_| damage(random, &mut head));
    }
    if random.once_in(16) {
        head.truncate(random.number() as usize % (head.len() + 1));
        return Call::Read(head, 0);
    }
    let follow = follow(random, size);
    let first = first(random);
    let first = &first[..first.len().min(follow)];
    head.extend(first);
    Call::Read(head, follow - first.len())
}

/// The first bytes of the rows: any, or such as mean something in a header.
fn first(random: &mut Random) -> Vec<u8> {
    match random.number() % 16 {
        0 | 1 => vec![random.one_of(&BLANKS)],
        2 => vec![random.one_of(&BLANKS), random.one_of(&BLANKS)],
        3 => b"#".to_vec(),
        4 => vec![b'#', random.one_of(b"\r\n")],
        5 => vec![random.one_of(b"0123456789P")],
        _ => Vec::new(),
    }
}

/// How many bytes follow the header.
fn follow(random: &mut Random, size: Size) -> usize {
    let [_, rows] = taken(size);
    let follow = match random.number() % 16 {
        0 => rows - 1,
        1 => random.within(0, rows),
        2 => random.one_of(&[0, rows / 2, rows - 2, rows - row_bytes(size.shape()), bits(size)]),
        3 => rows + 1,
        4 => rows + random.within(2, 300),
        _ => rows,
    };
    follow.clamp(0, rows + 300) as usize
}
