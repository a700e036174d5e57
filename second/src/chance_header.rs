//! Headers of pictures, made at random: with blanks, comments and zeros wherever the page allows them, and broken ones.
use crate::pbm::BLANKS;
use crate::random::Random;

/// Neighbours of the blanks, and what other tables have for them.
const NO_BLANKS: [u8; 8] = [0, 8, 14, 28, 31, 133, 160, 160];

/// A header that keeps the page's rules and names these sides; or, seldom, one that does not.
pub fn header(random: &mut Random, sides: [u32; 2]) -> Vec<u8> {
    let [width, height] = named(random, sides);
    let mut parts = [magic(random), blanks(random), width, blanks(random), height, vec![blank(random)]];
    let often = random.one_of(&[None, None, Some(16), Some(8), Some(4), Some(2)]);
    parts.iter_mut().for_each(|part| *part = commented(random, part, often));
    if random.once_in(24) {
        // no blank where one is due, and mostly a comment, which is none
        let due = random.one_of(&[1, 3, 5]);
        parts[due] = if random.once_in(3) { Vec::new() } else { comment(random) };
    }
    parts.concat()
}

fn magic(random: &mut Random) -> Vec<u8> {
    let others: [&[u8]; 14] =
        [b"P1", b"P2", b"P3", b"P5", b"P6", b"p4", b"Q4", b"P", b"4", b"P44", b"P04", b"PP4", b" P4", b"P 4"];
    if random.once_in(32) { random.one_of(&others) } else { b"P4" }.to_vec()
}

/// Mostly one, sometimes a line's end of two bytes.
fn blanks(random: &mut Random) -> Vec<u8> {
    let count = match random.number() % 16 {
        0..9 => 1,
        9 => return b"\r\n".to_vec(),
        10..15 => random.within(2, 4),
        _ => random.within(5, 40),
    };
    (0..count).map(|_| blank(random)).collect()
}

/// One of the six; seldom another byte in its place.
fn blank(random: &mut Random) -> u8 {
    if random.once_in(150) {
        random.one_of(&NO_BLANKS)
    } else {
        random.one_of(&BLANKS)
    }
}

/// The digits of both sides; one header in six names others, and more where a side is the greatest.
fn named(random: &mut Random, [width, height]: [u32; 2]) -> [Vec<u8>; 2] {
    let mut names = [width, height].map(|side| side.to_string());
    let times = if [width, height].contains(&4096) { 16 } else { 40 };
    match random.number() % times {
        0 => names.swap(0, 1),
        1..4 => names[0] = other(random, width),
        4..7 => names[1] = other(random, height),
        _ => {}
    }
    names.map(|name| [vec![b'0'; zeros(random)], name.into_bytes()].concat())
}

fn zeros(random: &mut Random) -> usize {
    let count = match random.number() % 16 {
        0..10 => 0,
        10..14 => random.within(1, 4),
        14 => random.within(5, 20),
        _ => random.within(21, 60),
    };
    count as usize
}

/// What is no digits of this side, but the same in its lower bits, or beside it, or any.
fn other(random: &mut Random, side: u32) -> String {
    let (number, much) = (u128::from(side), random.within(1, 3) as u128);
    let sum = match random.number() % 16 {
        0 => number + 1,
        1 => number.saturating_sub(1),
        2 => 0,
        3 => number + (much << 8),
        4 => number + (much << 16),
        5 | 6 => number + (much << 32),
        7 | 8 => number + (much << 64),
        9 => number + (1 << random.one_of(&[31, 63, 48, 100])),
        10 => number * 10 + random.within(0, 9) as u128,
        11 => random.one_of(&[4097, 65_535, u128::from(u32::MAX), u128::from(u64::MAX), 1 << 64]),
        12 => random.number().into(),
        13 => return format!("{}{side}", random.within(1, 9).to_string().repeat(random.within(1, 60) as usize)),
        14 => return format!("{}{side}", random.one_of(&["+", "+", "-", "0x"])),
        _ => return format!("{side}{}", random.one_of(&[".0", "e0", "u", "-", ","])),
    };
    sum.to_string()
}

/// These letters, with comments before one in so many.
fn commented(random: &mut Random, letters: &[u8], often: Option<u64>) -> Vec<u8> {
    let mut text = Vec::new();
    for &letter in letters {
        while often.is_some_and(|times| random.once_in(times)) {
            text.extend(comment(random));
        }
        text.push(letter);
    }
    text
}

/// From a # through the next carriage return or newline.
fn comment(random: &mut Random) -> Vec<u8> {
    let mut words = match random.number() % 8 {
        0..3 => Vec::new(),
        3 => b"# P4 3 2 ".to_vec(),
        4 => [random.one_of(&BLANKS), random.one_of(b"#0123456789")].to_vec(),
        5 => (0..random.within(1, 6)).map(|_| random.one_of(&BLANKS)).collect(),
        _ => {
            let most = if random.once_in(32) { 300 } else { 9 };
            let count = random.within(1, most) as usize;
            random.bytes(count)
        }
    };
    words.retain(|byte| !matches!(byte, b'\r' | b'\n'));
    [b"#", words.as_slice(), &[random.one_of(b"\r\n")]].concat()
}

/// Changes, drops, inserts or exchanges a byte.
pub fn damage(random: &mut Random, header: &mut Vec<u8>) {
    let at = random.number() as usize % (header.len() + 1);
    match random.number() % 4 {
        0 if at < header.len() => header[at] = strange(random),
        1 if at < header.len() => _ = header.remove(at),
        2 if at + 1 < header.len() => header.swap(at, at + 1),
        _ => header.insert(at, strange(random)),
    }
}

/// What means something in a header, is a neighbour of such a byte, or is any.
fn strange(random: &mut Random) -> u8 {
    match random.number() % 4 {
        0 => random.number() as u8,
        1 => random.one_of(&BLANKS),
        2 => random.one_of(b"#P0123456789"),
        _ => random.one_of(&[8, 14, b'!', b'/', b'/', b':', b':', b'+', b'-']),
    }
}
