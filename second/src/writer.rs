//! Writing a record file: the bytes of a record, and what appends them to a lent buffer.
use crate::rule::{Cell, Figure, Rules};

/// A lent buffer, and how many of its bytes are said to be filled.
pub struct Buffer<'a> {
    pub bytes: &'a mut [u8],
    pub filled: u64,
}

impl Buffer<'_> {
    /// Sets the bytes after the filled ones and counts them. A wrong program may do so where they do not fit.
    pub fn put(&mut self, record: &[u8]) {
        let free = self.bytes.iter_mut().skip(self.filled as usize);
        free.zip(record).for_each(|(byte, new)| *byte = *new);
        self.filled = self.filled.wrapping_add(record.len() as u64);
    }
}

/// The rules of writing, each replaceable as those of drawing are.
#[derive(Clone, Copy)]
pub struct Writer {
    /// The bytes of a figure's record with this ink.
    pub record: fn(u8, &Figure) -> Vec<u8>,
    /// Whether a buffer of this length, of which so many bytes are filled, is too full for so many more.
    pub full: fn(u64, u64, u64) -> bool,
    /// Appends a figure's record with this ink to a buffer; the number that it replies.
    pub append: fn(&Rules, &mut Buffer, u8, &Figure) -> u32,
}

impl Writer {
    pub fn document() -> Writer {
        Writer { record, full, append }
    }
}

impl Rules {
    pub fn write(&self, buffer: &mut Buffer, ink: u8, figure: &Figure) -> u32 {
        (self.writer.append)(self, buffer, ink, figure)
    }
}

/// 2, 3, 4, then 11.
pub fn append(rules: &Rules, buffer: &mut Buffer, ink: u8, figure: &Figure) -> u32 {
    if let Some((number, _)) = (rules.refusal)(figure) {
        return number;
    }
    let record = (rules.writer.record)(ink, figure);
    if (rules.writer.full)(buffer.bytes.len() as u64, buffer.filled, record.len() as u64) {
        return 11;
    }
    buffer.put(&record);
    0
}

/// None is free where more bytes are filled than there are.
pub fn full(len: u64, filled: u64, more: u64) -> bool {
    len.saturating_sub(filled) < more
}

/// The table of the document: the fields of each kind in their order.
pub fn record(ink: u8, figure: &Figure) -> Vec<u8> {
    match *figure {
        Figure::Line(from, to) => framed(1, ink, &[points(&[from, to])]),
        Figure::Circle(centre, r) => framed(2, ink, &[points(&[centre]), word(r)]),
        Figure::Ellipse(centre, a, b) => framed(3, ink, &[points(&[centre]), word(a), word(b)]),
        Figure::Curve(control, s) => framed(4, ink, &[points(&control), vec![s as u8]]),
        Figure::Cubic(control, s) => framed(5, ink, &[points(&control), vec![s as u8]]),
    }
}

/// A record of these fields; its length counts what comes after it.
pub fn framed(kind: i64, ink: u8, fields: &[Vec<u8>]) -> Vec<u8> {
    let body = [word(kind), vec![ink], fields.concat()].concat();
    [word(body.len() as i64), body].concat()
}

/// Each point's x and then its y.
pub fn points(points: &[Cell]) -> Vec<u8> {
    points.iter().flat_map(|&(x, y)| [word(x), word(y)]).flatten().collect()
}

/// A number in 2 bytes, the lower one first; one below 0 is counted down from 65,536.
pub fn word(number: i64) -> Vec<u8> {
    let number = number.rem_euclid(65_536);
    vec![(number % 256) as u8, (number / 256) as u8]
}

#[cfg(test)]
mod tests {
    use super::*;
    use crate::random::Random;
    use crate::rule::{LEAST, MOST};

    /// Writes a figure with ink 1 after so many bytes of a buffer of 30: the reply, the count, and the bytes if they changed.
    fn written(filled: u64, figure: &Figure) -> (u32, u64, Option<Vec<u8>>) {
        let mut bytes = vec![0xee; 30];
        let mut buffer = Buffer { bytes: &mut bytes, filled };
        let number = Rules::document().write(&mut buffer, 1, figure);
        let count = buffer.filled;
        (number, count, (bytes != [0xee; 30]).then_some(bytes))
    }

    /// The buffer of 30 with these bytes after so many.
    fn with(filled: usize, record: &[u8]) -> Option<Vec<u8>> {
        let mut bytes = vec![0xee; 30];
        bytes[filled..][..record.len()].copy_from_slice(record);
        Some(bytes)
    }

    const LINE: Figure = Figure::Line((0, 0), (2, 1));
    const BYTES: [u8; 13] = [0x0b, 0, 1, 0, 1, 0, 0, 0, 0, 2, 0, 1, 0];

    #[test]
    fn the_line_of_the_document() {
        assert_eq!(written(0, &LINE), (0, 13, with(0, &BYTES)));
        assert_eq!(written(9, &LINE), (0, 22, with(9, &BYTES)));
        assert_eq!(written(17, &LINE), (0, 30, with(17, &BYTES)));
    }

    #[test]
    fn a_full_buffer_stays() {
        for filled in [18, 28, 29, 30, 31, 43, 1 << 32, 1 << 63, u64::MAX - 12, u64::MAX] {
            assert_eq!(written(filled, &LINE), (11, filled, None));
        }
        assert_eq!(written(19, &Figure::Circle((0, 0), 0)).0, 0);
        assert_eq!(written(20, &Figure::Circle((0, 0), 0)).0, 11);
    }

    #[test]
    fn a_figure_is_refused_before_the_buffer() {
        for filled in [0, 30, u64::MAX] {
            assert_eq!(written(filled, &Figure::Line((0, 0), (0, 16_384))), (2, filled, None));
            assert_eq!(written(filled, &Figure::Circle((0, -16_385), 16_384)), (2, filled, None));
            assert_eq!(written(filled, &Figure::Circle((0, 0), 65_536)), (3, filled, None));
            assert_eq!(written(filled, &Figure::Ellipse((0, 0), 0, 1)), (3, filled, None));
            assert_eq!(written(filled, &Figure::Curve([(0, 0); 3], 262)), (4, filled, None));
            assert_eq!(written(filled, &Figure::Cubic([(0, 0); 4], 7)), (4, filled, None));
        }
    }

    #[test]
    fn records_of_each_kind() {
        let line = [11, 0, 1, 0, 255, 0x00, 0xc0, 0xff, 0x3f, 0xff, 0xff, 0x34, 0x12];
        assert_eq!(record(255, &Figure::Line((-16_384, 16_383), (-1, 0x1234))), line);
        let circle = [9, 0, 2, 0, 7, 0xfe, 0xff, 1, 0, 0xff, 0x3f];
        assert_eq!(record(7, &Figure::Circle((-2, 1), 16_383)), circle);
        let ellipse = [11, 0, 3, 0, 7, 0xfe, 0xff, 1, 0, 5, 0, 0, 1];
        assert_eq!(record(7, &Figure::Ellipse((-2, 1), 5, 256)), ellipse);
        let equal = [11, 0, 3, 0, 7, 0, 0, 0, 0, 5, 0, 5, 0];
        assert_eq!(record(7, &Figure::Ellipse((0, 0), 5, 5)), equal);
        let curve = [16, 0, 4, 0, 0, 1, 0, 2, 0, 3, 0, 4, 0, 5, 0, 6, 0, 6];
        assert_eq!(record(0, &Figure::Curve([(1, 2), (3, 4), (5, 6)], 6)), curve);
        let cubic = [20, 0, 5, 0, 0, 1, 0, 2, 0, 3, 0, 4, 0, 5, 0, 6, 0, 7, 0, 0xff, 0xff, 3];
        assert_eq!(record(0, &Figure::Cubic([(1, 2), (3, 4), (5, 6), (7, -1)], 3)), cubic);
    }

    /// A figure of each kind, anywhere within the limits.
    fn figures(random: &mut Random) -> [Figure; 5] {
        let [p0, p1, p2, p3] = [(); 4].map(|()| (random.within(LEAST, MOST), random.within(LEAST, MOST)));
        let [r, a, b] = [random.within(0, MOST), random.within(1, MOST), random.within(1, MOST)];
        let s = random.within(0, 6);
        [
            Figure::Line(p0, p1),
            Figure::Circle(p2, r),
            Figure::Ellipse(p3, a, b),
            Figure::Curve([p0, p1, p2], s),
            Figure::Cubic([p0, p1, p2, p3], s),
        ]
    }

    #[test]
    fn what_is_written_is_read_back() {
        let rules = Rules::document();
        for seed in 0..2000 {
            let mut random = Random(seed);
            let figures: Vec<(u8, Figure)> = (0..).zip(figures(&mut random)).collect();
            let mut bytes = random.bytes(80);
            let mut buffer = Buffer { bytes: &mut bytes, filled: 0 };
            for (ink, figure) in &figures {
                assert_eq!(rules.write(&mut buffer, *ink, figure), 0);
            }
            let (mut read, filled) = (Vec::new(), buffer.filled as usize);
            assert_eq!(rules.read(&bytes[..filled], |ink, figure| read.push((ink, figure))), Ok(()));
            assert_eq!((filled, read), (77, figures));
        }
    }
}
