//! Pictures in and out as raw PBM, pixel by pixel, from document 02 and the Netpbm page.
use crate::rule::{place, Cell, Reply, Rules, Shape, Sheet};

/// What the bits of a byte count, from the leftmost pixel on.
pub const BITS: [u8; 8] = [128, 64, 32, 16, 8, 4, 2, 1];

/// Blank, tabulator, newline, vertical tabulator, form feed and carriage return.
pub const BLANKS: [u8; 6] = [32, 9, 10, 11, 12, 13];

/// A byte of a picture outside its comments, and where it stands.
#[derive(Clone, Copy, Debug, PartialEq)]
pub struct Letter {
    pub at: usize,
    pub byte: u8,
}

/// What a header tells: the digits of both sides, and where the rows begin.
#[derive(Clone, Debug, PartialEq)]
pub struct Header {
    pub width: Vec<u8>,
    pub height: Vec<u8>,
    pub rows: usize,
}

/// The rules of pictures, each replaceable as those of drawing are.
#[derive(Clone, Copy)]
pub struct Pbm {
    /// The header that is written for a sheet of this shape.
    pub header: fn(Shape) -> Vec<u8>,
    /// Whether the pixel of a cell is black; a column after the last is that of a pad bit.
    pub black: fn(&Sheet, Cell) -> bool,
    /// The rows that are written of a sheet.
    pub rows: fn(&Rules, &Sheet) -> Vec<u8>,
    /// Whether a buffer of this length is too short for a picture of so many bytes.
    pub short: fn(usize, usize) -> bool,
    /// Writes a sheet to a buffer.
    pub write: fn(&Rules, &Sheet, &mut [u8]) -> Reply,
    /// The bytes outside the comments.
    pub letters: fn(&[u8]) -> Vec<Letter>,
    pub blank: fn(u8) -> bool,
    /// The header of a picture, where it keeps the page's rules.
    pub apart: fn(&Rules, &[u8]) -> Option<Header>,
    /// Whether these digits are those of a side of this length.
    pub digits: fn(&[u8], i64) -> bool,
    /// Whether a header names the size of a sheet of this shape.
    pub names: fn(&Rules, &Header, Shape) -> bool,
    /// Whether so many bytes are too few for the rows of a sheet of this shape.
    pub missing: fn(Shape, usize) -> bool,
    /// The ink of a cell on a sheet of this shape, by the bytes of the rows.
    pub ink: fn(Shape, &[u8], Cell) -> u8,
    /// Reads a picture onto a sheet.
    pub read: fn(&Rules, &mut Sheet, &[u8]) -> Reply,
}

impl Pbm {
    pub fn document() -> Pbm {
        Pbm {
            header,
            black,
            rows,
            short: |room, bytes| room < bytes,
            write,
            letters: |picture| outside(picture, |byte| matches!(byte, b'\r' | b'\n')),
            blank: |byte| BLANKS.contains(&byte),
            apart,
            digits,
            names,
            missing: |shape, bytes| (bytes as i64) < row_bytes(shape) * shape.height,
            ink,
            read,
        }
    }
}

pub fn header(shape: Shape) -> Vec<u8> {
    format!("P4\n{} {}\n", shape.width, shape.height).into_bytes()
}

/// How many bytes a row takes: one for each eight cells, and one for those that are left.
pub fn row_bytes(shape: Shape) -> i64 {
    (shape.width + 7) / 8
}

/// Any ink but 0; no pad bit.
pub fn black(sheet: &Sheet, cell: Cell) -> bool {
    place(sheet.shape, cell).is_some_and(|place| sheet.bytes[place] != 0)
}

pub fn rows(rules: &Rules, sheet: &Sheet) -> Vec<u8> {
    let byte = |first: i64, y: i64| -> u8 {
        let black = BITS.into_iter().zip(first..).filter(|&(_, x)| (rules.pbm.black)(sheet, (x, y)));
        black.map(|(bit, _)| bit).sum()
    };
    let row = |y: i64| (0..row_bytes(sheet.shape)).map(move |i| byte(8 * i, y));
    (0..sheet.shape.height).flat_map(row).collect()
}

/// 1, 15, then 12; the value is how many bytes the picture has.
pub fn write(rules: &Rules, sheet: &Sheet, buffer: &mut [u8]) -> Reply {
    if let Some(number) = (rules.no_sheet)(sheet) {
        return Reply::refused(number);
    }
    let picture = rules.picture(sheet);
    if (rules.pbm.short)(buffer.len(), picture.len()) {
        return Reply::refused(12);
    }
    buffer.iter_mut().zip(&picture).for_each(|(byte, new)| *byte = *new);
    Reply::done(Some(picture.len() as u64))
}

impl Rules {
    /// What is written of a sheet.
    pub fn picture(&self, sheet: &Sheet) -> Vec<u8> {
        [(self.pbm.header)(sheet.shape), (self.pbm.rows)(self, sheet)].concat()
    }

    /// The parts of a text: blanks, digits and other letters, each as far as they go.
    pub fn parts<'a>(&self, letters: &'a [Letter]) -> impl Iterator<Item = &'a [Letter]> {
        let blank = self.pbm.blank;
        let sort = move |letter: &Letter| (blank(letter.byte), letter.byte.is_ascii_digit());
        letters.chunk_by(move |one, next| sort(one) == sort(next))
    }
}

/// All but the comments, each from a # through the first byte that ends it. What looks like one among the rows is left out
/// too: nobody looks for a letter there.
pub fn outside(picture: &[u8], ends: fn(u8) -> bool) -> Vec<Letter> {
    let (mut letters, mut at) = (Vec::new(), 0);
    while at < picture.len() {
        let comment = at + picture[at..].iter().take_while(|&&byte| byte != b'#').count();
        letters.extend((at..comment).map(|at| Letter { at, byte: picture[at] }));
        at = comment + picture[comment..].iter().take_while(|&&byte| !ends(byte)).count() + 1;
    }
    letters
}

/// The bytes of a part.
pub fn text(part: &[Letter]) -> Vec<u8> {
    part.iter().map(|letter| letter.byte).collect()
}

/// P, 4, blanks, digits, blanks, digits, and blanks of which the first ends the header.
pub fn apart(rules: &Rules, picture: &[u8]) -> Option<Header> {
    let letters = (rules.pbm.letters)(picture);
    let parts: Vec<&[Letter]> = rules.parts(&letters).take(7).collect();
    let &[first, second, after, width, between, height, end] = parts.as_slice() else {
        return None;
    };
    let magic = text(first) == b"P" && text(second) == b"4";
    let blanks = [after, between, end].iter().all(|part| (rules.pbm.blank)(part[0].byte));
    let numbers = [width, height].iter().all(|part| part[0].byte.is_ascii_digit());
    let header = Header { width: text(width), height: text(height), rows: end[0].at + 1 };
    (magic && blanks && numbers).then_some(header)
}

/// Without leading zeros the digits are those of the side: no number is too large to be compared so.
pub fn digits(digits: &[u8], side: i64) -> bool {
    let zeros = digits.iter().take_while(|&&digit| digit == b'0').count();
    digits[zeros..] == *side.to_string().as_bytes()
}

pub fn names(rules: &Rules, header: &Header, shape: Shape) -> bool {
    (rules.pbm.digits)(&header.width, shape.width) && (rules.pbm.digits)(&header.height, shape.height)
}

pub fn ink(shape: Shape, rows: &[u8], (x, y): Cell) -> u8 {
    rows[(y * row_bytes(shape) + x / 8) as usize] / BITS[x as usize % 8] % 2
}

/// 1, 15, 13, then 14.
pub fn read(rules: &Rules, sheet: &mut Sheet, picture: &[u8]) -> Reply {
    if let Some(number) = (rules.no_sheet)(sheet) {
        return Reply::refused(number);
    }
    let shape = sheet.shape;
    let header = (rules.pbm.apart)(rules, picture).filter(|header| (rules.pbm.names)(rules, header, shape));
    let Some(Header { rows, .. }) = header else {
        return Reply::refused(13);
    };
    let rows = &picture[rows..];
    if (rules.pbm.missing)(shape, rows.len()) {
        return Reply::refused(14);
    }
    for cell in (0..shape.height).flat_map(|y| (0..shape.width).map(move |x| (x, y))) {
        let place = place(shape, cell).expect("a cell of the sheet");
        sheet.bytes[place] = (rules.pbm.ink)(shape, rows, cell);
    }
    Reply::done(None)
}

#[cfg(test)]
mod tests {
    use super::*;

    /// Ten cells and two bytes of padding in each of two rows.
    const SHAPE: Shape = Shape { width: 10, height: 2, pitch: 12 };
    const SHEET: [u8; 24] = [1, 0, 0, 255, 0, 0, 0, 128, 0, 7, 9, 9, 0, 2, 0, 0, 0, 0, 0, 0, 1, 0, 0, 9];
    const PICTURE: &[u8] = b"P4\n10 2\n\x91\x40\x40\x80";

    /// The reply to a write of the sheet to so many bytes, and these.
    fn written(shape: Shape, room: usize) -> (Reply, Vec<u8>) {
        let mut buffer = vec![238; room];
        let reply = write(&Rules::document(), &Sheet { shape, bytes: &mut SHEET.clone() }, &mut buffer);
        (reply, buffer)
    }

    #[test]
    fn a_sheet_is_written_by_hand() {
        assert_eq!(written(SHAPE, 12), (Reply::done(Some(12)), PICTURE.to_vec()));
        assert_eq!(written(SHAPE, 14), (Reply::done(Some(12)), [PICTURE, &[238; 2]].concat()));
        for (shape, room, number) in [
            (SHAPE, 11, 12),
            (SHAPE, 0, 12),
            (Shape { pitch: 9, ..SHAPE }, 0, 1),
            (Shape { height: 3, ..SHAPE }, 0, 15),
            (Shape { height: 3, ..SHAPE }, 40, 15),
        ] {
            assert_eq!(written(shape, room), (Reply::refused(number), vec![238; room]));
        }
    }

    /// The reply to a read of a picture onto three by two cells with one byte of padding, and whether the sheet is as here.
    fn read_as(picture: &[u8], sheet: [u8; 8]) -> (u32, bool) {
        let mut bytes = [238; 8];
        let lent = &mut Sheet { shape: Shape { width: 3, height: 2, pitch: 4 }, bytes: &mut bytes };
        let reply = read(&Rules::document(), lent, picture);
        (reply.number, bytes == sheet)
    }

    #[test]
    fn headers_by_hand() {
        const INKS: [u8; 8] = [1, 0, 1, 238, 0, 1, 0, 238];
        let sound: [&[u8]; 16] = [
            b"P4\n3 2\n",
            b"P4 \t\n\x0b\x0c\r3\x0c2\x0b",
            b"P4 003 0000000000000000000000002 ",
            b"#\nP4 3 2 ",
            b"#P4 4 4 \n#\rP4 3 2 ",
            b"P#c\n4 3 2 ",
            b"P4#c\n 3 2 ",
            b"P4 #c\n3 2 ",
            b"P4 0#c\r3 2 ",
            b"P4 3#c\n 2 ",
            b"P4 3 #c\n#\n2 ",
            b"P4 3 0#c\n2 ",
            b"P4 3 2#c\n\n",
            b"P4 3 2#\r#\n\r",
            b"P4 3 2##\n ",
            b"P4#\x0b\x0c 3 2\r\n3 2\n",
        ];
        for header in sound {
            assert_eq!(read_as(&[header, &[0xbf, 0x40]].concat(), INKS), (0, true), "{header:?}");
            assert_eq!(read_as(&[header, &[0xa0, 0x5f, 7, 7]].concat(), INKS), (0, true), "{header:?}");
            assert_eq!(read_as(&[header, &[0xa0]].concat(), [238; 8]), (14, true), "{header:?}");
            assert_eq!(read_as(header, [238; 8]), (14, true), "{header:?}");
            assert_eq!(read_as(&header[..header.len() - 1], [238; 8]), (13, true), "{header:?}");
        }
        // the rows begin after the first blank, with whatever stands there
        assert_eq!(read_as(b"P4 3 2 ##", [0, 0, 1, 238, 0, 0, 1, 238]), (0, true));
        assert_eq!(read_as(b"P4 3 2\r\n\xe0", [0, 0, 0, 238, 1, 1, 1, 238]), (0, true));
    }

    #[test]
    fn headers_that_are_refused_by_hand() {
        let refused: [&[u8]; 19] = [
            b"",
            b"P",
            b"P1 3 2 ",
            b"p4 3 2 ",
            b" P4 3 2 ",
            b"P43 2 ",
            b"P4#c\n3 2 ",
            b"P4 3#c\n2 ",
            b"P4 3 2#c\n",
            b"P4 3 2#c",
            b"P4 3 +2 ",
            b"P4 3,2 ",
            b"P4 2 3 ",
            b"P4 0 2 ",
            b"P4 3 0 ",
            b"P4 4294967299 2 ",
            b"P4 3 18446744073709551618 ",
            b"P4 3 340282366920938463463374607431768211458 ",
            b"P4 3\xa02 ",
        ];
        for header in refused {
            assert_eq!(read_as(&[header, &[0x41; 20]].concat(), [238; 8]), (13, true), "{header:?}");
        }
    }

    #[test]
    fn what_is_written_is_read_back() {
        let mut bytes = [238; 22];
        let sheet = &mut Sheet { shape: Shape { pitch: 11, ..SHAPE }, bytes: &mut bytes };
        assert_eq!(read(&Rules::document(), sheet, PICTURE), Reply::done(None));
        assert_eq!(bytes, [1, 0, 0, 1, 0, 0, 0, 1, 0, 1, 238, 0, 1, 0, 0, 0, 0, 0, 0, 1, 0, 238]);
    }
}
