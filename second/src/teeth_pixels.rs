//! Pictures whose rows are read wrongly on purpose.
use crate::pbm::{header, ink, read, row_bytes, Header, Pbm};
use crate::rule::{no_sheet, place, Cell, Reply, Rules, Shape, Sheet};

pub fn wrong_pixels() -> Vec<(&'static str, Pbm)> {
    let right = Pbm::document();
    vec![
        ("a picture's lowest bit is read as the leftmost", Pbm { ink: reversed, ..right }),
        ("a black pixel is read as ink 255", Pbm { ink: |shape, rows, cell| 255 * ink(shape, rows, cell), ..right }),
        ("a black pixel is read as ink 0", Pbm { ink: |shape, rows, cell| 1 - ink(shape, rows, cell), ..right }),
        ("rows that are read are not filled up to a byte", Pbm { ink: read_on, ..right }),
        ("a picture's lowest row is read first", Pbm { ink: from_below, ..right }),
        ("a white pixel leaves its cell", Pbm { read: white_left, ..right }),
        ("pad bits are read into the padding", Pbm { read: into_padding, ..right }),
        ("padding is cleared by a read", Pbm { read: padding_cleared, ..right }),
        ("rows are read a width apart", Pbm { read: packed, ..right }),
    ]
}

pub fn wrong_reads() -> Vec<(&'static str, Pbm)> {
    let right = Pbm::document();
    vec![
        ("a picture without its last byte is read", Pbm { read: last_byte_free, ..right }),
        ("a picture that ends with its rows is refused", Pbm { missing: one_spare, ..right }),
        ("bytes after a picture are refused", Pbm { missing: all_used, ..right }),
        ("pixel bytes are counted with the header", Pbm { read: header_counted, ..right }),
        ("pixel bytes are counted without pad bits", Pbm { read: bits_counted, ..right }),
        ("a picture with a pad bit set is refused", Pbm { read: pad_refused, ..right }),
        ("14 is told where another size lacks bytes", Pbm { read: fourteen_first, ..right }),
        ("14 is told of a file that ends in its header", Pbm { read: ends_early, ..right }),
        ("13 comes before 15", Pbm { read: thirteen_before_15, ..right }),
        ("13 comes before 1", Pbm { read: thirteen_before_1, ..right }),
        ("14 comes before 15", Pbm { read: fourteen_before_15, ..right }),
        ("with 14 the rows that are there are read", Pbm { read: part_read, ..right }),
        ("with 13 the sheet is cleared", Pbm { read: cleared, ..right }),
        ("another size is read as far as it goes", Pbm { names: |_, _, _| true, ..right }),
    ]
}

fn reversed(shape: Shape, rows: &[u8], (x, y): Cell) -> u8 {
    let first = x / 8 * 8;
    rows[(y * row_bytes(shape) + first / 8) as usize] >> (x - first) & 1
}

fn read_on(shape: Shape, rows: &[u8], (x, y): Cell) -> u8 {
    let one_row = Shape { width: shape.width * shape.height, ..shape };
    ink(one_row, rows, (y * shape.width + x, 0))
}

fn from_below(shape: Shape, rows: &[u8], (x, y): Cell) -> u8 {
    ink(shape, rows, (x, shape.height - 1 - y))
}

/// Reads, and then has another go at each byte of a sheet that was read: its row and column, what it was and is.
fn then(rules: &Rules, sheet: &mut Sheet, picture: &[u8], set: impl Fn(Cell, [u8; 2]) -> u8) -> Reply {
    let before = sheet.bytes.to_vec();
    let reply = read(rules, sheet, picture);
    if reply.number == 0 {
        let pitch = sheet.shape.pitch;
        for ((byte, before), i) in sheet.bytes.iter_mut().zip(before).zip(0..) {
            *byte = set((i % pitch, i / pitch), [before, *byte]);
        }
    }
    reply
}

fn white_left(rules: &Rules, sheet: &mut Sheet, picture: &[u8]) -> Reply {
    then(rules, sheet, picture, |_, [before, byte]| if byte == 0 { before } else { byte })
}

fn into_padding(rules: &Rules, sheet: &mut Sheet, picture: &[u8]) -> Reply {
    let shape = sheet.shape;
    let start = (rules.pbm.apart)(rules, picture).map_or(0, |header| header.rows);
    then(rules, sheet, picture, |(x, y), [_, byte]| {
        let pad = x >= shape.width && x < 8 * row_bytes(shape);
        if pad {
            ink(shape, &picture[start..], (x, y))
        } else {
            byte
        }
    })
}

fn padding_cleared(rules: &Rules, sheet: &mut Sheet, picture: &[u8]) -> Reply {
    let width = sheet.shape.width;
    then(rules, sheet, picture, |(x, _), [_, byte]| if x >= width { 0 } else { byte })
}

/// Reads onto the front of the slice, as if the sheet had no padding.
fn packed(rules: &Rules, sheet: &mut Sheet, picture: &[u8]) -> Reply {
    let Shape { width, height, .. } = sheet.shape;
    if let Some(number) = no_sheet(sheet) {
        return Reply::refused(number);
    }
    let bytes = &mut sheet.bytes[..(width * height) as usize];
    read(rules, &mut Sheet { shape: Shape { width, height, pitch: width }, bytes }, picture)
}

/// Reads a picture that lacks bytes with as many zeros after it, where so many would have been enough.
fn read_from(rules: &Rules, sheet: &mut Sheet, picture: &[u8], least: impl Fn(&Header) -> i64) -> Reply {
    let reply = read(rules, sheet, picture);
    let Some(header) = (rules.pbm.apart)(rules, picture).filter(|_| reply.number == 14) else {
        return reply;
    };
    if ((picture.len() - header.rows) as i64) < least(&header) {
        return reply;
    }
    let rows = (row_bytes(sheet.shape) * sheet.shape.height) as usize;
    read(rules, sheet, &[picture, &vec![0; rows]].concat())
}

fn last_byte_free(rules: &Rules, sheet: &mut Sheet, picture: &[u8]) -> Reply {
    let rows = row_bytes(sheet.shape) * sheet.shape.height;
    read_from(rules, sheet, picture, |_| rows - 1)
}

fn header_counted(rules: &Rules, sheet: &mut Sheet, picture: &[u8]) -> Reply {
    let rows = row_bytes(sheet.shape) * sheet.shape.height;
    read_from(rules, sheet, picture, |header| rows - header.rows as i64)
}

fn bits_counted(rules: &Rules, sheet: &mut Sheet, picture: &[u8]) -> Reply {
    let Shape { width, height, .. } = sheet.shape;
    read_from(rules, sheet, picture, |_| (width * height + 7) / 8)
}

fn one_spare(shape: Shape, bytes: usize) -> bool {
    bytes as i64 <= row_bytes(shape) * shape.height
}

fn all_used(shape: Shape, bytes: usize) -> bool {
    bytes as i64 != row_bytes(shape) * shape.height
}

fn pad_refused(rules: &Rules, sheet: &mut Sheet, picture: &[u8]) -> Reply {
    let (shape, before) = (sheet.shape, sheet.bytes.to_vec());
    let reply = read(rules, sheet, picture);
    let Some(header) = (rules.pbm.apart)(rules, picture).filter(|_| reply.number == 0) else {
        return reply;
    };
    let mut pad = (0..shape.height).flat_map(|y| (shape.width..8 * row_bytes(shape)).map(move |x| (x, y)));
    if pad.any(|cell| ink(shape, &picture[header.rows..], cell) == 1) {
        sheet.bytes.copy_from_slice(&before);
        return Reply::refused(13);
    }
    reply
}

/// This number for another where it is so of the picture's header.
fn instead(
    rules: &Rules,
    sheet: &mut Sheet,
    picture: &[u8],
    [number, other]: [u32; 2],
    so: impl Fn(Option<Header>) -> bool,
) -> Reply {
    let reply = read(rules, sheet, picture);
    if reply.number == other && so((rules.pbm.apart)(rules, picture)) {
        return Reply::refused(number);
    }
    reply
}

fn fourteen_first(rules: &Rules, sheet: &mut Sheet, picture: &[u8]) -> Reply {
    let shape = sheet.shape;
    let lacks = |header: Header| (rules.pbm.missing)(shape, picture.len() - header.rows);
    instead(rules, sheet, picture, [14, 13], |header| header.is_some_and(lacks))
}

/// A file ends in its header where a header after it, or any part of one, makes it sound.
fn ends_early(rules: &Rules, sheet: &mut Sheet, picture: &[u8]) -> Reply {
    let whole = header(sheet.shape);
    let sound = |rest: &[u8]| (rules.pbm.apart)(rules, &[picture, rest].concat()).is_some();
    instead(rules, sheet, picture, [14, 13], |header| {
        header.is_none() && picture.len() < 40 && (0..whole.len()).any(|at| sound(&whole[at..]))
    })
}

fn thirteen_before_15(rules: &Rules, sheet: &mut Sheet, picture: &[u8]) -> Reply {
    instead(rules, sheet, picture, [13, 15], |header| header.is_none())
}

fn thirteen_before_1(rules: &Rules, sheet: &mut Sheet, picture: &[u8]) -> Reply {
    instead(rules, sheet, picture, [13, 1], |header| header.is_none())
}

fn fourteen_before_15(rules: &Rules, sheet: &mut Sheet, picture: &[u8]) -> Reply {
    let shape = sheet.shape;
    let lacks = |header: Header| (rules.pbm.missing)(shape, picture.len() - header.rows);
    instead(rules, sheet, picture, [14, 15], |header| header.is_some_and(lacks))
}

fn part_read(rules: &Rules, sheet: &mut Sheet, picture: &[u8]) -> Reply {
    let reply = read(rules, sheet, picture);
    let Some(header) = (rules.pbm.apart)(rules, picture).filter(|_| reply.number == 14) else {
        return reply;
    };
    let rows = (picture.len() - header.rows) as i64 / row_bytes(sheet.shape);
    let shape = sheet.shape;
    for (x, y) in (0..rows).flat_map(|y| (0..shape.width).map(move |x| (x, y))) {
        let place = place(shape, (x, y)).expect("a cell of the sheet");
        sheet.bytes[place] = ink(shape, &picture[header.rows..], (x, y));
    }
    reply
}

fn cleared(rules: &Rules, sheet: &mut Sheet, picture: &[u8]) -> Reply {
    let reply = read(rules, sheet, picture);
    if reply.number == 13 {
        sheet.bytes.fill(0);
    }
    reply
}
