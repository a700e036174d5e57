//! Pictures that are written wrongly on purpose.
use crate::pbm::{black, header, row_bytes, rows, write, Pbm};
use crate::rule::{place, Cell, Reply, Rules, Shape, Sheet};
use crate::teeth_header::wrong_headers;
use crate::teeth_pixels::{wrong_pixels, wrong_reads};

/// Each with what is wrong in it.
pub fn wrong_pictures() -> Vec<(&'static str, Rules)> {
    let wrong = [wrong_rows(), wrong_writes(), wrong_headers(), wrong_pixels(), wrong_reads()].concat();
    wrong.into_iter().map(|(what, pbm)| (what, Rules { pbm, ..Rules::document() })).collect()
}

fn wrong_rows() -> Vec<(&'static str, Pbm)> {
    let right = Pbm::document();
    vec![
        ("a picture's lowest bit is written as the leftmost", Pbm { rows: lowest_first, ..right }),
        ("a cell of ink 0 is written as black", Pbm { black: negative, ..right }),
        ("only ink 1 is written as black", Pbm { black: ones, ..right }),
        ("only an odd ink is written as black", Pbm { black: odd, ..right }),
        ("ink 128 or more is written as white", Pbm { black: signed, ..right }),
        ("pad bits are written as 1", Pbm { black: padded_black, ..right }),
        ("pad bits are written from the padding", Pbm { black: from_padding, ..right }),
        ("a picture's rows are written a width apart", Pbm { black: unpadded, ..right }),
        ("a picture's lowest row is written first", Pbm { black: upside_down, ..right }),
        ("written rows are not filled up to a byte", Pbm { rows: run_on, ..right }),
    ]
}

fn wrong_writes() -> Vec<(&'static str, Pbm)> {
    let right = Pbm::document();
    vec![
        ("a written header has the height first", Pbm { header: |shape| header(turned(shape)), ..right }),
        ("a written header has a newline between the sides", Pbm { header: two_lines, ..right }),
        ("a written header ends with two bytes", Pbm { header: two_bytes, ..right }),
        ("written sides have four digits", Pbm { header: four_digits, ..right }),
        ("a buffer that a picture fills is refused", Pbm { short: |room, bytes| room <= bytes, ..right }),
        ("a buffer a byte too short is taken", Pbm { short: |room, bytes| room + 1 < bytes, ..right }),
        ("no room is asked for a written header", Pbm { write: rows_alone, ..right }),
        ("room is asked for a written picture without pad bits", Pbm { write: bits_alone, ..right }),
        ("the count of a written picture is that of its rows", Pbm { write: counts_rows, ..right }),
        ("the count of a written picture is the buffer's length", Pbm { write: counts_room, ..right }),
        ("a written picture leaves the count", Pbm { write: counts_none, ..right }),
        ("12 tells how many bytes are needed", Pbm { write: counts_refused, ..right }),
        ("12 comes before 15", Pbm { write: twelve_before_15, ..right }),
        ("12 comes before 1", Pbm { write: twelve_before_1, ..right }),
        ("with 12 the header is written", Pbm { write: header_anyhow, ..right }),
        ("with 12 as much is written as there is room for", Pbm { write: part_anyhow, ..right }),
        ("the byte after a written picture is cleared", Pbm { write: one_more, ..right }),
        ("the buffer is cleared after a written picture", Pbm { write: all_cleared, ..right }),
    ]
}

fn turned(shape: Shape) -> Shape {
    Shape { width: shape.height, height: shape.width, ..shape }
}

fn lowest_first(rules: &Rules, sheet: &Sheet) -> Vec<u8> {
    rows(rules, sheet).into_iter().map(u8::reverse_bits).collect()
}

/// Whether a cell of the sheet has such an ink.
fn such(sheet: &Sheet, cell: Cell, has: fn(u8) -> bool) -> bool {
    place(sheet.shape, cell).is_some_and(|place| has(sheet.bytes[place]))
}

fn negative(sheet: &Sheet, cell: Cell) -> bool {
    such(sheet, cell, |ink| ink == 0)
}

fn ones(sheet: &Sheet, cell: Cell) -> bool {
    such(sheet, cell, |ink| ink == 1)
}

fn odd(sheet: &Sheet, cell: Cell) -> bool {
    such(sheet, cell, |ink| ink % 2 == 1)
}

fn signed(sheet: &Sheet, cell: Cell) -> bool {
    such(sheet, cell, |ink| ink as i8 > 0)
}

fn padded_black(sheet: &Sheet, (x, y): Cell) -> bool {
    x >= sheet.shape.width || black(sheet, (x, y))
}

fn from_padding(sheet: &Sheet, (x, y): Cell) -> bool {
    let Shape { pitch, height, .. } = sheet.shape;
    place(Shape { width: pitch, height, pitch }, (x, y)).is_some_and(|place| sheet.bytes[place] != 0)
}

fn unpadded(sheet: &Sheet, cell: Cell) -> bool {
    let shape = Shape { pitch: sheet.shape.width, ..sheet.shape };
    place(shape, cell).is_some_and(|place| sheet.bytes[place] != 0)
}

fn upside_down(sheet: &Sheet, (x, y): Cell) -> bool {
    black(sheet, (x, sheet.shape.height - 1 - y))
}

/// The cells of all rows as those of one.
fn run_on(_: &Rules, sheet: &Sheet) -> Vec<u8> {
    let Shape { width, height, .. } = sheet.shape;
    let cells: Vec<bool> = (0..width * height).map(|i| black(sheet, (i % width, i / width))).collect();
    let mut bytes = vec![0; (row_bytes(sheet.shape) * height) as usize];
    cells.iter().enumerate().for_each(|(i, black)| bytes[i / 8] |= u8::from(*black) << (7 - i % 8));
    bytes
}

fn two_lines(shape: Shape) -> Vec<u8> {
    format!("P4\n{}\n{}\n", shape.width, shape.height).into_bytes()
}

fn two_bytes(shape: Shape) -> Vec<u8> {
    format!("P4\n{} {}\r\n", shape.width, shape.height).into_bytes()
}

fn four_digits(shape: Shape) -> Vec<u8> {
    format!("P4\n{:04} {:04}\n", shape.width, shape.height).into_bytes()
}

/// Writes to any buffer that has so many bytes, as far as it goes.
fn written_from(rules: &Rules, sheet: &Sheet, buffer: &mut [u8], least: i64) -> Reply {
    let reply = write(rules, sheet, buffer);
    if reply.number != 12 || (buffer.len() as i64) < least {
        return reply;
    }
    part_anyhow(rules, sheet, buffer);
    Reply::done(Some(rules.picture(sheet).len() as u64))
}

fn rows_alone(rules: &Rules, sheet: &Sheet, buffer: &mut [u8]) -> Reply {
    written_from(rules, sheet, buffer, row_bytes(sheet.shape) * sheet.shape.height)
}

fn bits_alone(rules: &Rules, sheet: &Sheet, buffer: &mut [u8]) -> Reply {
    let Shape { width, height, .. } = sheet.shape;
    written_from(rules, sheet, buffer, header(sheet.shape).len() as i64 + (width * height + 7) / 8)
}

fn counts_rows(rules: &Rules, sheet: &Sheet, buffer: &mut [u8]) -> Reply {
    let reply = write(rules, sheet, buffer);
    Reply { value: reply.value.map(|bytes| bytes - header(sheet.shape).len() as u64), ..reply }
}

fn counts_room(rules: &Rules, sheet: &Sheet, buffer: &mut [u8]) -> Reply {
    let reply = write(rules, sheet, buffer);
    Reply { value: reply.value.map(|_| buffer.len() as u64), ..reply }
}

fn counts_none(rules: &Rules, sheet: &Sheet, buffer: &mut [u8]) -> Reply {
    Reply { value: None, ..write(rules, sheet, buffer) }
}

fn counts_refused(rules: &Rules, sheet: &Sheet, buffer: &mut [u8]) -> Reply {
    let reply = write(rules, sheet, buffer);
    match reply.number {
        12 => Reply { value: Some(rules.picture(sheet).len() as u64), ..reply },
        _ => reply,
    }
}

/// 12 for a sheet that is refused with this number, where a buffer has no room for a picture of its size.
fn twelve_first(rules: &Rules, sheet: &Sheet, buffer: &mut [u8], refused: u32) -> Reply {
    let bytes = header(sheet.shape).len() as i64 + row_bytes(sheet.shape) * sheet.shape.height;
    match write(rules, sheet, buffer) {
        Reply { number, .. } if number == refused && (buffer.len() as i64) < bytes => Reply::refused(12),
        reply => reply,
    }
}

fn twelve_before_15(rules: &Rules, sheet: &Sheet, buffer: &mut [u8]) -> Reply {
    twelve_first(rules, sheet, buffer, 15)
}

fn twelve_before_1(rules: &Rules, sheet: &Sheet, buffer: &mut [u8]) -> Reply {
    twelve_first(rules, sheet, buffer, 1)
}

/// Writes and, where that is refused with 12, puts these bytes as far as they go.
fn put_anyhow(rules: &Rules, sheet: &Sheet, buffer: &mut [u8], bytes: fn(&Rules, &Sheet) -> Vec<u8>) -> Reply {
    let reply = write(rules, sheet, buffer);
    if reply.number == 12 {
        buffer.iter_mut().zip(bytes(rules, sheet)).for_each(|(byte, new)| *byte = new);
    }
    reply
}

fn header_anyhow(rules: &Rules, sheet: &Sheet, buffer: &mut [u8]) -> Reply {
    put_anyhow(rules, sheet, buffer, |_, sheet| header(sheet.shape))
}

fn part_anyhow(rules: &Rules, sheet: &Sheet, buffer: &mut [u8]) -> Reply {
    put_anyhow(rules, sheet, buffer, Rules::picture)
}

/// Writes, and clears at most so many bytes after the picture.
fn clears(rules: &Rules, sheet: &Sheet, buffer: &mut [u8], most: usize) -> Reply {
    let reply = write(rules, sheet, buffer);
    if let Some(bytes) = reply.value {
        buffer.iter_mut().skip(bytes as usize).take(most).for_each(|byte| *byte = 0);
    }
    reply
}

fn one_more(rules: &Rules, sheet: &Sheet, buffer: &mut [u8]) -> Reply {
    clears(rules, sheet, buffer, 1)
}

fn all_cleared(rules: &Rules, sheet: &Sheet, buffer: &mut [u8]) -> Reply {
    clears(rules, sheet, buffer, usize::MAX)
}
