//! Headers of pictures that are taken apart wrongly on purpose.
use crate::pbm::{apart, digits, outside, Header, Letter, Pbm, BLANKS};
use crate::rule::{Rules, Shape};

/// Each with what is wrong in it.
pub fn wrong_headers() -> Vec<(&'static str, Pbm)> {
    [wrong_comments(), wrong_blanks(), wrong_numbers(), wrong_sizes()].concat()
}

fn wrong_comments() -> Vec<(&'static str, Pbm)> {
    let right = Pbm::document();
    vec![
        ("a comment before the magic number is seen", Pbm { letters: |p| seen(p, |at| at == (0, 0)), ..right }),
        ("a comment inside the magic number is seen", Pbm { letters: |p| seen(p, |at| at == (1, 0)), ..right }),
        ("a comment after the magic number is seen", Pbm { letters: |p| seen(p, |at| at == (2, 0)), ..right }),
        ("a comment among blanks is seen", Pbm { letters: |p| seen(p, |(part, i)| part % 2 == 0 && i > 0), ..right }),
        ("a comment before the width is seen", Pbm { letters: |p| seen(p, |at| at == (3, 0)), ..right }),
        ("a comment inside the width is seen", Pbm { letters: |p| seen(p, |(part, i)| part == 3 && i > 0), ..right }),
        ("a comment after the width is seen", Pbm { letters: |p| seen(p, |at| at == (4, 0)), ..right }),
        ("a comment before the height is seen", Pbm { letters: |p| seen(p, |at| at == (5, 0)), ..right }),
        ("a comment inside the height is seen", Pbm { letters: |p| seen(p, |(part, i)| part == 5 && i > 0), ..right }),
        ("a comment after the height is seen", Pbm { letters: |p| seen(p, |at| at == (6, 0)), ..right }),
        ("a comment that begins within a line is seen", Pbm { letters: within_line, ..right }),
        ("of two comments side by side one is seen", Pbm { letters: one_of_two, ..right }),
        ("a # in a comment begins another, with its own end", Pbm { letters: nested, ..right }),
        ("the end of a comment is a blank", Pbm { letters: ends_stay, ..right }),
        ("a carriage return ends no comment", Pbm { letters: |p| outside(p, |byte| byte == b'\n'), ..right }),
        ("a newline ends no comment", Pbm { letters: |p| outside(p, |byte| byte == b'\r'), ..right }),
        ("a form feed ends a comment", Pbm { letters: |p| outside(p, |byte| matches!(byte, 10 | 12 | 13)), ..right }),
        ("a comment is skipped where the rows begin", Pbm { apart: comment_in_rows, ..right }),
    ]
}

fn wrong_blanks() -> Vec<(&'static str, Pbm)> {
    let right = Pbm::document();
    vec![
        ("a tabulator is no blank", Pbm { blank: |byte| byte != 9 && BLANKS.contains(&byte), ..right }),
        ("a vertical tabulator is no blank", Pbm { blank: |byte| byte != 11 && BLANKS.contains(&byte), ..right }),
        ("a form feed is no blank", Pbm { blank: |byte| byte != 12 && BLANKS.contains(&byte), ..right }),
        ("a carriage return is no blank", Pbm { blank: |byte| byte != 13 && BLANKS.contains(&byte), ..right }),
        ("every byte up to 32 is a blank", Pbm { blank: |byte| byte <= 32, ..right }),
        ("a byte of 160 is a blank", Pbm { blank: |byte| byte == 160 || BLANKS.contains(&byte), ..right }),
        ("all blanks after the height end the header", Pbm { apart: all_blanks, ..right }),
        ("a line's end of two bytes ends the header", Pbm { apart: two_bytes, ..right }),
        ("a header ends with the file", Pbm { apart: ends_with_file, ..right }),
        ("any byte after the height ends the header", Pbm { letters: any_end, ..right }),
        ("a header has no two blanks side by side", Pbm { letters: one_blank, ..right }),
        ("blanks stand before the magic number", Pbm { letters: blanks_first, ..right }),
        ("no blank is due after the magic number", Pbm { letters: none_after_magic, ..right }),
    ]
}

fn wrong_numbers() -> Vec<(&'static str, Pbm)> {
    let right = Pbm::document();
    vec![
        ("a side is read modulo 2^16", Pbm { digits: |named, side| modulo(named, 1 << 16) == side, ..right }),
        ("a side is read modulo 2^32", Pbm { digits: |named, side| modulo(named, 1 << 32) == side, ..right }),
        ("a side is read modulo 2^64", Pbm { digits: |named, side| modulo(named, 1 << 64) == side, ..right }),
        ("a side above 4,096 is read as that", Pbm { digits: |named, side| value(named).min(4096) == side, ..right }),
        ("a side has no leading zero", Pbm { digits: |named, side| named == side.to_string().as_bytes(), ..right }),
        ("a side has at most 20 digits", Pbm { digits: at_most_20, ..right }),
        ("a side with a leading zero is octal", Pbm { digits: octal, ..right }),
        ("a side has a sign", Pbm { letters: signed, ..right }),
        ("a side of 0 is any", Pbm { digits: |named, side| [0, side].contains(&value(named)), ..right }),
    ]
}

fn wrong_sizes() -> Vec<(&'static str, Pbm)> {
    let right = Pbm::document();
    vec![
        ("a picture of a smaller side is taken", Pbm { digits: |named, side| value(named) <= side, ..right }),
        ("a picture of a larger side is taken", Pbm { digits: |named, side| value(named) >= side, ..right }),
        ("a picture of another width is taken", Pbm { names: height_alone, ..right }),
        ("a picture of another height is taken", Pbm { names: width_alone, ..right }),
        ("a header names the height first", Pbm { names: height_first, ..right }),
        ("a picture of as many pixels is taken", Pbm { names: as_many_pixels, ..right }),
        ("another kind of picture is taken", Pbm { letters: any_kind, ..right }),
        ("the magic number is in small letters", Pbm { letters: small, ..right }),
    ]
}

fn letters(picture: &[u8]) -> Vec<Letter> {
    (Pbm::document().letters)(picture)
}

/// Comments, and where they stand: the part and the place in it of the letter after them, and the letter before.
struct Comments<'a> {
    at: (usize, usize),
    before: Option<u8>,
    text: &'a [u8],
}

/// The letters and, where comments stand, what becomes a letter of them.
fn with(picture: &[u8], put: impl Fn(Comments) -> Option<u8>) -> Vec<Letter> {
    let (letters, rules) = (letters(picture), Rules::document());
    let (mut all, mut after): (Vec<Letter>, usize) = (Vec::new(), 0);
    for (part, part_letters) in rules.parts(&letters).enumerate() {
        for (i, &letter) in part_letters.iter().enumerate() {
            let text = &picture[after..letter.at];
            let before = after.checked_sub(1).map(|at| picture[at]);
            let byte = if text.is_empty() { None } else { put(Comments { at: (part, i), before, text }) };
            all.extend(byte.map(|byte| Letter { at: letter.at - 1, byte }));
            all.push(letter);
            after = letter.at + 1;
        }
    }
    all
}

fn seen(picture: &[u8], so: fn((usize, usize)) -> bool) -> Vec<Letter> {
    with(picture, |comments| so(comments.at).then_some(b'#'))
}

fn ends(byte: u8) -> bool {
    matches!(byte, b'\r' | b'\n')
}

fn within_line(picture: &[u8]) -> Vec<Letter> {
    with(picture, |comments| comments.before.filter(|byte| !ends(*byte)).map(|_| b'#'))
}

fn one_of_two(picture: &[u8]) -> Vec<Letter> {
    with(picture, |comments| (comments.text.iter().filter(|byte| ends(**byte)).count() > 1).then_some(b'#'))
}

fn ends_stay(picture: &[u8]) -> Vec<Letter> {
    with(picture, |comments| comments.text.last().copied())
}

fn nested(picture: &[u8]) -> Vec<Letter> {
    let (mut letters, mut depth) = (Vec::new(), 0);
    for (at, &byte) in picture.iter().enumerate() {
        match byte {
            b'#' => depth += 1,
            _ if depth == 0 => letters.push(Letter { at, byte }),
            _ if ends(byte) => depth -= 1,
            _ => {}
        }
    }
    letters
}

/// The header, with rows that begin so many bytes later.
fn later(rules: &Rules, picture: &[u8], more: impl Fn(&[u8]) -> usize) -> Option<Header> {
    apart(rules, picture).map(|header| Header { rows: header.rows + more(&picture[header.rows..]), ..header })
}

fn comment_in_rows(rules: &Rules, picture: &[u8]) -> Option<Header> {
    later(rules, picture, |rows| letters(rows).first().map_or(rows.len(), |first| first.at))
}

fn all_blanks(rules: &Rules, picture: &[u8]) -> Option<Header> {
    later(rules, picture, |rows| rows.iter().take_while(|byte| BLANKS.contains(byte)).count())
}

fn two_bytes(rules: &Rules, picture: &[u8]) -> Option<Header> {
    let header = apart(rules, picture)?;
    let line_end = picture[header.rows - 1..].starts_with(b"\r\n");
    Some(Header { rows: header.rows + usize::from(line_end), ..header })
}

fn ends_with_file(rules: &Rules, picture: &[u8]) -> Option<Header> {
    let header = apart(rules, &[picture, b" "].concat())?;
    Some(Header { rows: header.rows.min(picture.len()), ..header })
}

/// The letters, of which the one after the height is a blank.
fn any_end(picture: &[u8]) -> Vec<Letter> {
    let mut letters = letters(picture);
    let end: usize = Rules::document().parts(&letters).take(6).map(<[Letter]>::len).sum();
    letters.iter_mut().skip(end).take(1).for_each(|letter| letter.byte = b' ');
    letters
}

/// The letters, but the second of blanks side by side is none; those after the height stay.
fn one_blank(picture: &[u8]) -> Vec<Letter> {
    let mut letters = letters(picture);
    let rules = Rules::document();
    let lengths: Vec<usize> = rules.parts(&letters).take(5).map(<[Letter]>::len).collect();
    for part in [2, 4].into_iter().filter(|part| lengths.get(*part).is_some_and(|length| *length > 1)) {
        let first: usize = lengths[..part].iter().sum();
        letters[first + 1].byte = b'?';
    }
    letters
}

fn blanks_first(picture: &[u8]) -> Vec<Letter> {
    letters(picture).into_iter().skip_while(|letter| BLANKS.contains(&letter.byte)).collect()
}

fn none_after_magic(picture: &[u8]) -> Vec<Letter> {
    let mut letters = letters(picture);
    if let Some(next) = letters.get(2).filter(|next| !BLANKS.contains(&next.byte)) {
        letters.insert(2, Letter { byte: b' ', ..*next });
    }
    letters
}

/// The number that digits are, modulo another.
fn modulo(digits: &[u8], modulus: i128) -> i64 {
    let number = digits.iter().fold(0, |number, digit| (number * 10 + i128::from(digit - b'0')) % modulus);
    i64::try_from(number).unwrap_or(i64::MAX)
}

/// The number that digits are, or the greatest of 63 bits.
fn value(digits: &[u8]) -> i64 {
    digits.iter().fold(0, |number: i64, digit| number.saturating_mul(10).saturating_add((digit - b'0').into()))
}

fn at_most_20(named: &[u8], side: i64) -> bool {
    named.len() <= 20 && digits(named, side)
}

fn octal(named: &[u8], side: i64) -> bool {
    let octal = std::str::from_utf8(named).ok().and_then(|text| i64::from_str_radix(text, 8).ok());
    if named.starts_with(b"0") {
        octal == Some(side)
    } else {
        digits(named, side)
    }
}

fn signed(picture: &[u8]) -> Vec<Letter> {
    let letters = letters(picture);
    let before_digit = |i: usize| letters.get(i + 1).is_some_and(|next| next.byte.is_ascii_digit());
    let kept = (0..letters.len()).filter(|&i| !(letters[i].byte == b'+' && before_digit(i)));
    kept.map(|i| letters[i]).collect()
}

fn height_alone(_: &Rules, header: &Header, shape: Shape) -> bool {
    digits(&header.height, shape.height)
}

fn width_alone(_: &Rules, header: &Header, shape: Shape) -> bool {
    digits(&header.width, shape.width)
}

fn height_first(_: &Rules, header: &Header, shape: Shape) -> bool {
    digits(&header.width, shape.height) && digits(&header.height, shape.width)
}

fn as_many_pixels(_: &Rules, header: &Header, shape: Shape) -> bool {
    value(&header.width).saturating_mul(value(&header.height)) == shape.width * shape.height
}

/// The letters, of which one is another byte where it is so.
fn instead(picture: &[u8], i: usize, byte: u8, so: fn(u8) -> bool) -> Vec<Letter> {
    let mut letters = letters(picture);
    letters.iter_mut().skip(i).take(1).filter(|letter| so(letter.byte)).for_each(|letter| letter.byte = byte);
    letters
}

fn any_kind(picture: &[u8]) -> Vec<Letter> {
    instead(picture, 1, b'4', |byte| byte.is_ascii_digit())
}

fn small(picture: &[u8]) -> Vec<Letter> {
    instead(picture, 0, b'P', |byte| byte == b'p')
}
