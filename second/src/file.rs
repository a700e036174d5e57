//! The record file.
use crate::repaint::Painted;
use crate::rule::{Bad, Figure, Reply, Rules, Sheet};

/// Where the fields of a record stand that are not its figure's.
const LENGTH: usize = 0;
const KIND: usize = 2;
const INK: usize = 4;

/// A record's ink, its figure and the bytes that it takes; or the number that refuses it and where the field that is named stands.
pub fn record(rules: &Rules, rest: &[u8]) -> Result<(u8, Figure, usize), Bad> {
    if rest.len() < 2 {
        return Err((8, LENGTH));
    }
    let length = u16::from_le_bytes([rest[0], rest[1]]) as usize;
    let Some(body) = rest[2..].get(..length) else {
        return Err((8, LENGTH));
    };
    if length < 2 {
        return Err((rules.kindless, LENGTH));
    }
    let kind = u16::from_le_bytes([body[0], body[1]]);
    let needed = match kind {
        1 | 3 => 11,
        2 => 9,
        4 => 16,
        5 => 20,
        _ => return Err((9, KIND)),
    };
    if length != needed {
        return Err((10, LENGTH));
    }
    let pair = |i: usize| [body[3 + 2 * i], body[4 + 2 * i]];
    let signed = |i: usize| i16::from_le_bytes(pair(i)) as i64;
    let unsigned = |i: usize| u16::from_le_bytes(pair(i)) as i64;
    let point = |i: usize| (signed(i), signed(i + 1));
    let figure = match kind {
        1 => Figure::Line(point(0), point(2)),
        2 => Figure::Circle(point(0), unsigned(2)),
        3 => Figure::Ellipse(point(0), unsigned(2), unsigned(3)),
        4 => Figure::Curve([point(0), point(2), point(4)], body[15] as i64),
        _ => Figure::Cubic([point(0), point(2), point(4), point(6)], body[19] as i64),
    };
    match (rules.refusal)(&figure) {
        // every field before the last has 2 bytes
        Some((number, field)) => Err((number, INK + 1 + 2 * field)),
        None => Ok((body[2], figure, 2 + length)),
    }
}

/// The ink of the first record; 0 where there is none.
pub fn first_ink(file: &[u8]) -> u8 {
    file.get(INK).copied().unwrap_or_default()
}

impl Rules {
    /// Tells each record's ink and figure in order; or, where one is refused, the number and the offset of the field that is named.
    pub fn read(&self, file: &[u8], mut tell: impl FnMut(u8, Figure)) -> Result<(), Bad> {
        let mut offset = 0;
        while offset < file.len() {
            let refused = |(number, place)| (number, (self.offset)(offset, place));
            let (ink, figure, taken) = record(self, &file[offset..]).map_err(refused)?;
            tell(ink, figure);
            offset += taken;
        }
        Ok(())
    }

    /// Draws a file; the value is its number of records, or the offset of the field that is named.
    pub fn draw_file(&self, sheet: &mut Sheet, file: &[u8]) -> Reply {
        if let Some(number) = (self.no_sheet)(sheet) {
            return self.refused_file(number, 0);
        }
        let mut records = Vec::new();
        let read = self.read(file, |ink, figure| {
            if !self.reads_first {
                self.paint(sheet, ink, &figure);
            }
            records.push((ink, figure));
        });
        if let Err((number, offset)) = read {
            return self.refused_file(number, offset);
        }
        let painted: Vec<Painted> = records.iter().map(|(ink, figure)| self.paint(sheet, *ink, figure)).collect();
        self.done(sheet.shape, Some(records.len() as u64), &painted)
    }
}

#[cfg(test)]
mod tests {
    use super::*;
    use crate::rule::Shape;

    fn reply(file: &[u8]) -> (u32, Option<u64>) {
        let shape = Shape { width: 16, height: 8, pitch: 16 };
        let mut bytes = vec![0; 128];
        let reply = Rules::document().draw_file(&mut Sheet { shape, bytes: &mut bytes }, file);
        (reply.number, reply.value)
    }

    #[test]
    fn files_of_the_document() {
        let line = [11, 0, 1, 0, 1, 0, 0, 0, 0, 2, 0, 1, 0];
        assert_eq!(reply(&[]), (0, Some(0)));
        assert_eq!(reply(&line), (0, Some(1)));
        assert_eq!(reply(&[7]), (8, Some(0)));
        assert_eq!(reply(&[1, 0, 5]), (16, Some(0)));
        assert_eq!(reply(&[1, 0]), (8, Some(0)));
        assert_eq!(reply(&[11, 0, 9, 0, 1, 0, 0, 0, 0, 2, 0, 1, 0]), (9, Some(2)));
        assert_eq!(reply(&[&line[..], &[7]].concat()), (8, Some(13)));
    }

    /// A record of a kind with these numbers after the ink, the last of a curve in 1 byte.
    fn with(kind: u8, numbers: &[u16]) -> Vec<u8> {
        let mut bytes = vec![0, 0, kind, 0, 1];
        bytes.extend(numbers.iter().flat_map(|number| number.to_le_bytes()));
        bytes.truncate(bytes.len() - usize::from(kind >= 4));
        bytes[0] = bytes.len() as u8 - 2;
        bytes
    }

    #[test]
    fn a_single_axis_of_0_is_named() {
        assert_eq!(reply(&with(3, &[1, 1, 0, 2])), (3, Some(9)));
        assert_eq!(reply(&with(3, &[1, 1, 2, 0])), (3, Some(11)));
        assert_eq!(reply(&with(3, &[1, 1, 0, 0x4000])), (3, Some(9)));
        assert_eq!(reply(&with(3, &[1, 1, 0x4000, 0])), (3, Some(9)));
        assert_eq!(reply(&with(2, &[1, 1, 0])), (0, Some(1)));
    }

    #[test]
    fn a_curve_and_a_cubic_have_lengths_of_their_own() {
        assert_eq!(reply(&with(5, &[0, 0, 2, 4, 4, 0, 6])), (10, Some(0)));
        assert_eq!(reply(&with(4, &[0, 0, 2, 4, 4, 0, 6, 2, 6])), (10, Some(0)));
    }

    #[test]
    fn fields_of_each_kind() {
        // numbers that are drawn; then for each field the offset, and the number that refuses one outside its limits
        type Kind = (u8, &'static [u16], &'static [(u64, u32)]);
        let kinds: [Kind; 6] = [
            (1, &[0, 0, 2, 1], &[(5, 2), (7, 2), (9, 2), (11, 2)]),
            (2, &[1, 1, 3], &[(5, 2), (7, 2), (9, 3)]),
            (3, &[1, 1, 3, 2], &[(5, 2), (7, 2), (9, 3), (11, 3)]),
            (3, &[1, 1, 0, 0], &[(5, 2), (7, 2), (9, 3)]),
            (4, &[0, 0, 2, 4, 4, 0, 6], &[(5, 2), (7, 2), (9, 2), (11, 2), (13, 2), (15, 2), (17, 4)]),
            (
                5,
                &[0, 0, 2, 4, 4, 0, 6, 2, 6],
                &[(5, 2), (7, 2), (9, 2), (11, 2), (13, 2), (15, 2), (17, 2), (19, 2), (21, 4)],
            ),
        ];
        for (kind, sound, fields) in kinds {
            assert_eq!(reply(&with(kind, sound)), (0, Some(1)));
            for (i, &(offset, number)) in fields.iter().enumerate() {
                // bad alone, and together with each field after it
                for j in i..fields.len() {
                    let mut numbers = sound.to_vec();
                    (numbers[i], numbers[j]) = (0x4007, 0x4007);
                    assert_eq!(reply(&with(kind, &numbers)), (number, Some(offset)));
                    let after = [with(kind, sound), with(kind, &numbers)].concat();
                    assert_eq!(reply(&after), (number, Some(offset + with(kind, sound).len() as u64)));
                }
            }
        }
    }
}
