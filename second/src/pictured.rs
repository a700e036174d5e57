//! A sheet that is written as a picture or read from one, and what is then read back or written again by the library.
use crate::case::{Size, MOST_BUFFER, MOST_BYTES};
use crate::guard::{Against, Guarded};
use crate::native::{self, Lent};
use crate::pbm::row_bytes;
use crate::random::Random;
use crate::rule::{Reply, Rules, Shape, Sheet};
use crate::run::same;
use crate::tallied::clear;

#[derive(Clone, Debug)]
pub struct Pictured {
    pub size: Size,
    pub call: Call,
}

#[derive(Clone, Debug)]
pub enum Call {
    /// The sheet is written to a buffer of so many bytes.
    Write(usize),
    /// A picture that begins with these bytes and has so many others after them is read onto the sheet.
    Read(Vec<u8>, usize),
}

impl Pictured {
    /// The sheet, and the buffer or the picture; a sheet that is written has zeros among its cells and in its padding.
    pub(crate) fn before(&self, random: &mut Random) -> [Vec<u8>; 2] {
        let mut sheet = random.bytes(self.size.len);
        let picture = match &self.call {
            Call::Write(room) => {
                clear(random, &mut Sheet { shape: self.size.shape(), bytes: &mut sheet });
                random.bytes(*room)
            }
            Call::Read(head, more) => [head.clone(), random.bytes(*more)].concat(),
        };
        [sheet, picture]
    }

    pub fn by_rules(&self, rules: &Rules, sheet: &mut Sheet, picture: &mut [u8]) -> Reply {
        match self.call {
            Call::Write(_) => (rules.pbm.write)(rules, sheet, picture),
            Call::Read(..) => (rules.pbm.read)(rules, sheet, picture),
        }
    }

    /// What the library replies.
    pub fn by_library(&self, sheet: &mut [u8], picture: &mut [u8], bytes: &mut u64) -> u32 {
        let lent = lent(self.size, sheet);
        match self.call {
            Call::Write(_) => native::write_pbm(lent, picture, bytes),
            Call::Read(..) => native::read_pbm(lent, picture),
        }
    }
}

fn lent(Size { width, height, pitch, .. }: Size, bytes: &mut [u8]) -> Lent<'_> {
    Lent { bytes, width, height, pitch }
}

/// The room for what is lent when a picture is read back or written again.
pub struct Room {
    sheet: Guarded,
    picture: Guarded,
    bytes: Guarded,
}

impl Default for Room {
    fn default() -> Room {
        let room = Guarded::with_room;
        Room { sheet: room(MOST_BYTES), picture: room(MOST_BUFFER), bytes: room(8) }
    }
}

impl Room {
    /// What must be true of a picture that was written or read as the rules say.
    pub fn and_back(
        &mut self,
        rules: &Rules,
        pictured: &Pictured,
        sheet: &mut [u8],
        (picture, bytes): (&[u8], u64),
        against: Against,
    ) -> Result<(), String> {
        let size = pictured.size;
        match pictured.call {
            Call::Write(_) => {
                let sheet = Sheet { shape: size.shape(), bytes: sheet };
                let compared = self.read_back(rules, size, &sheet, &picture[..bytes as usize], against);
                compared.map_err(|what| format!("read back, {what}"))
            }
            Call::Read(..) => {
                let header = (rules.pbm.apart)(rules, picture).ok_or("by the rules there is no header")?;
                let compared = self.write_again(size, sheet, &picture[header.rows..], against);
                compared.map_err(|what| format!("written again, {what}"))
            }
        }
    }

    /// That the library reads this picture of a sheet onto one of another pitch, as 1 where a cell is black, and 0.
    fn read_back(
        &mut self,
        rules: &Rules,
        size: Size,
        sheet: &Sheet,
        picture: &[u8],
        against: Against,
    ) -> Result<(), String> {
        let pitch = if size.pitch == size.width { size.width + 3 } else { size.pitch - 1 };
        let other = Size { len: (pitch * size.height) as usize, pitch, ..size };
        let mut expected = Random(picture.len() as u64).bytes(other.len);
        let back = self.sheet.lend_copy(&expected, against);
        for (row, y) in expected.chunks_mut(pitch as usize).zip(0..) {
            let cells = row.iter_mut().zip(0..).take(size.width as usize);
            cells.for_each(|(cell, x)| *cell = u8::from((rules.pbm.black)(sheet, (x, y))));
        }
        let number = native::read_pbm(lent(other, back), self.picture.lend_copy(picture, against));
        same("reply", &[number], &[0])?;
        same("byte", back, &expected)
    }

    /// That the library writes this sheet, which was read from rows that begin here, as our header and them, with pad bits 0.
    fn write_again(&mut self, size: Size, sheet: &mut [u8], rows: &[u8], against: Against) -> Result<(), String> {
        let picture = [&our_header(size), unpadded(size.shape(), rows).as_slice()].concat();
        let held = Random(rows.len() as u64).bytes(picture.len() + rows.len() % 3);
        let expected = [&picture, &held[picture.len()..]].concat();
        let buffer = self.picture.lend_copy(&held, against);
        let bytes = &mut self.bytes.lend_copy(&[u64::MAX], against)[0];
        let number = native::write_pbm(lent(size, sheet), buffer, bytes);
        same("reply", &[number], &[0])?;
        same("count", &[*bytes], &[picture.len() as u64])?;
        same("byte of the buffer", buffer, &expected)
    }
}

fn our_header(Size { width, height, .. }: Size) -> Vec<u8> {
    ["P4\n", &width.to_string(), " ", &height.to_string(), "\n"].concat().into_bytes()
}

/// The rows of a picture of this shape, with pad bits 0; what comes after them is left out.
fn unpadded(shape: Shape, rows: &[u8]) -> Vec<u8> {
    let pad = 8 * row_bytes(shape) - shape.width;
    let mut rows = rows[..(row_bytes(shape) * shape.height) as usize].to_vec();
    for last in rows.iter_mut().skip(row_bytes(shape) as usize - 1).step_by(row_bytes(shape) as usize) {
        *last = *last >> pad << pad;
    }
    rows
}

#[cfg(test)]
mod tests {
    use super::*;

    const SIZE: Size = Size { len: 6, width: 2, height: 2, pitch: 3 };
    const ROWS: [u8; 2] = [0x40, 0xc0];

    #[test]
    fn another_picture_is_not_read_back() {
        let mut room = Room::default();
        let mut back = |header: &[u8], mut sheet: [u8; 6], against| {
            let sheet = Sheet { shape: SIZE.shape(), bytes: &mut sheet };
            room.read_back(&Rules::document(), SIZE, &sheet, &[header, &ROWS].concat(), against)
        };
        for against in [Against::Before, Against::After] {
            assert_eq!(back(b"P4\n2 2\n", [0, 7, 9, 1, 255, 0], against), Ok(()));
            assert!(back(b"P4\n2 2\n", [0, 0, 9, 1, 255, 0], against).is_err());
            assert!(back(b"P4\n2 2\n", [0, 7, 9, 1, 0, 9], against).is_err());
            assert!(back(b"P4\n2 3\n", [0, 7, 9, 1, 255, 0], against).is_err());
        }
    }

    #[test]
    fn another_sheet_is_not_written_again() {
        let mut room = Room::default();
        let mut again = |mut sheet: [u8; 6], rows: &[u8], against| room.write_again(SIZE, &mut sheet, rows, against);
        for against in [Against::Before, Against::After] {
            for rows in [&ROWS[..], &[0x7f, 0xc1], &[0x40, 0xff, 7]] {
                assert_eq!(again([0, 1, 9, 1, 1, 0], rows, against), Ok(()));
            }
            assert!(again([0, 0, 9, 1, 1, 0], &ROWS, against).is_err());
            assert!(again([0, 1, 9, 1, 1, 0], &[0xc0, 0xc0], against).is_err());
        }
    }
}
