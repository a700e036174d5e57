//! That random cases bring sheets, buffers and pictures of every sort, and that all that is written and read is compared.
use crate::case::{Case, Job};
use crate::headers::Looked;
use crate::pbm::{black, header, read, row_bytes, write, Pbm, BLANKS};
use crate::pictured::{Call, Pictured};
use crate::rule::{Reply, Rules, Shape};
use crate::run::{Outcome, Room};
use std::collections::BTreeMap;

/// What may be true of a case, and whether it is of this one.
pub type Sorts = Vec<(String, bool)>;

pub fn named<const N: usize>(sorts: [(&str, bool); N]) -> Sorts {
    sorts.map(|(what, is)| (what.to_string(), is)).to_vec()
}

/// A case, what is lent and what is left.
pub struct Tried {
    name: String,
    pictured: Pictured,
    pub shape: Shape,
    pub(crate) before: Outcome,
    after: Outcome,
}

impl Tried {
    fn at_random(seed: u64) -> Tried {
        let case = Case::pictured(seed);
        let lent = || Outcome::before(case.held, &case.job);
        let (before, mut after) = (lent(), lent());
        after.by_rules(&Rules::document(), &case.job);
        let name = case.job.name().into_owned();
        let Job::Pictured(pictured) = case.job else { unreachable!() };
        Tried { name, shape: pictured.size.shape(), pictured, before, after }
    }

    pub fn is(&self, number: u32) -> bool {
        self.after.number == number
    }

    /// How many bytes the rows have.
    pub fn rows(&self) -> i64 {
        row_bytes(self.shape) * self.shape.height
    }

    /// How many the rows would have without pad bits.
    fn bits(&self) -> i64 {
        (self.shape.width * self.shape.height + 7) / 8
    }

    /// How many bytes there are of what is written to or read.
    fn len(&self) -> i64 {
        self.before.buffer.len() as i64
    }

    fn sorts(&self) -> Sorts {
        match &self.pictured.call {
            Call::Write(_) => [ends(self, &[0, 1, 12, 15]), sizes(self), buffers(self), sheets(self)].concat(),
            Call::Read(head, _) => {
                let looked = Looked::at(self.shape, head);
                let ends = ends(self, &[0, 1, 13, 14, 15]);
                [ends, sizes(self), pixels(self, &looked), looked.sorts(self)].concat()
            }
        }
    }
}

fn ends(tried: &Tried, numbers: &[u32]) -> Sorts {
    numbers.iter().map(|&number| (format!("{}: {number}", tried.name), tried.is(number))).collect()
}

/// Widths of what is done: each to 17, each remainder by 8 above that, the greatest; and digits of each side.
fn sizes(tried: &Tried) -> Sorts {
    let Shape { width, height, pitch } = tried.shape;
    let (name, done) = (&tried.name, tried.is(0));
    let narrow = (1..18).map(|n| (format!("{name}: width {n}"), done && width == n));
    let wide =
        (0..8).map(|n| (format!("{name}: width {n} above a multiple of 8"), done && width > 17 && width % 8 == n));
    let digits = |side: i64| side.to_string().len();
    let long = (1..5).flat_map(|n| {
        let [w, h] = [width, height].map(|side| done && digits(side) == n);
        [(format!("{name}: a width of {n} digits"), w), (format!("{name}: a height of {n} digits"), h)]
    });
    let other = [("width 4096", width == 4096), ("no padding", pitch == width), ("a row", height == 1 && width > 1)];
    let other = other.map(|(what, is)| (format!("{name}: {what}"), done && is));
    narrow.chain(wide).chain(long).chain(other).collect()
}

fn buffers(tried: &Tried) -> Sorts {
    let (head, rows, room) = (header(tried.shape).len() as i64, tried.rows(), tried.len());
    let (all, short) = (head + rows, room < head + rows);
    named([
        ("a buffer of the picture's length", tried.is(0) && room == all),
        ("a buffer of a byte more", tried.is(0) && room == all + 1),
        ("a buffer of many bytes more", tried.is(0) && room > all + 8),
        ("a buffer of a byte less", tried.is(12) && room + 1 == all),
        ("a buffer of a row less", tried.is(12) && tried.shape.height > 1 && room + row_bytes(tried.shape) == all),
        ("an empty buffer", tried.is(12) && room == 0),
        ("a buffer for the header alone", tried.is(12) && room == head),
        ("a buffer for the rows alone", tried.is(12) && room >= rows),
        ("a buffer for the picture without pad bits", tried.is(12) && room == head + tried.bits()),
        ("1 with a short buffer", tried.is(1) && short),
        ("1 with room", tried.is(1) && !short && tried.shape.width <= 4096),
        ("15 with a short buffer", tried.is(15) && short),
        ("15 with room", tried.is(15) && !short),
    ])
}

/// What a sheet that is written holds.
fn sheets(tried: &Tried) -> Sorts {
    let Shape { width, pitch, .. } = tried.shape;
    let rows = tried.before.sheet.chunks(pitch.max(1) as usize).filter(|_| tried.is(0));
    let rows: Vec<(&[u8], &[u8])> = rows.map(|row| row.split_at(width as usize)).collect();
    let row = |so: &dyn Fn(&[u8], &[u8]) -> bool| rows.iter().any(|(cells, padding)| so(cells, padding));
    let blank = |bytes: &[u8]| bytes.iter().all(|&byte| byte == 0);
    let pad = ((8 - width % 8) % 8) as usize;
    named([
        ("ink in padding that pad bits stand beside", row(&|_, padding| padding.iter().take(pad).any(|&ink| ink > 0))),
        ("ink beside blank cells", row(&|cells, padding| blank(cells) && !blank(padding))),
        ("blank padding beside cells", row(&|cells, padding| !blank(cells) && !padding.is_empty() && blank(padding))),
        ("a row without a 0", row(&|cells, _| cells.len() > 8 && !cells.contains(&0))),
        ("ink 1", row(&|cells, _| cells.contains(&1))),
        ("ink of 128 or more", row(&|cells, _| cells.iter().any(|&ink| ink >= 128))),
        ("an even ink", row(&|cells, _| cells.iter().any(|&ink| ink > 0 && ink % 2 == 0))),
        ("rows that differ", rows.windows(2).any(|two| blank(two[0].0) != blank(two[1].0))),
    ])
}

/// The pad bits of each row of a picture that is read.
fn pad_bits(tried: &Tried, rows: &[u8]) -> Vec<u8> {
    let Shape { width, height, .. } = tried.shape;
    if !tried.is(0) || width % 8 == 0 {
        return Vec::new();
    }
    let bytes = row_bytes(tried.shape) as usize;
    rows.chunks_exact(bytes).take(height as usize).map(|row| row[bytes - 1] << (width % 8)).collect()
}

/// What stands where the rows are due, and which numbers come before others.
fn pixels(tried: &Tried, looked: &Looked) -> Sorts {
    let picture = &tried.before.buffer;
    let start = looked.header.as_ref().map_or(picture.len(), |header| header.rows);
    let (rows, there) = (tried.rows(), (picture.len() - start) as i64);
    let pads = pad_bits(tried, &picture[start..]);
    let mut sorts = named([
        ("all pixel bytes and no more", tried.is(0) && there == rows),
        ("a byte after the picture", tried.is(0) && there == rows + 1),
        ("many bytes after the picture", tried.is(0) && there > rows + 8),
        ("a pixel byte is missing", tried.is(14) && there + 1 == rows),
        ("many pixel bytes are missing", tried.is(14) && there + 8 < rows && there > 0),
        ("all pixel bytes are missing", tried.is(14) && there == 0),
        ("the pixel bytes would do without pad bits", tried.is(14) && there == tried.bits()),
        ("a pad bit is set", pads.iter().any(|&pad| pad > 0)),
        ("no pad bit is set", !pads.is_empty() && pads.iter().all(|&pad| pad == 0)),
        ("1 with a sound picture", tried.is(1) && looked.fits && there >= rows),
        ("1 with a header that is refused", tried.is(1) && looked.header.is_none()),
        ("15 with a sound picture", tried.is(15) && looked.fits && there >= rows),
        ("15 with a header that is refused", tried.is(15) && looked.header.is_none()),
        ("15 with pixel bytes missing", tried.is(15) && looked.fits && there < rows),
        ("another size with pixel bytes missing", tried.is(13) && looked.header.is_some() && there < rows),
    ]);
    let first = picture.get(start).filter(|_| tried.is(0));
    for byte in BLANKS.into_iter().chain(*b"#0P") {
        sorts.push((format!("the rows begin with {byte}"), first == Some(&byte)));
    }
    let line_end = tried.is(0) && picture[start - 1] == b'\r' && first == Some(&b'\n');
    sorts.push(("the blank is the first half of a line's end".into(), line_end));
    sorts
}

/// By rules that spoil the bytes or the count every case differs that is lent any, done or refused.
#[test]
fn every_byte_and_count_is_compared() {
    fn spoilt(bytes: &mut [u8]) {
        bytes.iter_mut().for_each(|byte| *byte = !*byte);
    }
    let right = Rules::document();
    let bytes = Pbm {
        write: |rules, sheet, buffer| {
            let reply = write(rules, sheet, buffer);
            spoilt(buffer);
            reply
        },
        read: |rules, sheet, picture| {
            let reply = read(rules, sheet, picture);
            spoilt(sheet.bytes);
            reply
        },
        ..right.pbm
    };
    let count = Pbm {
        write: |rules, sheet, buffer| Reply { value: Some(1 << 40), ..write(rules, sheet, buffer) },
        read: |rules, sheet, picture| Reply { value: Some(1 << 40), ..read(rules, sheet, picture) },
        ..right.pbm
    };
    let mut room = Room::default();
    for seed in 0..1000 {
        let case = Case::pictured(seed);
        let Job::Pictured(pictured) = &case.job else { unreachable!() };
        let lent = match pictured.call {
            Call::Write(room) => room,
            Call::Read(..) => pictured.size.len,
        };
        assert!(room.compare(&right, &case).is_ok(), "{case}");
        assert_eq!(room.compare(&Rules { pbm: bytes, ..right }, &case).is_err(), lent > 0, "{case}");
        assert!(room.compare(&Rules { pbm: count, ..right }, &case).is_err(), "{case}");
    }
}

/// By rules that are wrong in what only the way back asks of them every case differs that is done.
#[test]
fn every_picture_goes_there_and_back() {
    let right = Rules::document();
    let pbm = Pbm {
        write: |_, sheet, buffer| write(&Rules::document(), sheet, buffer),
        black: |sheet, cell| !black(sheet, cell),
        read: |_, sheet, picture| read(&Rules::document(), sheet, picture),
        apart: |_, _| None,
        ..right.pbm
    };
    let mut room = Room::default();
    for seed in 0..1000 {
        let case = Case::pictured(seed);
        let (number, _) = room.compare(&right, &case).unwrap();
        assert_eq!(room.compare(&Rules { pbm, ..right }, &case).is_err(), number == 0, "{case}");
    }
}

#[test]
fn pictures_of_every_sort_come_at_random() {
    let mut seen: BTreeMap<String, u32> = BTreeMap::new();
    let (cases, mut done) = (20_000, 0);
    for seed in 0..cases {
        let tried = Tried::at_random(seed);
        done += u64::from(tried.is(0));
        for (what, is) in tried.sorts() {
            *seen.entry(what).or_default() += u32::from(is);
        }
    }
    assert!(2 * done >= cases, "only {done} of {cases} calls are done");
    let (of_both, of_headers) =
        (17 + 8 + 2 * 4 + 3, (8 + 2 * 11) + (4 + 3 * 6) + (1 + 2 * 11) + (6 + 11 + 2) + (3 + 7));
    assert_eq!(seen.len(), (4 + 5) + 2 * of_both + 13 + 8 + (15 + 9 + 1) + of_headers, "sorts");
    for (what, times) in seen {
        assert!(times >= 10, "{what}: only {times} times");
    }
}
