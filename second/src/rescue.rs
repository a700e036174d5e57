//! Rescuing a damaged record file: what is copied of it, and what is listed.
use crate::file::record;
use crate::rule::{Bad, Figure, Rules};

/// What a rescue is lent: the copy's buffer, the two lists, and the counts of what it fills in the buffer and in each list.
#[derive(Clone, Debug, Default, PartialEq)]
pub struct Rescued {
    pub copy: Vec<u8>,
    pub offsets: Vec<u64>,
    pub numbers: Vec<u64>,
    pub copied: u64,
    pub listed: u64,
}

impl Rescued {
    /// Copies these bytes after the copied ones. A wrong program may do so where they do not fit.
    pub fn keep(&mut self, bytes: &[u8]) {
        let free = self.copy.iter_mut().skip(self.copied as usize);
        free.zip(bytes).for_each(|(byte, new)| *byte = *new);
        self.copied += bytes.len() as u64;
    }

    /// Lists this offset with this number, likewise.
    pub fn list(&mut self, offset: u64, number: u64) {
        for (list, new) in [(&mut self.offsets, offset), (&mut self.numbers, number)] {
            list.iter_mut().skip(self.listed as usize).take(1).for_each(|place| *place = new);
        }
        self.listed += 1;
    }
}

/// What begins at an offset and ends before another: a record's ink and figure, or what refuses it.
#[derive(Clone, Debug, PartialEq)]
pub struct Found {
    pub at: usize,
    pub end: usize,
    pub read: Result<(u8, Figure), Bad>,
}

/// The rules of a rescue, each replaceable as those of drawing are.
#[derive(Clone, Copy)]
pub struct Rescuer {
    /// The number 11 or 5 that refuses a buffer and two lists of these lengths for a file of so many bytes.
    pub no_room: fn(usize, [usize; 3]) -> Option<u32>,
    /// What the records of a file are, to its end.
    pub found: fn(&Rules, &[u8]) -> Vec<Found>,
    /// Copies and lists what was found in a file, from counts of 0 on.
    pub put: fn(&[u8], &[Found], &mut Rescued),
    /// Rescues a file; the number that it replies.
    pub rescue: fn(&Rules, &[u8], &mut Rescued) -> u32,
}

impl Rescuer {
    pub fn document() -> Rescuer {
        Rescuer { no_room, found, put, rescue }
    }
}

impl Rules {
    pub fn rescue(&self, file: &[u8], lent: &mut Rescued) -> u32 {
        (self.rescuer.rescue)(self, file, lent)
    }
}

pub fn rescue(rules: &Rules, file: &[u8], lent: &mut Rescued) -> u32 {
    let lengths = [lent.copy.len(), lent.offsets.len(), lent.numbers.len()];
    if let Some(number) = (rules.rescuer.no_room)(file.len(), lengths) {
        return number;
    }
    (lent.copied, lent.listed) = (0, 0);
    (rules.rescuer.put)(file, &(rules.rescuer.found)(rules, file), lent);
    0
}

/// 11, then 5.
pub fn no_room(n: usize, [copy, offsets, numbers]: [usize; 3]) -> Option<u32> {
    if copy < n {
        return Some(11);
    }
    (offsets.min(numbers) < n).then_some(5)
}

/// A record that fits is followed by the next, whatever it reads as; nothing is known of what follows one that does not.
pub fn found(rules: &Rules, file: &[u8]) -> Vec<Found> {
    let (mut found, mut at) = (Vec::new(), 0);
    while at < file.len() {
        let read = record(rules, &file[at..]).map(|(ink, figure, _)| (ink, figure));
        let end = if matches!(read, Err((8, _))) { file.len() } else { at + taken(&file[at..]) };
        found.push(Found { at, end, read });
        at = end;
    }
    found
}

/// How many bytes a record that fits takes: its length's own 2, and those that it counts.
pub fn taken(record: &[u8]) -> usize {
    2 + usize::from(u16::from_le_bytes([record[0], record[1]]))
}

pub fn put(file: &[u8], found: &[Found], lent: &mut Rescued) {
    for Found { at, end, read } in found {
        match read {
            Ok(_) => lent.keep(&file[*at..*end]),
            Err((number, _)) => lent.list(*at as u64, u64::from(*number)),
        }
    }
}

#[cfg(test)]
mod tests {
    use super::*;

    const LINE: [u8; 13] = [11, 0, 1, 0, 1, 0, 0, 0, 0, 2, 0, 1, 0];
    const CIRCLE: [u8; 11] = [9, 0, 2, 0, 7, 4, 0, 4, 0, 3, 0];
    const CUBIC: [u8; 22] = [20, 0, 5, 0, 9, 1, 0, 2, 0, 3, 0, 4, 0, 5, 0, 6, 0, 7, 0, 0xff, 0xff, 3];

    /// What is lent with these lengths, full of 238s.
    fn lent([copy, offsets, numbers]: [usize; 3]) -> Rescued {
        Rescued {
            copy: vec![238; copy],
            offsets: vec![238; offsets],
            numbers: vec![238; numbers],
            copied: 238,
            listed: 238,
        }
    }

    /// That these parts, joined, are rescued to these bytes and this list; places after those stay.
    fn rescued(parts: &[&[u8]], kept: &[&[u8]], listed: &[(u64, u64)]) {
        let (file, kept) = (parts.concat(), kept.concat());
        for more in [0, 3] {
            let mut found = lent([file.len() + more; 3]);
            let mut expected = found.clone();
            expected.copy[..kept.len()].copy_from_slice(&kept);
            for (i, &(offset, number)) in listed.iter().enumerate() {
                (expected.offsets[i], expected.numbers[i]) = (offset, number);
            }
            (expected.copied, expected.listed) = (kept.len() as u64, listed.len() as u64);
            assert_eq!(Rules::document().rescue(&file, &mut found), 0);
            assert_eq!(found, expected, "of {file:?}");
        }
    }

    #[test]
    fn a_sound_file_is_copied_whole() {
        rescued(&[], &[], &[]);
        rescued(&[&LINE], &[&LINE], &[]);
        rescued(&[&LINE, &CUBIC, &CIRCLE, &LINE], &[&LINE, &CUBIC, &CIRCLE, &LINE], &[]);
    }

    /// The record with other bytes from a place on.
    fn with(record: &[u8], place: usize, bytes: &[u8]) -> Vec<u8> {
        let mut record = record.to_vec();
        record[place..][..bytes.len()].copy_from_slice(bytes);
        record
    }

    #[test]
    fn a_refused_record_that_fits_is_left_out() {
        let bad = [
            (with(&LINE, 2, &[9, 0]), 9),
            (with(&LINE, 2, &[2, 0]), 10),
            (with(&LINE, 7, &[0, 0x40]), 2),
            (with(&CIRCLE, 9, &[0, 0x40]), 3),
            (with(&CUBIC, 21, &[7]), 4),
            (vec![0, 0], 16),
            (vec![1, 0, 5], 16),
            (vec![2, 0, 1, 0], 10),
            (vec![2, 0, 0, 1], 9),
            ([&[0x00, 0x90, 6, 0][..], &[1; 0x8ffe]].concat(), 9),
        ];
        for (bad, number) in &bad {
            let after = 24 + bad.len() as u64;
            rescued(&[bad], &[], &[(0, *number)]);
            rescued(&[&LINE, &CIRCLE, bad, &CUBIC], &[&LINE, &CIRCLE, &CUBIC], &[(24, *number)]);
            rescued(&[&LINE, &CIRCLE, bad, bad], &[&LINE, &CIRCLE], &[(24, *number), (after, *number)]);
            rescued(&[&CIRCLE, &LINE, bad, &CUBIC, &[3]], &[&CIRCLE, &LINE, &CUBIC], &[(24, *number), (after + 22, 8)]);
        }
    }

    #[test]
    fn it_stops_where_a_length_does_not_fit() {
        rescued(&[&[7]], &[], &[(0, 8)]);
        rescued(&[&[1, 0]], &[], &[(0, 8)]);
        rescued(&[&LINE, &[12, 0], &LINE[2..]], &[&LINE], &[(13, 8)]);
        rescued(&[&LINE, &[255, 255], &CIRCLE, &LINE], &[&LINE], &[(13, 8)]);
        rescued(&[&LINE, &CIRCLE[..10]], &[&LINE], &[(13, 8)]);
    }

    #[test]
    fn zeros_are_records_without_a_kind() {
        rescued(&[&[0; 6], &LINE, &[0; 5]], &[&LINE], &[(0, 16), (2, 16), (4, 16), (19, 16), (21, 16), (23, 8)]);
    }

    #[test]
    fn a_refusal_changes_nothing() {
        let file = [&LINE[..], &[0, 0]].concat();
        for (lengths, number) in [
            ([14, 15, 15], 11),
            ([14, 14, 15], 11),
            ([0, 0, 0], 11),
            ([15, 14, 15], 5),
            ([15, 15, 14], 5),
            ([90, 1, 1], 5),
            ([15, 90, 0], 5),
        ] {
            let mut found = lent(lengths);
            assert_eq!(Rules::document().rescue(&file, &mut found), number);
            assert_eq!(found, lent(lengths));
        }
    }
}
