//! Files that are rescued, made at random: sound ones, ones damaged in several places, and noise.
use crate::case::{Case, Job, Size, MOST_RESCUED};
use crate::chance_file::{bad_record, record};
use crate::chance_write::small;
use crate::random::Random;
use crate::rescued::Rescue;

/// How much more than enough is lent at most.
pub const MOST_MORE: usize = 100;

impl Case {
    pub fn rescue(seed: u64) -> Case {
        let mut random = Random(seed);
        let size = small(&mut random);
        let file = if random.once_in(40) { noise(&mut random) } else { damaged(&mut random, size) };
        let lengths = lengths(&mut random, file.len());
        Case { held: random.number(), job: Job::Rescue(Rescue { size, lengths, file }) }
    }
}

/// Any bytes; or small numbers, as lengths and kinds are.
fn noise(random: &mut Random) -> Vec<u8> {
    let mut bytes = vec![0; random.within(0, 200) as usize];
    random.fill(&mut bytes);
    if random.once_in(2) {
        let most = random.one_of(&[1, 2, 6, 21]);
        bytes.iter_mut().for_each(|byte| *byte = random.within(0, most) as u8);
    }
    bytes
}

/// Records of any kind, with damages: none, a few or, of a long file, many.
fn damaged(random: &mut Random, size: Size) -> Vec<u8> {
    let most = if random.once_in(16) { 90 } else { 6 };
    // half of the short files begin sound
    let tame = most > 6 || random.once_in(2);
    let mut records = vec![Vec::new(); random.within(0, most) as usize];
    records.iter_mut().for_each(|bytes| record(random, size, tame, bytes));
    let damages = if random.once_in(8) { 0 } else { random.within(0, 2 + most / 3) };
    for _ in 0..damages {
        let at = random.within(0, records.len() as i64) as usize;
        if at == records.len() || random.once_in(2) {
            records.insert(at, strange(random));
        } else {
            damage(random, &mut records, at);
        }
    }
    let mut file = records.concat();
    match random.number() % 8 {
        0 if damages > 0 => file.truncate(file.len() - random.within(0, file.len().min(30) as i64) as usize),
        1 if damages > 0 => file.push(random.number() as u8),
        _ => {}
    }
    file.truncate(MOST_RESCUED);
    file
}

/// What is no sound record, but mostly fits: without a kind or a payload, of another kind, with a bad field, or zeros.
fn strange(random: &mut Random) -> Vec<u8> {
    let mut bytes = Vec::new();
    match random.number() % 8 {
        0 => bytes.extend([1, 0, random.number() as u8]),
        1 => bytes.extend([2, 0, random.within(0, 6) as u8, 0]),
        2 | 3 => bytes.resize(random.within(1, 20) as usize, 0),
        4 | 5 => {
            // lengths of more than 8 bits, and seldom of more than 15
            let most = if random.once_in(60) { 60_000 } else { random.one_of(&[20, 20, 20, 600]) };
            bytes.resize(2 + random.within(2, most) as usize, 0);
            random.fill(&mut bytes);
            let length = bytes.len() as u16 - 2;
            bytes[..2].copy_from_slice(&length.to_le_bytes());
        }
        _ => bad_record(random, &mut bytes),
    }
    bytes
}

/// Damages the record here, whose length may then count any part of those after it.
fn damage(random: &mut Random, records: &mut [Vec<u8>], at: usize) {
    let rest: usize = records[at..].iter().map(Vec::len).sum();
    let bytes = &mut records[at];
    let (len, place) = (bytes.len(), random.number() as usize % (bytes.len() + 1));
    let few = random.within(1, 6) as usize;
    match random.number() % 8 {
        0 | 1 if place < len => bytes[place] = random.number() as u8,
        2 if place < len => bytes[place] ^= 1 << random.within(0, 7),
        3 => {
            let counted = random.within(0, rest as i64) as u16;
            let exactly = rest.saturating_sub(2) as u16;
            let length = random.one_of(&[
                0,
                1,
                2,
                9,
                11,
                16,
                20,
                counted,
                counted,
                exactly,
                exactly.saturating_add(1),
                300,
                65_535,
            ]);
            put(bytes, 0, length);
        }
        4 => put(bytes, 2, random.one_of(&[0, 1, 2, 3, 4, 5, 6, 256, 257, 65_535])),
        // outside the limits of every field after the ink, or at the edge of some
        5 => put(bytes, 5 + 2 * (place / 2), random.one_of(&[16_391, 32_767, 32_775, 49_151, 16_384, 0, 16_383])),
        6 => drop(bytes.splice(place..place, random.bytes(few))),
        _ => drop(bytes.drain(place..len.min(place + few))),
    }
}

/// A number of 2 bytes, as far as they are there.
fn put(bytes: &mut [u8], place: usize, number: u16) {
    bytes.iter_mut().skip(place).zip(number.to_le_bytes()).for_each(|(byte, new)| *byte = new);
}

/// The lengths of what is lent for a file of so many bytes: in two of three cases enough, and otherwise too small for some.
fn lengths(random: &mut Random, n: usize) -> [usize; 3] {
    let small = if random.once_in(3) { random.within(1, 7) } else { 0 };
    std::array::from_fn(|i| match small >> i & 1 {
        0 => n + random.one_of(&[0, 0, 0, 0, 1, 2, 9, MOST_MORE]),
        // half as many places would do for any list, and an 8th has as many bytes as the file
        _ => random
            .one_of(&[n.saturating_sub(1), n.saturating_sub(1), n.saturating_sub(2), n / 2 + 1, n / 8, 1, 0])
            .min(n),
    })
}

#[cfg(test)]
mod tests {
    use super::*;
    use crate::rescue::{found, no_room, Found};
    use crate::rule::Rules;
    use std::collections::BTreeMap;

    /// What a file and its records may be, and whether this one is.
    fn sorts(file: &[u8], found: &[Found]) -> [(&'static str, bool); 9] {
        let kept = found.iter().filter(|found| found.read.is_ok()).count();
        let (bad, fits) = (found.len() - kept, |found: &Found| !matches!(found.read, Err((8, _))));
        let longest = found.iter().filter(|found| fits(found)).map(|found| found.end - found.at).max();
        let ends_bad = found.last().is_some_and(|last| last.read.is_err() && fits(last));
        [
            ("empty", file.is_empty()),
            ("sound", bad == 0 && kept > 0),
            ("sound and long", bad == 0 && kept > 20),
            ("nothing kept", kept == 0 && bad > 0),
            ("some kept, three or more left out", kept > 0 && bad >= 3),
            ("many kept, ten or more left out", kept > 20 && bad >= 10),
            ("ends with a record that is left out", ends_bad),
            ("a length of more than 8 bits fits", longest > Some(258)),
            ("a length of more than 15 bits fits", longest > Some(32_770)),
        ]
    }

    #[test]
    fn files_of_every_sort_come_with_every_number() {
        let (mut seen, mut numbers) = (BTreeMap::new(), BTreeMap::new());
        for seed in 0..20_000 {
            let Job::Rescue(Rescue { file, .. }) = Case::rescue(seed).job else { unreachable!() };
            let found = found(&Rules::document(), &file);
            for (what, is) in sorts(&file, &found) {
                *seen.entry(what).or_insert(0) += u32::from(is);
            }
            for (number, _) in found.into_iter().filter_map(|found| found.read.err()) {
                *numbers.entry(number).or_insert(0) += 1;
            }
        }
        assert!(seen.values().all(|&times| times >= 20), "{seen:?}");
        assert!([2, 3, 4, 8, 9, 10, 16].iter().all(|number| numbers[number] >= 500), "{numbers:?}");
    }

    #[test]
    fn too_little_is_lent_in_every_way() {
        let (mut small, mut exact) = (BTreeMap::new(), 0);
        for seed in 0..20_000 {
            let Job::Rescue(Rescue { file, lengths, .. }) = Case::rescue(seed).job else { unreachable!() };
            *small.entry(lengths.map(|length| length < file.len())).or_insert(0) += 1;
            exact += u32::from(lengths == [file.len(); 3]);
            let enough = lengths.iter().all(|&length| length >= file.len());
            assert_eq!(no_room(file.len(), lengths).is_none(), enough);
        }
        assert!(small.len() == 8 && small.values().all(|&times| times >= 500) && exact >= 500, "{small:?}, {exact}");
    }
}
