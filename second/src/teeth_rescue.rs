//! Rescuers that are wrong on purpose.
use crate::rescue::{found, no_room, put, rescue, Found, Rescued, Rescuer};
use crate::rule::Rules;

/// Each with what is wrong in it.
pub fn wrong_rescuers() -> Vec<(&'static str, Rules)> {
    let right = Rescuer::document();
    let wrong = vec![
        ("a buffer of exactly the file's bytes is refused", Rescuer { no_room: one_spare, ..right }),
        ("a buffer one byte short of the file is taken", Rescuer { no_room: byte_short, ..right }),
        ("a list one place short of the file's bytes is taken", Rescuer { no_room: place_short, ..right }),
        ("a rescue refuses with 5 before 11", Rescuer { no_room: lists_first, ..right }),
        ("only the offsets' list is tested for room", Rescuer { no_room: only_offsets, ..right }),
        ("only the numbers' list is tested for room", Rescuer { no_room: only_numbers, ..right }),
        ("a buffer that has room for what is copied is taken", Rescuer { rescue: as_copied, ..right }),
        ("a list that has room for what is listed is taken", Rescuer { rescue: as_listed, ..right }),
        ("a rescue stops at a length under 2", Rescuer { found: |rules, file| stops_at(16, rules, file), ..right }),
        ("a rescue stops at an unknown kind", Rescuer { found: |rules, file| stops_at(9, rules, file), ..right }),
        (
            "a rescue stops at another kind's length",
            Rescuer { found: |rules, file| stops_at(10, rules, file), ..right },
        ),
        ("a rescue stops at a bad field", Rescuer { found: |rules, file| stops_at(2, rules, file), ..right }),
        ("a rescue goes on 2 bytes after a length that does not fit", Rescuer { found: after_8, ..right }),
        ("a rescue goes on 2 bytes after the start of a bad record", Rescuer { found: after_length, ..right }),
        ("of a bad record's length only the lower byte is counted", Rescuer { found: lower_byte, ..right }),
        ("of a bad record's length the highest bit is a sign", Rescuer { found: signed, ..right }),
        ("a bad record that ends the file is one that does not fit", Rescuer { found: last_8, ..right }),
        ("a record whose length is under 2 is copied", Rescuer { put: kindless_kept, ..right }),
        ("what follows the stopping place is copied", Rescuer { put: rest_kept, ..right }),
        ("copied records stay at their offsets", Rescuer { put: at_offsets, ..right }),
        ("records are copied from the last to the first", Rescuer { put: backwards, ..right }),
        ("the offset that is listed is that of the field", Rescuer { put: of_field, ..right }),
        ("the offset that is listed is that in the copy", Rescuer { put: of_copy, ..right }),
        ("the two lists are exchanged", Rescuer { put: exchanged, ..right }),
        ("the stopping place is not listed", Rescuer { put: without_stop, ..right }),
        ("the stopping place is listed twice", Rescuer { put: stop_twice, ..right }),
        ("records without a kind in a row are listed once", Rescuer { put: once_in_a_row, ..right }),
        ("the length is listed and not the number", Rescuer { put: lengths, ..right }),
        ("the list is filled from the last to the first", Rescuer { put: list_backwards, ..right }),
        ("the end of a sound file is listed", Rescuer { put: end_too, ..right }),
        ("a done rescue leaves the counts", Rescuer { rescue: counts_none, ..right }),
        ("copied records are counted and not their bytes", Rescuer { put: counts_records, ..right }),
        ("a refused rescue tells counts of 0", Rescuer { rescue: tells_0, ..right }),
        ("a refused rescue copies what fits", Rescuer { rescue: copies_a_part, ..right }),
        ("what follows the copied bytes is cleared", Rescuer { rescue: clears_copy, ..right }),
        ("what follows the listed places is cleared", Rescuer { rescue: clears_lists, ..right }),
    ];
    wrong.into_iter().map(|(what, rescuer)| (what, Rules { rescuer, ..Rules::document() })).collect()
}

fn one_spare(n: usize, [copy, offsets, numbers]: [usize; 3]) -> Option<u32> {
    if copy == n {
        return Some(11);
    }
    no_room(n, [copy, offsets, numbers])
}

fn byte_short(n: usize, [copy, offsets, numbers]: [usize; 3]) -> Option<u32> {
    no_room(n, [copy + 1, offsets, numbers])
}

fn place_short(n: usize, [copy, offsets, numbers]: [usize; 3]) -> Option<u32> {
    no_room(n, [copy, offsets + 1, numbers + 1])
}

fn lists_first(n: usize, [copy, offsets, numbers]: [usize; 3]) -> Option<u32> {
    no_room(n, [n, offsets, numbers]).or_else(|| no_room(n, [copy, offsets, numbers]))
}

fn only_offsets(n: usize, [copy, offsets, _]: [usize; 3]) -> Option<u32> {
    no_room(n, [copy, offsets, n])
}

fn only_numbers(n: usize, [copy, _, numbers]: [usize; 3]) -> Option<u32> {
    no_room(n, [copy, n, numbers])
}

/// A rescue that is not refused with this number where what it copies and lists fits.
fn lazily(rules: &Rules, file: &[u8], lent: &mut Rescued, refused: u32) -> u32 {
    let number = rescue(rules, file, lent);
    if number != refused {
        return number;
    }
    let before = lent.clone();
    (lent.copied, lent.listed) = (0, 0);
    put(file, &found(rules, file), lent);
    let fits = lent.copied <= lent.copy.len() as u64
        && lent.listed <= lent.offsets.len() as u64
        && lent.listed <= lent.numbers.len() as u64;
    if fits {
        return 0;
    }
    *lent = before;
    number
}

fn as_copied(rules: &Rules, file: &[u8], lent: &mut Rescued) -> u32 {
    lazily(rules, file, lent, 11)
}

fn as_listed(rules: &Rules, file: &[u8], lent: &mut Rescued) -> u32 {
    lazily(rules, file, lent, 5)
}

fn stops_at(number: u32, rules: &Rules, file: &[u8]) -> Vec<Found> {
    let mut found = found(rules, file);
    let stop = found.iter().position(|found| found.read.as_ref().is_err_and(|bad| bad.0 == number));
    found.truncate(stop.map_or(found.len(), |stop| stop + 1));
    found
}

/// What is found where the record after a bad one, of these bytes, begins so many bytes after its start.
fn steps(rules: &Rules, file: &[u8], step: fn(u32, &[u8]) -> usize) -> Vec<Found> {
    let (mut all, mut at) = (Vec::new(), 0);
    while at < file.len() {
        let mut next = found(rules, &file[at..]).swap_remove(0);
        let taken = match next.read {
            Ok(_) => next.end,
            Err((number, _)) => step(number, &file[at..][..next.end]),
        };
        (next.at, next.end) = (at, file.len().min(at + taken));
        at = next.end;
        all.push(next);
    }
    all
}

fn after_8(rules: &Rules, file: &[u8]) -> Vec<Found> {
    steps(rules, file, |number, record| if number == 8 { 2 } else { record.len() })
}

fn after_length(rules: &Rules, file: &[u8]) -> Vec<Found> {
    steps(rules, file, |number, record| if number == 8 { record.len() } else { 2 })
}

fn lower_byte(rules: &Rules, file: &[u8]) -> Vec<Found> {
    steps(rules, file, |number, record| if number == 8 { record.len() } else { 2 + usize::from(record[0]) })
}

/// A length below 0 is taken for one that counts nothing.
fn signed(rules: &Rules, file: &[u8]) -> Vec<Found> {
    steps(rules, file, |number, record| if number != 8 && record[1] >= 128 { 2 } else { record.len() })
}

fn last_8(rules: &Rules, file: &[u8]) -> Vec<Found> {
    let mut found = found(rules, file);
    if let Some(Found { read: Err((number, _)), .. }) = found.last_mut() {
        *number = 8;
    }
    found
}

fn kindless_kept(file: &[u8], found: &[Found], lent: &mut Rescued) {
    for one in found {
        match one.read {
            Err((16, _)) => lent.keep(&file[one.at..one.end]),
            _ => put(file, std::slice::from_ref(one), lent),
        }
    }
}

fn rest_kept(file: &[u8], found: &[Found], lent: &mut Rescued) {
    put(file, found, lent);
    if let Some(stop) = stop(found) {
        lent.keep(&file[stop.at..]);
    }
}

fn at_offsets(file: &[u8], found: &[Found], lent: &mut Rescued) {
    let mut copied = 0;
    for one in found {
        lent.copied = one.at as u64;
        put(file, std::slice::from_ref(one), lent);
        copied += lent.copied - one.at as u64;
    }
    lent.copied = copied;
}

fn sorted(found: &[Found]) -> [Vec<Found>; 2] {
    let (kept, bad) = found.iter().cloned().partition(|found| found.read.is_ok());
    [kept, bad]
}

fn backwards(file: &[u8], found: &[Found], lent: &mut Rescued) {
    let [mut kept, bad] = sorted(found);
    kept.reverse();
    put(file, &[kept, bad].concat(), lent);
}

fn list_backwards(file: &[u8], found: &[Found], lent: &mut Rescued) {
    let [kept, mut bad] = sorted(found);
    bad.reverse();
    put(file, &[kept, bad].concat(), lent);
}

/// Lists each bad record otherwise: from the record, the number and the place that refuse it, and what was copied before it.
fn listed(file: &[u8], found: &[Found], lent: &mut Rescued, list: fn(&Found, (u32, usize), u64, &[u8]) -> (u64, u64)) {
    for one in found {
        match one.read {
            Ok(_) => put(file, std::slice::from_ref(one), lent),
            Err(bad) => {
                let (offset, number) = list(one, bad, lent.copied, &file[one.at..]);
                lent.list(offset, number);
            }
        }
    }
}

fn of_field(file: &[u8], found: &[Found], lent: &mut Rescued) {
    listed(file, found, lent, |one, (number, place), _, _| ((one.at + place) as u64, number.into()));
}

fn of_copy(file: &[u8], found: &[Found], lent: &mut Rescued) {
    listed(file, found, lent, |_, (number, _), copied, _| (copied, number.into()));
}

fn exchanged(file: &[u8], found: &[Found], lent: &mut Rescued) {
    listed(file, found, lent, |one, (number, _), _, _| (number.into(), one.at as u64));
}

fn lengths(file: &[u8], found: &[Found], lent: &mut Rescued) {
    listed(file, found, lent, |one, _, _, rest| (one.at as u64, rest[0].into()));
}

/// Where a rescue stops.
fn stop(found: &[Found]) -> Option<&Found> {
    found.last().filter(|last| matches!(last.read, Err((8, _))))
}

fn without_stop(file: &[u8], found: &[Found], lent: &mut Rescued) {
    let before = found.len() - usize::from(stop(found).is_some());
    put(file, &found[..before], lent);
}

fn stop_twice(file: &[u8], found: &[Found], lent: &mut Rescued) {
    put(file, found, lent);
    put(file, stop(found).map_or(&[], std::slice::from_ref), lent);
}

fn once_in_a_row(file: &[u8], found: &[Found], lent: &mut Rescued) {
    let mut fewer = found.to_vec();
    fewer.dedup_by(|one, before| matches!((&one.read, &before.read), (Err((16, _)), Err((16, _)))));
    put(file, &fewer, lent);
}

fn end_too(file: &[u8], found: &[Found], lent: &mut Rescued) {
    put(file, found, lent);
    if lent.listed == 0 {
        lent.list(file.len() as u64, 0);
    }
}

fn counts_records(file: &[u8], found: &[Found], lent: &mut Rescued) {
    put(file, found, lent);
    lent.copied = found.len() as u64 - lent.listed;
}

fn counts_none(rules: &Rules, file: &[u8], lent: &mut Rescued) -> u32 {
    let (copied, listed) = (lent.copied, lent.listed);
    let number = rescue(rules, file, lent);
    (lent.copied, lent.listed) = (copied, listed);
    number
}

fn tells_0(rules: &Rules, file: &[u8], lent: &mut Rescued) -> u32 {
    let number = rescue(rules, file, lent);
    if number != 0 {
        (lent.copied, lent.listed) = (0, 0);
    }
    number
}

fn copies_a_part(rules: &Rules, file: &[u8], lent: &mut Rescued) -> u32 {
    let (copied, listed) = (lent.copied, lent.listed);
    let number = rescue(rules, file, lent);
    if number != 0 {
        (lent.copied, lent.listed) = (0, 0);
        put(file, &found(rules, file), lent);
        (lent.copied, lent.listed) = (copied, listed);
    }
    number
}

fn clears_copy(rules: &Rules, file: &[u8], lent: &mut Rescued) -> u32 {
    let number = rescue(rules, file, lent);
    if number == 0 {
        lent.copy[lent.copied as usize..].fill(0);
    }
    number
}

fn clears_lists(rules: &Rules, file: &[u8], lent: &mut Rescued) -> u32 {
    let number = rescue(rules, file, lent);
    if number == 0 {
        for list in [&mut lent.offsets, &mut lent.numbers] {
            list[lent.listed as usize..].fill(0);
        }
    }
    number
}
