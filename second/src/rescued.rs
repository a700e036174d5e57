//! A damaged file that is rescued through the library, and what must be true of whatever it copies and lists.
use crate::case::{Size, MOST_RESCUED};
use crate::chance_rescue::MOST_MORE;
use crate::guard::{Against, Guarded};
use crate::native;
use crate::random::Random;
use crate::repaint::Painted;
use crate::rescue::{found, taken, Rescued};
use crate::rule::{Reply, Rules, Sheet};
use crate::run::same;

/// A file, the lengths of the buffer and the two lists that are lent for its rescue, and the sheet that the copy is drawn on.
#[derive(Clone, Debug)]
pub struct Rescue {
    pub size: Size,
    pub lengths: [usize; 3],
    pub file: Vec<u8>,
}

impl Rescue {
    /// What the rescue leaves, and then the drawing of what was copied: the records that read well, one after another.
    pub fn by_rules(&self, rules: &Rules, sheet: &mut Sheet, lent: &mut Rescued) -> Reply {
        let number = rules.rescue(&self.file, lent);
        if number != 0 {
            return Reply::refused(number);
        }
        let sound = found(rules, &self.file).into_iter().filter_map(|found| found.read.ok());
        let painted: Vec<Painted> = sound.map(|(ink, figure)| rules.paint(sheet, ink, &figure)).collect();
        rules.done(sheet.shape, Some(painted.len() as u64), &painted)
    }
}

impl Rescued {
    /// What is lent with these lengths, before a rescue.
    pub fn before(random: &mut Random, [copy, offsets, numbers]: [usize; 3]) -> Rescued {
        let copy = random.bytes(copy);
        let [offsets, numbers] = [offsets, numbers].map(|places| (0..places).map(|_| random.number()).collect());
        Rescued { copy, offsets, numbers, copied: random.number(), listed: random.number() }
    }

    fn same(&self, expected: &Rescued) -> Result<(), String> {
        same("copied count", &[self.copied], &[expected.copied])?;
        same("listed count", &[self.listed], &[expected.listed])?;
        same("byte of the copy", &self.copy, &expected.copy)?;
        same("offset", &self.offsets, &expected.offsets)?;
        same("number", &self.numbers, &expected.numbers)
    }

    fn kept(&self) -> &[u8] {
        &self.copy[..self.copied as usize]
    }

    /// How many bytes of the file were copied, belong to a record that is listed, or follow the stopping place.
    fn accounted(&self, file: &[u8]) -> usize {
        let listed = self.offsets.iter().zip(&self.numbers).take(self.listed as usize);
        let left = listed.map(|(&offset, number)| match (&file[offset as usize..], number) {
            (rest, 8) => rest.len(),
            (rest, _) => taken(rest),
        });
        self.kept().len() + left.sum::<usize>()
    }
}

/// The room for everything that a rescue is lent.
pub struct Room {
    file: Guarded,
    copy: Guarded,
    lists: [Guarded; 2],
    counts: [Guarded; 2],
}

impl Default for Room {
    fn default() -> Room {
        let room = Guarded::with_room;
        let most = MOST_RESCUED + MOST_MORE;
        Room { file: room(most), copy: room(most), lists: [room(8 * most), room(8 * most)], counts: [room(8), room(8)] }
    }
}

impl Room {
    /// Rescues a file through the library and compares what is left with these; of a done rescue, the bytes that were copied.
    pub fn by_library(
        &mut self,
        file: &[u8],
        before: &Rescued,
        (number, expected): (u32, &Rescued),
        against: Against,
    ) -> Result<Option<Vec<u8>>, String> {
        let (replied, left) = self.rescue(file, before, against)?;
        same("reply", &[replied], &[number])?;
        left.same(expected)?;
        if number != 0 {
            return Ok(None);
        }
        same("count of all bytes", &[left.accounted(file)], &[file.len()])?;
        self.again(left.kept(), against)?;
        Ok(Some(left.kept().to_vec()))
    }

    /// What the library replies and leaves.
    fn rescue(&mut self, bytes: &[u8], before: &Rescued, against: Against) -> Result<(u32, Rescued), String> {
        let file = self.file.lend_copy(bytes, against);
        let copy = self.copy.lend_copy(&before.copy, against);
        let [offsets, numbers] = self.lists.each_mut();
        let offsets = offsets.lend_copy(&before.offsets, against);
        let numbers = numbers.lend_copy(&before.numbers, against);
        let [copied, listed] = self.counts.each_mut().map(|room| &mut room.lend::<u64>(1, against)[0]);
        (*copied, *listed) = (before.copied, before.listed);
        let number = native::rescue(file, copy, offsets, numbers, [copied, listed]);
        if file != bytes {
            return Err("the file was changed".into());
        }
        let (copied, listed) = (*copied, *listed);
        let left =
            Rescued { copy: copy.to_vec(), offsets: offsets.to_vec(), numbers: numbers.to_vec(), copied, listed };
        Ok((number, left))
    }

    /// That what was copied is copied whole when it is rescued itself, with nothing listed.
    fn again(&mut self, kept: &[u8], against: Against) -> Result<(), String> {
        let before = Rescued::before(&mut Random(kept.len() as u64), [kept.len(); 3]);
        let whole = Rescued { copy: kept.to_vec(), copied: kept.len() as u64, listed: 0, ..before.clone() };
        let (number, left) = self.rescue(kept, &before, against)?;
        let compared = same("reply", &[number], &[0]).and_then(|()| left.same(&whole));
        compared.map_err(|what| format!("of the copy's own rescue, {what}"))
    }
}

#[cfg(test)]
mod tests {
    use super::*;
    use crate::case::{Case, Job};
    use crate::rule::Figure;
    use crate::run;

    /// A line, 2 zeros, a record of an unknown kind, another line, and one byte.
    const LINE: [u8; 13] = [11, 0, 1, 0, 1, 0, 0, 0, 0, 2, 0, 1, 0];
    const PARTS: [&[u8]; 5] = [&LINE, &[0, 0], &[3, 0, 9, 0, 7], &LINE, &[5]];

    #[test]
    fn every_byte_is_accounted_for() {
        let file = PARTS.concat();
        let mut left = Rescued::before(&mut Random(1), [file.len(); 3]);
        assert_eq!(Rules::document().rescue(&file, &mut left), 0);
        assert_eq!(left.accounted(&file), 34);
        for listed in 0..3 {
            assert!(Rescued { listed, ..left.clone() }.accounted(&file) < 34);
        }
        assert!(Rescued { copied: 13, ..left.clone() }.accounted(&file) < 34);
        left.offsets[1] = 13;
        assert_ne!(left.accounted(&file), 34);
    }

    /// Whether a record that reads well has a cell on the sheet.
    fn has_cells(rules: &Rules, rescue: &Rescue) -> bool {
        let on_sheet = |(_, figure): &(u8, Figure)| !rules.places(rescue.size.shape(), figure).is_empty();
        found(rules, &rescue.file).iter().any(|found| found.read.as_ref().is_ok_and(on_sheet))
    }

    /// By rules that draw nothing, every done rescue differs whose copy has a cell on its sheet.
    #[test]
    fn what_is_copied_is_drawn() {
        let right = Rules::document();
        let wrong = Rules { place: |_, _| None, ..right };
        let (mut room, mut drawn) = (run::Room::default(), 0);
        for seed in 0..2000 {
            let case = Case::rescue(seed);
            let Job::Rescue(rescue) = &case.job else { unreachable!() };
            let (number, _) = room.compare(&right, &case).unwrap();
            let due = number == 0 && has_cells(&right, rescue);
            assert_eq!(room.compare(&wrong, &case).is_err(), due, "{case}");
            drawn += u32::from(due);
        }
        assert!(drawn >= 200, "only {drawn} copies were drawn");
    }

    #[test]
    fn a_copy_that_is_not_sound_is_not_copied_whole() {
        let mut room = Room::default();
        for against in [Against::Before, Against::After] {
            assert_eq!(room.again(&[LINE, LINE].concat(), against), Ok(()));
            assert!(room.again(&PARTS[..2].concat(), against).is_err());
            assert!(room.again(&[5], against).is_err());
        }
    }
}
