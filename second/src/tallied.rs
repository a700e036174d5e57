//! A drawing, a fill or a count afresh that is lent a list beside its sheet, and what both hold before it.
use crate::case::{Job, Size};
use crate::guard::{Against, Guarded};
use crate::native::Lent;
use crate::native_tally;
use crate::random::Random;
use crate::rule::{no_sheet, Rules, Shape, Sheet};
use crate::run::{same, Outcome};
use std::fmt;

/// A call, and the list that is lent beside its sheet.
#[derive(Clone, Debug)]
pub struct Tallied {
    pub list: List,
    pub call: Call,
}

#[derive(Clone, Debug)]
pub enum Call {
    /// The sheet is counted afresh.
    Afresh(Size),
    /// Figures or a file are drawn, or a territory is filled, and the list is kept.
    Kept(Box<Job>),
}

/// How many places a list has, and what it holds.
#[derive(Clone, Debug)]
pub struct List {
    pub places: usize,
    pub held: Held,
}

#[derive(Clone, Debug)]
pub enum Held {
    Noise,
    /// The tally as far as there are rows, and noise after it; but at each of these places so much more than that.
    Tally(Vec<(usize, u32)>),
}

impl fmt::Display for List {
    fn fmt(&self, to: &mut fmt::Formatter) -> fmt::Result {
        match &self.held {
            Held::Noise => write!(to, "{} noise", self.places),
            Held::Tally(wrong) => {
                write!(to, "{} {}", self.places, wrong.len())?;
                wrong.iter().try_for_each(|(place, more)| write!(to, " {place} {more}"))
            }
        }
    }
}

impl Tallied {
    pub fn size(&self) -> Option<Size> {
        match &self.call {
            Call::Afresh(size) => Some(*size),
            Call::Kept(job) => job.size(),
        }
    }

    /// What is lent: as without a list, but with zeros among the cells and the padding, and the list.
    pub(crate) fn before(&self, held: u64) -> Outcome {
        let mut random = Random(!held);
        let mut lent = match &self.call {
            Call::Afresh(size) => Outcome::of_sheet(random.bytes(size.len)),
            Call::Kept(job) => Outcome::before(held, job),
        };
        if let Some(size) = self.size() {
            let mut sheet = Sheet { shape: size.shape(), bytes: &mut lent.sheet };
            // the ground of a fill has zeros of its own
            if !matches!(&self.call, Call::Kept(job) if matches!(**job, Job::Fill(..))) {
                clear(&mut random, &mut sheet);
            }
            lent.rows = self.list.before(&mut random, &sheet);
        }
        lent
    }
}

impl List {
    fn before(&self, random: &mut Random, sheet: &Sheet) -> Vec<u32> {
        let mut list = random.unsigned(self.places);
        if let Held::Tally(wrong) = &self.held {
            if no_sheet(sheet).is_none() {
                Rules::document().recount(sheet, &mut list);
            }
            for &(at, more) in wrong {
                list.get_mut(at).into_iter().for_each(|place| *place = place.wrapping_add(more));
            }
        }
        list
    }
}

/// Clears bytes of a sheet: none or all, those of the cells or of the padding alone, or many of them.
pub(crate) fn clear(random: &mut Random, sheet: &mut Sheet) {
    let Shape { width, pitch, .. } = sheet.shape;
    let (way, chances) = (random.number() % 16, random.bytes(sheet.bytes.len()));
    for (i, (byte, chance)) in sheet.bytes.iter_mut().zip(chances).enumerate() {
        let in_padding = i as i64 % pitch.max(1) >= width;
        let clears = match way {
            0 | 1 => false,
            2 => true,
            3 => in_padding,
            4 => !in_padding,
            5..10 => chance < 128,
            10..13 => chance < 32,
            13 | 14 => chance < 224,
            _ => !in_padding && chance < 224,
        };
        if clears {
            *byte = 0;
        }
    }
}

/// That the library, which counts this sheet afresh onto a list of noise, finds this list.
pub fn counted_afresh(room: &mut Guarded, lent: Lent, list: &[u32], against: Against) -> Result<(), String> {
    let fresh = room.lend_copy(&Random(list.len() as u64).unsigned(list.len()), against);
    let number = native_tally::tally(lent, fresh);
    let compared = same("reply", &[number], &[0]).and_then(|()| same("place of the list", fresh, list));
    compared.map_err(|what| format!("counted afresh, {what}"))
}

#[cfg(test)]
mod tests {
    use super::*;

    #[test]
    fn a_wrong_list_is_not_what_is_counted_afresh() {
        let mut room = Guarded::with_room(16);
        let mut counted = |list: &[u32], against| {
            let mut bytes = [0, 7, 9, 1, 0, 9];
            counted_afresh(&mut room, Lent { bytes: &mut bytes, width: 2, height: 2, pitch: 3 }, list, against)
        };
        for against in [Against::Before, Against::After] {
            assert_eq!(counted(&[1, 1], against), Ok(()));
            for wrong in [&[2, 1][..], &[1, 0], &[1], &[1, 1, 0]] {
                assert!(counted(wrong, against).is_err());
            }
        }
    }
}
