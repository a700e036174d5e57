//! A file that is read, and of which each figure is then written again through the library.
use crate::case::Size;
use crate::native::{self, Cells, Lent};
use crate::rule::{Cell, Figure, Reply, Rules, Sheet};
use crate::run::{same, widened};
use crate::writer::Buffer;

/// A sound file, the sheet that it is drawn on, and the length of the buffer that it is written to, with figures thrown in.
#[derive(Clone, Debug)]
pub struct Again {
    pub size: Size,
    pub room: usize,
    pub thrown: Vec<Thrown>,
    pub file: Vec<u8>,
}

/// A figure that is tried after so many records, where it is refused.
#[derive(Clone, Copy, Debug)]
pub struct Thrown {
    pub after: usize,
    pub ink: u8,
    pub figure: Cells,
}

impl Again {
    /// A file that is written to a buffer of its own length, with nothing thrown in.
    pub fn of(size: Size, file: &[u8]) -> Again {
        Again { size, room: file.len(), thrown: Vec::new(), file: file.to_vec() }
    }

    /// Writes the figures through the library from count 0 on, and compares each write with the rules; in the end as many bytes
    /// are filled as the file has.
    pub fn write(&self, rules: &Rules, bytes: &mut [u8], filled: &mut u64) -> Result<(), String> {
        let mut expected = bytes.to_vec();
        let mut buffer = Buffer { bytes: &mut expected, filled: 0 };
        *filled = 0;
        for (i, (ink, figure)) in self.calls(rules)?.into_iter().enumerate() {
            let number = native::write(bytes, filled, ink, figure);
            let by_rules = rules.write(&mut buffer, ink, &widened(&figure));
            let compared = same("reply", &[number], &[by_rules])
                .and_then(|()| same("count", &[*filled], &[buffer.filled]))
                .and_then(|()| same("byte", bytes, buffer.bytes));
            compared.map_err(|what| format!("of write {i}, {what}"))?;
        }
        same("count", &[*filled], &[self.file.len() as u64])
    }

    /// What is left when all is written, and then drawn: the buffer begins with the file, and sheet and rectangle are those
    /// of the file that was read, by the library. How the second program draws a file is compared by itself.
    pub fn by_rules(&self, rules: &Rules, sheet: &mut Sheet, buffer: &mut [u8]) -> Reply {
        buffer.iter_mut().zip(&self.file).for_each(|(byte, new)| *byte = *new);
        let Size { width, height, pitch, .. } = self.size;
        let (lent, mut rectangle) = (Lent { bytes: sheet.bytes, width, height, pitch }, [0; 4]);
        native::file(lent, &self.file, &mut 0, &mut rectangle);
        let mut records = 0;
        match rules.read(&self.file, |_, _| records += 1) {
            Ok(()) => Reply { rectangle: Some(rectangle), ..Reply::done(Some(records)) },
            Err((number, offset)) => rules.refused_file(number, offset),
        }
    }

    /// What is written: each record of the file, and what is thrown in.
    fn calls(&self, rules: &Rules) -> Result<Vec<(u8, Cells)>, String> {
        let thrown = |after: usize| {
            let here = self.thrown.iter().filter(move |thrown| thrown.after == after);
            here.map(|thrown| (thrown.ink, thrown.figure))
        };
        let mut calls: Vec<(u8, Cells)> = thrown(0).collect();
        let mut records = 0;
        let read = rules.read(&self.file, |ink, figure| {
            records += 1;
            calls.push((ink, narrowed(&figure)));
            calls.extend(thrown(records));
        });
        read.map_err(|(number, offset)| format!("the file is refused with {number} at {offset} by the rules"))?;
        Ok(calls)
    }
}

/// A figure of a record with the types of the header, which have room for it.
fn narrowed(figure: &Figure) -> Cells {
    match *figure {
        Figure::Line(from, to) => Cells::Line(numbers(&[from, to])),
        Figure::Circle(centre, r) => Cells::Circle(numbers(&[centre]), r as u32),
        Figure::Ellipse(centre, a, b) => Cells::Ellipse(numbers(&[centre]), a as u32, b as u32),
        Figure::Curve(control, s) => Cells::Curve(numbers(&control), s as u32),
        Figure::Cubic(control, s) => Cells::Cubic(numbers(&control), s as u32),
    }
}

/// Each point's x and then its y.
fn numbers<const N: usize>(points: &[Cell]) -> [i32; N] {
    std::array::from_fn(|i| if i % 2 == 0 { points[i / 2].0 } else { points[i / 2].1 } as i32)
}

#[cfg(test)]
mod tests {
    use super::*;
    use crate::case::{Case, Job};
    use crate::run::{sound, Room};
    use crate::writer::{append, Writer};

    /// A writer that leaves the count, which every sound file that has a record shows.
    #[test]
    fn every_sound_file_is_written_again() {
        let right = Rules::document();
        let writer = Writer {
            append: |rules, buffer, ink, figure| append(rules, &mut copy(buffer), ink, figure),
            ..right.writer
        };
        let wrong = Rules { writer, ..right };
        let (mut room, mut written) = (Room::default(), 0);
        for seed in 0..1000 {
            for case in [Case::file(seed), Case::damaged(seed)] {
                let Job::File(_, file) = &case.job else { unreachable!() };
                let due = sound(&right, file) && !file.is_empty();
                assert_eq!(room.compare(&wrong, &case).is_err(), due, "{case}");
                written += u32::from(due);
            }
        }
        assert!(written >= 200, "only {written} files were written again");
    }

    fn copy<'a>(buffer: &'a mut Buffer) -> Buffer<'a> {
        Buffer { bytes: buffer.bytes, filled: buffer.filled }
    }
}
