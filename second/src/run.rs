//! One case, drawn by the library between guard pages and by the second program, and compared.
use crate::again::Again;
use crate::case::{places, Case, Job, Size, MOST_BUFFER, MOST_BYTES, MOST_PLACES, MOST_WORK};
use crate::file::first_ink;
use crate::ground::inked;
use crate::guard::{Against, Guarded};
use crate::native::{self, Cells, Lent};
use crate::native_tally;
use crate::pen;
use crate::pictured;
use crate::random::Random;
use crate::repaint::Rectangle;
use crate::rescue::Rescued;
use crate::rescued::{self, Rescue};
use crate::rule::{Cell, Figure, Reply, Rules, Shape, Sheet};
use crate::tallied::{counted_afresh, Call, Tallied};
use crate::tally::Beside;
use crate::writer::Buffer;
use std::fmt::Display;

/// The room for everything that a case lends to the library.
pub struct Room {
    sheet: Guarded,
    work: Guarded,
    buffer: Guarded,
    lists: [Guarded; 2],
    rows: [Guarded; 2],
    file: Guarded,
    value: Guarded,
    rectangle: Guarded,
    pen: pen::Room,
    rescue: rescued::Room,
    picture: pictured::Room,
}

/// What a case leaves behind: reply, value or filled count, the lent box, the sheet, the work slice, the buffer that is
/// written to or the picture that is read, the two lists, that of the tally, each call of a pen, and what a rescue was lent.
#[derive(Default)]
pub(crate) struct Outcome {
    pub number: u32,
    pub value: u64,
    pub rectangle: Rectangle,
    pub sheet: Vec<u8>,
    work: Vec<u32>,
    pub buffer: Vec<u8>,
    lists: [Vec<i32>; 2],
    pub rows: Vec<u32>,
    calls: Vec<pen::Call>,
    rescued: Rescued,
}

impl Default for Room {
    fn default() -> Room {
        let places = || Guarded::with_room(4 * MOST_PLACES);
        Room {
            sheet: Guarded::with_room(MOST_BYTES),
            work: Guarded::with_room(4 * MOST_WORK),
            buffer: Guarded::with_room(MOST_BUFFER),
            lists: [places(), places()],
            rows: [places(), places()],
            file: Guarded::with_room(1 << 16),
            value: Guarded::with_room(8),
            rectangle: Guarded::with_room(16),
            pen: pen::Room::default(),
            rescue: rescued::Room::default(),
            picture: pictured::Room::default(),
        }
    }
}

impl Room {
    /// Draws a case both ways: the reply that both gave and whether what was lent changed; or what differs.
    pub fn compare(&mut self, rules: &Rules, case: &Case) -> Result<(u32, bool), String> {
        let before = Outcome::before(case.held, &case.job);
        let mut expected = Outcome::before(case.held, &case.job);
        expected.by_rules(rules, &case.job);
        // the same is drawn without a list, but where the list is what was refused
        let without_list = case.job.without_list().filter(|_| !matches!(expected.number, 19 | 20));
        for against in [Against::Before, Against::After] {
            self.by_library(rules, &before, &expected, &case.job, against)?;
            if let Some(job) = without_list {
                let compared = self.by_library(rules, &before, &expected, job, against);
                compared.map_err(|what| format!("without a list, {what}"))?;
            }
            if let Some(lent) = before.calls.first() {
                let calls = self.pen.by_library(*lent, case.job.begins(), expected.calls.len(), against);
                same("call", &calls, &expected.calls)?;
            }
        }
        Ok((expected.number, expected.changed(&before, &case.job)))
    }

    fn by_library(
        &mut self,
        rules: &Rules,
        before: &Outcome,
        expected: &Outcome,
        job: &Job,
        against: Against,
    ) -> Result<(), String> {
        let sheet = self.sheet.lend_copy(&before.sheet, against);
        let work = self.work.lend_copy(&before.work, against);
        let buffer = self.buffer.lend_copy(&before.buffer, against);
        let [xs, ys] = self.lists.each_mut();
        let (xs, ys) = (xs.lend_copy(&before.lists[0], against), ys.lend_copy(&before.lists[1], against));
        let [rows, fresh] = self.rows.each_mut();
        let rows = rows.lend_copy(&before.rows, against);
        let rectangle = self.rectangle.lend_copy(&before.rectangle, against);
        let rectangle: &mut Rectangle = rectangle.try_into().expect("4 numbers were lent");
        let none = Size { len: 0, width: 0, height: 0, pitch: 0 };
        let Size { width, height, pitch, .. } = job.size().unwrap_or(none);
        let mut short = |call: &mut dyn FnMut(&mut u32) -> u32| {
            let value = &mut self.value.lend_copy(&[before.value as u32], against)[0];
            (call(value), u64::from(*value))
        };
        let mut list = job.without_list().map(|_| &mut *rows);
        let (number, value) = match job.without_list().unwrap_or(job) {
            Job::Cells(_, ink, figure) => short(&mut |value| {
                let (lent, list) = (Lent { bytes: sheet, width, height, pitch }, list.as_deref_mut());
                native_tally::draw(lent, list, *ink, *figure, value, rectangle)
            }),
            Job::Metres(_, ink, survey, figure) => short(&mut |value| {
                let (lent, list) = (Lent { bytes: sheet, width, height, pitch }, list.as_deref_mut());
                native_tally::draw_metres(lent, list, *ink, *survey, *figure, value, rectangle)
            }),
            Job::List(_, ends) | Job::Begin(ends) => short(&mut |value| native::list(xs, ys, *ends, value)),
            Job::Fill(_, fill, ..) => short(&mut |value| {
                let (lent, list) = (Lent { bytes: sheet, width, height, pitch }, list.as_deref_mut());
                native_tally::fill(lent, list, *fill, work, value)
            }),
            Job::Next(_) => return Ok(()),
            Job::File(size, bytes) => {
                let file = self.file.lend_copy(bytes, against);
                let value = &mut self.value.lend::<u64>(1, against)[0];
                if sound(rules, bytes) {
                    Again::of(*size, bytes).write(rules, buffer, value)?;
                }
                *value = before.value;
                let lent = Lent { bytes: sheet, width, height, pitch };
                let number = native_tally::file(lent, list, file, value, rectangle);
                if file != bytes {
                    return Err("the file was changed".into());
                }
                (number, *value)
            }
            Job::Write(_, _, ink, figure) => {
                let filled = &mut self.value.lend_copy(&[before.value], against)[0];
                (native::write(buffer, filled, *ink, *figure), *filled)
            }
            Job::Again(again) => {
                let value = &mut self.value.lend::<u64>(1, against)[0];
                again.write(rules, buffer, value)?;
                let written = &buffer[..*value as usize];
                *value = before.value;
                (native::file(Lent { bytes: sheet, width, height, pitch }, written, value, rectangle), *value)
            }
            Job::Rescue(rescue) => {
                let by_rules = (expected.number, &expected.rescued);
                let copied = self.rescue.by_library(&rescue.file, &before.rescued, by_rules, against)?;
                let value = &mut self.value.lend_copy(&[before.value], against)[0];
                let lent = Lent { bytes: sheet, width, height, pitch };
                (copied.map_or(expected.number, |copied| native::file(lent, &copied, value, rectangle)), *value)
            }
            Job::Tallied(_) => (native_tally::tally(Lent { bytes: sheet, width, height, pitch }, rows), before.value),
            Job::Pictured(pictured) => {
                let bytes = &mut self.value.lend_copy(&[before.value], against)[0];
                (pictured.by_library(sheet, buffer, bytes), *bytes)
            }
        };
        same("reply", &[number], &[expected.number])?;
        same("value", &[value], &[expected.value])?;
        same("place of the box", rectangle, &expected.rectangle)?;
        if let Job::Tallied(_) = job {
            same("place of the list", rows, &expected.rows)?;
            if number == 0 {
                counted_afresh(fresh, Lent { bytes: sheet, width, height, pitch }, rows, against)?;
            }
        }
        same("byte", sheet, &expected.sheet)?;
        same("byte of the buffer", buffer, &expected.buffer)?;
        if let (Job::Pictured(pictured), 0) = (job, number) {
            self.picture.and_back(rules, pictured, sheet, (buffer, value), against)?;
        }
        // a done fill may leave anything in its work slice, a refused one what was there
        if number != 0 {
            same("work", work, &expected.work)?;
        }
        same("x", xs, &expected.lists[0])?;
        same("y", ys, &expected.lists[1])
    }
}

/// Where the library's numbers first differ from those of the rules.
pub fn same<T: PartialEq + Display>(name: &str, found: &[T], expected: &[T]) -> Result<(), String> {
    if found == expected {
        return Ok(());
    }
    let differ = found.iter().zip(expected).enumerate().find(|(_, (one, other))| one != other);
    let (at, (one, other)) = differ.ok_or("lengths differ")?;
    Err(format!("{name} {at} is {one}, by the rules {other}"))
}

impl Outcome {
    /// A lent sheet alone.
    pub(crate) fn of_sheet(sheet: Vec<u8>) -> Outcome {
        Outcome { sheet, ..Outcome::default() }
    }

    /// What is lent, before anything is drawn.
    pub(crate) fn before(held: u64, job: &Job) -> Outcome {
        let mut random = Random(held);
        // an export that tells its value in 32 bits is lent 32 bits
        let long = matches!(job, Job::File(..) | Job::Again(_) | Job::Rescue(_) | Job::Pictured(_));
        let most = if long { u64::MAX } else { u64::from(u32::MAX) };
        let mut value = random.number() & most;
        let (mut sheet, mut work, mut buffer) = (Vec::new(), Vec::new(), Vec::new());
        let (mut lists, mut calls, mut rescued) = ([Vec::new(), Vec::new()], Vec::new(), Rescued::default());
        match job {
            Job::Cells(size, ink, _) | Job::Metres(size, ink, ..) => sheet = inked(&mut random, size.len, *ink),
            Job::File(size, file) => {
                (sheet, buffer) = (inked(&mut random, size.len, first_ink(file)), random.bytes(file.len()));
            }
            Job::Fill(size, fill, places, ground) => {
                sheet.resize(size.len, 0);
                ground.lay(&mut random, &mut Sheet { shape: size.shape(), bytes: &mut sheet }, *fill);
                work = random.unsigned(*places);
            }
            Job::List(places, _) => lists = places.map(|count| random.numbers(count)),
            Job::Begin(ends) => {
                lists = [(); 2].map(|()| random.numbers(places(*ends)));
                calls.push(pen::Call::before(&mut random, None));
            }
            Job::Next(pen) => calls.push(pen::Call::before(&mut random, Some(*pen))),
            Job::Write(len, filled, ..) => (value, buffer) = (*filled, random.bytes(*len)),
            Job::Again(Again { size, room, file, .. }) => {
                (sheet, buffer) = (inked(&mut random, size.len, first_ink(file)), random.bytes(*room));
            }
            Job::Rescue(Rescue { size, lengths, file }) => {
                sheet = inked(&mut random, size.len, first_ink(file));
                rescued = Rescued::before(&mut random, *lengths);
            }
            Job::Tallied(tallied) => return tallied.before(held),
            Job::Pictured(pictured) => [sheet, buffer] = pictured.before(&mut random),
        }
        let rectangle = [(); 4].map(|()| random.number() as u32);
        Outcome { number: 0, value, rectangle, sheet, work, buffer, lists, rows: Vec::new(), calls, rescued }
    }

    /// Whether it differs from what was lent: in the sheet, the tally or the picture or, without a sheet, in a buffer, list or
    /// pen.
    fn changed(&self, before: &Outcome, job: &Job) -> bool {
        let pen = |outcome: &Outcome| outcome.calls.first().map(|call| call.pen);
        match job {
            Job::Pictured(_) => self.sheet != before.sheet || self.buffer != before.buffer,
            _ if job.size().is_some() => self.sheet != before.sheet || self.rows != before.rows,
            _ => self.buffer != before.buffer || self.lists != before.lists || pen(self) != pen(before),
        }
    }

    pub(crate) fn by_rules(&mut self, rules: &Rules, job: &Job) {
        self.calls = self.calls.first().map_or(Vec::new(), |lent| lent.by_rules(rules, job.begins()));
        if let Job::File(_, bytes) = job.without_list().unwrap_or(job) {
            if sound(rules, bytes) {
                self.buffer.copy_from_slice(bytes);
            }
        }
        let mut sheet = Sheet { shape: Shape { width: 0, height: 0, pitch: 0 }, bytes: &mut self.sheet };
        if let Some(size) = job.size() {
            sheet.shape = size.shape();
        }
        let Reply { number, value, rectangle } = match job {
            Job::Cells(..) | Job::Metres(..) | Job::File(..) | Job::Fill(..) => {
                rules.without_list(&mut sheet, &mut self.work, job)
            }
            Job::Tallied(Tallied { call: Call::Kept(job), .. }) => {
                (rules.tallier.draw)(rules, &mut Beside { sheet, list: &mut self.rows, work: &mut self.work }, job)
            }
            Job::Tallied(Tallied { call: Call::Afresh(_), .. }) => {
                Reply { number: (rules.tallier.afresh)(rules, &sheet, &mut self.rows), ..Reply::done(None) }
            }
            Job::Next(_) => Reply { number: self.calls[0].number, value: None, rectangle: None },
            Job::Write(_, _, ink, figure) => {
                let mut buffer = Buffer { bytes: &mut self.buffer, filled: self.value };
                let number = rules.write(&mut buffer, *ink, &widened(figure));
                Reply { number, value: Some(buffer.filled), rectangle: None }
            }
            Job::Again(again) => again.by_rules(rules, &mut sheet, &mut self.buffer),
            Job::Rescue(rescue) => rescue.by_rules(rules, &mut sheet, &mut self.rescued),
            Job::Pictured(pictured) => pictured.by_rules(rules, &mut sheet, &mut self.buffer),
            Job::List(_, ends) | Job::Begin(ends) => {
                let [x0, y0, x1, y1] = ends.map(i64::from);
                let [xs, ys] = &mut self.lists;
                rules.list(xs, ys, (x0, y0), (x1, y1))
            }
        };
        self.number = number;
        self.value = value.unwrap_or(self.value);
        self.rectangle = rectangle.unwrap_or(self.rectangle);
    }
}

impl Rules {
    /// Draws a figure or a file, or fills a territory.
    pub(crate) fn without_list(&self, sheet: &mut Sheet, work: &mut [u32], job: &Job) -> Reply {
        match job {
            Job::Cells(_, ink, figure) => self.draw(sheet, *ink, &widened(figure)),
            Job::Metres(_, ink, survey, figure) => self.draw_metres(sheet, *ink, *survey, *figure),
            Job::File(_, bytes) => self.draw_file(sheet, bytes),
            Job::Fill(_, fill, ..) => self.fill(sheet, *fill, work),
            _ => unreachable!("it sets no cell"),
        }
    }
}

/// Whether a file is accepted, whatever it is drawn on; such a one is also written again.
pub(crate) fn sound(rules: &Rules, file: &[u8]) -> bool {
    rules.read(file, |_, _| ()).is_ok()
}

pub fn widened(figure: &Cells) -> Figure {
    match *figure {
        Cells::Line(ends) => {
            let [from, to] = points(&ends);
            Figure::Line(from, to)
        }
        Cells::Circle([x, y], r) => Figure::Circle((x.into(), y.into()), r.into()),
        Cells::Ellipse([x, y], a, b) => Figure::Ellipse((x.into(), y.into()), a.into(), b.into()),
        Cells::Curve(control, s) => Figure::Curve(points(&control), s.into()),
        Cells::Cubic(control, s) => Figure::Cubic(points(&control), s.into()),
    }
}

/// Points of which each has its x and then its y among the numbers.
fn points<const P: usize>(numbers: &[i32]) -> [Cell; P] {
    std::array::from_fn(|i| (numbers[2 * i].into(), numbers[2 * i + 1].into()))
}

#[cfg(test)]
mod tests {
    use super::*;
    use crate::rule::{refusal, Bad};
    use std::cell::RefCell;
    use std::collections::BTreeMap;

    thread_local! {
        /// The figures that were asked about since the last look.
        static ASKED: RefCell<Vec<Figure>> = const { RefCell::new(Vec::new()) };
    }

    fn noted(figure: &Figure) -> Option<Bad> {
        ASKED.with_borrow_mut(|asked| asked.push(figure.clone()));
        refusal(figure)
    }

    const ZEROS: [&str; 4] = ["a radius of 0", "both axes 0", "the first axis 0", "the second axis 0"];

    fn zeros(figure: &Figure) -> Option<&'static str> {
        match *figure {
            Figure::Circle(_, 0) => Some(ZEROS[0]),
            Figure::Ellipse(_, 0, 0) => Some(ZEROS[1]),
            Figure::Ellipse(_, 0, 1..) => Some(ZEROS[2]),
            Figure::Ellipse(_, 1.., 0) => Some(ZEROS[3]),
            _ => None,
        }
    }

    #[test]
    fn axes_of_0_come_in_cells_in_metres_and_in_files() {
        let rules = Rules { refusal: noted, ..Rules::document() };
        let mut seen: BTreeMap<(&str, &str), u32> = BTreeMap::new();
        for seed in 0..20_000 {
            for case in [Case::figure(seed), Case::file(seed), Case::damaged(seed)] {
                let given = match case.job {
                    Job::Cells(..) => "cells",
                    Job::Metres(..) => "metres",
                    Job::File(..) => "a file",
                    _ => continue,
                };
                Outcome::before(case.held, &case.job).by_rules(&rules, &case.job);
                for figure in ASKED.take() {
                    if let Some(what) = zeros(&figure) {
                        *seen.entry((given, what)).or_default() += 1;
                    }
                }
            }
        }
        for given in ["cells", "metres", "a file"] {
            for what in ZEROS {
                let times = seen.get(&(given, what)).copied().unwrap_or_default();
                assert!(times >= 20, "{what} in {given}: only {times} times");
            }
        }
    }
}
