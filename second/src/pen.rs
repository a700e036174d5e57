//! A lent pen: begun, or in any state, and asked until it is finished and a few times more.
use crate::guard::{Against, Guarded};
use crate::native::{self, Pen};
use crate::random::Random;
use crate::rule::{Figure, Rules};
use std::fmt;

/// How often a finished pen is asked again.
const AGAIN: usize = 3;

/// What is lent to a call of a pen, and what it replied.
#[derive(Clone, Copy, Debug, PartialEq)]
pub struct Call {
    pub number: u32,
    pub pen: Pen,
    cell: [i32; 2],
}

impl fmt::Display for Call {
    fn fmt(&self, to: &mut fmt::Formatter) -> fmt::Result {
        let Call { number, pen: Pen { ends, told }, cell } = self;
        write!(to, "{number} with the cell {cell:?} and {told} told of {ends:?}")
    }
}

impl Call {
    /// What is lent before the first call: this pen or any, and two numbers.
    pub fn before(random: &mut Random, pen: Option<Pen>) -> Call {
        let [cell, from, to] = [(); 3].map(|()| [(); 2].map(|()| random.number() as i32));
        let any = Pen { ends: [from[0], from[1], to[0], to[1]], told: random.number() as u32 };
        Call { number: 0, pen: pen.unwrap_or(any), cell }
    }

    /// Each call by the rules: a beginning, where there are ends for one, and then the askings.
    pub fn by_rules(self, rules: &Rules, ends: Option<[i32; 4]>) -> Vec<Call> {
        let (mut now, mut calls) = (self, Vec::new());
        if let Some([x0, y0, x1, y1]) = ends {
            let line = Figure::Line((x0.into(), y0.into()), (x1.into(), y1.into()));
            match (rules.refusal)(&line) {
                Some((number, _)) => now.number = number,
                None => now.pen = Pen { ends: [x0, y0, x1, y1], told: 0 },
            }
            calls.push(now);
        }
        let [x0, y0, x1, y1] = now.pen.ends.map(i64::from);
        for ((x, y), told) in (rules.asked)(rules, (x0, y0), (x1, y1), now.pen.told.into()) {
            now = Call { number: 1, pen: Pen { told: told as u32, ..now.pen }, cell: [x as i32, y as i32] };
            calls.push(now);
        }
        now.number = 0;
        calls.extend([now; AGAIN]);
        calls
    }
}

/// The room for a pen, and for the two numbers that its cells go to.
pub struct Room {
    pen: Guarded,
    cell: [Guarded; 2],
}

impl Default for Room {
    fn default() -> Room {
        Room { pen: Guarded::with_room(size_of::<Pen>()), cell: [(); 2].map(|()| Guarded::with_room(size_of::<i32>())) }
    }
}

impl Room {
    /// So many calls by the library.
    pub fn by_library(&mut self, before: Call, ends: Option<[i32; 4]>, calls: usize, against: Against) -> Vec<Call> {
        let pen = &mut self.pen.lend::<Pen>(1, against)[0];
        let [x, y] = self.cell.each_mut().map(|room| &mut room.lend::<i32>(1, against)[0]);
        (*pen, [*x, *y]) = (before.pen, before.cell);
        let mut begins = ends;
        let mut call = || {
            let number = match begins.take() {
                Some(ends) => native::pen_begin(pen, ends),
                None => native::pen_next(pen, x, y),
            };
            Call { number, pen: *pen, cell: [*x, *y] }
        };
        (0..calls).map(|_| call()).collect()
    }
}
