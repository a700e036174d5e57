//! One input of the library: written as one line, and read back from it.
use crate::again::{Again, Thrown};
use crate::ground::Ground;
use crate::metres::{Metres, Survey};
use crate::native::{Cells, Fill, Pen};
use crate::pictured::{self, Pictured};
use crate::rescued::Rescue;
use crate::rule::Shape;
use crate::tallied::{Call, Held, List, Tallied};
use std::borrow::Cow;
use std::fmt;
use std::str::{FromStr, SplitWhitespace};

/// A lent sheet's length and the sizes that are told of it.
#[derive(Clone, Copy, Debug)]
pub struct Size {
    pub len: usize,
    pub width: u32,
    pub height: u32,
    pub pitch: u32,
}

impl Size {
    pub fn shape(self) -> Shape {
        Shape { width: self.width.into(), height: self.height.into(), pitch: self.pitch.into() }
    }
}

#[derive(Clone, Debug)]
pub enum Job {
    Cells(Size, u8, Cells),
    Metres(Size, u8, Survey, Metres),
    List([usize; 2], [i32; 4]),
    /// The line between these ends is listed, and a pen begun from them is asked.
    Begin([i32; 4]),
    /// A pen in any state is asked.
    Next(Pen),
    File(Size, Vec<u8>),
    /// A territory is filled on this ground, with a work slice of so many places.
    Fill(Size, Fill, usize, Ground),
    /// A figure is written to a buffer of this length, of which so many bytes are said to be filled.
    Write(usize, u64, u8, Cells),
    /// A file is read, and its figures are written again.
    Again(Again),
    /// A file is rescued, and what is copied of it is drawn.
    Rescue(Rescue),
    /// A drawing or fill is lent a list beside its sheet, or the sheet is counted afresh.
    Tallied(Tallied),
    /// A sheet is written as a picture, or a picture is read onto it.
    Pictured(Pictured),
}

/// A job, and the seed of what the lent buffers hold before it.
#[derive(Clone, Debug)]
pub struct Case {
    pub held: u64,
    pub job: Job,
}

/// The most bytes that a random case lends.
pub const MOST_BYTES: usize = 8192 * 4096 + 8192;
/// The most places that a random case lends in a list.
pub const MOST_PLACES: usize = 40_000;

/// The most places that a random case lends in a work slice.
pub const MOST_WORK: usize = 4096 * 4096 + 40;

/// The most bytes that a random case lends in a buffer to write to.
pub const MOST_BUFFER: usize = 1 << 22;

/// The most bytes of a random file that is rescued: its case is still short enough for a word of a command.
pub const MOST_RESCUED: usize = 65_000;

/// As many places as a line has cells; fewer where no line is that long.
pub fn places([x0, y0, x1, y1]: [i32; 4]) -> usize {
    1 + x0.abs_diff(x1).max(y0.abs_diff(y1)).min(36_000) as usize
}

impl Job {
    /// The export's name after its pw_; but a circle, drawn by that of ellipses, and a file written again have their own.
    pub fn name(&self) -> Cow<'static, str> {
        Cow::Borrowed(match self {
            Job::Cells(_, _, figure) => figure.name(),
            Job::Metres(_, _, _, Metres::Line(_)) => "line_metres",
            Job::Metres(_, _, _, Metres::Circle(_)) => "circle_metres",
            Job::Metres(_, _, _, Metres::Ellipse(_)) => "ellipse_metres",
            Job::List(..) => "list",
            Job::Begin(_) => "pen_begin",
            Job::Next(_) => "pen_next",
            Job::File(..) => "file",
            Job::Fill(..) => "fill",
            Job::Write(.., Cells::Line(_)) => "write_line",
            Job::Write(.., Cells::Circle(..)) => "write_circle",
            Job::Write(.., Cells::Ellipse(..)) => "write_ellipse",
            Job::Write(.., Cells::Curve(..)) => "write_curve",
            Job::Write(.., Cells::Cubic(..)) => "write_cubic",
            Job::Again(_) => "again",
            Job::Rescue(_) => "rescue",
            Job::Tallied(Tallied { call: Call::Afresh(_), .. }) => "tally",
            Job::Tallied(Tallied { call: Call::Kept(job), .. }) => {
                return Cow::Owned(format!("{}_tallied", job.name()))
            }
            Job::Pictured(Pictured { call: pictured::Call::Write(_), .. }) => "write_pbm",
            Job::Pictured(Pictured { call: pictured::Call::Read(..), .. }) => "read_pbm",
        })
    }

    /// The sheet that is lent.
    pub fn size(&self) -> Option<Size> {
        match self {
            Job::Cells(size, ..) | Job::Metres(size, ..) | Job::File(size, _) | Job::Fill(size, ..) => Some(*size),
            Job::Again(again) => Some(again.size),
            Job::Rescue(rescue) => Some(rescue.size),
            Job::Tallied(tallied) => tallied.size(),
            Job::Pictured(pictured) => Some(pictured.size),
            Job::List(..) | Job::Begin(_) | Job::Next(_) | Job::Write(..) => None,
        }
    }

    /// Of a drawing or fill that is lent a list, the same without one.
    pub fn without_list(&self) -> Option<&Job> {
        match self {
            Job::Tallied(Tallied { call: Call::Kept(job), .. }) => Some(job),
            _ => None,
        }
    }

    /// The ends that a pen is begun from.
    pub fn begins(&self) -> Option<[i32; 4]> {
        match self {
            Job::Begin(ends) => Some(*ends),
            _ => None,
        }
    }
}

impl Cells {
    fn name(&self) -> &'static str {
        match self {
            Cells::Line(_) => "line",
            Cells::Circle(..) => "circle",
            Cells::Ellipse(..) => "ellipse",
            Cells::Curve(..) => "curve",
            Cells::Cubic(..) => "cubic",
        }
    }

    /// Its numbers, each after a blank.
    fn words(&self) -> String {
        match self {
            Cells::Line(ends) => words(ends),
            Cells::Circle(centre, r) => words(centre) + &words(&[r]),
            Cells::Ellipse(centre, a, b) => words(centre) + &words(&[a, b]),
            Cells::Curve(points, s) => words(points) + &words(&[s]),
            Cells::Cubic(points, s) => words(points) + &words(&[s]),
        }
    }
}

impl fmt::Display for Size {
    fn fmt(&self, to: &mut fmt::Formatter) -> fmt::Result {
        write!(to, "{} {} {} {}", self.len, self.width, self.height, self.pitch)
    }
}

fn words<T: fmt::Debug>(numbers: &[T]) -> String {
    numbers.iter().map(|number| format!(" {number:?}")).collect()
}

/// Two digits for each byte.
fn digits(bytes: &[u8]) -> String {
    bytes.iter().map(|byte| format!("{byte:02x}")).collect()
}

impl fmt::Display for Case {
    fn fmt(&self, to: &mut fmt::Formatter) -> fmt::Result {
        write!(to, "{} {}{}", self.job.name(), self.held, self.job)
    }
}

/// All but its name, each word after a blank.
impl fmt::Display for Job {
    fn fmt(&self, to: &mut fmt::Formatter) -> fmt::Result {
        match self {
            Job::Cells(size, ink, figure) => write!(to, " {size} {ink}{}", figure.words()),
            Job::Metres(size, ink, survey, figure) => {
                let survey = words(&[survey.east, survey.north, survey.size]);
                let fields = match figure {
                    Metres::Circle(fields) => words(fields),
                    Metres::Line(fields) | Metres::Ellipse(fields) => words(fields),
                };
                write!(to, " {size} {ink}{survey}{fields}")
            }
            Job::List([nx, ny], ends) => write!(to, " {nx} {ny}{}", words(ends)),
            Job::Begin(ends) => write!(to, "{}", words(ends)),
            Job::Next(Pen { ends, told }) => write!(to, "{} {told}", words(ends)),
            Job::File(size, bytes) => write!(to, " {size} {}", digits(bytes)),
            Job::Fill(size, Fill { start, boundary, territory }, places, ground) => {
                write!(to, " {size}{} {boundary} {territory} {places} {ground}", words(start))
            }
            Job::Write(len, filled, ink, figure) => write!(to, " {len} {filled} {ink}{}", figure.words()),
            Job::Again(Again { size, room, thrown, file }) => {
                write!(to, " {size} {room} {}", thrown.len())?;
                for Thrown { after, ink, figure } in thrown {
                    write!(to, " {after} {} {ink}{}", figure.name(), figure.words())?;
                }
                write!(to, " {}", digits(file))
            }
            Job::Rescue(Rescue { size, lengths, file }) => write!(to, " {size}{} {}", words(lengths), digits(file)),
            Job::Tallied(Tallied { list, call: Call::Afresh(size) }) => write!(to, " {list} {size}"),
            Job::Tallied(Tallied { list, call: Call::Kept(job) }) => write!(to, " {list}{job}"),
            Job::Pictured(Pictured { size, call }) => match call {
                pictured::Call::Write(room) => write!(to, " {size} {room}"),
                pictured::Call::Read(head, more) => write!(to, " {size} {more} {}", digits(head)),
            },
        }
    }
}

fn number<T: FromStr>(words: &mut SplitWhitespace) -> Result<T, String> {
    let word = words.next().ok_or("a number is missing")?;
    word.parse().map_err(|_| format!("{word} is no number for its place"))
}

fn numbers<T: FromStr + Default + Copy, const N: usize>(words: &mut SplitWhitespace) -> Result<[T; N], String> {
    let mut found = [T::default(); N];
    for place in &mut found {
        *place = number(words)?;
    }
    Ok(found)
}

/// Bytes, of which there may be none.
fn bytes(words: &mut SplitWhitespace) -> Result<Vec<u8>, String> {
    let digits = words.next().unwrap_or("");
    let byte = |at| digits.get(at..at + 2).and_then(|pair| u8::from_str_radix(pair, 16).ok());
    let bytes: Option<Vec<u8>> = (0..digits.len()).step_by(2).map(byte).collect();
    Ok(bytes.ok_or("bytes are pairs of digits")?)
}

/// The figure with this name.
fn figure(name: &str, words: &mut SplitWhitespace) -> Result<Cells, String> {
    Ok(match name {
        "line" => Cells::Line(numbers(words)?),
        "circle" => Cells::Circle(numbers(words)?, number(words)?),
        "ellipse" => Cells::Ellipse(numbers(words)?, number(words)?, number(words)?),
        "curve" => Cells::Curve(numbers(words)?, number(words)?),
        "cubic" => Cells::Cubic(numbers(words)?, number(words)?),
        _ => return Err(format!("no export is named {name}")),
    })
}

/// A job that is lent no sheet.
fn without_sheet(name: &str, words: &mut SplitWhitespace) -> Result<Option<Job>, String> {
    if let Some(written) = name.strip_prefix("write_").filter(|written| *written != "pbm") {
        return Ok(Some(Job::Write(number(words)?, number(words)?, number(words)?, figure(written, words)?)));
    }
    Ok(Some(match name {
        "list" => Job::List(numbers(words)?, numbers(words)?),
        "pen_begin" => Job::Begin(numbers(words)?),
        "pen_next" => Job::Next(Pen { ends: numbers(words)?, told: number(words)? }),
        _ => return Ok(None),
    }))
}

/// A fill, after the sheet.
fn fill(size: Size, words: &mut SplitWhitespace) -> Result<Job, String> {
    let fill = Fill { start: numbers(words)?, boundary: number(words)?, territory: number(words)? };
    let (places, name) = (number(words)?, words.next().ok_or("a ground is missing")?);
    let ground = Ground::named(name, number(words)?).ok_or(format!("no ground is named {name}"))?;
    Ok(Job::Fill(size, fill, places, ground))
}

/// A file that is written again, after the sheet.
fn again(size: Size, words: &mut SplitWhitespace) -> Result<Job, String> {
    let (room, count) = (number(words)?, number::<usize>(words)?);
    let mut thrown = Vec::new();
    for _ in 0..count {
        let (after, name) = (number(words)?, words.next().ok_or("a figure is missing")?);
        thrown.push(Thrown { after, ink: number(words)?, figure: figure(name, words)? });
    }
    Ok(Job::Again(Again { size, room, thrown, file: bytes(words)? }))
}

/// What a list holds, after how many places it has.
fn list(words: &mut SplitWhitespace) -> Result<List, String> {
    let places = number(words)?;
    if words.clone().next() == Some("noise") {
        words.next();
        return Ok(List { places, held: Held::Noise });
    }
    let count = number::<usize>(words)?;
    let wrong: Result<_, String> = (0..count).map(|_| Ok((number(words)?, number(words)?))).collect();
    Ok(List { places, held: Held::Tally(wrong?) })
}

/// A drawing or fill that is lent a list.
fn kept(name: &str, words: &mut SplitWhitespace) -> Result<Job, String> {
    let (list, job) = (list(words)?, job(name, words)?);
    match job {
        Job::Cells(..) | Job::Metres(..) | Job::File(..) | Job::Fill(..) => {
            Ok(Job::Tallied(Tallied { list, call: Call::Kept(Box::new(job)) }))
        }
        _ => Err(format!("no export is named {name}_tallied")),
    }
}

/// A sheet that is written as a picture or read from one, after the sheet.
fn pictured(size: Size, name: &str, words: &mut SplitWhitespace) -> Result<Job, String> {
    let count = number(words)?;
    let write = name == "write_pbm";
    let call = if write { pictured::Call::Write(count) } else { pictured::Call::Read(bytes(words)?, count) };
    Ok(Job::Pictured(Pictured { size, call }))
}

fn size(words: &mut SplitWhitespace) -> Result<Size, String> {
    Ok(Size { len: number(words)?, width: number(words)?, height: number(words)?, pitch: number(words)? })
}

/// A figure in metres with this name, after the sheet.
fn metres(size: Size, name: &str, words: &mut SplitWhitespace) -> Result<Job, String> {
    let ink = number(words)?;
    let [east, north, cell_size] = numbers(words)?;
    let figure = match name {
        "line_metres" => Metres::Line(numbers(words)?),
        "circle_metres" => Metres::Circle(numbers(words)?),
        "ellipse_metres" => Metres::Ellipse(numbers(words)?),
        _ => return Err(format!("no export is named {name}")),
    };
    Ok(Job::Metres(size, ink, Survey { east, north, size: cell_size }, figure))
}

/// The job with this name.
fn job(name: &str, words: &mut SplitWhitespace) -> Result<Job, String> {
    if let Some(job) = without_sheet(name, words)? {
        return Ok(job);
    }
    if let Some(drawn) = name.strip_suffix("_tallied") {
        return kept(drawn, words);
    }
    if name == "tally" {
        return Ok(Job::Tallied(Tallied { list: list(words)?, call: Call::Afresh(size(words)?) }));
    }
    let size = size(words)?;
    match name {
        "fill" => fill(size, words),
        "again" => again(size, words),
        "rescue" => Ok(Job::Rescue(Rescue { size, lengths: numbers(words)?, file: bytes(words)? })),
        "file" => Ok(Job::File(size, bytes(words)?)),
        "write_pbm" | "read_pbm" => pictured(size, name, words),
        _ if name.ends_with("_metres") => metres(size, name, words),
        _ => Ok(Job::Cells(size, number(words)?, figure(name, words)?)),
    }
}

impl FromStr for Case {
    type Err = String;

    fn from_str(text: &str) -> Result<Case, String> {
        let mut words = text.split_whitespace();
        let name = words.next().ok_or("an empty case")?;
        Ok(Case { held: number(&mut words)?, job: job(name, &mut words)? })
    }
}

#[cfg(test)]
mod tests {
    use super::*;

    #[test]
    fn a_case_is_read_back_as_it_was_written() {
        for seed in 0..2000 {
            let makes = [Case::figure, Case::file, Case::damaged, Case::pen, Case::fill, Case::write, Case::again];
            let more = [Case::rescue, Case::tallied, Case::pictured];
            for case in makes.iter().chain(&more).map(|make| make(seed)) {
                let text = case.to_string();
                let again: Case = text.parse().unwrap();
                assert_eq!(again.to_string(), text);
            }
        }
    }
}
