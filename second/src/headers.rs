//! Of which sorts the headers of random pictures are.
use crate::pbm::{digits, header, names, text, Header, Letter, BLANKS};
use crate::pictures::{named, Sorts, Tried};
use crate::rule::{Rules, Shape};

/// The bytes that a picture begins with, which are its header or what stands for it, and what they are read as.
pub struct Looked<'a> {
    head: &'a [u8],
    letters: Vec<Letter>,
    pub header: Option<Header>,
    /// Whether the header names the sheet's size.
    pub fits: bool,
}

impl Looked<'_> {
    pub fn at(shape: Shape, head: &[u8]) -> Looked<'_> {
        let rules = Rules::document();
        let header = (rules.pbm.apart)(&rules, head);
        let fits = header.as_ref().is_some_and(|header| names(&rules, header, shape));
        Looked { head, letters: (rules.pbm.letters)(head), header, fits }
    }

    /// Of every sort that a header may be.
    pub fn sorts(&self, tried: &Tried) -> Sorts {
        [comments(tried, self), blanks(tried, self), numbers(tried, self), broken(tried, self), ended(tried, self)]
            .concat()
    }

    /// The text of each part of the header; the last has blanks that may be bytes of the rows.
    fn parts(&self) -> Vec<Vec<u8>> {
        Rules::document().parts(&self.letters).take(7).map(text).collect()
    }

    /// Each letter's part and its place in it.
    fn places(&self) -> impl Iterator<Item = (usize, usize)> {
        let parts = self.parts().into_iter().enumerate();
        parts.flat_map(|(part, text)| (0..text.len()).map(move |i| (part, i)))
    }

    /// The comments before this letter, or before the end.
    fn comments(&self, i: usize) -> &[u8] {
        let after = i.checked_sub(1).map_or(0, |before| self.letters[before].at + 1);
        &self.head[after..self.letters.get(i).map_or(self.head.len(), |letter| letter.at)]
    }

    /// Of a header that an edit at this letter mends, how many parts there are before it.
    fn mended(&self, shape: Shape, i: usize, edit: impl Fn(&mut Vec<u8>, usize)) -> Option<usize> {
        let mut head = self.head.to_vec();
        edit(&mut head, self.letters[i].at);
        let parts = Rules::document().parts(&self.letters[..i]).count();
        Looked::at(shape, &head).fits.then_some(parts)
    }
}

/// Each place of a comment in a picture that is read, each end of it, and what it holds.
fn comments(tried: &Tried, looked: &Looked) -> Sorts {
    const PLACES: [(usize, bool, &str); 11] = [
        (0, true, "before the magic number"),
        (1, true, "inside the magic number"),
        (2, true, "after the magic number"),
        (2, false, "among the blanks after the magic number"),
        (3, true, "before the width"),
        (3, false, "inside the width"),
        (4, true, "after the width"),
        (4, false, "among the blanks between the sides"),
        (5, true, "before the height"),
        (5, false, "inside the height"),
        (6, true, "after the height"),
    ];
    // behind the blank that ends the header there is none
    let places = looked.places().take_while(|&at| tried.is(0) && at != (6, 1)).enumerate();
    let found = places.map(|(i, (part, place))| (part, place == 0, looked.comments(i)));
    let found: Vec<(usize, bool, &[u8])> = found.filter(|(_, _, text)| !text.is_empty()).collect();
    let holds = |so: &dyn Fn(&[u8]) -> bool| found.iter().any(|(_, _, text)| so(text));
    let ends = |text: &[u8]| text.iter().filter(|byte| b"\r\n".contains(byte)).count();
    let mut sorts = named([
        ("an empty comment", holds(&|text| text.len() == 2)),
        ("a # in a comment", holds(&|text| ends(text) == 1 && text[1..].contains(&b'#'))),
        ("a form feed in a comment", holds(&|text| text.contains(&12))),
        ("a digit in a comment", holds(&|text| text.iter().any(u8::is_ascii_digit))),
        ("a long comment", holds(&|text| ends(text) == 1 && text.len() > 99)),
        ("two comments side by side", holds(&|text| ends(text) == 2)),
        ("three or more comments side by side", holds(&|text| ends(text) > 2)),
        ("no comment", tried.is(0) && found.is_empty()),
    ]);
    for (part, first, place) in PLACES {
        for (end, name) in [(b'\r', "a carriage return"), (b'\n', "a newline")] {
            let here = |&(p, f, text): &(usize, bool, &[u8])| (p, f) == (part, first) && text.ends_with(&[end]);
            let is = found.iter().any(here);
            sorts.push((format!("a comment {place}, with {name}"), is));
        }
    }
    sorts
}

/// Each blank alone in each place of a picture that is read.
fn blanks(tried: &Tried, looked: &Looked) -> Sorts {
    let parts = looked.parts();
    let part = |at: usize| parts.get(at).filter(|_| tried.is(0)).map_or(&[][..], Vec::as_slice);
    let mut sorts = named([
        ("many blanks after the magic number", part(2).len() > 4),
        ("many blanks between the sides", part(4).len() > 4),
        ("a line's end of two bytes after the magic number", part(2) == b"\r\n"),
        ("a line's end of two bytes between the sides", part(4) == b"\r\n"),
    ]);
    for blank in BLANKS {
        sorts.push((format!("{blank} alone after the magic number"), part(2) == [blank]));
        sorts.push((format!("{blank} alone between the sides"), part(4) == [blank]));
        sorts.push((format!("{blank} after the height"), part(6).starts_with(&[blank])));
    }
    sorts
}

/// What each side is named, alone among the things that are wrong; zeros, where nothing is.
fn numbers(tried: &Tried, looked: &Looked) -> Sorts {
    let Shape { width, height, .. } = tried.shape;
    let none = Header { width: Vec::new(), height: Vec::new(), rows: 0 };
    let found = looked.header.as_ref().unwrap_or(&none);
    let there = (tried.before.buffer.len() - found.rows) as i64;
    let refused = tried.is(13) && looked.header.is_some() && there >= tried.rows();
    let [fits, turned] =
        [[width, height], [height, width]].map(|[w, h]| [digits(&found.width, w), digits(&found.height, h)]);
    let mut sorts = named([("the sides are exchanged", refused && turned == [true; 2])]);
    let sides = [("width", &found.width, width, fits[1]), ("height", &found.height, height, fits[0])];
    for (name, digits, side, other_fits) in sides {
        let (alone, number) = (refused && other_fits, value(digits));
        let more = |bits: u32| number.is_some_and(|n| n > side as u128 && (n - side as u128) % (1 << bits) == 0);
        let zeros = digits.iter().take_while(|&&digit| digit == b'0').count();
        let of_side = [
            ("one zero", tried.is(0) && zeros == 1),
            ("more than 20 zeros", tried.is(0) && zeros > 20),
            ("0", alone && number == Some(0)),
            ("one too small", alone && side > 1 && number == Some(side as u128 - 1)),
            ("one too great", alone && number == Some(side as u128 + 1)),
            ("above 4,096", alone && number > Some(4096)),
            ("above the greatest side", alone && side == 4096 && number > Some(4096)),
            ("more by 2^16", alone && more(16) && !more(32)),
            ("more by 2^32", alone && more(32) && !more(64)),
            ("more by 2^64", alone && more(64)),
            ("of 40 digits or more", alone && digits.len() - zeros >= 40),
        ];
        sorts.extend(of_side.map(|(what, is)| (format!("a {name}: {what}"), is)));
    }
    sorts
}

/// The number that digits are; none where 128 bits do not hold it.
fn value(digits: &[u8]) -> Option<u128> {
    std::str::from_utf8(digits).ok()?.parse().ok()
}

/// What one byte more, less or other would mend.
fn broken(tried: &Tried, looked: &Looked) -> Sorts {
    let (mut due, mut other, mut spare) = (Vec::new(), Vec::new(), Vec::new());
    for i in (0..looked.letters.len()).filter(|_| tried.is(13) && !looked.fits) {
        let (byte, comment) = (looked.letters[i].byte, !looked.comments(i).is_empty());
        let mended = |edit: &dyn Fn(&mut Vec<u8>, usize)| looked.mended(tried.shape, i, edit);
        due.extend(mended(&|head, at| head.insert(at, b' ')).map(|parts| (parts, comment)));
        other.extend(mended(&|head, at| head[at] = b' ').map(|_| byte));
        spare.extend(mended(&|head, at| _ = head.remove(at)).map(|parts| (parts, byte)));
    }
    let mut sorts = Sorts::new();
    for (parts, place) in [(2, "after the magic number"), (4, "between the sides"), (6, "after the height")] {
        sorts.push((format!("no blank {place}"), due.contains(&(parts, false))));
        sorts.push((format!("a comment for the blank {place}"), due.contains(&(parts, true))));
    }
    let for_blank = |so: &dyn Fn(u8) -> bool| other.iter().any(|&byte| so(byte));
    let too_much = |so: &dyn Fn(usize, u8) -> bool| spare.iter().any(|&(parts, byte)| so(parts, byte));
    sorts.extend(named([
        ("8 for a blank", for_blank(&|byte| byte == 8)),
        ("14 for a blank", for_blank(&|byte| byte == 14)),
        ("0 for a blank", for_blank(&|byte| byte == 0)),
        ("31 for a blank", for_blank(&|byte| byte == 31)),
        ("160 for a blank", for_blank(&|byte| byte == 160)),
        ("a blank before the magic number", too_much(&|parts, byte| parts == 0 && BLANKS.contains(&byte))),
        ("a blank inside the magic number", too_much(&|parts, byte| parts == 1 && BLANKS.contains(&byte))),
        ("a sign", too_much(&|_, byte| byte == b'+')),
        ("47 among digits", too_much(&|_, byte| byte == 47)),
        ("58 among digits", too_much(&|_, byte| byte == 58)),
        ("a digit too much", too_much(&|_, byte| byte.is_ascii_digit())),
    ]));
    let changed = |i: usize, byte: u8| {
        tried.is(13) && i < looked.letters.len() && looked.mended(tried.shape, i, |head, at| head[at] = byte).is_some()
    };
    let letter = |i: usize| looked.letters.get(i).map(|letter| letter.byte);
    sorts.push(("another magic number".into(), letter(1) == Some(b'1') && changed(1, b'4')));
    sorts.push(("a magic number in small letters".into(), letter(0) == Some(b'p') && changed(0, b'P')));
    sorts
}

/// In which part of a header the file ends; it goes on as a sound one.
fn ended(tried: &Tried, looked: &Looked) -> Sorts {
    let (parts, rest) = (looked.parts().len(), header(tried.shape));
    let goes_on = |at: usize| Looked::at(tried.shape, &[looked.head, &rest[at..]].concat()).header.is_some();
    let ends = tried.is(13) && looked.header.is_none() && looked.head.len() == tried.before.buffer.len();
    let sound = ends && (0..rest.len()).any(goes_on);
    let comments = looked.comments(looked.letters.len());
    let closed = comments.ends_with(b"\r") || comments.ends_with(b"\n");
    let mut sorts = named([
        ("an empty file", ends && looked.head.is_empty()),
        ("a file ends with a comment", ends && closed),
        ("a file ends in a comment", ends && !comments.is_empty() && !closed),
    ]);
    sorts.extend((0..7).map(|n| (format!("a file ends after {n} parts of the header"), sound && parts == n)));
    sorts
}
