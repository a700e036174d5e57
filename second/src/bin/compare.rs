//! Compares the proved library with the second drawing program on random figures, files, damaged files, pens, fills,
//! writes of one figure, files that are read and written again, rescues of damaged files, tallies that drawings and fills
//! keep or that are counted afresh, and pictures that sheets are written as or read from.
//!
//!     compare [KIND] [COUNT] [SEED]    COUNT cases of each kind, or of this one: figures, files, damaged, pens, fills,
//!                                      writes, again, rescues, tallies, pictures
//!     compare --one CASE               one case, as a difference prints it
//!     compare --teeth                  wrong second programs, each of which must be caught
use second::case::{Case, Job};
use second::guard::{Against, Guarded};
use second::many::{count, nth_seed, on_all_processors};
use second::rule::Rules;
use second::run::Room;
use second::teeth;
use std::borrow::Cow;
use std::cell::Cell;
use std::collections::BTreeMap;
use std::process::{Command, ExitCode};
use std::sync::atomic::{AtomicU64, Ordering::Relaxed};
use std::sync::Mutex;
use std::time::Instant;

/// How many differences are printed.
const SHOWN: u64 = 10;
/// How many cases a wrong program may pass before it counts as not caught.
const PATIENCE: u64 = 100_000;

type Make = fn(u64) -> Case;

/// Each kind of case: the word that asks for it, and what its cases are called.
const KINDS: [(&str, &str, Make); 10] = [
    ("figures", "figures", Case::figure),
    ("files", "files", Case::file),
    ("damaged", "damaged files", Case::damaged),
    ("pens", "pens", Case::pen),
    ("fills", "fills", Case::fill),
    ("writes", "writes", Case::write),
    ("again", "files again", Case::again),
    ("rescues", "rescues", Case::rescue),
    ("tallies", "tallies", Case::tallied),
    ("pictures", "pictures", Case::pictured),
];

thread_local! {
    /// The case that this thread is at, for the message of a touch outside.
    static AT: Cell<*const Case> = const { Cell::new(std::ptr::null()) };
}

extern "C" {
    fn signal(number: i32, handler: extern "C" fn(i32)) -> usize;
}

/// Called where a guard page was touched: names the case and ends the program.
extern "C" fn touched_outside(_: i32) {
    // SAFETY: null, or the case that this thread compares just now.
    if let Some(case) = unsafe { AT.get().as_ref() } {
        println!("difference: a byte outside what was lent was touched\n  compare --one \"{case}\"");
    }
    println!("0 passed, 1 failed");
    std::process::exit(1);
}

fn compare(room: &mut Room, rules: &Rules, case: &Case) -> Result<(u32, bool), String> {
    AT.set(case);
    let compared = room.compare(rules, case);
    AT.set(std::ptr::null());
    compared
}

/// The ith case of a run.
fn case(make: Make, seed: u64, i: u64) -> Case {
    make(nth_seed(seed, i))
}

/// How often an export gave each reply, how often it changed what was lent, and how often beside a sheet with padding.
#[derive(Default)]
struct Seen {
    replies: [u64; 21],
    changes: u64,
    padded: u64,
}

#[derive(Default)]
struct Replies(BTreeMap<Cow<'static, str>, Seen>);

impl Replies {
    fn add(&mut self, job: &Job, (number, changed): (u32, bool)) {
        let seen = self.0.entry(job.name()).or_default();
        seen.replies[number as usize] += 1;
        seen.changes += u64::from(changed);
        seen.padded += u64::from(changed && job.size().is_some_and(|size| size.width < size.pitch));
    }

    fn join(&mut self, other: &Replies) {
        for (export, seen) in &other.0 {
            let mine = self.0.entry(export.clone()).or_default();
            mine.replies.iter_mut().zip(seen.replies).for_each(|(sum, more)| *sum += more);
            mine.changes += seen.changes;
            mine.padded += seen.padded;
        }
    }

    fn print(&self) {
        for (export, Seen { replies, changes, padded }) in &self.0 {
            let told = replies.iter().enumerate().filter(|&(_, &times)| times > 0);
            let told: Vec<String> = told.map(|(number, times)| format!("{number}: {times}")).collect();
            let padded = if *padded > 0 { format!(", {padded} with padding") } else { String::new() };
            println!("  {export:22} changed something {changes} times{padded}; replies {}", told.join(", "));
        }
    }
}

/// Compares so many cases on all processors; whether there was no difference.
fn run(name: &str, make: Make, count: u64, seed: u64) -> bool {
    let began = Instant::now();
    let (next, differences) = (AtomicU64::new(0), AtomicU64::new(0));
    let replies = Mutex::new(Replies::default());
    on_all_processors(|| {
        let mut room = Room::default();
        let mut own = Replies::default();
        loop {
            let i = next.fetch_add(1, Relaxed);
            if i >= count || differences.load(Relaxed) >= SHOWN {
                break;
            }
            let case = case(make, seed, i);
            match compare(&mut room, &Rules::document(), &case) {
                Ok(outcome) => own.add(&case.job, outcome),
                Err(what) => {
                    differences.fetch_add(1, Relaxed);
                    println!("difference: {what}\n  compare --one \"{case}\"");
                }
            }
        }
        replies.lock().expect("no thread stops").join(&own);
    });
    let differences = differences.into_inner();
    println!("{name}: {count} with seed {seed}, {differences} differences, {:.1} s", began.elapsed().as_secs_f64());
    replies.into_inner().expect("no thread stops").print();
    differences == 0
}

/// Whether a wrong program is caught on cases of any kind.
fn caught(rules: &Rules, seed: u64) -> bool {
    let mut room = Room::default();
    (0..PATIENCE).any(|i| {
        KINDS.into_iter().any(|(_, _, make)| {
            let case = case(make, seed, i);
            compare(&mut room, rules, &case).is_err_and(|what| {
                println!("  caught after {i} cases: {what}\n  {case}");
                true
            })
        })
    })
}

/// Whether a program that touches the byte before or after what is lent ends.
fn ends_by_touch(side: &str) -> bool {
    let this = std::env::current_exe().expect("this program's own file");
    let output = Command::new(this).args(["--touch", side]).output().expect("this program runs");
    !output.status.success() && output.stdout.starts_with(b"0 passed")
}

fn touch(side: &str) {
    let mut guarded = Guarded::with_room(1000);
    let before = side == "before";
    let lent = guarded.lend::<u8>(1000, if before { Against::Before } else { Against::After });
    // SAFETY: none; this is to end the program.
    unsafe { lent.as_mut_ptr().offset(if before { -1 } else { 1000 }).write_volatile(1) };
}

fn usage() -> ExitCode {
    eprintln!("usage: compare [KIND] [COUNT] [SEED] | compare --one CASE | compare --teeth");
    ExitCode::from(2)
}

/// Compares random cases of these kinds; the words are how many of each, and the seed.
fn random(kinds: &[(&str, &str, Make)], words: &[&str]) -> ExitCode {
    let number = |at: usize, usual: u64| words.get(at).map_or(Ok(usual), |word| word.parse());
    match (number(0, 200_000), number(1, 1), words.len()) {
        (Ok(many), Ok(seed), 0..=2) => count(kinds.iter().map(|(_, name, make)| run(name, *make, many, seed))),
        _ => usage(),
    }
}

fn main() -> ExitCode {
    const SEGV: i32 = 11;
    const BUS: i32 = 7;
    // SAFETY: the handler only prints and exits.
    unsafe { (signal(SEGV, touched_outside), signal(BUS, touched_outside)) };
    let words: Vec<String> = std::env::args().skip(1).collect();
    let words: Vec<&str> = words.iter().map(String::as_str).collect();
    match words[..] {
        ["--one", text] => match text.parse::<Case>() {
            Err(what) => {
                eprintln!("compare: {what}");
                ExitCode::from(2)
            }
            Ok(case) => {
                let compared = compare(&mut Room::default(), &Rules::document(), &case);
                println!(
                    "{}",
                    compared.as_ref().map_or_else(|what| format!("difference: {what}"), |(n, _)| format!("reply {n}"))
                );
                count([compared.is_ok()])
            }
        },
        ["--teeth"] => {
            let mut results = Vec::new();
            for (what, rules) in teeth::wrong_programs() {
                println!("{what}:");
                results.push(caught(&rules, 1));
            }
            for side in ["before", "after"] {
                println!("the byte {side} what is lent is touched");
                results.push(ends_by_touch(side));
            }
            count(results)
        }
        ["--touch", side] => {
            touch(side);
            ExitCode::SUCCESS
        }
        [] => random(&KINDS, &[]),
        [first, ref rest @ ..] => match KINDS.iter().find(|(word, ..)| *word == first) {
            Some(kind) => random(&[*kind], rest),
            None => random(&KINDS, &words),
        },
    }
}
