//! Draws random boundaries with the proved library, walks and fills on either side of each, and holds that nobody crosses.
//!
//!     crossing [COUNT] [SEED]    so many boundaries: lines from side to side of a sheet, and rings
//!     crossing --teeth           by wrong programs, each of which must be caught leaking
//!     crossing --leak            how a ring of the base leaked: what examples/leak.txt has
use second::crossing::{sides, way, Crossing, Done, Fault, Kit, Where, BOUNDARY};
use second::many::{count, nth_seed, on_all_processors};
use second::rule::{place, Cell, Figure, Rules, Shape, Sheet};
use second::teeth_crossing::{base_ellipse, leaking_programs};
use std::process::ExitCode;
use std::sync::atomic::{AtomicU64, Ordering::Relaxed};
use std::sync::Mutex;
use std::time::Instant;

/// How many boundaries a wrong program may draw before it counts as not caught.
const PATIENCE: u64 = 100_000;

/// The ith boundary of a run.
fn crossing(seed: u64, i: u64) -> Crossing {
    Crossing::at_random(nth_seed(seed, i))
}

fn kind(crossing: &Crossing) -> usize {
    match (&crossing.figure, crossing.upright) {
        (Figure::Line(..), false) => 0,
        (Figure::Line(..), true) => 1,
        _ => 2,
    }
}

/// Tries so many boundaries on all processors; whether none was crossed.
fn run(count: u64, seed: u64) -> bool {
    let began = Instant::now();
    let (next, faults) = (AtomicU64::new(0), AtomicU64::new(0));
    let tally = Mutex::new([(0_u64, Done::default()); 3]);
    on_all_processors(|| {
        let mut own = [(0, Done::default()); 3];
        loop {
            let i = next.fetch_add(1, Relaxed);
            if i >= count || faults.load(Relaxed) > 0 {
                break;
            }
            let crossing = crossing(seed, i);
            match crossing.holds(&Kit::Library) {
                Ok(done) => {
                    let (times, sum) = &mut own[kind(&crossing)];
                    *times += 1;
                    *sum = *sum + done;
                }
                Err(fault) => {
                    faults.fetch_add(1, Relaxed);
                    println!("{crossing:?}: {fault:?}");
                }
            }
        }
        let mut all = tally.lock().expect("no thread stops");
        all.iter_mut().zip(own).for_each(|(sum, more)| *sum = (sum.0 + more.0, sum.1 + more.1));
    });
    println!("{count} boundaries with seed {seed}, {:.1} s", began.elapsed().as_secs_f64());
    let tally = tally.into_inner().expect("no thread stops");
    for (name, (times, Done { paths, fills, cells })) in ["level lines", "upright lines", "rings"].iter().zip(tally) {
        println!("  {name:13} {times}: {paths} paths, {fills} fills that set {cells} cells");
    }
    // a run in which a kind was never tried on both sides has shown nothing
    faults.into_inner() == 0 && (count < 1000 || tally.iter().all(|(_, done)| done.paths > 0 && done.cells > 0))
}

/// Whether a wrong program is caught leaking.
fn caught(rules: Rules) -> bool {
    (0..PATIENCE).any(|i| {
        let crossing = crossing(1, i);
        match crossing.holds(&Kit::Program(rules)) {
            Err(Fault::Leak(path)) => {
                println!("  caught after {i} boundaries: {:?} leaks by {}", crossing.figure, listed(&path));
                true
            }
            _ => false,
        }
    })
}

fn listed(path: &[Cell]) -> String {
    let cells: Vec<String> = path.iter().map(|(x, y)| format!("({x},{y})")).collect();
    cells.join(" ")
}

const SHAPE: Shape = Shape { width: 25, height: 5, pitch: 25 };
const CENTRE: Cell = (12, 2);
const WITHIN: u8 = 2;

/// Draws the ring 10 by 1, fills from its centre, and prints the sheet and the way out; whether there is one.
fn show(name: &str, kit: Kit, rules: Rules) -> bool {
    let ring = Crossing { shape: SHAPE, figure: Figure::Ellipse(CENTRE, 10, 1), upright: false, seed: 0 };
    let mut bytes = vec![0; (SHAPE.pitch * SHAPE.height) as usize];
    let mut sheet = Sheet { shape: SHAPE, bytes: &mut bytes };
    kit.draw(&mut sheet, &ring.figure);
    let drawn = sheet.bytes.to_vec();
    kit.fill(&mut sheet, CENTRE, WITHIN);
    println!("{name}, the ring 10 by 1, filled from its centre:");
    for row in bytes.chunks(SHAPE.pitch as usize) {
        println!("    {}", row.iter().map(|&ink| [".", "#", "~"][usize::from(ink)]).collect::<String>());
    }
    let sides = sides(&rules, &ring);
    let open = |cell: Cell| place(SHAPE, cell).is_some_and(|place| drawn[place] != BOUNDARY);
    let way = way(SHAPE, CENTRE, open, |cell| sides[&cell] == Where::Other);
    let set = bytes.iter().filter(|&&ink| ink == WITHIN).count();
    match &way {
        Some(path) => println!("{set} cells; it leaks by {}\n", listed(path)),
        None => println!("{set} cells; nobody gets out"),
    }
    way.is_some()
}

fn leak() -> ExitCode {
    let base = base_ellipse();
    let before = show("By the base's rule", Kit::Program(base), base);
    let now = show("By the library", Kit::Library, Rules::document());
    ExitCode::from(u8::from(!before || now))
}

fn main() -> ExitCode {
    let words: Vec<String> = std::env::args().skip(1).collect();
    let words: Vec<&str> = words.iter().map(String::as_str).collect();
    let number = |at: usize, usual: u64| words.get(at).map_or(Ok(usual), |word| word.parse());
    match words[..] {
        ["--teeth"] => count(leaking_programs().into_iter().map(|(what, rules)| {
            println!("{what}:");
            caught(rules)
        })),
        ["--leak"] => leak(),
        _ => match (number(0, 200_000), number(1, 1), words.len()) {
            (Ok(many), Ok(seed), 0..=2) => count([run(many, seed)]),
            _ => {
                eprintln!("usage: crossing [COUNT] [SEED] | crossing --teeth | crossing --leak");
                ExitCode::from(2)
            }
        },
    }
}
