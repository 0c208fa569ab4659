//! Both sides on the same inputs. `driver` prints a table of times; `driver WHAT SIDE N` runs one side of a measurement N times, to be counted.
mod inputs;
mod ours;
mod rust;

use inputs::{Stream, noise, slot};
use std::cell::RefCell;
use std::hint::black_box;
use std::time::Instant;

/// How often each side is measured; the middle one counts.
const TIMES: usize = 15;

const OPEN: [(&str, Stream); 3] = [
    ("open 1", Stream { blocks: 1, data: 32_704, cues: 0 }),
    ("open 100", Stream { blocks: 100, data: 32_704, cues: 0 }),
    ("open 512", Stream { blocks: 512, data: 32_704, cues: 0 }),
];
const READ: (&str, Stream) = ("read 512", Stream { blocks: 512, data: 32_704, cues: 0 });
const CUES: [(&str, Stream); 2] = [
    ("cues 128", Stream { blocks: 128, data: 32_704, cues: 1 }),
    ("cues 130560", Stream { blocks: 512, data: 32, cues: 255 }),
];
const LISTING: (&str, Stream) = ("listing", Stream { blocks: 512, data: 32, cues: 1 });
/// 512 blocks of so many bytes: with their headers they fill 16 MiB; and what a push costs beside its data.
const LOAD: [(&str, usize); 2] = [("load 16 MiB", 32_704), ("load small", 32)];
const SLOT: usize = 16_777_216;

/// What one side runs again and again.
type Side<'a> = Box<dyn FnMut() + 'a>;

struct Measured<'a> {
    what: String,
    sides: Vec<(&'static str, Side<'a>)>,
}

/// Nanoseconds of one run, over a batch that takes about 2 ms or one run.
fn time(run: &mut Side, batch: usize) -> f64 {
    let start = Instant::now();
    for _ in 0..batch {
        run();
    }
    start.elapsed().as_nanos() as f64 / batch as f64
}

/// The middle and the least time of each side; the sides take turns.
fn middle_times(sides: &mut [(&'static str, Side)]) -> Vec<(f64, f64)> {
    let batches: Vec<usize> = sides.iter_mut().map(|(_, run)| (2e6 / time(run, 3)).clamp(1.0, 1e5) as usize).collect();
    let mut times = vec![Vec::new(); sides.len()];
    for _ in 0..TIMES {
        for (i, (_, run)) in sides.iter_mut().enumerate() {
            times[i].push(time(run, batches[i]));
        }
    }
    times.iter_mut().for_each(|t| t.sort_by(f64::total_cmp));
    times.iter().map(|t| (t[TIMES / 2], t[0])).collect()
}

/// Runs the measurements, or one side of one of them so many times.
fn run(mut measured: Measured, only: &Option<(String, String, usize)>) {
    if let Some((what, side, times)) = only {
        if measured.what == *what {
            let (_, run) = measured.sides.iter_mut().find(|(s, _)| s == side).expect("no such side");
            (0..*times).for_each(|_| run());
        }
        return;
    }
    let times = middle_times(&mut measured.sides);
    let ours = times[measured.sides.iter().position(|(s, _)| *s == "ours").unwrap()];
    for ((side, _), t) in measured.sides.iter().zip(&times) {
        println!("{:<12} {side:<12} {:>12.0} ns {:>8.2} {:>12.0} ns {:>8.2}", measured.what, t.0, t.0 / ours.0, t.1, t.1 / ours.1);
    }
}

fn wanted(only: &Option<(String, String, usize)>, what: &str) -> bool {
    only.as_ref().is_none_or(|(w, _, _)| w == what)
}

fn main() {
    let args: Vec<String> = std::env::args().collect();
    let only = match &args[1..] {
        [what, side, n] => Some((what.clone(), side.clone(), n.parse().expect("a number"))),
        _ => None,
    };
    for (what, stream) in OPEN.iter().filter(|(w, _)| wanted(&only, w)) {
        let s = slot(stream);
        let mut record = ours::open(&s);
        assert_eq!(rust::opened(&s), ours::opened(&s, &mut record));
        assert_eq!(record, ours::open(&s));
        let sides: Vec<(_, Side)> = vec![
            ("rust", Box::new(|| { black_box(rust::opened(black_box(&s))); })),
            ("ours", Box::new(|| { black_box(ours::opened(black_box(&s), &mut record)); })),
            ("by value", Box::new(|| { black_box(ours::opened_by_value(black_box(&s))); })),
        ];
        run(Measured { what: what.to_string(), sides }, &only);
    }
    if wanted(&only, READ.0) {
        let s = slot(&READ.1);
        let (r, o) = (rust::open(&s), ours::open(&s));
        assert_eq!(rust::blocks(&r), ours::blocks(&s, &o));
        let sides: Vec<(_, Side)> =
            vec![("rust", Box::new(|| { black_box(rust::blocks(&r)); })), ("ours", Box::new(|| { black_box(ours::blocks(&s, &o)); }))];
        run(Measured { what: READ.0.into(), sides }, &only);
    }
    for (what, stream) in CUES.iter().filter(|(w, _)| wanted(&only, w)) {
        let s = slot(stream);
        let (r, o) = (rust::open(&s), ours::open(&s));
        assert_eq!(rust::cues(&r), ours::cues(&s, &o));
        let sides: Vec<(_, Side)> =
            vec![("rust", Box::new(|| { black_box(rust::cues(&r)); })), ("ours", Box::new(|| { black_box(ours::cues(&s, &o)); }))];
        run(Measured { what: what.to_string(), sides }, &only);
    }
    if wanted(&only, LISTING.0) {
        let s = slot(&LISTING.1);
        let mut out = vec![0; 100_000];
        assert_eq!(rust::listing(&s).as_bytes(), ours::listing(&s, &mut out));
        let sides: Vec<(_, Side)> =
            vec![("rust", Box::new(|| { black_box(rust::listing(&s)); })), ("ours", Box::new(|| { black_box(ours::listing(&s, &mut out)); }))];
        run(Measured { what: LISTING.0.into(), sides }, &only);
    }
    for (what, block) in LOAD.iter().filter(|(w, _)| wanted(&only, w)) {
        let data = noise(512 * block);
        // One slot and one lent buffer for all sides.
        let (lent, kept) = (&RefCell::new(vec![0; 65_536 + 2048]), &RefCell::new(vec![0; SLOT]));
        rust::load(rust::Source::new(&data, *block), &mut kept.borrow_mut());
        let theirs = kept.replace(vec![0; SLOT]);
        let finished = ours::load(&data, *block, &mut kept.borrow_mut(), &mut lent.borrow_mut());
        assert!(theirs[..finished] == kept.borrow()[..finished], "the loaded slots differ");
        kept.borrow_mut().fill(0);
        ours::load_in_place(&data, *block, &mut kept.borrow_mut());
        assert!(theirs[..finished] == kept.borrow()[..finished], "the slot loaded in place differs");
        let sides: Vec<(_, Side)> = vec![
            ("rust", Box::new(|| rust::load(rust::Source::new(&data, *block), &mut kept.borrow_mut()))),
            ("ours", Box::new(|| {
                black_box(ours::load(&data, *block, &mut kept.borrow_mut(), &mut lent.borrow_mut()));
            })),
            ("in place", Box::new(|| {
                black_box(ours::load_in_place(&data, *block, &mut kept.borrow_mut()));
            })),
            ("copy", Box::new(|| black_box(kept.borrow_mut())[..data.len()].copy_from_slice(black_box(&data)))),
            ("copy twice", Box::new(|| {
                let (slot, lent) = (&mut kept.borrow_mut(), &mut lent.borrow_mut());
                for (to, from) in slot.chunks_mut(*block).zip(data.chunks(*block)) {
                    black_box(&mut lent[..from.len()]).copy_from_slice(from);
                    to[..from.len()].copy_from_slice(&black_box(&lent)[..from.len()]);
                }
            })),
        ];
        run(Measured { what: what.to_string(), sides }, &only);
    }
}
