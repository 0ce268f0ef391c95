//! Every exported call against the model.
//!
//! `NAREPHON_SEED` sets the seed of the first round of every job: set to the seed that a difference was printed with, it
//! makes that round come first. `NAREPHON_SAMPLE` names a folder with the files `record`, `ula` and `tile`
//! whose 256 lines are drawn by both.

use compare::jobs::{Job, JOBS};
use compare::say;
use compare::seen::Seen;
use std::path::PathBuf;
use std::sync::atomic::{AtomicUsize, Ordering};
use std::sync::Mutex;
use std::thread;

const FIRST_SEED: u64 = 20_000;

fn first_seed() -> u64 {
    match std::env::var("NAREPHON_SEED") {
        Ok(seed) => seed.parse().expect("NAREPHON_SEED is a number"),
        Err(_) => FIRST_SEED,
    }
}

/// The first round of each job, then the second of each, and so on, so that a round replayed comes at once.
fn rounds(first: u64) -> Vec<(&'static Job, u64)> {
    let longest = JOBS.iter().map(|job| job.rounds).max().unwrap_or(0);
    let mut rounds = Vec::new();
    for round in 0..longest {
        let jobs = JOBS.iter().filter(|job| round < job.rounds);
        rounds.extend(jobs.map(|job| (job, first.wrapping_add(round))));
    }
    rounds
}

/// What the workers share: the next round, and the first difference by the round's place.
struct Shared {
    rounds: Vec<(&'static Job, u64)>,
    next: AtomicUsize,
    difference: Mutex<Option<(usize, String)>>,
}

/// Takes rounds until none is left or one of them differs.
fn work(shared: &Shared) -> Seen {
    let mut seen = Seen::default();
    loop {
        let place = shared.next.fetch_add(1, Ordering::Relaxed);
        let Some((job, seed)) = shared.rounds.get(place) else {
            return seen;
        };
        if shared.difference.lock().expect("no worker stops").is_some() {
            return seen;
        }
        if let Err(what) = (job.run)(*seed, &mut seen) {
            let text = format!("NAREPHON_SEED={seed} {}: {what}", job.name);
            let mut difference = shared.difference.lock().expect("no worker stops");
            if difference
                .as_ref()
                .is_none_or(|(earlier, _)| place < *earlier)
            {
                *difference = Some((place, text));
            }
        }
    }
}

#[test]
fn every_call_against_the_model() {
    let first = first_seed();
    let shared = Shared {
        rounds: rounds(first),
        next: AtomicUsize::new(0),
        difference: Mutex::new(None),
    };
    let workers = thread::available_parallelism().map_or(2, |count| count.get());
    let mut seen = Seen::default();
    thread::scope(|scope| {
        let started: Vec<_> = (0..workers)
            .map(|_| scope.spawn(|| work(&shared)))
            .collect();
        for worker in started {
            seen.add(&worker.join().expect("a worker ends"));
        }
    });
    if let Some((_, text)) = shared.difference.into_inner().expect("no worker stops") {
        panic!("{text}");
    }
    say(&format!("first seed {first}"));
    say(&seen.report());
    let missing = seen.missing();
    assert!(missing.is_empty(), "never reached: {}", missing.join("; "));
}

/// 152 replies, 73 kinds of call, 8 ink masks, 114 places that are told, 138 kinds of line and 30 of layered dot are asked
/// for; of desks 28 replies that come before others, 8 calls done in 16 seats, and 7 things wrong in 16 seats; and of traces
/// 104 replies that come before others, 7 answers to a line among all, 29 registers and ports, 3 kinds of stamp, and 6 things
/// wrong.
#[test]
fn what_is_not_reached_is_missed() {
    let desks = 28 + 8 * 16 + 7 * 16;
    let traces = 104 + 7 + 29 + 3 + 6;
    assert_eq!(
        Seen::default().missing().len(),
        152 + 73 + 8 + 114 + 138 + 30 + desks + traces
    );
}

/// The preview's sample: its record, which is an old one, its ULA bank and its tile bank, in the folder `sample`.
fn sample(part: &str) -> Vec<u8> {
    let path = PathBuf::from(env!("CARGO_MANIFEST_DIR"))
        .join("sample")
        .join(part);
    std::fs::read(&path).unwrap_or_else(|fault| panic!("{}: {fault}", path.display()))
}

/// The sums that the gate holds the preview's own sample to, one for each line.
fn stored_sums() -> Vec<String> {
    let path =
        PathBuf::from(env!("CARGO_MANIFEST_DIR")).join("../../../crates/sample_preview/stdout");
    let text = std::fs::read_to_string(&path)
        .unwrap_or_else(|fault| panic!("{}: {fault}", path.display()));
    text.lines().map(str::to_string).collect()
}

/// The sums of the sample's lines. Model and library draw them alike, by an old record and by it moved up.
fn drawn_alike(record: &[u8]) -> Vec<String> {
    let (ula, tile) = (sample("ula"), sample("tile"));
    let (reply, _, state) = model::read_record(record);
    assert_eq!(reply, 0, "the sample's record");
    let moved = narephon::move_up(record).expect("an old record");
    let mut sums = Vec::new();
    for line in 0..256 {
        let mut wanted = [0xAAAA; model::DOTS];
        let mut dots = wanted;
        let reply = model::draw(line, &ula, &tile, &state, &mut wanted);
        assert_eq!(reply, 0, "the model's reply to line {line}");
        for record in [record, &moved] {
            let answer = narephon::draw(record, &ula, &tile, line, &mut dots);
            assert_eq!(answer, Ok(()), "line {line}");
            assert!(dots == wanted, "line {line} differs");
            dots.fill(0xAAAA);
        }
        sums.push(format!("{:08x}", model::sums::dots_sum(&wanted)));
    }
    sums
}

/// The sample as the preview draws it; then scrolled, since its own $32 and $33, which are 0, are what a lost scroll
/// would be.
#[test]
fn the_previews_sample() {
    let (mut record, stored) = (sample("record"), stored_sums());
    assert_eq!(stored.len(), 256, "a sum for each line");
    for (line, sum) in drawn_alike(&record).iter().enumerate() {
        assert_eq!(*sum, stored[line], "the stored sum of line {line}");
    }
    assert_eq!(record[19..21], [0, 0]);
    record[19..21].copy_from_slice(&[16, 40]);
    assert_ne!(drawn_alike(&record), stored, "scrolled");
    say("the preview's sample: 256 lines drawn alike, and scrolled");
}
