//! The benchmark: each routine beside the second program, ordinary Rust that answers the same, as medians and their ratio.
//! It is run by `cargo run --release --bin benchmark`; docs/SPEED.md has a table and what it means.

use std::collections::HashSet;
use std::hint::black_box;
use std::time::Instant;
use tapuhzel::second;

fn main() {
    println!("{:<8} {:>8} {:>8} {:>14} {:>14} {:>8}", "routine", "stations", "lines", "proved", "ordinary", "ratio");
    for (stations, lines) in [(64, 128), (200, 1_000), (512, 2_048), (1_024, 4_096), (1_024, 8_192)] {
        judge(stations, lines);
        joined(stations, lines);
    }
    for (stations, lines, level) in [(64, 128, 3), (200, 1_000, 3), (512, 2_048, 3), (1_024, 8_192, 3), (1_024, 8_192, 16)] {
        prune_and_check(stations, lines, level);
    }
    for level in 1..=3 {
        for stations in [64, 128, 200, 512, 1_024] {
            weak(stations, level);
        }
    }
}

fn judge(stations: usize, lines: usize) {
    let network = random_network(stations, lines, 7);
    let proved = median(|| assert!(black_box(tapuhzel::judge(stations, black_box(&network))).is_ok()));
    let ordinary = median(|| assert!(black_box(second::judge::judge(stations, black_box(&network))).is_ok()));
    row("judge", stations, lines, proved, ordinary);
}

/// The first and the last station, with three others taken away.
fn joined(stations: usize, lines: usize) {
    let network = random_network(stations, lines, 7);
    let (away, last) = ([1, 3, 5], stations as u16 - 1);
    let proved = median(|| {
        let answer = tapuhzel::joined(stations, black_box(&network), &away, tapuhzel::Station(0), tapuhzel::Station(last));
        assert!(black_box(answer).is_ok());
    });
    let ordinary = median(|| {
        let (one, two) = (second::kinds::Station(0), second::kinds::Station(last));
        assert!(black_box(second::joined::joined(stations, black_box(&network), &away, one, two)).is_ok());
    });
    row("joined", stations, lines, proved, ordinary);
}

fn prune_and_check(stations: usize, lines: usize, level: usize) {
    let network = random_network(stations, lines, 7);
    let starts = vec![0; level];
    let mut ranks = vec![0; lines];
    let mut orders = vec![0; level * stations];
    let proved = median(|| {
        let kept = tapuhzel::prune(stations, level, black_box(&network), &starts, &mut ranks, &mut orders);
        assert!(black_box(kept).is_ok());
    });
    let ordinary = median(|| {
        let kept = second::prune::prune(stations, level, black_box(&network), &starts, &mut ranks, &mut orders);
        assert!(black_box(kept).is_ok());
    });
    row(&format!("prune {level}"), stations, lines, proved, ordinary);
    let proved = median(|| {
        let found = tapuhzel::check(stations, level, black_box(&network), &ranks, &orders);
        assert_eq!(black_box(found), Ok(tapuhzel::Verdict::Accepted));
    });
    let ordinary = median(|| {
        let found = second::check::check(stations, level, black_box(&network), &ranks, &orders);
        assert!(black_box(found).is_ok());
    });
    row(&format!("check {level}"), stations, lines, proved, ordinary);
}

/// A network that stands, so that every set is tried.
fn weak(stations: usize, level: usize) {
    let network = standing_network(stations);
    let proved = median(|| {
        let found = tapuhzel::weak(stations, level, black_box(&network));
        assert_eq!(black_box(found), Ok(tapuhzel::Standing::Stands));
    });
    let ordinary = median(|| {
        let found = second::weak::weak(stations, level, black_box(&network));
        assert_eq!(black_box(found), Ok(second::kinds::Standing::Stands));
    });
    row(&format!("weak {level}"), stations, network.len() / 2, proved, ordinary);
}

/// Four lines for each station, to the next four round a ring: no seven stations part it.
fn standing_network(stations: usize) -> Vec<u16> {
    let to = |station: usize, by: usize| [station as u16, ((station + by) % stations) as u16];
    (0..stations).flat_map(|station| (1..=4).flat_map(move |by| to(station, by))).collect()
}

/// Simple lines between random stations, the same for the same seed.
fn random_network(stations: usize, lines: usize, seed: u64) -> Vec<u16> {
    let mut state = seed;
    let mut draw = move || {
        state = state.wrapping_mul(6364136223846793005).wrapping_add(1442695040888963407);
        (state >> 33) as usize % stations
    };
    let mut seen = HashSet::new();
    let mut list = Vec::with_capacity(2 * lines);
    while list.len() < 2 * lines {
        let (a, b) = (draw(), draw());
        if a != b && seen.insert((a.min(b), a.max(b))) {
            list.extend([a as u16, b as u16]);
        }
    }
    list
}

/// The median time of a call in nanoseconds, over batches that each last about a millisecond: 51 of them, or five where one
/// call takes over a tenth of a second.
fn median(mut call: impl FnMut()) -> f64 {
    let started = Instant::now();
    call();
    let first = started.elapsed().as_nanos().max(1);
    let calls = (1_000_000 / first).clamp(1, 10_000) as u32;
    let batches = if first < 100_000_000 { 51 } else { 5 };
    let mut times: Vec<f64> = (0..batches)
        .map(|_| {
            let started = Instant::now();
            (0..calls).for_each(|_| call());
            started.elapsed().as_nanos() as f64 / f64::from(calls)
        })
        .collect();
    times.sort_by(f64::total_cmp);
    times[times.len() / 2]
}

fn row(routine: &str, stations: usize, lines: usize, proved: f64, ordinary: f64) {
    println!(
        "{routine:<8} {stations:>8} {lines:>8} {:>11.2} µs {:>11.2} µs {:>8.2}",
        proved / 1_000.0,
        ordinary / 1_000.0,
        proved / ordinary
    );
}
