//! Demand 3, tried on small networks: what is proved of every network ought to hold of those that are drawn.

use crate::network::{flat_list, SHAPES};
use crate::plan::{Plan, Sound, PLANS};
use crate::random::Random;
use tapuhzel::second::check::check;
use tapuhzel::second::copy::copy;
use tapuhzel::second::kinds::{Station, Verdict};
use tapuhzel::second::neighbours::Neighbours;
use tapuhzel::second::prune::prune;
use tapuhzel::second::unite::unite;
use tapuhzel::second::weak::{weak, weak_by_all_lines};

/// So many networks are drawn for each law.
const NETWORKS: u64 = 10_000;

/// Whether, for every set of fewer than k stations taken away, any two remaining stations are joined in one list
/// exactly when in the other.
fn alike(n: usize, level: usize, one: &[u16], other: &[u16]) -> bool {
    let (one, other) = (Neighbours::new(n, one), Neighbours::new(n, other));
    let few = (0..1u32 << n).filter(|set| (set.count_ones() as usize) < level);
    few.map(|set| split(n, set))
        .all(|(away, remaining)| remaining.iter().all(|&from| one.reached(from, &away) == other.reached(from, &away)))
}

/// The stations of a set of bits, and the others.
fn split(n: usize, set: u32) -> (Vec<Station>, Vec<Station>) {
    (0..n as u16).map(Station).partition(|station| set >> station.0 & 1 == 1)
}

/// A network that pruning takes.
struct Network {
    n: usize,
    level: usize,
    lines: Vec<u16>,
    starts: Vec<u16>,
}

fn network(random: &mut Random, n: usize, level: usize) -> Network {
    let (_, draw) = random.pick(&SHAPES);
    let lines = draw(random, n as u16);
    let lines = flat_list(random, lines, n as u16);
    let starts = (0..level).map(|_| random.below(n) as u16).collect();
    Network { n, level, lines, starts }
}

fn kept_by_pruning(network: &Network) -> Vec<u16> {
    let mut ranks = vec![0; network.lines.len() / 2];
    let mut orders = vec![0; network.level * network.n];
    let Network { n, level, lines, starts } = network;
    prune(*n, *level, lines, starts, &mut ranks, &mut orders).expect("the network is sound");
    kept(lines, &ranks)
}

fn kept(lines: &[u16], ranks: &[u8]) -> Vec<u16> {
    let mut room = vec![0; lines.len()];
    let count = copy(lines, ranks, &mut room).expect("there is room for all");
    room.truncate(2 * count);
    room
}

fn union(n: usize, first: &[u16], second: &[u16]) -> Vec<u16> {
    let mut room = vec![0; first.len() + second.len()];
    let count = unite(n, first, second, &mut room).expect("both lists are sound");
    room.truncate(2 * count);
    room
}

#[test]
fn lines_kept_under_accepted_plans_are_alike_and_few() {
    let mut accepted = 0;
    for seed in 0..NETWORKS {
        let random = &mut Random::new(seed);
        let (n, level) = (random.within(1, 7), random.within(1, 4));
        let Network { lines, starts, .. } = network(random, n, level);
        let (_, draw) = random.pick(&PLANS);
        let Plan { ranks, orders } = draw(random, &Sound::new(n, level, &lines, &starts));
        if check(n, level, &lines, &ranks, &orders) == Ok(Verdict::Accepted) {
            let kept = kept(&lines, &ranks);
            assert!(alike(n, level, &lines, &kept), "seed {seed}");
            assert!(kept.len() / 2 <= level * (n - 1), "seed {seed}");
            accepted += 1;
        }
    }
    assert!(accepted > NETWORKS / 5, "only {accepted} plans are accepted");
}

#[test]
fn the_union_of_pruned_lists_pruned_is_alike_to_the_union() {
    for seed in 0..NETWORKS {
        let random = &mut Random::new(seed);
        let (n, level) = (random.within(1, 7), random.within(1, 4));
        let (first, second) = (network(random, n, level), network(random, n, level));
        let whole = union(n, &first.lines, &second.lines);
        let lines = union(n, &kept_by_pruning(&first), &kept_by_pruning(&second));
        let pruned_union = Network { lines, ..network(random, n, level) };
        assert!(alike(n, level, &whole, &kept_by_pruning(&pruned_union)), "seed {seed}");
    }
}

#[test]
fn weak_spots_over_kept_lines_are_those_of_all_lines() {
    for seed in 0..NETWORKS {
        let random = &mut Random::new(seed);
        let (n, level) = (random.within(1, 9), random.within(1, 3));
        let Network { lines, .. } = network(random, n, level);
        assert_eq!(weak(n, level, &lines), weak_by_all_lines(n, level, &lines), "seed {seed}");
    }
}
