//! A few seconds of random cases with fixed seeds.

// Linking takes longer than these tests, so they share a program.
mod stores;

use second::fuzz::campaign::{campaign, Counts};
use second::fuzz::make;
use second::oracle::{chains, ground};
use second::random::Random;
use second::record::record;

#[test]
fn random_runs_agree() {
    let mut counts = Counts::default();
    if let Err(found) = campaign(20_240_801, 40_000, &mut counts) {
        panic!("seed {}: {}", found.seed, found.what);
    }
    // Every rule was accepted and every refusal met.
    for rule in 1..=14 {
        assert!(counts.accepted[rule] > 0, "rule {rule}");
    }
    for refusal in [1, 2, 3, 4, 5, 6, 7, 10, 11, 12, 13, 14, 15, 18] {
        assert!(counts.refused[refusal] > 0, "refusal {refusal}");
    }
}

#[test]
fn constraints_agree_with_trees() {
    let mut random = Random::new(7);
    for _ in 0..20_000 {
        if let Err(what) = ground::check(&mut random) {
            panic!("{what}");
        }
    }
    for _ in 0..4_000 {
        if let Err(what) = chains::check(&mut random) {
            panic!("{what}");
        }
    }
}

#[test]
fn a_seed_makes_the_same_case() {
    for seed in 0..50 {
        let texts = make::texts(seed);
        assert_eq!(texts, make::texts(seed));
        assert!(record(&texts).starts_with(b"accepted "));
    }
}
