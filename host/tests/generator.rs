//! Every answer comes up often enough, and what is meant to be good is good.

use inkrowan_host::answers::{expected, Tally};
use inkrowan_host::generate::{framed, Book, Cases, Plan, Random, DEFAULT_ROUNDS, DEFAULT_SEED};
use inkrowan_host::reference::{self, value, MOST_MESSAGE_BYTES, VERSIONS};
use std::time::Instant;

const LEAST: usize = 100;

#[test]
fn every_answer_comes_up() {
    let begin = Instant::now();
    let mut tally = Tally::default();
    for case in Cases::new(DEFAULT_SEED, DEFAULT_ROUNDS) {
        tally.note(&case, expected(&case).answer);
    }
    let seconds = begin.elapsed().as_secs_f64();
    println!("{}{DEFAULT_ROUNDS} rounds, {seconds:.1} s", tally.lines());
    let rare = tally.rare(LEAST);
    assert!(rare.is_empty(), "fewer than {LEAST}: {rare:?}");
}

#[test]
fn the_same_seed_gives_the_same_cases() {
    let answers = |seed| Cases::new(seed, 5).map(|case| expected(&case).answer).collect::<Vec<_>>();
    assert_eq!(answers(1), answers(1));
    assert_ne!(answers(1), answers(2));
}

/// What the generator builds without damage the reference accepts, row for row.
#[test]
fn what_is_meant_to_be_good_is_good() {
    let mut random = Random::new(DEFAULT_SEED);
    let mut accepted = 0;
    for round in 0..600 {
        let book =
            if round % 100 == 50 { Book::large(&mut random) } else { Book::sound(&mut random) };
        let bytes = book.bytes();
        assert_eq!(reference::check(&bytes), Ok(()), "round {round}");
        for _ in 0..5 {
            let plan = Plan::valid(&mut random, &book);
            let version = random.below(3);
            let message = framed(VERSIONS[version], 0, &plan.body());
            if message.len() > MOST_MESSAGE_BYTES {
                continue;
            }
            let rows = reference::read(&bytes, &message, usize::MAX).expect("a valid message");
            let index = rows.concat();
            assert_eq!(rows.len(), plan.pieces.len() + 4);
            for (at, piece) in plan.pieces.iter().enumerate() {
                assert_eq!(Some(rows[at + 3][0]), piece.number());
                assert_eq!(value(&index, &message, at + 3), piece.value);
            }
            accepted += 1;
        }
    }
    assert!(accepted > 2_500, "only {accepted} were short enough");
}
