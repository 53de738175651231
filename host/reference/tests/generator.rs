//! What the generator makes: every answer often enough, each damage with its answer.

use reference::call::judge;
use reference::generator::damage::{all_damages, Draft, Gives};
use reference::generator::damage_tic::TIC_DAMAGES;
use reference::generator::limits::{at_limit, rare_limit, Limit};
use reference::generator::rng::Rng;
use reference::generator::room::{lend_enough, lend_too_little};
use reference::generator::tally::Tally;
use reference::generator::tics::{sound_tic, tic_question};
use reference::generator::world::World;
use reference::generator::{generate, generate_named, generate_without_table};
use reference::tic_reader::{read, rewrite};

const CALLS: u64 = 20_000;
const LEAST: usize = 50;

/// Also without the calls at a limit, whose many lines would count for much.
#[test]
fn every_answer_occurs_often_enough() {
    let (mut all, mut small) = (Tally::default(), Tally::default());
    for seed in 0..CALLS {
        let (call, question) = (generate(seed), tic_question(seed));
        all.count_call(&call);
        all.count_tic(&question);
        if rare_limit(seed).is_none() {
            small.count_call(&call);
            small.count_tic(&question);
        }
    }
    for ((answer, count), (_, of_small)) in all.rows().into_iter().zip(small.rows()) {
        println!("{answer:<18}{count:>8}{of_small:>8}");
    }
    for (answer, count) in small.rows() {
        assert!(count >= LEAST, "{answer} occurs {count} times only");
    }
}

#[test]
fn the_same_seed_gives_the_same_bytes() {
    for seed in 0..200 {
        assert_eq!(generate(seed), generate(seed));
        assert_eq!(tic_question(seed), tic_question(seed));
    }
}

/// Stays as it is on every machine.
#[test]
fn the_first_numbers_of_a_seed_are_fixed() {
    let mut rng = Rng::new(1, 1);
    let numbers: Vec<u64> = (0..3).map(|_| rng.number()).collect();
    assert_eq!(numbers, FIRST_NUMBERS);
}

const FIRST_NUMBERS: [u64; 3] = [
    2_152_444_812_872_320_318,
    16_427_476_575_254_509_610,
    4_328_130_543_233_882_647,
];

/// About half of the calls lend a station table.
#[test]
fn calls_with_and_without_a_table() {
    let lends_table = |seed: &u64| !generate(*seed).tst.is_empty();
    let small = (0..2_000).filter(|&seed| rare_limit(seed).is_none());
    let lending = small.filter(lends_table).count();
    assert!((900..1_100).contains(&lending), "{lending} of 2,000");
}

/// One that lends no table is the seed's call whatever is lent.
#[test]
fn a_call_without_its_table() {
    for seed in (0..400).filter(|&seed| rare_limit(seed).is_none()) {
        let (call, without) = (generate(seed), generate_without_table(seed));
        assert!(without.tst.is_empty());
        assert!(!call.tst.is_empty() || call == without);
    }
}

/// A station table for every second seed.
fn drafts(seed: u64) -> fn(&mut Rng, &World) -> Draft {
    if seed % 2 == 0 {
        Draft::with_table
    } else {
        Draft::new
    }
}

#[test]
fn a_sound_world_is_judged_line_by_line() {
    for seed in 0..500 {
        let mut rng = Rng::new(seed, 10);
        let world = World::small(&mut rng);
        let mut call = drafts(seed)(&mut rng, &world).call;
        lend_enough(&mut rng, &mut call);
        let answer = judge(&call).expect("a sound call with room");
        assert!(answer.summary.acceptance.is_line_by_line());
        assert_eq!(answer.records.len(), world.lines.len());
    }
}

#[test]
fn each_damage_alone_gives_its_answer() {
    for damage in all_damages() {
        let mut done = 0;
        for seed in 0..60 {
            let mut rng = Rng::new(seed, 11);
            let world = World::small(&mut rng);
            let mut draft = drafts(seed)(&mut rng, &world);
            if !(damage.apply)(&mut rng, &mut draft) {
                continue;
            }
            done += 1;
            let mut call = draft.call;
            lend_enough(&mut rng, &mut call);
            let given = match judge(&call) {
                Err(fault) => Gives::Refusal(fault.number()),
                Ok(answer) => Gives::Acceptance(answer.summary.acceptance.number()),
            };
            assert_eq!(given, damage.gives, "{} (seed {seed})", damage.what);
        }
        assert!(done >= 10, "{} was done {done} times only", damage.what);
    }
}

#[test]
fn too_little_room_gives_e7() {
    for seed in 0..300 {
        let mut rng = Rng::new(seed, 12);
        let mut call = World::small(&mut rng).call(&mut rng);
        assert!(lend_too_little(&mut rng, &mut call));
        assert_eq!(judge(&call).expect_err("too little room").number(), 7);
    }
}

#[test]
fn each_tic_damage_alone_gives_its_answer() {
    for damage in TIC_DAMAGES {
        let mut done = 0;
        for seed in 0..80 {
            let mut rng = Rng::new(seed, 13);
            let mut tic = sound_tic(&mut rng);
            assert_eq!(rewrite(&tic, tic.len()), Ok(tic.clone()));
            if !(damage.apply)(&mut rng, &mut tic) {
                continue;
            }
            done += 1;
            let fault = read(&tic).expect_err(damage.what);
            assert_eq!(
                fault.number(),
                damage.gives,
                "{} (seed {seed})",
                damage.what
            );
        }
        assert!(done >= 10, "{} was done {done} times only", damage.what);
    }
}

#[test]
fn every_damage_is_done_in_some_call() {
    let mut missing: Vec<&str> = all_damages().map(|damage| damage.what).collect();
    for seed in (0..CALLS).filter(|&seed| rare_limit(seed).is_none()) {
        let done = generate_named(seed).damages;
        missing.retain(|what| !done.contains(what));
    }
    assert!(missing.is_empty(), "never done: {missing:?}");
}

#[test]
fn every_limit_is_reached_and_passed() {
    let answers = [
        (Limit::Agreements(1_000), Ok(true)),
        (Limit::Agreements(1_001), Err(5)),
        (Limit::BookBytes(1_048_576), Ok(true)),
        (Limit::BookBytes(1_048_577), Err(5)),
        (Limit::Debits(9_999), Ok(true)),
        (Limit::Debits(10_000), Err(6)),
        (Limit::DebitLines(9_999), Ok(true)),
        (Limit::DebitLines(10_000), Ok(false)),
        (Limit::CreditLines(9_999), Ok(true)),
        (Limit::CreditLines(10_000), Ok(false)),
        (Limit::RefusedLines(9_999), Ok(true)),
        (Limit::Stations(9_999), Ok(true)),
        (Limit::Stations(10_000), Err(8)),
    ];
    for (limit, expected) in answers {
        assert!((0..CALLS).any(|seed| rare_limit(seed) == Some(limit)));
        let mut rng = Rng::new(0, 14);
        let mut call = at_limit(&mut rng, limit).call;
        lend_enough(&mut rng, &mut call);
        let judged = judge(&call)
            .map(|answer| answer.summary.acceptance.is_line_by_line())
            .map_err(|fault| fault.number());
        assert_eq!(judged, expected, "{limit:?}");
    }
}
