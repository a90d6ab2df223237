//! Random calls, tables, files and histories. TULIVOMBE_SEED=NUMBER repeats a run and
//! TULIVOMBE_TIMES=NUMBER makes that many times as many cases.

use std::collections::BTreeMap;
use tulivombe_tests::differential::{Met, WAYS};
use tulivombe_tests::ledger::{self, can_refuse, can_refuse_records};
use tulivombe_tests::literal::Literal;
use tulivombe_tests::plain::heap;
use tulivombe_tests::random::{any_table, times, Rng};
use tulivombe_tests::subject::{Caller, Plain, Subject};
use tulivombe_tests::{differential, history};

/// That each call is accepted, and refused with all numbers that can refuse it.
fn all_met(can_refuse: BTreeMap<&'static str, Vec<u32>>) -> Met {
    can_refuse.into_iter().map(|(name, numbers)| (name, numbers.into_iter().chain([0]).collect())).collect()
}

/// That one call meets these numbers.
fn met<const N: usize>(name: &'static str, numbers: [u32; N]) -> Met {
    Met::from([(name, numbers.into())])
}

/// `S` and `T` on the same input: `cases` lists of calls, runs and files read, in arenas up to order `largest`.
fn compare<S: Subject, T: Subject>(name: &str, cases: u32, largest: u32) {
    let rng = &mut Rng::seeded(name);
    let cases = cases * times();
    let calls = differential::calls::<S, T>(rng, cases, largest);
    assert_eq!(calls.met(), all_met(can_refuse()));
    let uploads = differential::runs::<S, T>(rng, Caller::Upload, cases, largest);
    assert_eq!(uploads.numbers.met(), met("run", [0, 1, 2, 3, 4, 5, 6, 7, 8, 9, 29]));
    let panels = differential::runs::<S, T>(rng, Caller::Panel, cases, largest);
    assert_eq!(panels.numbers.met(), met("run", [0, 1, 2, 3, 4, 5, 6, 7, 8, 9, 26, 29]));
    for runs in [&uploads, &panels] {
        assert_eq!(runs.records.met(), all_met(can_refuse_records()));
        assert_eq!(runs.ways, WAYS.into());
    }
    let replays = differential::replays::<S, T>(rng, cases, largest);
    assert_eq!(replays.met(), met("replay", [0, 4, 5, 8, 9]));
    differential::reader::<S, T>(rng, cases);
    differential::writer::<S, T>(rng, 4 * cases);
    let calls = calls.total();
    let (runs, records) = [uploads, panels]
        .iter()
        .fold((0, 0), |(runs, records), met| (runs + met.numbers.total(), records + met.records.total()));
    println!("{name}: {calls} calls, {runs} files with {records} records carried out, {} replays", replays.total());
}

fn histories<S: Subject>(name: &str, lists: u32) {
    let rng = &mut Rng::seeded(name);
    let calls = history::lists::<S>(rng, lists * times());
    differential::round_trips::<S>(rng, lists * times());
    println!("{name}: {calls} calls in lists");
}

#[test]
fn plain_against_the_ledger() {
    compare::<Plain, Literal>("plain_against_the_ledger", 4_000, 9);
}

#[test]
fn plain_histories() {
    histories::<Plain>("plain_histories", 3_000);
}

#[test]
fn plain_damage_scan() {
    let rng = &mut Rng::seeded("plain_damage_scan");
    let (mut damaged, mut by_locks, mut locked) = (0, 0, 0);
    for _ in 0..20_000 * times() {
        let m = rng.within(5, 9);
        let table = any_table(rng, m);
        let expected = ledger::damaged(&table, m);
        assert_eq!(heap::damaged(&table, m), expected, "m = {m}, {table:?}");
        let unlocked: Vec<u8> = table.iter().map(|&entry| entry & !heap::LOCK).collect();
        damaged += u32::from(expected);
        by_locks += u32::from(expected && !ledger::damaged(&unlocked, m));
        locked += u32::from(!expected && table != unlocked);
    }
    println!("plain_damage_scan: {damaged} damaged tables, {by_locks} by locks alone; {locked} good ones with locks");
    assert!(by_locks > 100 && locked > 100, "plain_damage_scan: too few tables with locks");
}

#[test]
fn plain_c_against_plain() {
    let rng = &mut Rng::seeded("plain_c_against_plain");
    let calls = differential::plain_c_calls(rng, 20_000 * times(), 16);
    let mut expected = all_met(can_refuse());
    expected.retain(|name, _| ["get", "give", "step", "left"].contains(name));
    assert_eq!(calls.met(), expected);
    println!("plain_c_against_plain: {} calls", calls.total());
}

#[cfg(feature = "library")]
mod library {
    use super::*;
    use tulivombe_tests::library::Library;

    #[test]
    fn library_against_plain() {
        compare::<Library, Plain>("library_against_plain", 10_000, 16);
    }

    #[test]
    fn library_histories() {
        histories::<Library>("library_histories", 3_000);
    }
}
