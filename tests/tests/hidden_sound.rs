//! Request 5 of document 02, "My hidden sound": two heaps that differ in one live block give the same answers and stay
//! equal outside it as long as no accepted read shows a byte of it and no accepted copy carries one out. Once it is
//! given back, anything goes.

use std::collections::BTreeMap;

use tulivombe_tests::call::Call;
use tulivombe_tests::ledger::{order_needed, Block};
use tulivombe_tests::literal::Literal;
use tulivombe_tests::random::{times, Rng};
use tulivombe_tests::subject::{Answer, Plain, Subject};
use tulivombe_tests::twins::{reveals, source_in, Bar, Twins};

/// How often each thing was met.
#[derive(Default)]
struct Met(BTreeMap<&'static str, u32>);

impl Met {
    fn count(&mut self, things: &[(&'static str, bool)]) {
        for &(thing, met) in things {
            *self.0.entry(thing).or_default() += u32::from(met);
        }
    }

    /// By left at the block's start, which only wrong lengths and damage refuse.
    fn count_heaps<S: Subject>(&mut self, twins: &Twins) {
        let number = twins.tried::<S>(Call::Left { p: twins.start() }).number;
        self.count(&[("lists", true), ("damaged tables", number == 20), ("wrong lengths", number == 8)]);
    }

    fn count_call(&mut self, block: Block, given_back: bool, call: Call, answer: Answer) {
        let Answer { number, value } = answer;
        let accepted = number == 0;
        let drawn = source_in(block, call);
        let (into, moved) = match call {
            Call::Copy { p, .. } if drawn && accepted => (block.holds(i64::from(p)), Some(value)),
            _ => (false, None),
        };
        let got = |n: u32| Block { start: i64::from(value), order: order_needed(n) };
        let again = matches!(call, Call::Get { n } if accepted && got(n).shares_a_byte(block));
        let shown = given_back && reveals(block, call, answer);
        let into_it = !matches!(call, Call::Get { .. }) && block.holds(i64::from(call.pointers()[0]));
        self.count(&[
            ("stores and gives that its lock refuses", !given_back && into_it && number == 28),
            ("grids in it", !given_back && into_it && accepted && matches!(call, Call::Grid { .. })),
            ("copies within", !given_back && into && moved > Some(0)),
            ("copies of 0 bytes out", !given_back && !into && moved == Some(0)),
            // past the block's end, and to a pointer without a home, of either kind: lengths and table are good
            ("refused reads", !given_back && drawn && number == 25),
            ("copies to a free slot", !given_back && drawn && number == 22),
            ("copies to an address outside", !given_back && drawn && number == 27),
            ("given back", !given_back && accepted && call == Call::Give { p: block.start as u32 }),
            ("later gets", given_back && again),
            ("later reads", shown && matches!(call, Call::Read { .. })),
            ("later copies out", shown && matches!(call, Call::Copy { .. })),
        ]);
    }

    fn line(&self) -> String {
        let counts: Vec<String> = self.0.iter().map(|(thing, count)| format!("{thing} {count}")).collect();
        counts.join(", ")
    }
}

/// One random list. Fails with what told the two heaps apart.
fn list<S: Subject>(rng: &mut Rng, largest: u32, bar: Bar, met: &mut Met) -> Result<(), String> {
    let mut twins = Twins::new(rng, largest);
    met.count_heaps::<S>(&twins);
    let block = twins.block;
    let mut made = Vec::new();
    for _ in 0..rng.within(1, 80) {
        let call = twins.call(rng);
        let barred = twins.barred::<S>(bar, call);
        met.count(&[("calls", !barred), ("calls barred", barred)]);
        if barred {
            continue;
        }
        let given_back = twins.given_back;
        let (answer, apart) = twins.make::<S>(call);
        made.push(call);
        if let Some(what) = apart {
            return Err(format!("{}, {bar:?}: {what} differ for {block:?} after {made:?}", S::NAME));
        }
        let revealed = !given_back && reveals(block, call, answer);
        assert!(bar == Bar::Nothing || !revealed, "{bar:?}: {call:?} reveals {block:?}");
        met.count_call(block, given_back, call, answer);
    }
    met.count(&[("ends with other free bytes", twins.given_back && twins.free_bytes_differ())]);
    Ok(())
}

/// Lists under both bars, in arenas up to order `largest`; without a bar some list must come apart.
fn lists<S: Subject>(name: &str, cases: u32, largest: u32) {
    let rng = &mut Rng::seeded(name);
    let mut met = Met::default();
    for _ in 0..cases * times() {
        for bar in [Bar::Reveals, Bar::Pointer] {
            list::<S>(rng, largest, bar, &mut met).unwrap_or_else(|apart| panic!("{apart}"));
        }
    }
    let unbarred = &mut Met::default();
    let apart = (0..100).filter(|_| list::<S>(rng, largest, Bar::Nothing, unbarred).is_err()).count();
    println!("{name}: {}; without a bar {apart} of 100 lists come apart", met.line());
    met.0.iter().for_each(|(thing, &count)| assert!(count > 0, "{name}: no {thing}"));
    assert!(apart > 0, "{name}: the lists would not notice");
}

/// One call on heaps that differ in every byte of the block: they come apart exactly if it reveals.
fn exact<S: Subject>(name: &str, cases: u32, largest: u32) {
    let rng = &mut Rng::seeded(name);
    let (cases, mut reads, mut copies) = (cases * times(), 0, 0);
    for _ in 0..cases {
        let mut twins = Twins::new(rng, largest);
        let call = twins.call(rng);
        let (answer, apart) = twins.make::<S>(call);
        let revealed = reveals(twins.block, call, answer);
        assert_eq!(apart.is_some(), revealed, "{}: {call:?}, {answer:?}, {:?}", S::NAME, twins.block);
        reads += u32::from(revealed && matches!(call, Call::Read { .. }));
        copies += u32::from(revealed && matches!(call, Call::Copy { .. }));
    }
    println!("{name}: {cases} calls, {reads} reads and {copies} copies reveal");
    assert!(reads.min(copies) > cases / 400 && reads + copies < cases / 2, "{name}: too few calls of one kind");
}

#[test]
fn plain_lists() {
    lists::<Plain>("plain_lists", 2_000, 16);
}

#[test]
fn plain_exact() {
    exact::<Plain>("plain_exact", 40_000, 16);
}

#[test]
fn literal_lists() {
    lists::<Literal>("literal_lists", 1_000, 9);
}

#[test]
fn literal_exact() {
    exact::<Literal>("literal_exact", 20_000, 9);
}

#[cfg(feature = "library")]
mod library {
    use super::*;
    use tulivombe_tests::library::Library;

    #[test]
    fn library_lists() {
        lists::<Library>("library_lists", 2_000, 16);
    }

    #[test]
    fn library_exact() {
        exact::<Library>("library_exact", 40_000, 16);
    }
}
