//! Recordings, in tables for 64 CPUs that hold anything.

use crate::side::Pair;
use binding::{Event, Tables, CPUS};
use compare::damage::wrong_size;
use compare::generate::Style;
use compare::recordings::generate::{night, recording};
use compare::recordings::write::{first, record};
use compare::rng::Rng;
use compare::tables::{len, set, COUNT};
use plain::{Ending, Report};

fn rubbish(rng: &mut Rng) -> Tables {
    let mut t = Tables::zeroed(CPUS);
    for table in 0..COUNT {
        for index in 0..len(&t, table) {
            set(&mut t, table, index, rng.bits());
        }
    }
    t
}

/// Whole, cut, stopped and spoilt ones, and any bytes.
#[test]
fn random_recordings() {
    let mut ended = [0; 3];
    let mut cpus = [0; CPUS + 1];
    let (mut moves, mut refused) = (0, 0);
    for case in 0..4000 {
        let mut rng = Rng::for_case(16, case);
        let mut pair = Pair::new(rubbish(&mut rng));
        let report = pair.replay(&recording(&mut rng));
        ended[report.ending as usize] += 1;
        cpus[report.cpus] += 1;
        moves += report.moves;
        refused += report.refused;
    }
    assert!(ended.iter().all(|&times| times > 300), "{ended:?}");
    assert!(cpus.iter().all(|&times| times > 5), "{cpus:?}");
    assert!(moves > 5_000, "only {moves} moves");
    assert!(refused > 50_000, "only {refused} refused");
}

/// The machine that one night leaves does not matter to the next, which has as many CPUs or others.
#[test]
fn one_after_the_other() {
    let mut rng = Rng::for_case(17, 0);
    let mut pair = Pair::new(rubbish(&mut rng));
    for cpus in [64, 64, 3, 40, 1, 64] {
        let mut style = Style::random(&mut rng);
        style.n = cpus;
        let report = pair.replay(&night(&mut rng, &style, 3000));
        assert_eq!((report.ending, report.cpus), (Ending::Whole, cpus));
        assert!(report.times.iter().any(|&time| time > 0));
    }
}

#[test]
fn tables_of_other_lengths() {
    let mut rng = Rng::for_case(18, 0);
    let good = rubbish(&mut rng);
    for _ in 0..500 {
        let mut bad = good.clone();
        wrong_size(&mut rng, &good).apply(&mut bad);
        let lengths = |t| (0..COUNT).map(|table| len(t, table)).collect::<Vec<_>>();
        let wrong = lengths(&bad) != lengths(&good);
        let report = Pair::new(bad).replay(&recording(&mut rng));
        assert_eq!(report.answer, u8::from(wrong));
        assert!(!wrong || report == Report::unplayed(1, Ending::Stopped));
    }
}

/// The first record and 65,534 to 65,536 events, and with the beginning of another.
#[test]
fn as_many_records_as_there_may_be() {
    let tick = record(7, Event::new(7, 0, 0, 0, 0));
    for (events, behind, ending) in [
        (65_534, &[][..], Ending::Whole),
        (65_534, &[7], Ending::Cut),
        (65_534, &[13], Ending::Stopped),
        (65_535, &[], Ending::Whole),
        (65_535, &[7], Ending::Stopped),
        (65_535, &[13], Ending::Stopped),
        (65_535, &tick, Ending::Stopped),
    ] {
        let bytes = [first(1, None), tick.repeat(events), behind.to_vec()].concat();
        let report = Pair::new(Tables::zeroed(CPUS)).replay(&bytes);
        assert_eq!(report.ending, ending);
        assert_eq!(report.place, bytes.len() - behind.len());
    }
}
