//! W1 to W6 and what L8, "Take a core out", adds to refusal 2, each as it is written. All but the lengths may be wrong here.

use crate::machine::level_of_prio;
use crate::mutant::Mutant;
use crate::record::Record;
use crate::tables::{allows, mask_right, Tables, CPUS, INVALID, NOTHING, TASKS};

/// "W1 to W6 fail anywhere", denied. Of tables of the right lengths. The later ones may rely on the earlier.
pub(crate) fn well_formed(t: &Tables, m: Mutant) -> bool {
    let by_number = w1(t, m) && w2(t, m) && w3(t, m) && w4(t, m) && w5(t, m) && w6(t, m);
    by_number && online_right(t, m)
}

/// "State is 0, 1 or 2. A free place holds 0 in all its columns."
fn w1(t: &Tables, m: Mutant) -> bool {
    (0..TASKS).all(|i| match t.state[i] {
        0 => m == Mutant::FreeColumnsUnchecked || columns_zero(t, i),
        state => state <= 2,
    })
}

fn columns_zero(t: &Tables, i: usize) -> bool {
    let columns = [
        u64::from(t.policy[i]),
        u64::from(t.prio[i]),
        u64::from(t.cpu[i]),
        u64::from(t.slice[i]),
        t.mask[i],
    ];
    columns.iter().all(|&number| number == 0)
}

/// "Otherwise policy 1 or 2, priority 1 to 99, CPU below N, slice 1 to" the full slice, "mask not 0 and without bits at N
/// or above. A sleeper's CPU need not be allowed."
fn w2(t: &Tables, m: Mutant) -> bool {
    let Some(full_slice) = t.full_slice(m) else {
        return false; // With an error alone: it has been refused with 1.
    };
    let (least, most) = match m {
        Mutant::SliceZeroPasses => (0, full_slice),
        Mutant::SliceToHundred => (1, 100),
        Mutant::SlicePastFullPasses => (1, full_slice + 1),
        _ => (1, full_slice),
    };
    let stray = |i: usize| t.state[i] == 1 && !allows(t.mask[i], t.cpu[i] as usize);
    (0..TASKS).filter(|&i| t.state[i] != 0).all(|i| {
        (1..=2).contains(&t.policy[i])
            && (1..=99).contains(&t.prio[i])
            && (t.cpu[i] as usize) < t.n
            && (least..=most).contains(&t.slice[i])
            && mask_right(t.mask[i], t.n)
            && !(m == Mutant::SleeperCpuAllowed && stray(i))
            && (m != Mutant::SleeperCpuOnline || allows(t.online, t.cpu[i] as usize))
    })
}

/// "Row counts are at most 512; places before the count hold numbers below 512, the rest 65535. Flags are 0 or 1."
fn w3(t: &Tables, m: Mutant) -> bool {
    let row_right = |c: usize| {
        let count = t.counts[c] as usize;
        count <= 512
            && t.places(c)[..count].iter().all(|&task| task < 512)
            && (m == Mutant::TailUnchecked || t.places(c)[count..].iter().all(|&p| p == NOTHING))
    };
    (0..t.n).all(row_right) && t.flags.iter().all(|&flag| flag <= 1)
}

/// "Each runnable task stands in exactly one place of all rows, in the row of its CPU, and that CPU is allowed.
/// No other task stands in a row."
fn w4(t: &Tables, m: Mutant) -> bool {
    let mut standing: Vec<(u16, usize)> = (0..t.n)
        .flat_map(|c| t.listed(c).iter().map(move |&task| (task, c)))
        .collect();
    if m == Mutant::TwoRowsPass {
        standing.retain(|&(task, c)| t.cpu[task as usize] as usize == c);
    }
    standing.sort_unstable();
    let runnable = (0..TASKS).filter(|&i| t.state[i] == 2);
    let due: Vec<(u16, usize)> = runnable
        .clone()
        .map(|i| (i as u16, t.cpu[i] as usize))
        .collect();
    let allowed = |i: usize| allows(t.mask[i], t.cpu[i] as usize);
    standing == due && (m == Mutant::RunnableCpuUnchecked || runnable.clone().all(allowed))
}

/// "Along a row, priorities never rise."
fn w5(t: &Tables, m: Mutant) -> bool {
    let prio = |task: u16| t.prio[task as usize];
    let falls = |pair: &[u16]| match m {
        Mutant::EqualsRefused => prio(pair[0]) > prio(pair[1]),
        _ => prio(pair[0]) >= prio(pair[1]),
    };
    (0..t.n).all(|c| t.listed(c).windows(2).all(falls))
}

/// "The record is consistent in itself for N [...], and each CPU's level is its first task's priority plus 2 or,
/// for an empty row, its flag." Of an offline one it is INVALID: "a record may now hold INVALID below N, for offline CPUs
/// only".
fn w6(t: &Tables, m: Mutant) -> bool {
    let due = |c: usize| match t.listed(c).first() {
        _ if !allows(t.online, c) => INVALID,
        Some(&task) => level_of_prio(t.prio[task as usize]),
        None => t.flags[c],
    };
    let right = |c: usize| match m {
        Mutant::LevelsUnrelated => true,
        Mutant::OfflineLevelUnchecked if !allows(t.online, c) => true,
        Mutant::OnlineInvalidPasses if t.levels[c] == INVALID => true,
        _ => t.levels[c] == due(c),
    };
    Record::lent(t).consistent(t.n, m) && (0..t.n).all(right)
}

/// "Refusal 2 also covers an online mask of 0 or with bits at N or above"; "An offline CPU has an empty row".
fn online_right(t: &Tables, m: Mutant) -> bool {
    let empty = |c: usize| t.counts[c] == 0 || m == Mutant::OfflineRowPasses;
    let none = t.online == 0 && m != Mutant::OnlineZeroPasses;
    let past = (t.n..CPUS).any(|c| allows(t.online, c)) && m != Mutant::OnlinePastPasses;
    !none && !past && (0..t.n).all(|c| allows(t.online, c) || empty(c))
}
