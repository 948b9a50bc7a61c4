//! What an event does by itself, before any migration. The event has been found acceptable.

use crate::machine::{Machine, Task};
use crate::migrate::{settle, Step};
use crate::mutant::Mutant;
use crate::tables::{allows, cpus_of, Event};
use std::cmp::Ordering::{Equal, Greater, Less};

/// The table of events, a line each, and L8's two. The steps are those that an error takes here; "an event's own leaving and
/// entering is none".
pub(crate) fn own_effect(machine: &mut Machine, e: Event, m: Mutant) -> Vec<Step> {
    let (id, cpu) = (e.who as u16, e.who as usize);
    match e.kind {
        1 => add(machine, e, m),
        2 => remove(machine, id),
        3 => wake(machine, id, m),
        4 => sleep(machine, id, m),
        5 => set_prio(machine, id, e.b as u8, m),
        6 => set_mask(machine, id, e.mask, m),
        7 => tick(machine, cpu, m),
        8 => yields(machine, cpu, m),
        9 => set_ordinary(machine, cpu, e.b == 1, m),
        10 => return take_offline(machine, cpu, m),
        11 => bring_online(machine, cpu, m),
        _ => (), // With an error alone: kinds are 1 to 11.
    }
    Vec::new()
}

fn lowest_allowed(mask: u64) -> usize {
    cpus_of(mask)[0]
}

/// The lowest-numbered CPU that is allowed and online. With an error there may be none.
fn lowest_online(machine: &Machine, mask: u64) -> usize {
    let allowed = machine.allowed(mask);
    allowed.first().copied().unwrap_or(lowest_allowed(mask))
}

/// "asleep, CPU the lowest-numbered allowed", online or not: "add keeps document 01's wording". And the full slice: "kinds 1
/// and 7 use that number".
fn add(machine: &mut Machine, e: Event, m: Mutant) {
    let cpu = match m {
        Mutant::AddOnCpuZero => 0,
        Mutant::AddOnOnline => lowest_online(machine, e.mask),
        _ => lowest_allowed(e.mask),
    };
    let slice = match m {
        Mutant::AddGivesHundred => 100,
        _ => machine.full_slice,
    };
    let task = Task {
        policy: e.a as u8,
        prio: e.b as u8,
        cpu,
        slice,
        mask: e.mask,
        arrival: None,
    };
    machine.tasks.insert(e.who as u16, task);
}

/// "free"
fn remove(machine: &mut Machine, id: u16) {
    machine.tasks.remove(&id);
}

/// "runnable; enters the row of its CPU if allowed, else of the lowest-numbered allowed CPU, which becomes its
/// CPU; slice kept". Allowed is "allowed and online".
fn wake(machine: &mut Machine, id: u16, m: Mutant) {
    if m == Mutant::WakeSliceRefilled {
        machine.refill(id);
    }
    let (mask, own) = (machine.tasks[&id].mask, machine.tasks[&id].cpu);
    let stays = match m {
        Mutant::WakeForgetsCpu => false,
        Mutant::WakeIgnoresMask => true,
        Mutant::WakeOwnOffline => allows(mask, own),
        _ => machine.allowed(mask).contains(&own),
    };
    let cpu = match m {
        _ if stays => own,
        Mutant::WakeLowestOffline => lowest_allowed(mask),
        _ => lowest_online(machine, mask),
    };
    machine.enter(id, cpu);
}

/// "leaves its row; CPU and slice kept"
fn sleep(machine: &mut Machine, id: u16, m: Mutant) {
    machine.task(id).arrival = None;
    if m == Mutant::SleepSliceRefilled {
        machine.refill(id);
    }
}

/// "asleep: the number only. Runnable and unchanged: nothing." Else it leaves its row and stands in it anew: "raised, it
/// goes behind its equals; unchanged, it stays; lowered, it goes before its equals".
fn set_prio(machine: &mut Machine, id: u16, prio: u8, m: Mutant) {
    let cpu = machine.task(id).cpu;
    let ran = machine.rows()[cpu].first() == Some(&id); // for a mutant
    let task = machine.task(id);
    let old = std::mem::replace(&mut task.prio, prio);
    if task.arrival.is_none() {
        return;
    }
    match (prio.cmp(&old), m) {
        (Greater, Mutant::RaisedBeforeEquals) => machine.enter_before_equals(id, cpu),
        (Greater, _) => machine.enter(id, cpu),
        (Equal, Mutant::SamePriorityRequeues) => machine.enter(id, cpu),
        (Equal, _) => (),
        (Less, Mutant::LoweredBehindEquals) => machine.enter(id, cpu),
        (Less, Mutant::LoweredWaiterBehindEquals) if !ran => machine.enter(id, cpu),
        (Less, Mutant::LoweredBeforeAll) => machine.enter_before_all(id, cpu),
        (Less, _) => machine.enter_before_equals(id, cpu),
    }
}

/// "asleep: the mask only. Runnable and its CPU still allowed: the mask only. Else leaves, and enters the row of
/// the lowest-numbered allowed CPU". Allowed is "allowed and online".
fn set_mask(machine: &mut Machine, id: u16, mask: u64, m: Mutant) {
    let allowed = machine.allowed(mask);
    let task = machine.task(id);
    task.mask = mask;
    let stays = allowed.contains(&task.cpu) && m != Mutant::MaskAlwaysMoves;
    let asleep = task.arrival.is_none();
    if asleep && m == Mutant::MaskMovesSleeper {
        task.cpu = lowest_allowed(mask);
    }
    if !asleep && !stays {
        let cpu = match m {
            Mutant::MaskToOffline => lowest_allowed(mask),
            _ => lowest_online(machine, mask),
        };
        machine.enter(id, cpu);
    }
}

/// "first task RR: slice less 1; at 0 it becomes" the full slice "and the task leaves and enters again. First task FIFO or
/// row empty: nothing"
fn tick(machine: &mut Machine, cpu: usize, m: Mutant) {
    let Some(&id) = machine.rows()[cpu].first() else {
        return;
    };
    let task = machine.task(id);
    if task.policy == 1 && m != Mutant::TickCountsFifo {
        return;
    }
    let ended = task.slice == 1 || (m == Mutant::TickEarly && task.slice == 2);
    match (ended, m) {
        (false, _) => task.slice -= 1,
        (true, Mutant::TickRefillsHundred) => task.slice = 100,
        (true, _) => machine.refill(id),
    }
    if ended && m != Mutant::TickKeepsPlace {
        machine.enter(id, cpu);
    }
}

/// "first task leaves and enters again; slice kept"
fn yields(machine: &mut Machine, cpu: usize, m: Mutant) {
    let id = machine.rows()[cpu][0];
    if m == Mutant::YieldSliceRefilled {
        machine.refill(id);
    }
    match m {
        Mutant::YieldBeforeEquals => machine.enter_before_equals(id, cpu),
        _ => machine.enter(id, cpu),
    }
}

/// "the flag is b"; "Ordinary work on an offline CPU sets only the flag."
fn set_ordinary(machine: &mut Machine, cpu: usize, ordinary: bool, m: Mutant) {
    if machine.online[cpu] || m != Mutant::OrdinaryLostOffline {
        machine.ordinary[cpu] = ordinary;
    }
}

/// "its tasks leave front to back, each entering the lowest-numbered allowed online CPU"
fn take_offline(machine: &mut Machine, cpu: usize, m: Mutant) -> Vec<Step> {
    let mut leaving = machine.rows()[cpu].clone();
    if m == Mutant::LeaveBackToFront {
        leaving.reverse();
    }
    machine.online[cpu] = m == Mutant::LeaveToItself;
    let mut steps = Vec::new();
    for id in leaving {
        if m == Mutant::LeavingLogged {
            steps.push(as_step(machine, id, cpu));
        }
        leave(machine, id, m);
        if m == Mutant::StepsBetweenLeaving {
            steps.extend(settle(machine, m));
        }
    }
    machine.online[cpu] = false;
    machine.ordinary[cpu] &= m != Mutant::OfflineLosesFlag;
    if m == Mutant::SleepersLeave {
        move_sleepers(machine, cpu);
    }
    steps
}

/// The task goes to another CPU than the one that it stood on.
fn leave(machine: &mut Machine, id: u16, m: Mutant) {
    let mask = machine.tasks[&id].mask;
    let lowest = lowest_online(machine, mask);
    let to = match m {
        Mutant::LeaveToHighest => machine.allowed(mask).last().copied().unwrap_or(lowest),
        _ => lowest,
    };
    match m {
        Mutant::LeaveBeforeEquals => machine.enter_before_equals(id, to),
        _ => machine.enter(id, to),
    }
    if m == Mutant::LeaveSliceRefilled {
        machine.refill(id);
    }
}

/// The error of taking it for a migration.
fn as_step(machine: &Machine, id: u16, from: usize) -> Step {
    let to = lowest_online(machine, machine.tasks[&id].mask);
    Step {
        task: id,
        from,
        to,
        level: machine.levels(&machine.rows(), Mutant::None)[to],
    }
}

/// The error of sending sleepers away too.
fn move_sleepers(machine: &mut Machine, cpu: usize) {
    let online = machine.online.clone();
    let asleep = |task: &&mut Task| task.arrival.is_none() && task.cpu == cpu;
    for task in machine.tasks.values_mut().filter(asleep) {
        let allowed = |&c: &usize| online[c];
        if let Some(to) = cpus_of(task.mask).into_iter().find(allowed) {
            task.cpu = to;
        }
    }
}

/// "kind 11 brings it back": its row is empty, so its level is its flag.
fn bring_online(machine: &mut Machine, cpu: usize, m: Mutant) {
    machine.online[cpu] = true;
    machine.ordinary[cpu] &= m != Mutant::BackLosesFlag;
}
