//! Demand 3's parts, and the level that each log entry gives, looked for in the tables that an accepted event leaves.
//! Knows neither implementation.

use binding::{Event, Tables, TASKS};

/// What must be remembered from before the event: each task's CPU, and which CPUs are online.
pub struct Before {
    cpu: Vec<u8>,
    online: u64,
}

impl Before {
    pub fn of(t: &Tables) -> Before {
        Before {
            cpu: t.cpu.clone(),
            online: t.online,
        }
    }

    /// "the online mask after the event's own effect"
    fn online_then(&self, e: Event) -> u64 {
        match e.kind {
            10 => self.online & !(1 << e.who),
            11 => self.online | 1 << e.who,
            _ => self.online,
        }
    }

    /// Where a task stands after the event's own effect, if that is not its own event: of a CPU that goes offline, "its
    /// tasks leave [...], each entering the lowest-numbered allowed online CPU".
    fn stands(&self, task: usize, e: Event, after: &Tables) -> usize {
        let cpu = self.cpu[task] as usize;
        let leaves = e.kind == 10 && e.who as usize == cpu && after.state[task] == 2;
        match leaves {
            true => (after.mask[task] & self.online_then(e)).trailing_zeros() as usize,
            false => cpu,
        }
    }
}

struct Move {
    task: usize,
    from: usize,
    to: usize,
    displaced: u16,
}

/// The first part that fails, in words.
pub fn check(before: &Before, e: Event, moves: u32, after: &Tables) -> Result<(), String> {
    let online = before.online_then(e);
    if after.online != online {
        let here = after.online;
        return Err(format!(
            "the online mask is {here:#x}, and must be {online:#x}"
        ));
    }
    if moves >= online.count_ones() {
        let cpus = online.count_ones();
        return Err(format!("{moves} migrations on {cpus} online CPUs"));
    }
    let log: Vec<Move> = after.moves(moves).map(Move::from).collect();
    entries_sound(&log, before, e, after)?;
    no_two(&log, "receives two tasks: CPU", |m| m.to)?;
    no_two(&log, "moves twice: task", |m| m.task)?;
    priorities_never_rise(&log, after)?;
    levels_before(&log, after)?;
    each_stands_once(after)?;
    nobody_outranks(after)
}

impl From<binding::Move> for Move {
    fn from(entry: binding::Move) -> Move {
        Move {
            task: entry.task.into(),
            from: entry.from.into(),
            to: entry.to.into(),
            displaced: entry.displaced,
        }
    }
}

/// "count = number of log entries, in order": each of the first `moves` entries is a move that took place, and
/// no CPU changed without one. The event's own task may have changed its CPU before it moved, and so have the tasks of a
/// CPU that goes offline.
fn entries_sound(log: &[Move], before: &Before, e: Event, after: &Tables) -> Result<(), String> {
    for (i, m) in log.iter().enumerate() {
        if m.task >= TASKS || m.from >= after.n || m.to >= after.n || m.from == m.to {
            return Err(format!("log entry {i} is no move"));
        }
        if !(after.is_online(m.from) && after.is_online(m.to)) {
            return Err(format!("log entry {i} has an offline CPU"));
        }
    }
    for task in 0..TASKS {
        let own = (1..=6).contains(&e.kind) && e.who as usize == task;
        let cpu = after.cpu[task] as usize;
        let stood = before.stands(task, e, after);
        match log.iter().find(|m| m.task == task) {
            Some(m) if m.to != cpu => {
                return Err(format!("task {task} is not where the log says it went"))
            }
            Some(m) if !own && m.from != stood => {
                return Err(format!("task {task} was not where the log says it waited"))
            }
            None if !own && cpu != stood => {
                return Err(format!("task {task} moved without a log entry"))
            }
            _ => (),
        }
    }
    Ok(())
}

/// "no CPU receives two", "no task moves twice"
fn no_two(log: &[Move], says: &str, number: fn(&Move) -> usize) -> Result<(), String> {
    let mut seen = [false; TASKS];
    for m in log {
        if std::mem::replace(&mut seen[number(m)], true) {
            return Err(format!("{says} {}", number(m)));
        }
    }
    Ok(())
}

/// "movers' priorities never rise"
fn priorities_never_rise(log: &[Move], after: &Tables) -> Result<(), String> {
    match log
        .windows(2)
        .position(|pair| after.prio[pair[0].task] < after.prio[pair[1].task])
    {
        Some(i) => Err(format!("the mover's priority rises after log entry {i}")),
        None => Ok(()),
    }
}

/// "Each log entry shall also give the level of the destination before the move."
fn levels_before(log: &[Move], after: &Tables) -> Result<(), String> {
    for (i, m) in log.iter().enumerate() {
        let due = level_before(log, m, after);
        if m.displaced != due {
            return Err(format!(
                "log entry {i} gives level {}, and CPU {} was at {due}",
                m.displaced, m.to
            ));
        }
    }
    Ok(())
}

/// The level of a move's destination before it. No other task came there by a move, and who ran there can only have
/// left after it: so it is the highest of those who are there at the end, without the mover, or have left by a move.
fn level_before(log: &[Move], m: &Move, after: &Tables) -> u16 {
    let stayed = after.row(m.to).iter().map(|&task| task as usize);
    let left = log.iter().filter(|other| other.from == m.to);
    let others = stayed
        .filter(|&task| task != m.task)
        .chain(left.map(|other| other.task));
    match others.map(|task| after.prio[task]).max() {
        Some(highest) => u16::from(highest) + 2,
        None => u16::from(after.flags[m.to]),
    }
}

/// "every runnable task in exactly one row once, none other"
fn each_stands_once(after: &Tables) -> Result<(), String> {
    let mut times = [0u32; TASKS];
    for c in 0..after.n {
        for &task in after.row(c) {
            times[task as usize] += 1;
        }
    }
    let wrong = |&i: &usize| times[i] != u32::from(after.state[i] == 2);
    match (0..TASKS).find(wrong) {
        Some(i) => Err(format!("task {i} stands {} times in rows", times[i])),
        None => Ok(()),
    }
}

/// "afterwards no waiting task outranks what runs on any" online "CPU it is allowed"
fn nobody_outranks(after: &Tables) -> Result<(), String> {
    let prio = |task: u16| after.prio[task as usize];
    // An empty row runs ordinary work or nothing, which every task outranks.
    let running: Vec<u8> = (0..after.n)
        .map(|c| after.row(c).first().map_or(0, |&first| prio(first)))
        .collect();
    for c in 0..after.n {
        for &task in after.row(c).iter().skip(1) {
            let mask = after.mask[task as usize] & after.online;
            let outranked = |&d: &usize| mask >> d & 1 == 1 && running[d] < prio(task);
            if let Some(d) = (0..after.n).find(outranked) {
                return Err(format!(
                    "task {task} waits and outranks what runs on CPU {d}"
                ));
            }
        }
    }
    Ok(())
}
