//! All machines and all events of a small size.

use crate::generate::full;
use crate::plan::{Plan, TaskPlan};
use binding::Event;

/// What tasks and events are made of. Task places are 0 to `tasks - 1`.
#[derive(Clone, Copy, Debug)]
pub struct Size {
    pub n: usize,
    pub tasks: usize,
    pub prios: &'static [u8],
    pub policies: &'static [u8],
    /// Tasks have every slice from 1 to this.
    pub full_slice: u16,
    /// Of `machines`: no place is free or asleep, and no CPU has ordinary work.
    pub crowded: bool,
    /// CPUs go offline and come back; of `machines`, each has each online mask.
    pub hotplug: bool,
}

fn event(kind: u32, who: usize, a: u8, b: u8, mask: u64) -> Event {
    Event {
        kind,
        who: who as u32,
        a: u32::from(a),
        b: u32::from(b),
        mask,
    }
}

impl Size {
    pub const fn new(
        n: usize,
        tasks: usize,
        prios: &'static [u8],
        policies: &'static [u8],
        full_slice: u16,
    ) -> Size {
        Size {
            n,
            tasks,
            prios,
            policies,
            full_slice,
            crowded: false,
            hotplug: false,
        }
    }

    pub const fn crowded(self) -> Size {
        Size {
            crowded: true,
            ..self
        }
    }

    pub const fn hotplug(self) -> Size {
        Size {
            hotplug: true,
            ..self
        }
    }

    /// Every event with this size's numbers.
    pub fn events(&self) -> Vec<Event> {
        let mut events = self.refused();
        for who in 0..self.tasks {
            for mask in 1..=full(self.n) {
                for &policy in self.policies {
                    for &prio in self.prios {
                        events.push(event(1, who, policy, prio, mask));
                    }
                }
                events.push(event(6, who, 0, 0, mask));
            }
            for kind in 2..=4 {
                events.push(event(kind, who, 0, 0, 0));
            }
            for &prio in self.prios {
                events.push(event(5, who, 0, prio, 0));
            }
        }
        for cpu in 0..self.n {
            events.push(event(7, cpu, 0, 0, 0));
            events.push(event(8, cpu, 0, 0, 0));
            events.push(event(9, cpu, 0, 0, 0));
            events.push(event(9, cpu, 0, 1, 0));
            if self.hotplug {
                events.push(event(10, cpu, 0, 0, 0));
                events.push(event(11, cpu, 0, 0, 0));
            }
        }
        events
    }

    /// Some with a number just past this size's.
    fn refused(&self) -> Vec<Event> {
        let past = full(self.n) + 1;
        let mut refused = vec![
            event(0, 0, 1, 1, 1),
            event(12, 0, 1, 1, 1),
            event(1, 0, 3, 1, 1),
            event(1, 0, 1, 0, 1),
            event(1, 0, 1, 1, 0),
            event(6, 0, 0, 0, past),
            event(5, 0, 0, 100, 0),
            event(7, self.n, 0, 0, 0),
            event(9, 0, 0, 2, 0),
        ];
        if self.hotplug {
            refused.extend([event(10, self.n, 0, 0, 0), event(11, self.n, 0, 0, 0)]);
        }
        refused
    }

    /// Every way a task place can be: free (none), asleep, or runnable on an allowed CPU of these online ones.
    fn places(&self, id: usize, online: u64) -> Vec<Option<TaskPlan>> {
        let mut all = Vec::new();
        if !self.crowded {
            all.push(None);
        }
        for mask in 1..=full(self.n) {
            for cpu in 0..self.n {
                for runnable in [false, true] {
                    let allowed = (mask & online) >> cpu & 1 == 1;
                    if runnable && !allowed || !runnable && self.crowded {
                        continue;
                    }
                    self.numbers(|policy, prio, slice| {
                        all.push(Some(TaskPlan {
                            id: id as u16,
                            runnable,
                            policy,
                            prio,
                            cpu: cpu as u8,
                            slice,
                            mask,
                        }))
                    });
                }
            }
        }
        all
    }

    fn numbers(&self, mut with: impl FnMut(u8, u8, u16)) {
        for &policy in self.policies {
            for &prio in self.prios {
                for slice in 1..=self.full_slice {
                    with(policy, prio, slice);
                }
            }
        }
    }

    /// The machine without a task.
    pub fn empty(&self) -> Plan {
        Plan::empty(self.n, self.full_slice.into())
    }

    /// Every machine whose tasks are all asleep on their lowest-numbered allowed CPU, but for renaming tasks.
    pub fn settings(&self) -> Vec<Plan> {
        let mut kinds = Vec::new();
        for mask in 1..=full(self.n) {
            self.numbers(|policy, prio, slice| {
                kinds.push(TaskPlan {
                    id: 0,
                    runnable: false,
                    policy,
                    prio,
                    cpu: mask.trailing_zeros() as u8,
                    slice,
                    mask,
                })
            });
        }
        let mut sets: Vec<Vec<usize>> = vec![Vec::new()];
        for _ in 0..self.tasks {
            let longer = |set: &Vec<usize>| -> Vec<Vec<usize>> {
                let least = set.last().copied().unwrap_or(0);
                (least..kinds.len())
                    .map(|kind| [set.clone(), vec![kind]].concat())
                    .collect()
            };
            sets = sets.iter().flat_map(longer).collect();
        }
        let task = |(id, &kind): (usize, &usize)| TaskPlan {
            id: id as u16,
            ..kinds[kind].clone()
        };
        let plan = |set: Vec<usize>| Plan {
            tasks: set.iter().enumerate().map(task).collect(),
            ..self.empty()
        };
        sets.into_iter().map(plan).collect()
    }

    /// Every well-formed machine, settled or not, each once.
    pub fn machines(&self) -> Vec<Plan> {
        let least = if self.hotplug { 1 } else { full(self.n) };
        let online = least..=full(self.n);
        online.flat_map(|online| self.with_online(online)).collect()
    }

    /// Every one with this online mask.
    fn with_online(&self, online: u64) -> Vec<Plan> {
        let mut sets: Vec<Vec<TaskPlan>> = vec![Vec::new()];
        for id in 0..self.tasks {
            let places = self.places(id, online);
            let longer = |set: &Vec<TaskPlan>| -> Vec<Vec<TaskPlan>> {
                places
                    .iter()
                    .map(|place| set.iter().chain(place).cloned().collect())
                    .collect()
            };
            sets = sets.iter().flat_map(longer).collect();
        }
        let most = if self.crowded { 0 } else { full(self.n) };
        let mut all = Vec::new();
        for set in sets {
            for tasks in orders(&set) {
                for flags in 0..=most {
                    all.push(Plan {
                        flags,
                        online,
                        tasks: tasks.clone(),
                        ..self.empty()
                    });
                }
            }
        }
        all
    }
}

/// Every order in which the runnable tasks can stand in their rows, each once; sleepers in front.
fn orders(set: &[TaskPlan]) -> Vec<Vec<TaskPlan>> {
    let key = |t: &TaskPlan| (t.runnable, t.runnable.then_some((t.cpu, 99 - t.prio)));
    let mut found = Vec::new();
    permute(set.to_vec(), 0, &mut |order| {
        let sorted = order.windows(2).all(|w| key(&w[0]) <= key(&w[1]));
        let asleep: Vec<u16> = order.iter().filter(|t| !t.runnable).map(|t| t.id).collect();
        if sorted && asleep.windows(2).all(|w| w[0] < w[1]) {
            found.push(order.to_vec());
        }
    });
    found
}

fn permute(mut items: Vec<TaskPlan>, from: usize, with: &mut impl FnMut(&[TaskPlan])) {
    if from == items.len() {
        return with(&items);
    }
    for i in from..items.len() {
        items.swap(from, i);
        permute(items.clone(), from + 1, with);
    }
}

#[cfg(test)]
mod tests {
    use super::*;
    use std::collections::HashSet;

    const SMALL: Size = Size::new(2, 2, &[7], &[1], 1);

    #[test]
    fn machines_are_counted_by_hand() {
        let one = Size {
            n: 1,
            tasks: 1,
            ..SMALL
        };
        // Free, asleep or runnable, with and without ordinary work.
        assert_eq!(one.machines().len(), 6);
        // A place: free; asleep, 2 CPUs times 3 masks; runnable, 4 ways. Two runnable of the same CPU, which are 2
        // times 2 times 2 ways, stand in either order.
        assert_eq!(SMALL.machines().len(), (11 * 11 + 8) * 4);
        // With one CPU offline: runnable, 2 ways; two runnable, which are 2 times 2 ways, stand in either order.
        let offline = (9 * 9 + 4) * 4;
        let all = SMALL.hotplug().machines().len();
        assert_eq!(all, SMALL.machines().len() + 2 * offline);
        // Free, or asleep or runnable with one, two or three ticks left.
        let ticks = Size {
            full_slice: 3,
            ..one
        };
        assert_eq!(ticks.machines().len(), (1 + 3 + 3) * 2);
    }

    #[test]
    fn machines_are_different_and_well_formed() {
        let machines = SMALL.hotplug().machines();
        let different: HashSet<Plan> = machines.iter().cloned().collect();
        assert_eq!(different.len(), machines.len());
        for plan in machines {
            assert_eq!(plan.tables().check(), 0);
            assert_eq!(Plan::read(&plan.tables()), plan);
        }
    }

    #[test]
    fn settings_are_counted_by_hand() {
        // Two of the masks 1, 2 and 3, in no order.
        assert_eq!(SMALL.settings().len(), 6);
    }
}
