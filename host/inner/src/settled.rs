//! Whether a machine is settled.

use binding::Tables;

/// No waiting task has an allowed online CPU of a lower level. Of tables that pass the check. (An offline CPU's level is 255.)
pub(crate) fn is_settled(t: &Tables) -> bool {
    (0..t.n).all(|cpu| {
        let waiting = t.row(cpu).iter().skip(1);
        waiting.map(|&task| task as usize).all(|task| {
            let allowed = |other: &usize| t.mask[task] >> other & 1 == 1;
            let level = t.prio[task] + 2;
            (0..t.n)
                .filter(allowed)
                .all(|other| t.levels[other] >= level)
        })
    })
}

#[cfg(test)]
mod tests {
    use super::*;
    use binding::Event;

    /// Two CPUs; task 0 runs on CPU 0, and task 1 waits there, to which CPU 1 is not allowed.
    fn pinned() -> Tables {
        let mut t = Tables::fresh(2).expect("2 CPUs");
        for (who, prio) in [(0, 50), (1, 40)] {
            assert_eq!(t.event(Event::new(1, who, 1, prio, 1)).answer, 0);
            assert_eq!(t.event(Event::new(3, who, 0, 0, 0)).answer, 0);
        }
        t
    }

    #[test]
    fn events_leave_a_settled_machine() {
        assert!(is_settled(&Tables::fresh(64).expect("64 CPUs")));
        assert!(is_settled(&pinned()));
    }

    #[test]
    fn a_waiting_task_with_a_lower_cpu_is_movable() {
        let mut t = pinned();
        t.mask[1] = 3;
        assert_eq!(t.check(), 0);
        assert!(!is_settled(&t));
    }

    #[test]
    fn an_equal_level_is_not_lower() {
        let mut t = pinned();
        assert_eq!(t.event(Event::new(1, 2, 1, 40, 2)).answer, 0);
        assert_eq!(t.event(Event::new(3, 2, 0, 0, 0)).answer, 0);
        t.mask[1] = 3;
        assert!(is_settled(&t));
    }
}
