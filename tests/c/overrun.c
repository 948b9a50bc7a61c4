/* SPDX-License-Identifier: MIT */
/*
 * A caller's error that the library cannot see: 511 bytes lent as 512. Under valgrind this must be
 * reported, which shows that a run without a report says something.
 */
#include <stdlib.h>
#include "qoriwesh.h"

int main(void)
{
	static struct qoriwesh_machine m;
	uint8_t *state = (uint8_t *)calloc(QORIWESH_TASKS - 1, 1);

	if (!state || qoriwesh_machine_init(&m, 2))
		return 2;
	return qoriwesh_check(m.cpus, m.full_slice, state, QORIWESH_TASKS, m.policy, QORIWESH_TASKS,
			      m.prio, QORIWESH_TASKS, m.cpu, QORIWESH_TASKS,
			      m.slice, QORIWESH_TASKS, m.mask, QORIWESH_TASKS,
			      m.rows, 2 * QORIWESH_TASKS, m.counts, 2, m.flags, 2,
			      &m.online, m.log, QORIWESH_LOG, m.level_masks, QORIWESH_LEVELS,
			      m.level_counts, QORIWESH_LEVELS, m.level_words, QORIWESH_WORDS,
			      m.levels, QORIWESH_CPUS) ? 1 : 0;
}
