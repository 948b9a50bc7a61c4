/* SPDX-License-Identifier: MIT */
/*
 * Qoriwesh: where SCHED_FIFO and SCHED_RR tasks run on 1 to 64 CPUs.
 *
 * The functions are proved: what each answers and what it leaves in every
 * table is stated in crates/abi, abifresh and replay, for all tables and all
 * numbers.
 *
 * Nothing is allocated, locked or kept between calls. A caller lends the
 * tables; one call at a time may use them. Each pointer must be valid for its
 * length, also when the length is wrong, and no two tables may overlap: that
 * is what the compiler of the library is told, and what no function can check.
 * Everything else is checked: any length, any number, any contents.
 *
 * A refused call leaves every table as it was.
 */
#ifndef QORIWESH_H
#define QORIWESH_H

#include <stddef.h>
#include <stdint.h>

#ifdef __cplusplus
extern "C" {
#endif

/* ---- sizes ---- */

#define QORIWESH_CPUS 64        /* CPUs, at most */
#define QORIWESH_TASKS 512      /* task places, and places in a row */
#define QORIWESH_LEVELS 102     /* CPU-priority levels, 0 to 101 */
#define QORIWESH_WORDS 2        /* words of level bits */
#define QORIWESH_LOG_ENTRIES 63 /* moves in the log, at most */
#define QORIWESH_LOG_WIDTH 4    /* numbers of a log entry */
#define QORIWESH_LOG (QORIWESH_LOG_ENTRIES * QORIWESH_LOG_WIDTH) /* log numbers, 252 */

/* ---- a log entry: entry i begins at place i * QORIWESH_LOG_WIDTH ---- */

#define QORIWESH_LOG_TASK 0      /* the task that moved */
#define QORIWESH_LOG_FROM 1      /* the CPU that it waited on */
#define QORIWESH_LOG_TO 2        /* the CPU that it went to */
#define QORIWESH_LOG_DISPLACED 3 /* the level of that CPU before the move */

/* ---- answers: 0, or the first of these that applies ---- */

#define QORIWESH_OK 0
#define QORIWESH_ESIZE 1     /* N is 0 or over 64, a full slice out of range, or a table of another length */
#define QORIWESH_EFORM 2     /* the tables or the record are not well-formed */
#define QORIWESH_EKIND 3     /* no such kind of event */
#define QORIWESH_ENUMBER 4   /* no such task place or CPU */
#define QORIWESH_ESTATE 5    /* the task is not in the state that the event needs */
#define QORIWESH_EPOLICY 6   /* a policy other than SCHED_FIFO and SCHED_RR */
#define QORIWESH_EVALUE 7    /* a priority, a flag or a level out of its range */
#define QORIWESH_EMASK 8     /* an empty mask, or one with a CPU that is not there */
#define QORIWESH_EEMPTY 9    /* a yield on a CPU with an empty row */
#define QORIWESH_ENOWHERE 10 /* a runnable task, or one that wakes, would have no allowed CPU that is online */
#define QORIWESH_EONLINE 11  /* a tick or a yield on an offline CPU; offline or online, and it is already so */
#define QORIWESH_ELAST 12    /* the last online CPU is not taken offline */

/* ---- events: kind, who, a, b, mask; numbers that a kind does not use are ignored ---- */

#define QORIWESH_ADD 1      /* task who, policy a, priority b, mask: asleep */
#define QORIWESH_REMOVE 2   /* task who, asleep: free */
#define QORIWESH_WAKE 3     /* task who, asleep: runnable */
#define QORIWESH_SLEEP 4    /* task who, runnable: asleep */
#define QORIWESH_PRIORITY 5 /* task who has priority b: raised behind its equals, lowered before them */
#define QORIWESH_AFFINITY 6 /* task who is allowed the CPUs of mask */
#define QORIWESH_TICK 7     /* a tick on CPU who: a SCHED_RR task whose slice ends goes behind its equals */
#define QORIWESH_YIELD 8    /* the task that runs on CPU who yields */
#define QORIWESH_ORDINARY 9 /* CPU who has ordinary work (b 1) or none (b 0) */
#define QORIWESH_OFFLINE 10 /* CPU who goes offline: each of its tasks goes to its lowest-numbered online CPU */
#define QORIWESH_ONLINE 11  /* CPU who is online again */

/* ---- recordings ---- */

#define QORIWESH_RECORDS 65536      /* records of a recording, at most, the first included */
#define QORIWESH_FIRST 0            /* the first record's kind: N, and a full slice of 100 ticks */
#define QORIWESH_FIRST_SLICE 12     /* the same with the full slice named: N, slice */
#define QORIWESH_RECORDED_SLICE 100 /* the full slice where the first record names none */

#define QORIWESH_WHOLE 0   /* the recording ends behind a record */
#define QORIWESH_CUT 1     /* it ends within a record, or before its first one is whole */
#define QORIWESH_STOPPED 2 /* a record stops the replay: an unknown kind, a bad first record, one record too many */

/* ---- values in the tables ---- */

#define QORIWESH_FREE 0     /* state: the place has no task */
#define QORIWESH_ASLEEP 1   /* state */
#define QORIWESH_RUNNABLE 2 /* state: running, if first of its row, or waiting */

#define QORIWESH_FIFO 1 /* policy, as SCHED_FIFO */
#define QORIWESH_RR 2   /* policy, as SCHED_RR */

#define QORIWESH_PRIO_MIN 1
#define QORIWESH_PRIO_MAX 99 /* the highest */

#define QORIWESH_SLICE_MIN 1      /* ticks of a full slice: the least, */
#define QORIWESH_SLICE_MAX 1000   /* the most, */
#define QORIWESH_SLICE_DEFAULT 25 /* and those of a machine that is made without naming them */

#define QORIWESH_NOTHING 65535 /* an unused place of a row or of a fresh log */

#define QORIWESH_LEVEL_IDLE 0
#define QORIWESH_LEVEL_ORDINARY 1
#define QORIWESH_LEVEL_PRIO(p) ((p) + 2) /* the level of a CPU that runs priority p */
#define QORIWESH_LEVEL_INVALID 255       /* a CPU that is not there or is offline; no level found */

/*
 * The tables, in the order of the parameters, each with its length:
 *
 *   state, policy, prio, cpu, slice, mask   512     a task's columns
 *   rows                                    n*512   row c from place 512*c on, in run
 *                                                   order: the first of a row runs
 *   counts, flags                           n       tasks in a row; ordinary work, 0 or 1
 *   online                                  (one)   a word: bit c is set if CPU c is online
 *   log                                     252     moves of the last accepted event,
 *                                                   four numbers each
 *
 * and the CPU-priority record:
 *
 *   level_masks, level_counts               102     the CPUs at a level, how many they are
 *   level_words                             2       bit L%64 of word L/64: level L has a CPU
 *   levels                                  64      a CPU's level
 *
 * Two numbers belong to the machine as its tables do, and are handed in with
 * them: n, its CPUs, and full_slice, the ticks of a full slice, which the finder
 * does not need. A task that is added has a full slice, and so has a SCHED_RR
 * task again when its slice ends. In well-formed tables none has a longer one.
 */

/*
 * Makes the tables those of a fresh machine of n CPUs, whatever they held: all
 * places free, rows empty, flags 0, the log all 65535, every CPU online and idle.
 *
 * 0 or QORIWESH_ESIZE. *made_slice is full_slice, or 0 on a refusal.
 */
uint8_t qoriwesh_make_fresh(
	size_t n, uint32_t full_slice,
	uint8_t *state, size_t state_len,
	uint8_t *policy, size_t policy_len,
	uint8_t *prio, size_t prio_len,
	uint8_t *cpu, size_t cpu_len,
	uint16_t *slice, size_t slice_len,
	uint64_t *mask, size_t mask_len,
	uint16_t *rows, size_t rows_len,
	uint16_t *counts, size_t counts_len,
	uint8_t *flags, size_t flags_len,
	uint64_t *online,
	uint16_t *log, size_t log_len,
	uint64_t *level_masks, size_t level_masks_len,
	uint8_t *level_counts, size_t level_counts_len,
	uint64_t *level_words, size_t level_words_len,
	uint8_t *levels, size_t levels_len,
	uint32_t *made_slice);

/*
 * The same with QORIWESH_SLICE_DEFAULT, which *made_slice then is.
 */
uint8_t qoriwesh_make_fresh_default(
	size_t n,
	uint8_t *state, size_t state_len,
	uint8_t *policy, size_t policy_len,
	uint8_t *prio, size_t prio_len,
	uint8_t *cpu, size_t cpu_len,
	uint16_t *slice, size_t slice_len,
	uint64_t *mask, size_t mask_len,
	uint16_t *rows, size_t rows_len,
	uint16_t *counts, size_t counts_len,
	uint8_t *flags, size_t flags_len,
	uint64_t *online,
	uint16_t *log, size_t log_len,
	uint64_t *level_masks, size_t level_masks_len,
	uint8_t *level_counts, size_t level_counts_len,
	uint64_t *level_words, size_t level_words_len,
	uint8_t *levels, size_t levels_len,
	uint32_t *made_slice);

/*
 * Whether the tables are those of a well-formed machine. Writes nothing.
 *
 * 0, QORIWESH_ESIZE or QORIWESH_EFORM.
 */
uint8_t qoriwesh_check(
	size_t n, uint32_t full_slice,
	const uint8_t *state, size_t state_len,
	const uint8_t *policy, size_t policy_len,
	const uint8_t *prio, size_t prio_len,
	const uint8_t *cpu, size_t cpu_len,
	const uint16_t *slice, size_t slice_len,
	const uint64_t *mask, size_t mask_len,
	const uint16_t *rows, size_t rows_len,
	const uint16_t *counts, size_t counts_len,
	const uint8_t *flags, size_t flags_len,
	const uint64_t *online,
	const uint16_t *log, size_t log_len,
	const uint64_t *level_masks, size_t level_masks_len,
	const uint8_t *level_counts, size_t level_counts_len,
	const uint64_t *level_words, size_t level_words_len,
	const uint8_t *levels, size_t levels_len);

/*
 * One event, and then one migration after another until no waiting task may go
 * to a CPU of a lower level.
 *
 * 0: *moves is the number of migrations, fewer than there are CPUs online, and
 * log entry i is migration i: the task, the CPU it waited on, the CPU it went to,
 * and the level that this CPU had before (QORIWESH_LOG_TASK and so on). Entries
 * from *moves on are older. The tables are well-formed again, and no waiting task
 * outranks what runs on any online CPU that it is allowed.
 *
 * That a task goes from a CPU that is taken offline is no migration: it stands in
 * its row and its column, and not in the log.
 *
 * 1 to 12: refused, *moves is 0, and every table is as it was.
 */
uint8_t qoriwesh_event(
	size_t n, uint32_t full_slice,
	uint8_t *state, size_t state_len,
	uint8_t *policy, size_t policy_len,
	uint8_t *prio, size_t prio_len,
	uint8_t *cpu, size_t cpu_len,
	uint16_t *slice, size_t slice_len,
	uint64_t *mask, size_t mask_len,
	uint16_t *rows, size_t rows_len,
	uint16_t *counts, size_t counts_len,
	uint8_t *flags, size_t flags_len,
	uint64_t *online,
	uint16_t *log, size_t log_len,
	uint64_t *level_masks, size_t level_masks_len,
	uint8_t *level_counts, size_t level_counts_len,
	uint64_t *level_words, size_t level_words_len,
	uint8_t *levels, size_t levels_len,
	uint32_t kind, uint32_t who, uint32_t a, uint32_t b, uint64_t k,
	uint32_t *moves);

/*
 * The lowest level below `level` (0 to 101) that has a CPU of `mask`, and which
 * CPUs of the mask are at it. The search goes by the level bits, from the lowest
 * level on, and reads the mask of each level that has a CPU, of `mask` or not.
 *
 * 0: *found_level and *found_mask are that level and those CPUs, or 255 and 0
 * if there is no such level. *masks_read is how many masks the search read: one
 * for each level below `level` that has a CPU, up to the one found and with it,
 * or all of them if none is found.
 *
 * QORIWESH_ESIZE, QORIWESH_EFORM (the record is inconsistent in itself),
 * QORIWESH_EVALUE, QORIWESH_EMASK: 255 and 0 too, and *masks_read is 0.
 */
uint8_t qoriwesh_find(
	size_t n,
	const uint64_t *level_masks, size_t level_masks_len,
	const uint8_t *level_counts, size_t level_counts_len,
	const uint64_t *level_words, size_t level_words_len,
	const uint8_t *levels, size_t levels_len,
	uint32_t level, uint64_t mask,
	uint8_t *found_level, uint64_t *found_mask, uint32_t *masks_read);

/*
 * Replays a recording on a fresh machine, in tables for 64 CPUs: rows 64*512
 * numbers, counts and flags 64.
 *
 * A record is a byte of kind and a body whose length the kind fixes; numbers are
 * low byte first. First one of
 *
 *   kind  0   N (1)                    kind 12   N (1), full slice (2)
 *
 * then events, each with the stamp of its time in microseconds (4):
 *
 *   kind  1   stamp, task (2), policy (1), priority (1), mask (8)
 *   kinds 2, 3, 4   stamp, task (2)
 *   kind  5   stamp, task (2), priority (1)
 *   kind  6   stamp, task (2), mask (8)
 *   kinds 7, 8, 10, 11   stamp, CPU (1)
 *   kind  9   stamp, CPU (1), ordinary work (1)
 *
 * 0: *ending is QORIWESH_WHOLE, QORIWESH_CUT or QORIWESH_STOPPED, and *place the
 * byte where the whole records before it end; what they give is what is reported.
 * *n and *full_slice are those of the first record; times[c] is how long CPU c had
 * a real-time task, in microseconds, from the first event's stamp to the last
 * one's; *moves counts the migrations and *refused the refused events, which are
 * skipped. The tables are those of the machine of *n CPUs after the last event;
 * rows, counts and flags beyond *n are as they were. Stamps run past their end to
 * zero: the time between two records is their difference modulo 2^32.
 *
 * Without a good first record *n is 0, and so are all numbers reported but *ending;
 * every table is as it was. QORIWESH_ESIZE, if a table, also times, has another
 * length: the same, with QORIWESH_STOPPED; no byte was read.
 */
uint8_t qoriwesh_replay(
	const uint8_t *bytes, size_t bytes_len,
	uint8_t *state, size_t state_len,
	uint8_t *policy, size_t policy_len,
	uint8_t *prio, size_t prio_len,
	uint8_t *cpu, size_t cpu_len,
	uint16_t *slice, size_t slice_len,
	uint64_t *mask, size_t mask_len,
	uint16_t *rows, size_t rows_len,
	uint16_t *counts, size_t counts_len,
	uint8_t *flags, size_t flags_len,
	uint64_t *online,
	uint16_t *log, size_t log_len,
	uint64_t *level_masks, size_t level_masks_len,
	uint8_t *level_counts, size_t level_counts_len,
	uint64_t *level_words, size_t level_words_len,
	uint8_t *levels, size_t levels_len,
	uint64_t *times, size_t times_len,
	uint8_t *ending, size_t *place, size_t *n, uint32_t *full_slice,
	uint64_t *moves, uint32_t *refused);

/* ---- the same over one struct, for a caller that has no tables of its own ---- */

struct qoriwesh_machine {
	size_t cpus;
	uint32_t full_slice;
	uint8_t state[QORIWESH_TASKS];
	uint8_t policy[QORIWESH_TASKS];
	uint8_t prio[QORIWESH_TASKS];
	uint8_t cpu[QORIWESH_TASKS];
	uint16_t slice[QORIWESH_TASKS];
	uint64_t mask[QORIWESH_TASKS];
	uint16_t rows[QORIWESH_CPUS * QORIWESH_TASKS];
	uint16_t counts[QORIWESH_CPUS];
	uint8_t flags[QORIWESH_CPUS];
	uint64_t online;
	uint16_t log[QORIWESH_LOG];
	uint64_t level_masks[QORIWESH_LEVELS];
	uint8_t level_counts[QORIWESH_LEVELS];
	uint64_t level_words[QORIWESH_WORDS];
	uint8_t levels[QORIWESH_CPUS];
};

/* The parameters that lend the machine's tables, as those of n CPUs. With over 64 CPUs the lengths are those of 64. */
#define QORIWESH_LEND_CPUS(n) ((n) < QORIWESH_CPUS ? (n) : QORIWESH_CPUS)
#define QORIWESH_LEND_TABLES(m, n) \
	(m)->state, QORIWESH_TASKS, (m)->policy, QORIWESH_TASKS, \
	(m)->prio, QORIWESH_TASKS, (m)->cpu, QORIWESH_TASKS, \
	(m)->slice, QORIWESH_TASKS, (m)->mask, QORIWESH_TASKS, \
	(m)->rows, QORIWESH_TASKS * QORIWESH_LEND_CPUS(n), \
	(m)->counts, QORIWESH_LEND_CPUS(n), (m)->flags, QORIWESH_LEND_CPUS(n), \
	&(m)->online, (m)->log, QORIWESH_LOG, \
	(m)->level_masks, QORIWESH_LEVELS, (m)->level_counts, QORIWESH_LEVELS, \
	(m)->level_words, QORIWESH_WORDS, (m)->levels, QORIWESH_CPUS

/* The same with the machine's two numbers before them. */
#define QORIWESH_LEND(m) (m)->cpus, (m)->full_slice, QORIWESH_LEND_TABLES(m, (m)->cpus)

/* A number as an int: C and C++ warn of each other's casts. */
#ifdef __cplusplus
#define QORIWESH_INT(x) static_cast<int>(x)
#else
#define QORIWESH_INT(x) ((int)(x))
#endif

/* A machine with the default full slice. 0, or -QORIWESH_ESIZE: then the machine is as it was. */
static inline int qoriwesh_machine_init(struct qoriwesh_machine *m, size_t cpus)
{
	uint32_t made_slice;
	uint8_t answer = qoriwesh_make_fresh_default(cpus, QORIWESH_LEND_TABLES(m, cpus), &made_slice);

	if (!answer) {
		m->cpus = cpus;
		m->full_slice = made_slice;
	}
	return -answer;
}

/* The same with a full slice of so many ticks. */
static inline int qoriwesh_machine_init_slice(struct qoriwesh_machine *m, size_t cpus, uint32_t ticks)
{
	uint32_t made_slice;
	uint8_t answer = qoriwesh_make_fresh(cpus, ticks, QORIWESH_LEND_TABLES(m, cpus), &made_slice);

	if (!answer) {
		m->cpus = cpus;
		m->full_slice = made_slice;
	}
	return -answer;
}

/* 0, -QORIWESH_ESIZE or -QORIWESH_EFORM. */
static inline int qoriwesh_machine_check(const struct qoriwesh_machine *m)
{
	return -qoriwesh_check(QORIWESH_LEND(m));
}

/* The number of moves, or a refusal's number, negative. */
static inline int qoriwesh_machine_event(struct qoriwesh_machine *m,
					 uint32_t kind, uint32_t who,
					 uint32_t a, uint32_t b, uint64_t mask)
{
	uint32_t moves;
	uint8_t answer = qoriwesh_event(QORIWESH_LEND(m), kind, who, a, b, mask, &moves);

	return answer ? -answer : QORIWESH_INT(moves);
}

/* 0 with what was found and how many masks were read for it, or a refusal's number, negative. */
static inline int qoriwesh_machine_find(const struct qoriwesh_machine *m,
					uint32_t level, uint64_t mask,
					uint8_t *found_level, uint64_t *found_mask,
					uint32_t *masks_read)
{
	return -qoriwesh_find(m->cpus, m->level_masks, QORIWESH_LEVELS,
			      m->level_counts, QORIWESH_LEVELS,
			      m->level_words, QORIWESH_WORDS,
			      m->levels, QORIWESH_CPUS,
			      level, mask, found_level, found_mask, masks_read);
}

/* What a replay reports. */
struct qoriwesh_report {
	uint8_t ending; /* QORIWESH_WHOLE, QORIWESH_CUT or QORIWESH_STOPPED */
	size_t place;   /* the byte where the whole records end */
	size_t cpus;    /* 0 without a good first record */
	uint32_t full_slice;
	uint64_t times[QORIWESH_CPUS]; /* microseconds with a real-time task */
	uint64_t moves;
	uint32_t refused;
};

/*
 * Replays a recording; the machine is then the one after its last event, or, without
 * a good first record, as it was. 0: a machine's tables have their lengths.
 */
static inline int qoriwesh_machine_replay(struct qoriwesh_machine *m, const uint8_t *bytes, size_t len,
					  struct qoriwesh_report *r)
{
	uint8_t answer = qoriwesh_replay(bytes, len, QORIWESH_LEND_TABLES(m, QORIWESH_CPUS),
					 r->times, QORIWESH_CPUS, &r->ending, &r->place, &r->cpus,
					 &r->full_slice, &r->moves, &r->refused);

	if (r->cpus) {
		m->cpus = r->cpus;
		m->full_slice = r->full_slice;
	}
	return -answer;
}

#ifdef __cplusplus
}
#endif

#endif /* QORIWESH_H */
