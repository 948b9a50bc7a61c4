/* SPDX-License-Identifier: MIT */
/*
 * Document 02's request L1, "Replay a night", through include/qoriwesh.h, as C and as C++, with what requests L7 and L8
 * say of recordings: three recordings, byte by byte, with what they give worked out by hand; last bytes and the most
 * records; recordings without a good first record; and refusal 1. Says so and exits 0, or says what differs and exits 1.
 */
#include <inttypes.h>
#include <stdio.h>
#include <string.h>
#include "qoriwesh.h"

#define COUNT(array) (sizeof(array) / sizeof((array)[0]))

static struct qoriwesh_machine m;
static struct qoriwesh_report r;
static const char *example = "";
static int wrong;

static void same(const char *what, uint64_t got, uint64_t want)
{
	if (got == want)
		return;
	printf("%s: %s is %" PRIu64 ", and must be %" PRIu64 "\n", example, what, got, want);
	wrong = 1;
}

/* Tables and a report that hold nothing sensible. */
static void begin(const char *name)
{
	example = name;
	memset(&m, 0x5a, sizeof(m));
	memset(&r, 0x5a, sizeof(r));
}

/* "rows, counts and flags beyond the recording's N stay as they were" */
static void beyond(size_t n)
{
	size_t i;

	for (i = n * QORIWESH_TASKS; i < COUNT(m.rows); i++)
		same("a place of a row beyond N", m.rows[i], 0x5a5a);
	for (i = n; i < QORIWESH_CPUS; i++) {
		same("a count beyond N", m.counts[i], 0x5a5a);
		same("a flag beyond N", m.flags[i], 0x5a);
	}
}

/* Replays the bytes: how they end and where, and the machine that they are for. */
static void replay(const uint8_t *bytes, size_t len, uint8_t ending, size_t place, size_t n, uint32_t full_slice)
{
	same("the answer", qoriwesh_machine_replay(&m, bytes, len, &r) == 0, 1);
	same("the ending", r.ending, ending);
	same("the place", r.place, place);
	same("N", r.cpus, n);
	same("the full slice", r.full_slice, full_slice);
	same("the machine's CPUs", m.cpus, n);
	same("the machine's full slice", m.full_slice, full_slice);
	same("the machine's check", qoriwesh_machine_check(&m) == 0, 1);
	beyond(n);
}

static void totals(uint64_t moves, uint32_t refused)
{
	same("the total of moves", r.moves, moves);
	same("the refused events", r.refused, refused);
}

/* The times of the first CPUs, and 0 for all others. */
static void times(size_t count, const uint64_t *want)
{
	size_t i;

	for (i = 0; i < QORIWESH_CPUS; i++)
		same("a time", r.times[i], i < count ? want[i] : 0);
}

/* A CPU's row: one task, or none, and 65535 behind it. */
static void row(size_t cpu, size_t count, uint16_t task)
{
	size_t i;

	same("a row's count", m.counts[cpu], count);
	for (i = 0; i < QORIWESH_TASKS; i++)
		same("a place of a row", m.rows[QORIWESH_TASKS * cpu + i], i < count ? task : QORIWESH_NOTHING);
}

/*
 * Two CPUs, slices of 3 ticks. Task 0 (RR, 50) wakes at -256 microseconds on CPU 0; a tick at -128. Then the stamps begin
 * again at 0. Task 1 (FIFO, 60, CPU 0 alone) wakes at 256, and task 0 moves to CPU 1. At 512 task 0 is added once more,
 * which is refused, and a tick is on CPU 1. At 768 task 0 has priority 99. The tick on CPU 2, which is not there, is one
 * microsecond before that: 2^32 - 1 later.
 */
static void whole(void)
{
	static const uint8_t bytes[] = {
		12, 2, 3, 0,                                                       /* N, slice */
		1, 0x00, 0xfe, 0xff, 0xff, 0, 0, 2, 50, 3, 0, 0, 0, 0, 0, 0, 0, /* add 0 */
		1, 0x00, 0xfe, 0xff, 0xff, 1, 0, 1, 60, 1, 0, 0, 0, 0, 0, 0, 0, /* add 1 */
		3, 0x00, 0xff, 0xff, 0xff, 0, 0,                                   /* wake 0 */
		7, 0x80, 0xff, 0xff, 0xff, 0,                                      /* tick on 0: 128 on CPU 0 */
		3, 0x00, 0x01, 0x00, 0x00, 1, 0,                                   /* wake 1: 384 on CPU 0 */
		1, 0x00, 0x02, 0x00, 0x00, 0, 0, 2, 50, 3, 0, 0, 0, 0, 0, 0, 0, /* add 0: 256 on both */
		7, 0x00, 0x02, 0x00, 0x00, 1,                                      /* tick on 1: 0 */
		5, 0x00, 0x03, 0x00, 0x00, 0, 0, 99,                               /* priority: 256 on both */
		7, 0xff, 0x02, 0x00, 0x00, 2,                                      /* tick on 2: 4294967295 on both */
	};
	static const uint64_t want[] = {
		UINT64_C(128) + 384 + 256 + 0 + 256 + UINT64_C(4294967295),
		UINT64_C(256) + 0 + 256 + UINT64_C(4294967295),
	};

	begin("the whole recording");
	replay(bytes, sizeof(bytes), QORIWESH_WHOLE, 95, 2, 3);
	totals(1, 2);
	times(COUNT(want), want);
	row(0, 1, 1);
	row(1, 1, 0);
	same("CPU 0's level", m.levels[0], QORIWESH_LEVEL_PRIO(60));
	same("CPU 1's level", m.levels[1], QORIWESH_LEVEL_PRIO(99));
	same("task 0's slice", m.slice[0], 1);
	same("the task in the log", m.log[QORIWESH_LOG_TASK], 0);
	same("the CPU it went to", m.log[QORIWESH_LOG_TO], 1);
	same("the log behind it", m.log[QORIWESH_LOG_WIDTH], QORIWESH_NOTHING);
}

/*
 * Three CPUs. Task 5 (FIFO, 10, CPU 2 alone) wakes at 1000, when CPU 1 gets ordinary work, which is no task. At 1500 CPU 2 may
 * not go offline for it; at 1600 it is allowed all CPUs, so that CPU 2 goes at 2000, and it goes to CPU 0. Of its sleep at 3000
 * the last byte is missing.
 */
static void cut(void)
{
	static const uint8_t bytes[] = {
		0, 3,                                                  /* N */
		1, 0, 0, 0, 0, 5, 0, 1, 10, 4, 0, 0, 0, 0, 0, 0, 0, /* add 5 */
		3, 0xe8, 0x03, 0, 0, 5, 0,                             /* wake 5 */
		9, 0xe8, 0x03, 0, 0, 1, 1,                             /* ordinary work on 1 */
		10, 0xdc, 0x05, 0, 0, 2,                               /* CPU 2 may not go: 500 on it */
		6, 0x40, 0x06, 0, 0, 5, 0, 7, 0, 0, 0, 0, 0, 0, 0,  /* mask: 100 */
		10, 0xd0, 0x07, 0, 0, 2,                               /* CPU 2 goes: 400 */
		7, 0xc4, 0x09, 0, 0, 0,                                /* tick on 0: 500 on CPU 0 */
		4, 0xb8, 0x0b, 0, 0, 5,                                /* sleep, cut */
	};
	static const uint64_t want[] = {500, 0, 500 + 100 + 400};

	begin("the cut recording");
	replay(bytes, sizeof(bytes), QORIWESH_CUT, 66, 3, QORIWESH_RECORDED_SLICE);
	totals(0, 1);
	times(COUNT(want), want);
	row(0, 1, 5);
	row(1, 0, 0);
	row(2, 0, 0);
	same("the online mask", m.online, 3);
	same("CPU 1's flag", m.flags[1], 1);
	same("CPU 2's level", m.levels[2], QORIWESH_LEVEL_INVALID);
}

/* One CPU. Task 511 (FIFO, 99) runs from 7 to 9. A priority of 100 is refused. A later 0 stops the replay. */
static void stopped(void)
{
	static const uint8_t bytes[] = {
		0, 1,                                                      /* N */
		1, 7, 0, 0, 0, 0xff, 1, 1, 99, 1, 0, 0, 0, 0, 0, 0, 0,   /* add 511 */
		3, 7, 0, 0, 0, 0xff, 1,                                    /* wake 511 */
		8, 8, 0, 0, 0, 0,                                          /* yield: 1 */
		4, 9, 0, 0, 0, 0xff, 1,                                    /* sleep 511: 1 */
		2, 10, 0, 0, 0, 0xff, 1,                                   /* remove 511 */
		1, 11, 0, 0, 0, 0xff, 1, 1, 100, 1, 0, 0, 0, 0, 0, 0, 0, /* add 511, refused */
		0, 1,                                                      /* N */
	};
	static const uint64_t want[] = {1 + 1};

	begin("the stopped recording");
	replay(bytes, sizeof(bytes), QORIWESH_STOPPED, 63, 1, QORIWESH_RECORDED_SLICE);
	totals(0, 1);
	times(COUNT(want), want);
	row(0, 0, 0);
	same("task 511's state", m.state[511], QORIWESH_FREE);
	same("CPU 0's level", m.levels[0], QORIWESH_LEVEL_IDLE);
}

/* A last byte: one of an unknown kind stops the replay, one of a known kind is cut. */
static void last_byte(uint8_t kind, uint8_t ending)
{
	uint8_t bytes[3] = {QORIWESH_FIRST, 1, 0};

	bytes[2] = kind;
	begin("the last byte");
	replay(bytes, sizeof(bytes), ending, 2, 1, QORIWESH_RECORDED_SLICE);
	totals(0, 0);
}

static void last_bytes(void)
{
	uint8_t kind;

	for (kind = QORIWESH_ADD; kind <= QORIWESH_ONLINE; kind++)
		last_byte(kind, QORIWESH_CUT);
	last_byte(QORIWESH_FIRST, QORIWESH_STOPPED);
	last_byte(QORIWESH_FIRST_SLICE, QORIWESH_STOPPED);
	last_byte(13, QORIWESH_STOPPED);
	last_byte(255, QORIWESH_STOPPED);
}

/* As many records as there may be, ticks on a CPU that is not there, and a byte behind them. */
static void too_many(void)
{
	enum { TICK = 6, EVENTS = QORIWESH_RECORDS - 1 };
	static uint8_t bytes[2 + TICK * EVENTS + 1];
	size_t at;

	bytes[0] = QORIWESH_FIRST;
	bytes[1] = 1;
	for (at = 2; at < sizeof(bytes); at += TICK) {
		bytes[at] = QORIWESH_TICK;
		if (at + TICK < sizeof(bytes))
			bytes[at + TICK - 1] = 1;
	}
	begin("one record too many");
	replay(bytes, sizeof(bytes), QORIWESH_STOPPED, 2 + TICK * EVENTS, 1, QORIWESH_RECORDED_SLICE);
	totals(0, EVENTS);
}

/* All numbers are 0, and every byte of the machine is as it was. */
static void nothing(const struct qoriwesh_machine *before)
{
	same("N", r.cpus, 0);
	same("the full slice", r.full_slice, 0);
	same("the place", r.place, 0);
	totals(0, 0);
	same("what it changed", memcmp(before, &m, sizeof(m)) != 0, 0);
}

/* "On refusal 1 or without a good first record, N and all totals are 0 and tables and record stay as they were." */
static void without_first(const uint8_t *bytes, size_t len, uint8_t ending)
{
	static struct qoriwesh_machine before;

	begin("no good first record");
	memcpy(&before, &m, sizeof(m));
	same("the answer", qoriwesh_machine_replay(&m, bytes, len, &r) == 0, 1);
	same("the ending", r.ending, ending);
	nothing(&before);
	times(0, NULL);
}

static void first_records(void)
{
	static const uint8_t kind_0[] = {0, 65}, kind_12[] = {12, 64, 0xe9, 0x03}, cpus[] = {12, 0, 1, 0}, event[] = {7, 1};

	without_first(kind_0, 0, QORIWESH_CUT);
	without_first(kind_0, 1, QORIWESH_CUT);
	without_first(kind_0, 2, QORIWESH_STOPPED);
	without_first(kind_12, 1, QORIWESH_CUT);
	without_first(kind_12, 2, QORIWESH_CUT);
	without_first(kind_12, 3, QORIWESH_CUT);
	without_first(kind_12, 4, QORIWESH_STOPPED);
	without_first(cpus, 2, QORIWESH_STOPPED);
	without_first(cpus, 3, QORIWESH_STOPPED);
	without_first(cpus, 4, QORIWESH_STOPPED);
	without_first(event, 1, QORIWESH_STOPPED);
}

/* The lengths of the tables for 64 CPUs, in the order of the parameters; the last is that of the times. */
static const size_t right[] = {
	QORIWESH_TASKS, QORIWESH_TASKS, QORIWESH_TASKS, QORIWESH_TASKS, QORIWESH_TASKS, QORIWESH_TASKS,
	QORIWESH_TASKS * QORIWESH_CPUS, QORIWESH_CPUS, QORIWESH_CPUS, QORIWESH_LOG,
	QORIWESH_LEVELS, QORIWESH_LEVELS, QORIWESH_WORDS, QORIWESH_CPUS, QORIWESH_CPUS,
};

/* An empty recording in tables of these lengths. */
static uint8_t lent(const size_t *l, uint64_t *lent_times)
{
	static const uint8_t none[1] = {0};

	return qoriwesh_replay(none, 0, m.state, l[0], m.policy, l[1], m.prio, l[2], m.cpu, l[3], m.slice, l[4],
			       m.mask, l[5], m.rows, l[6], m.counts, l[7], m.flags, l[8], &m.online, m.log, l[9],
			       m.level_masks, l[10], m.level_counts, l[11], m.level_words, l[12], m.levels, l[13],
			       lent_times, l[14], &r.ending, &r.place, &r.cpus, &r.full_slice, &r.moves, &r.refused);
}

/* One table of another length: refused, also where the recording is cut, and every time that is lent is 0. */
static void refused(size_t table, size_t length)
{
	static struct qoriwesh_machine before;
	uint64_t lent_times[QORIWESH_CPUS + 1];
	size_t l[COUNT(right)], i;

	begin("a table of another length");
	memcpy(&before, &m, sizeof(m));
	memset(lent_times, 0x5a, sizeof(lent_times));
	memcpy(l, right, sizeof(l));
	l[table] = length;
	same("the answer", lent(l, lent_times), QORIWESH_ESIZE);
	same("the ending", r.ending, QORIWESH_STOPPED);
	nothing(&before);
	for (i = 0; i < COUNT(lent_times); i++)
		same("a time that was lent, or the one behind them", lent_times[i],
		     i < l[COUNT(right) - 1] ? 0 : UINT64_C(0x5a5a5a5a5a5a5a5a));
}

static void lengths(void)
{
	const size_t last = COUNT(right) - 1;
	size_t table;

	for (table = 0; table <= last; table++) {
		refused(table, 0);
		refused(table, 1);
		refused(table, right[table] - 1);
	}
	refused(last, QORIWESH_CPUS + 1);
	begin("tables of the right lengths");
	same("the answer", lent(right, r.times), QORIWESH_OK);
	same("the ending", r.ending, QORIWESH_CUT);
	times(0, NULL);
}

int main(void)
{
	whole();
	cut();
	stopped();
	last_bytes();
	too_many();
	first_records();
	lengths();
	if (!wrong)
		printf("recordings that are whole, cut and stopped, first and last records and refusal 1 are as the documents say\n");
	return wrong;
}
