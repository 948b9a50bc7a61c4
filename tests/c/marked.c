/* SPDX-License-Identifier: MIT */
/*
 * Document 01's marked examples K1 to K12 through include/qoriwesh.h, as C and as C++; the fourth numbers of the
 * log are those of document 02, request L2, and K11's row is that of request L3, of which there are more cases. They
 * name 100 as the full slice; request L7, by which it is a number of the machine, has cases of its own, and so have request
 * L8, by which CPUs go offline and come back, and request L4, by which the finder says how many masks it read. Each line of an
 * example is an event with what it must answer; what the example says of rows, levels, log and columns is compared after it.
 * Says so and exits 0, or says what differs and exits 1.
 */
#include <stdio.h>
#include <string.h>
#include "qoriwesh.h"

static struct qoriwesh_machine m;
static const char *example = "";
static int wrong;

static void same(const char *what, long got, long want)
{
	if (got == want)
		return;
	printf("%s: %s is %ld, and must be %ld\n", example, what, got, want);
	wrong = 1;
}

static void begin(const char *name)
{
	example = name;
}

/* Entries of the log from one on: "every log number is set to 65535", and no move wrote them since. */
static void unlogged(int from_entry)
{
	int i;

	for (i = QORIWESH_LOG_WIDTH * from_entry; i < QORIWESH_LOG; i++)
		same("a number of the log that no move wrote", m.log[i], QORIWESH_NOTHING);
}

static void plugged(uint64_t want)
{
	same("whether the online mask is the right one", m.online == want, 1);
}

/* The CPUs below one. */
static uint64_t below(size_t cpus)
{
	return cpus < QORIWESH_CPUS ? (UINT64_C(1) << cpus) - 1 : UINT64_MAX;
}

/* What holds of each fresh machine. */
static void made(int answer, size_t cpus, uint32_t full_slice)
{
	same("the fresh machine's answer", answer, 0);
	same("its CPUs", m.cpus == cpus, 1);
	same("its full slice", m.full_slice, full_slice);
	same("the fresh machine's check", qoriwesh_machine_check(&m), 0);
	same("the check of its tables, lent by hand", qoriwesh_check(QORIWESH_LEND(&m)), 0);
	plugged(below(cpus));
	unlogged(0);
}

static void fresh_slice(const char *name, size_t cpus, uint32_t full_slice)
{
	begin(name);
	memset(&m, 0x5a, sizeof(m));
	made(qoriwesh_machine_init_slice(&m, cpus, full_slice), cpus, full_slice);
}

/* With document 01's full slice. */
static void fresh(const char *name, size_t cpus)
{
	fresh_slice(name, cpus, 100);
}

/* With none named. */
static void fresh_default(const char *name, size_t cpus)
{
	begin(name);
	memset(&m, 0x5a, sizeof(m));
	made(qoriwesh_machine_init(&m, cpus), cpus, QORIWESH_SLICE_DEFAULT);
}

/* The moves of an accepted event, or a refusal's number, negative; a refused one changes nothing. */
static void event(uint32_t kind, uint32_t who, uint32_t a, uint32_t b, uint64_t mask, int want)
{
	static struct qoriwesh_machine before;

	memcpy(&before, &m, sizeof(m));
	same("the event's answer", qoriwesh_machine_event(&m, kind, who, a, b, mask), want);
	if (want < 0)
		same("what a refused event changed", memcmp(&before, &m, sizeof(m)) != 0, 0);
	else
		same("the check after the event", qoriwesh_machine_check(&m), 0);
}

static void add(uint32_t task, uint32_t prio, uint64_t mask)
{
	event(QORIWESH_ADD, task, QORIWESH_FIFO, prio, mask, 0);
}

static void add_rr(uint32_t task, uint32_t prio, uint64_t mask)
{
	event(QORIWESH_ADD, task, QORIWESH_RR, prio, mask, 0);
}

static void ticks(uint32_t times)
{
	uint32_t i;

	for (i = 0; i < times; i++)
		event(QORIWESH_TICK, 0, 0, 0, 0, 0);
}

static void wake(uint32_t task, int moves)
{
	event(QORIWESH_WAKE, task, 0, 0, 0, moves);
}

static void prio(uint32_t task, uint32_t want, int moves)
{
	event(QORIWESH_PRIORITY, task, 0, want, 0, moves);
}

static void sleeps(uint32_t task)
{
	event(QORIWESH_SLEEP, task, 0, 0, 0, 0);
}

static void affinity(uint32_t task, uint64_t mask, int want)
{
	event(QORIWESH_AFFINITY, task, 0, 0, mask, want);
}

static void offline(uint32_t cpu, int want)
{
	event(QORIWESH_OFFLINE, cpu, 0, 0, 0, want);
}

static void online(uint32_t cpu, int want)
{
	event(QORIWESH_ONLINE, cpu, 0, 0, 0, want);
}

/* A CPU's row: `count` tasks in run order, and 65535 behind them. */
static void row(int cpu, int count, const uint16_t *tasks)
{
	int i;

	same("a row's count", m.counts[cpu], count);
	for (i = 0; i < QORIWESH_TASKS; i++)
		same("a place of a row", m.rows[QORIWESH_TASKS * cpu + i], i < count ? tasks[i] : QORIWESH_NOTHING);
}

static void row1(int cpu, uint16_t first)
{
	row(cpu, 1, &first);
}

static void row2(int cpu, uint16_t first, uint16_t second)
{
	uint16_t tasks[2];

	tasks[0] = first;
	tasks[1] = second;
	row(cpu, 2, tasks);
}

static void row3(int cpu, uint16_t first, uint16_t second, uint16_t third)
{
	uint16_t tasks[3];

	tasks[0] = first;
	tasks[1] = second;
	tasks[2] = third;
	row(cpu, 3, tasks);
}

static void level(int cpu, int want)
{
	same("a level", m.levels[cpu], want);
}

static void logged(int i, int task, int from, int to, int displaced)
{
	const uint16_t *entry = &m.log[QORIWESH_LOG_WIDTH * i];

	same("the task in the log", entry[QORIWESH_LOG_TASK], task);
	same("the CPU it waited on", entry[QORIWESH_LOG_FROM], from);
	same("the CPU it went to", entry[QORIWESH_LOG_TO], to);
	same("the level of that CPU before", entry[QORIWESH_LOG_DISPLACED], displaced);
}

static void k1(void)
{
	fresh("K1", 1);
	add(0, 50, 1);
	wake(0, 0);
	row1(0, 0);
	level(0, 52);
}

static void k2(const char *name)
{
	fresh(name, 2);
	add(0, 50, 3);
	add(1, 40, 3);
	wake(1, 0);
	wake(0, 1);
	logged(0, 1, 0, 1, QORIWESH_LEVEL_IDLE);
	row1(0, 0);
	row1(1, 1);
	level(0, 52);
	level(1, 42);
}

static void k3_k4(void)
{
	k2("K3");
	add(2, 40, 3);
	wake(2, 0);
	row2(0, 0, 2);
	row1(1, 1);
	begin("K4");
	event(QORIWESH_SLEEP, 0, 0, 0, 0, 0);
	row1(0, 2);
	row1(1, 1);
}

static void k5_k6(void)
{
	fresh("K5", 3);
	add(0, 30, 3);
	add(1, 20, 6);
	add(2, 10, 4);
	add(3, 40, 1);
	wake(0, 0);
	wake(1, 0);
	wake(2, 0);
	row1(0, 0);
	row1(1, 1);
	row1(2, 2);
	wake(3, 2);
	logged(0, 0, 0, 1, 22);
	logged(1, 1, 1, 2, 12);
	unlogged(2);
	row1(0, 3);
	row1(1, 0);
	row2(2, 1, 2);
	level(0, 42);
	level(1, 32);
	level(2, 22);
	same("task 0's CPU", m.cpu[0], 1);
	same("task 1's CPU", m.cpu[1], 2);
	same("task 2's CPU", m.cpu[2], 2);
	same("task 3's CPU", m.cpu[3], 0);
	begin("K6");
	event(QORIWESH_SLEEP, 3, 0, 0, 0, 0);
	row(0, 0, NULL);
	level(0, QORIWESH_LEVEL_IDLE);
	row2(2, 1, 2);
	logged(0, 0, 0, 1, 22);
	logged(1, 1, 1, 2, 12);
}

/* After K6, one move: "log entries from that number on stay as they were". */
static void later_log(void)
{
	begin("the log after K6");
	add(4, 50, 2);
	wake(4, 1);
	logged(0, 0, 1, 0, QORIWESH_LEVEL_IDLE);
	logged(1, 1, 1, 2, 12);
	unlogged(2);
}

static void k7_k8(void)
{
	fresh("K7", 2);
	add(0, 60, 1);
	add(1, 50, 1);
	add(2, 40, 3);
	wake(0, 0);
	wake(1, 0);
	wake(2, 1);
	logged(0, 2, 0, 1, QORIWESH_LEVEL_IDLE);
	row2(0, 0, 1);
	row1(1, 2);
	k2("K8");
	event(QORIWESH_AFFINITY, 0, 0, 0, 2, 1);
	logged(0, 1, 1, 0, QORIWESH_LEVEL_IDLE);
	row1(0, 1);
	row1(1, 0);
}

static void k9(void)
{
	fresh_slice("K9", 1, 100);
	add_rr(0, 20, 1);
	add_rr(1, 20, 1);
	wake(0, 0);
	wake(1, 0);
	ticks(99);
	row2(0, 0, 1);
	same("the slice before the last tick", m.slice[0], 1);
	ticks(1);
	row2(0, 1, 0);
	same("the slice after it", m.slice[0], 100);
}

static void k10_k11(void)
{
	fresh("K10", 3);
	event(QORIWESH_ORDINARY, 1, 0, 1, 0, 0);
	add(0, 50, 7);
	add(1, 40, 7);
	wake(0, 0);
	wake(1, 1);
	logged(0, 1, 0, 2, QORIWESH_LEVEL_IDLE);
	row1(2, 1);
	level(1, QORIWESH_LEVEL_ORDINARY);
	fresh("K11", 1);
	add(0, 50, 1);
	add(1, 30, 1);
	wake(0, 0);
	wake(1, 0);
	row2(0, 0, 1);
	prio(0, 30, 0);
	row2(0, 0, 1);
	level(0, 32);
}

/* One CPU, and `count` tasks of these priorities, woken from the highest on: they stand in number order. */
static void one_row(const char *name, uint32_t count, const uint32_t *prios)
{
	uint32_t i;

	fresh(name, 1);
	for (i = 0; i < count; i++) {
		add(i, prios[i], 1);
		wake(i, 0);
	}
}

/* "stands behind every higher priority and before all others of the new one" */
static void lowered(void)
{
	static const uint32_t above_two[] = { 50, 30, 30 }, above_each[] = { 50, 40, 30 }, five[] = { 60, 50, 40, 30, 30 };
	static const uint16_t between[] = { 0, 2, 1, 3, 4 };

	one_row("lowered, and runs on", 3, above_two);
	prio(0, 30, 0);
	row3(0, 0, 1, 2);
	level(0, 32);
	one_row("lowered, and waits", 3, above_each);
	prio(0, 30, 0);
	row3(0, 1, 0, 2);
	level(0, 42);
	one_row("lowered while it waits", 5, five);
	prio(1, 30, 0);
	row(0, 5, between);
	level(0, 62);
}

/* "raised, it goes behind its equals; unchanged, it stays" */
static void raised_unchanged(void)
{
	static const uint32_t two_equals[] = { 50, 50, 30, 20 }, equals[] = { 30, 30, 30 };
	static const uint16_t third[] = { 0, 1, 3, 2 };
	uint32_t task;

	one_row("raised", 4, two_equals);
	prio(3, 50, 0);
	row(0, 4, third);
	level(0, 52);
	one_row("unchanged", 3, equals);
	for (task = 0; task < 3; task++) {
		prio(task, 30, 0);
		row3(0, 0, 1, 2);
	}
}

/* CPU 1 falls from level 62 to 32, and task 1, of level 42, waits on CPU 0. Then a task that itself comes to wait. */
static void lowered_moves(void)
{
	fresh("lowered, and another moves", 2);
	add(0, 50, 1);
	add(1, 40, 3);
	add(2, 60, 2);
	wake(0, 0);
	wake(2, 0);
	wake(1, 0);
	row2(0, 0, 1);
	prio(2, 30, 1);
	logged(0, 1, 0, 1, 32);
	unlogged(1);
	row1(0, 0);
	row2(1, 1, 2);
	level(1, 42);
	fresh("lowered, and moves", 2);
	add(0, 50, 3);
	add(1, 30, 1);
	wake(0, 0);
	wake(1, 0);
	prio(0, 30, 0);
	row2(0, 0, 1);
	prio(0, 20, 1);
	logged(0, 0, 0, 1, QORIWESH_LEVEL_IDLE);
	row1(0, 1);
	row1(1, 0);
}

/* "asleep: the number only": it then wakes behind its equals. */
static void lowered_sleeper(void)
{
	static struct qoriwesh_machine before;

	fresh("a sleeper lowered", 1);
	add(0, 30, 1);
	add(1, 50, 1);
	add(2, 20, 1);
	wake(0, 0);
	wake(2, 0);
	memcpy(&before, &m, sizeof(m));
	before.prio[1] = 30;
	prio(1, 30, 0);
	same("what else it changed", memcmp(&before, &m, sizeof(m)) != 0, 0);
	wake(1, 0);
	row3(0, 0, 1, 2);
}

/* Two equal SCHED_RR tasks, and as many ticks as the full slice has: the last one ends the slice of the first. */
static void whole_slice(uint32_t full_slice)
{
	add_rr(0, 20, 1);
	add_rr(1, 20, 1);
	wake(0, 0);
	wake(1, 0);
	same("the slice of a task that was added", m.slice[0], full_slice);
	ticks(full_slice - 1);
	row2(0, 0, 1);
	same("the slice before the last tick", m.slice[0], 1);
	ticks(1);
	row2(0, 1, 0);
	same("the slice after it", m.slice[0], full_slice);
	same("the slice of the other", m.slice[1], full_slice);
}

/* "W2 and kinds 1 and 7 use that number" */
static void slices(void)
{
	fresh_slice("a full slice of 1", 1, QORIWESH_SLICE_MIN);
	whole_slice(1);
	ticks(1);
	row2(0, 0, 1);
	add(2, 30, 1);
	wake(2, 0);
	ticks(3);
	row3(0, 2, 0, 1);
	same("a SCHED_FIFO task's slice", m.slice[2], 1);
	fresh_slice("a full slice of 25", 1, 25);
	whole_slice(25);
	fresh_default("no full slice named", 1);
	whole_slice(25);
	fresh_slice("a full slice of 1000", 1, QORIWESH_SLICE_MAX);
	whole_slice(1000);
}

/* A column that holds 60, checked with other full slices than the one that the machine was made with. */
static void sixty_left(void)
{
	fresh("60 ticks left", 1);
	add_rr(0, 20, 1);
	wake(0, 0);
	ticks(40);
	same("the slice", m.slice[0], 60);
	m.full_slice = 50;
	same("the check with 50", qoriwesh_machine_check(&m), -QORIWESH_EFORM);
	event(QORIWESH_TICK, 0, 0, 0, 0, -QORIWESH_EFORM);
	m.full_slice = 59;
	same("the check with 59", qoriwesh_machine_check(&m), -QORIWESH_EFORM);
	m.full_slice = 60;
	same("the check with 60", qoriwesh_machine_check(&m), 0);
	m.full_slice = 100;
	same("the check with 100", qoriwesh_machine_check(&m), 0);
	m.full_slice = 1000;
	add(1, 20, 1);
	same("the slice of a task added with 1000", m.slice[1], 1000);
	same("the slice of the other", m.slice[0], 60);
}

/* A refused machine leaves the earlier one as it was, with its numbers. */
static void refused(size_t cpus, uint32_t full_slice)
{
	static struct qoriwesh_machine before;

	memcpy(&before, &m, sizeof(m));
	same("the answer to N and the full slice", qoriwesh_machine_init_slice(&m, cpus, full_slice), -QORIWESH_ESIZE);
	same("what a refused machine changed", memcmp(&before, &m, sizeof(m)) != 0, 0);
}

static void refused_default(size_t cpus)
{
	static struct qoriwesh_machine before;

	memcpy(&before, &m, sizeof(m));
	same("the answer to N", qoriwesh_machine_init(&m, cpus), -QORIWESH_ESIZE);
	same("what a refused machine changed", memcmp(&before, &m, sizeof(m)) != 0, 0);
}

static void k12(void)
{
	k2("K12");
	refused(0, 100);
	refused(65, 100);
	refused_default(0);
	refused_default(65);
	add(2, 40, 3);
	fresh("K12", 2);
	event(QORIWESH_ADD, 512, QORIWESH_FIFO, 50, 1, -QORIWESH_ENUMBER);
	add(0, 50, 1);
	wake(0, 0);
	wake(0, -QORIWESH_ESTATE);
	event(QORIWESH_PRIORITY, 0, 0, 0, 0, -QORIWESH_EVALUE);
	event(QORIWESH_PRIORITY, 0, 0, 100, 0, -QORIWESH_EVALUE);
	event(QORIWESH_AFFINITY, 0, 0, 0, 0, -QORIWESH_EMASK);
	event(QORIWESH_AFFINITY, 0, 0, 0, 4, -QORIWESH_EMASK);
	event(QORIWESH_YIELD, 1, 0, 0, 0, -QORIWESH_EEMPTY);
	fresh("K12", 64);
	add(511, 1, 1);
	event(QORIWESH_PRIORITY, 511, 0, 99, 0, 0);
	wake(511, 0);
	level(0, QORIWESH_LEVEL_PRIO(99));
}

/* "its tasks leave front to back, each entering the lowest-numbered allowed online CPU"; back, the highest goes to it. */
static void leaves_and_back(void)
{
	fresh("offline and back", 2);
	add(0, 50, 3);
	add(1, 40, 3);
	add(2, 30, 3);
	wake(0, 0);
	wake(1, 1);
	wake(2, 0);
	row2(0, 0, 2);
	row1(1, 1);
	offline(0, 0);
	plugged(2);
	row(0, 0, NULL);
	row3(1, 0, 1, 2);
	level(0, QORIWESH_LEVEL_INVALID);
	level(1, 52);
	same("task 2's CPU", m.cpu[2], 1);
	same("the CPUs at level 52", m.level_counts[52], 1);
	online(0, 1);
	plugged(3);
	logged(0, 1, 1, 0, QORIWESH_LEVEL_IDLE);
	row1(0, 1);
	row2(1, 0, 2);
	fresh("offline among equals", 2);
	add(0, 40, 3);
	add(1, 40, 3);
	add(2, 40, 2);
	wake(2, 0);
	wake(0, 0);
	wake(1, 0);
	offline(0, 0);
	row3(1, 2, 0, 1);
}

/* Three masks, each with another lowest-numbered CPU beside the one that goes; then migrations that follow. */
static void leaves_by_mask(void)
{
	fresh("offline by masks", 4);
	add(10, 90, 1);
	add(11, 90, 4);
	add(12, 90, 8);
	wake(10, 0);
	wake(11, 0);
	wake(12, 0);
	add(0, 60, 10);
	add(1, 50, 6);
	add(2, 40, 2);
	wake(0, 0);
	wake(1, 0);
	wake(2, 0);
	affinity(2, 11, 0);
	row3(1, 0, 1, 2);
	offline(1, 0);
	row2(0, 10, 2);
	row(1, 0, NULL);
	row2(2, 11, 1);
	row2(3, 12, 0);
	fresh("offline, and moves", 3);
	add(0, 50, 3);
	add(1, 40, 6);
	wake(0, 0);
	wake(1, 0);
	offline(0, 1);
	logged(0, 1, 1, 2, QORIWESH_LEVEL_IDLE);
	row1(1, 0);
	row1(2, 1);
}

/* 10, then 11, then 12; "Where 9 and 11 both fit, 11 is given." */
static void offline_refused(void)
{
	fresh("refused for a CPU offline", 2);
	add(0, 50, 3);
	add(1, 40, 1);
	wake(0, 0);
	wake(1, 0);
	offline(0, -QORIWESH_ENOWHERE);
	plugged(3);
	online(0, -QORIWESH_EONLINE);
	sleeps(1);
	offline(0, 0);
	row1(1, 0);
	wake(1, -QORIWESH_ENOWHERE);
	affinity(0, 1, -QORIWESH_ENOWHERE);
	affinity(0, 4, -QORIWESH_EMASK);
	affinity(1, 1, 0);
	event(QORIWESH_TICK, 0, 0, 0, 0, -QORIWESH_EONLINE);
	event(QORIWESH_YIELD, 0, 0, 0, 0, -QORIWESH_EONLINE);
	offline(0, -QORIWESH_EONLINE);
	offline(1, -QORIWESH_ENOWHERE);
	sleeps(0);
	offline(1, -QORIWESH_ELAST);
	event(QORIWESH_YIELD, 1, 0, 0, 0, -QORIWESH_EEMPTY);
	offline(2, -QORIWESH_ENUMBER);
	online(2, -QORIWESH_ENUMBER);
	event(12, 0, 0, 0, 0, -QORIWESH_EKIND);
	plugged(2);
	fresh("refused for the only CPU", 1);
	offline(0, -QORIWESH_ELAST);
	online(0, -QORIWESH_EONLINE);
}

/* "Ordinary work on an offline CPU sets only the flag"; an add looks at the mask alone, a wake and a move at online CPUs. */
static void while_offline(void)
{
	fresh("ordinary work offline", 2);
	offline(1, 0);
	event(QORIWESH_ORDINARY, 1, 0, 1, 0, 0);
	same("the flag", m.flags[1], 1);
	level(1, QORIWESH_LEVEL_INVALID);
	online(1, 0);
	level(1, QORIWESH_LEVEL_ORDINARY);
	offline(1, 0);
	same("the flag", m.flags[1], 1);
	event(QORIWESH_ORDINARY, 1, 0, 0, 0, 0);
	online(1, 0);
	level(1, QORIWESH_LEVEL_IDLE);
	fresh("placed online", 3);
	offline(1, 0);
	add(0, 50, 6);
	same("the CPU of a task that was added", m.cpu[0], 1);
	wake(0, 0);
	same("the CPU of a task that woke", m.cpu[0], 2);
	add(1, 60, 7);
	add(2, 40, 3);
	wake(1, 0);
	wake(2, 0);
	row2(0, 1, 2);
	affinity(1, 6, 0);
	row1(0, 2);
	row2(2, 1, 0);
}

/* 64 CPUs go one after the other, until the last. */
static void one_after_the_other(void)
{
	uint32_t cpu;

	fresh("one after the other", QORIWESH_CPUS);
	add(0, 50, UINT64_MAX);
	wake(0, 0);
	for (cpu = 0; cpu < 63; cpu++) {
		offline(cpu, 0);
		plugged(~below(cpu + 1));
		row1(QORIWESH_INT(cpu) + 1, 0);
	}
	offline(63, -QORIWESH_ENOWHERE);
	sleeps(0);
	offline(63, -QORIWESH_ELAST);
	for (cpu = 0; cpu < 63; cpu++)
		online(cpu, 0);
	plugged(UINT64_MAX);
}

/* The parameters that lend the machine's tables with another online mask and log. */
#define TABLES_WITH(m, word, numbers, length) \
	(m)->state, QORIWESH_TASKS, (m)->policy, QORIWESH_TASKS, \
	(m)->prio, QORIWESH_TASKS, (m)->cpu, QORIWESH_TASKS, \
	(m)->slice, QORIWESH_TASKS, (m)->mask, QORIWESH_TASKS, \
	(m)->rows, QORIWESH_TASKS * (m)->cpus, \
	(m)->counts, (m)->cpus, (m)->flags, (m)->cpus, \
	(word), (numbers), (length), \
	(m)->level_masks, QORIWESH_LEVELS, (m)->level_counts, QORIWESH_LEVELS, \
	(m)->level_words, QORIWESH_WORDS, (m)->levels, QORIWESH_CPUS

/* The same with the machine's two numbers. */
#define LEND_WITH(m, word, numbers, length) (m)->cpus, (m)->full_slice, TABLES_WITH(m, word, numbers, length)

/* The machine's tables with another word as its online mask. */
#define LEND_ONLINE(m, word) LEND_WITH(m, word, (m)->log, QORIWESH_LOG)

/* An event by the entry itself, with a word that is handed in and back: what it answers, and what the word is then. */
static void raw(uint64_t word, uint32_t kind, uint32_t who, uint8_t answer, uint64_t want)
{
	uint32_t moves = 7;

	same("the entry's answer", qoriwesh_event(LEND_ONLINE(&m, &word), kind, who, 0, 0, 0, &moves), answer);
	same("its moves", QORIWESH_INT(moves), 0);
	same("whether the word is the right one", word == want, 1);
}

/* "carried like the record, all N when fresh": the word in and out, also when it is refused, and in the makers. */
static void online_words(void)
{
	uint64_t word = 0;
	uint32_t made_slice = 7;

	fresh("the online word", 2);
	raw(3, QORIWESH_OFFLINE, 1, QORIWESH_OK, 1);
	raw(1, QORIWESH_OFFLINE, 0, QORIWESH_ELAST, 1);
	raw(1, QORIWESH_OFFLINE, 1, QORIWESH_EONLINE, 1);
	raw(1, QORIWESH_ONLINE, 2, QORIWESH_ENUMBER, 1);
	raw(0, QORIWESH_ONLINE, 1, QORIWESH_EFORM, 0);
	raw(3, QORIWESH_TICK, 0, QORIWESH_EFORM, 3);
	raw(5, QORIWESH_ONLINE, 1, QORIWESH_EFORM, 5);
	raw(1, QORIWESH_ONLINE, 1, QORIWESH_OK, 3);
	same("the check with no CPU online", qoriwesh_check(LEND_ONLINE(&m, &word)), QORIWESH_EFORM);
	word = 1;
	same("the check with an idle CPU offline", qoriwesh_check(LEND_ONLINE(&m, &word)), QORIWESH_EFORM);
	word = UINT64_MAX;
	same("the check with bits past N", qoriwesh_check(LEND_ONLINE(&m, &word)), QORIWESH_EFORM);
	same("the fresh machine", qoriwesh_make_fresh(LEND_ONLINE(&m, &word), &made_slice), QORIWESH_OK);
	same("whether both CPUs are online", word == 3, 1);
	same("the check with them", qoriwesh_check(LEND_ONLINE(&m, &word)), QORIWESH_OK);
	word = 0;
	same("the default one",
	     qoriwesh_make_fresh_default(m.cpus, TABLES_WITH(&m, &word, m.log, QORIWESH_LOG), &made_slice), QORIWESH_OK);
	same("whether both CPUs are online", word == 3, 1);
}

/* The four entries that are lent a log, on one of another length: each is refused, and changes nothing. */
static void log_refused(size_t length)
{
	static struct qoriwesh_machine before;
	uint16_t numbers[QORIWESH_LOG + 1], kept[QORIWESH_LOG + 1];
	uint32_t moves = 7, made_slice = 7, default_slice = 7;

	memset(numbers, 0x5a, sizeof(numbers));
	memcpy(kept, numbers, sizeof(numbers));
	memcpy(&before, &m, sizeof(m));
	same("the check with this log", qoriwesh_check(LEND_WITH(&m, &m.online, numbers, length)), QORIWESH_ESIZE);
	same("the event with this log",
	     qoriwesh_event(LEND_WITH(&m, &m.online, numbers, length), QORIWESH_SLEEP, 0, 0, 0, 0, &moves),
	     QORIWESH_ESIZE);
	same("its moves", QORIWESH_INT(moves), 0);
	same("the fresh machine with this log",
	     qoriwesh_make_fresh(LEND_WITH(&m, &m.online, numbers, length), &made_slice), QORIWESH_ESIZE);
	same("its full slice", made_slice, 0);
	same("the default one with this log",
	     qoriwesh_make_fresh_default(m.cpus, TABLES_WITH(&m, &m.online, numbers, length), &default_slice),
	     QORIWESH_ESIZE);
	same("its full slice", default_slice, 0);
	same("what they changed in the log", memcmp(kept, numbers, sizeof(numbers)) != 0, 0);
	same("what they changed", memcmp(&before, &m, sizeof(m)) != 0, 0);
}

/* "The log becomes 252 numbers, 63 entries of four, and refusal 1 [...] follow" */
static void lengths(void)
{
	uint16_t numbers[QORIWESH_LOG];

	k2("lengths of the log");
	same("its numbers", QORIWESH_LOG, 252);
	memset(numbers, 0x5a, sizeof(numbers));
	same("the check with 252 numbers", qoriwesh_check(LEND_WITH(&m, &m.online, numbers, QORIWESH_LOG)), QORIWESH_OK);
	log_refused(0);
	log_refused(189);
	log_refused(QORIWESH_LOG - 1);
	log_refused(QORIWESH_LOG + 1);
}

/* "given to the maker, handed back by it (25 by a second maker told none, 0 on a refusal)", whatever the tables held */
static void handed_back(size_t cpus, uint32_t full_slice, uint8_t answer)
{
	static struct qoriwesh_machine before;
	uint32_t made_slice = 7;

	memset(&m, 0x5a, sizeof(m));
	memcpy(&before, &m, sizeof(m));
	same("the maker's answer",
	     qoriwesh_make_fresh(cpus, full_slice, QORIWESH_LEND_TABLES(&m, cpus), &made_slice), answer);
	same("what it hands back", made_slice, answer ? 0 : full_slice);
	same("whether it left every byte", memcmp(&before, &m, sizeof(m)) == 0, answer != 0);
}

static void handed_back_default(size_t cpus, uint8_t answer)
{
	static struct qoriwesh_machine before;
	uint32_t made_slice = 7;

	memset(&m, 0x5a, sizeof(m));
	memcpy(&before, &m, sizeof(m));
	same("the second maker's answer",
	     qoriwesh_make_fresh_default(cpus, QORIWESH_LEND_TABLES(&m, cpus), &made_slice), answer);
	same("what it hands back", made_slice, answer ? 0 : 25);
	same("whether it left every byte", memcmp(&before, &m, sizeof(m)) == 0, answer != 0);
}

static void makers(void)
{
	begin("the makers");
	handed_back(2, 1, QORIWESH_OK);
	handed_back(2, 25, QORIWESH_OK);
	handed_back(64, 1000, QORIWESH_OK);
	handed_back(0, 100, QORIWESH_ESIZE);
	handed_back(65, 100, QORIWESH_ESIZE);
	handed_back(65, 0, QORIWESH_ESIZE);
	handed_back_default(1, QORIWESH_OK);
	handed_back_default(64, QORIWESH_OK);
	handed_back_default(0, QORIWESH_ESIZE);
	handed_back_default(65, QORIWESH_ESIZE);
}

/* "one out of range is refused with 1", by each entry that is handed it. */
static void slice_refused(uint32_t full_slice)
{
	begin("a full slice out of range");
	handed_back(2, full_slice, QORIWESH_ESIZE);
	k2("a full slice out of range");
	refused(2, full_slice);
	m.full_slice = full_slice;
	same("the check with it", qoriwesh_machine_check(&m), -QORIWESH_ESIZE);
	event(QORIWESH_SLEEP, 0, 0, 0, 0, -QORIWESH_ESIZE);
	event(12, 0, 0, 0, 0, -QORIWESH_ESIZE);
	m.full_slice = 100;
	event(QORIWESH_SLEEP, 0, 0, 0, 0, 0);
}

static void slices_refused(void)
{
	slice_refused(0);
	slice_refused(1001);
	slice_refused(65535);
	slice_refused(65536);
	slice_refused(65536 + 25);
	slice_refused(UINT32_MAX);
}

/* What the finder gives: where nothing is written, 7 is left. */
static void finds(uint32_t asked, uint64_t mask, int answer, int level_found, uint64_t cpus, uint32_t masks)
{
	uint8_t found_level = 7;
	uint64_t found_mask = 7;
	uint32_t masks_read = 7;

	same("the finder's answer", qoriwesh_machine_find(&m, asked, mask, &found_level, &found_mask, &masks_read), answer);
	same("the level found", found_level, level_found);
	same("whether the CPUs found are the right ones", found_mask == cpus, 1);
	same("the masks read", masks_read, masks);
}

static void found(uint32_t asked, uint64_t mask, int level_found, uint64_t cpus, uint32_t masks)
{
	finds(asked, mask, 0, level_found, cpus, masks);
}

/* "None is answer 0 with level 255 and mask 0"; "all of them on none" */
static void found_none(uint32_t asked, uint64_t mask, uint32_t masks)
{
	finds(asked, mask, 0, QORIWESH_LEVEL_INVALID, 0, masks);
}

/* "a refusing finder gives its number with the same 255 and 0"; "0 on a refusal" */
static void not_found(uint32_t asked, uint64_t mask, int refusal)
{
	finds(asked, mask, -refusal, QORIWESH_LEVEL_INVALID, 0, 0);
}

/* Levels 52 and 42. The asked level has no part in the count, whether it has a CPU or not. */
static void find_two_levels(void)
{
	k2("find");
	found(QORIWESH_LEVEL_PRIO(50), 3, 42, 2, 1);
	found(101, 3, 42, 2, 1);
	found(101, 1, 52, 1, 2);
	found(53, 1, 52, 1, 2);
	found_none(52, 1, 1);
	found_none(43, 1, 1);
	found_none(42, 3, 0);
	found_none(42, 1, 0);
	found_none(0, 3, 0);
}

/* Six CPUs at levels 63, 64, 65, 101, 1 and 0: the bits of both words. */
static void find_both_words(void)
{
	uint32_t cpu;

	fresh("find in both words", 6);
	for (cpu = 0; cpu < 4; cpu++) {
		add(cpu, cpu < 3 ? 61 + cpu : 99, UINT64_C(1) << cpu);
		wake(cpu, 0);
	}
	event(QORIWESH_ORDINARY, 4, 0, 1, 0, 0);
	found(101, 63, 0, 32, 1);
	found(101, 31, 1, 16, 2);
	found(101, 15, 63, 1, 3);
	found(101, 14, 64, 2, 4);
	found(101, 12, 65, 4, 5);
	found_none(101, 8, 5);
	found(66, 12, 65, 4, 5);
	found_none(65, 12, 4);
	found(65, 14, 64, 2, 4);
	found_none(64, 14, 3);
	found(64, 15, 63, 1, 3);
	found_none(63, 15, 2);
	found_none(2, 15, 2);
	found_none(1, 31, 1);
	found(1, 63, 0, 32, 1);
	found_none(0, 63, 0);
}

/* "one for each level", however many CPUs are at it, and an offline CPU is at none; 64 levels are the most. */
static void find_counts_levels(void)
{
	uint32_t cpu;

	fresh("find among many", QORIWESH_CPUS);
	found(101, UINT64_MAX, 0, UINT64_MAX, 1);
	for (cpu = 0; cpu < 63; cpu++)
		offline(cpu, 0);
	found_none(101, UINT64_MAX >> 1, 1);
	for (cpu = 0; cpu < 63; cpu++)
		online(cpu, 0);
	for (cpu = 0; cpu < QORIWESH_CPUS; cpu++) {
		add(cpu, 98 - cpu, UINT64_C(1) << cpu);
		wake(cpu, 0);
	}
	for (cpu = 0; cpu < QORIWESH_CPUS; cpu++) {
		found(101, UINT64_C(1) << cpu, 100 - QORIWESH_INT(cpu), UINT64_C(1) << cpu, 64 - cpu);
		found_none(100 - cpu, UINT64_C(1) << cpu, 63 - cpu);
	}
}

/* The entry itself on a record of other lengths, or for another N. */
static void find_lent(size_t n, size_t masks, size_t counts, size_t words, size_t cpus)
{
	uint8_t found_level = 7;
	uint64_t found_mask = 7;
	uint32_t masks_read = 7;

	same("the entry's answer",
	     qoriwesh_find(n, m.level_masks, masks, m.level_counts, counts, m.level_words, words, m.levels, cpus, 101, 3,
			   &found_level, &found_mask, &masks_read),
	     QORIWESH_ESIZE);
	same("the level found", found_level, QORIWESH_LEVEL_INVALID);
	same("whether no CPU is found", found_mask == 0, 1);
	same("the masks read", masks_read, 0);
}

static void find_refused(void)
{
	k2("find, refused");
	not_found(102, 1, QORIWESH_EVALUE);
	not_found(256 + 52, 1, QORIWESH_EVALUE);
	not_found(UINT32_MAX, 1, QORIWESH_EVALUE);
	not_found(102, 0, QORIWESH_EVALUE);
	not_found(101, 0, QORIWESH_EMASK);
	not_found(101, 4, QORIWESH_EMASK);
	not_found(101, UINT64_MAX, QORIWESH_EMASK);
	find_lent(0, QORIWESH_LEVELS, QORIWESH_LEVELS, QORIWESH_WORDS, QORIWESH_CPUS);
	find_lent(65, QORIWESH_LEVELS, QORIWESH_LEVELS, QORIWESH_WORDS, QORIWESH_CPUS);
	find_lent(2, QORIWESH_LEVELS - 1, QORIWESH_LEVELS, QORIWESH_WORDS, QORIWESH_CPUS);
	find_lent(2, QORIWESH_LEVELS, 0, QORIWESH_WORDS, QORIWESH_CPUS);
	find_lent(2, QORIWESH_LEVELS, QORIWESH_LEVELS, 1, QORIWESH_CPUS);
	find_lent(2, QORIWESH_LEVELS, QORIWESH_LEVELS, QORIWESH_WORDS, 2);
	m.level_words[1] |= UINT64_C(1) << 38;
	not_found(101, 1, QORIWESH_EFORM);
	not_found(102, 0, QORIWESH_EFORM);
}

/* What the other examples do not reach: kinds, policies, damage. */
static void others(void)
{
	k2("refusals");
	event(12, 0, 0, 0, 0, -QORIWESH_EKIND);
	event(QORIWESH_ADD, 5, 3, 50, 1, -QORIWESH_EPOLICY);
	m.levels[63] = 0;
	same("a damaged record", qoriwesh_machine_check(&m), -QORIWESH_EFORM);
	event(QORIWESH_WAKE, 0, 0, 0, 0, -QORIWESH_EFORM);
}

int main(void)
{
	k1();
	k2("K2");
	k3_k4();
	k5_k6();
	later_log();
	k7_k8();
	k9();
	slices();
	sixty_left();
	makers();
	slices_refused();
	k10_k11();
	lowered();
	raised_unchanged();
	lowered_moves();
	lowered_sleeper();
	leaves_and_back();
	leaves_by_mask();
	offline_refused();
	while_offline();
	one_after_the_other();
	online_words();
	k12();
	lengths();
	find_two_levels();
	find_both_words();
	find_counts_levels();
	find_refused();
	others();
	if (!wrong)
		printf("K1 to K12, new priorities, full slices, CPUs offline, the finder and the refusals are as the documents "
		       "say\n");
	return wrong;
}
