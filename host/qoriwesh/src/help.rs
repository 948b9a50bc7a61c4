//! What `--help` says.

pub const MAIN: &str = "\
qoriwesh - where SCHED_FIFO and SCHED_RR tasks run on 1 to 64 CPUs

usage: qoriwesh examples [NAME ...]     show the marked examples K1 to K12
       qoriwesh explain [FILE]          run the events of a text, one a line
       qoriwesh find [FILE] LEVEL CPUS  run them, and ask which CPUs are lowest
       qoriwesh replay [FILE ...]       replay recordings and say what they give
       qoriwesh record [FILE]           write a text of events as a recording
       qoriwesh text [FILE]             write a recording as a text of events
       qoriwesh help [COMMAND]          say more about a command
       qoriwesh --help | --version

Every answer, move, row and level comes from the proved library. The tool only
shows them: after each event its answer; the tasks that leave a CPU which goes
offline; the moves, with what each displaced; and rows and levels, unless they
are as they were.

  CPU 2  level  22  task 1 (20)  waiting: 2 (10)

Task 1 of priority 20 runs on CPU 2; task 2 of priority 10 waits for it. An rr
task also shows the ticks it has left: 1 (20, rr 25). A level is 0 for an idle
CPU, 1 for one with ordinary work only, and the priority that runs plus 2. An
offline CPU has no level.

exit status: 0  all is well
             1  an event or a question was refused, an example is not as
                document 01 says, or a recording is cut or stopped
             2  an error: the command line, a line of the text, input or output
";

pub const EXAMPLES: &str = "\
usage: qoriwesh examples [NAME ...]

Runs the marked examples of document 01, or those named (K5 or k5), step by step
through the library, and compares each value that document 01 gives. The fourth
numbers of log entries are those of document 02, request L2, and K11's row is
that of request L3. All name document 01's slice of 100 ticks, as request L7
asks of K9.

exit status: 0 if all are as document 01 says, 1 if one differs, 2 on an error.
";

pub const EXPLAIN: &str = "\
usage: qoriwesh explain [FILE]

Reads events from FILE, or from standard input (also for '-'), and runs them on
a fresh machine. The whole text is read first: if a line cannot be read, it is
told with its number, and no event is run.

One command a line; '#' begins a comment; blank lines are skipped.

  cpus N [slice TICKS [named]]   a fresh machine of N CPUs. Comes first; again,
                                 it starts a new machine. A full slice of an rr
                                 task has so many ticks, 1 to 1000; 25 if none
                                 are named. The word 'named' is for recordings
  add TASK POLICY PRIORITY CPUS  a task, asleep. POLICY is fifo or rr (or a
                                 name or number of the kernel's)
  remove TASK                    a sleeping task goes
  wake TASK                      a sleeping task becomes runnable
  sleep TASK                     a runnable task goes to sleep
  prio TASK PRIORITY             1 to 99, the larger the higher. Raised, a
                                 runnable task goes behind its equals; lowered,
                                 before them
  affinity TASK CPUS             the CPUs that the task may use
  tick CPU [TIMES]               the clock ticks, once or up to 10000 times. An
                                 rr task whose slice ends has a full one again
                                 and goes behind its equals
  yield CPU                      the running task goes behind its equals
  ordinary CPU on|off            the CPU has ordinary work, or none
  offline CPU                    the CPU is taken out. Its tasks leave, the
                                 first of them first, each for the lowest-
                                 numbered online CPU that it may use
  online CPU                     the CPU is back
  event KIND WHO A B MASK        the five numbers as the library takes them
  @MICROSECONDS EVENT            any of these but 'cpus', with its time, which
                                 is shown. 'qoriwesh record' writes it

CPUS is a list as in taskset -c or a cpuset (0-1,3 or 0-7:2) or a mask (0x0b).
Numbers are decimal. A number that the library can be asked with is passed on,
also if it is out of range: the library's refusal is shown, with its number from
document 01 (10 to 12: document 02, request L8), nothing is changed, and the
next line follows. A refused 'cpus' leaves the earlier machine; without one,
each event is refused with 1.

exit status: 0 if all was accepted, 1 if something was refused, 2 on an error.
";

pub const FIND: &str = "\
usage: qoriwesh find [FILE] LEVEL CPUS

Runs the events of a text, as 'qoriwesh help explain' describes it, and asks the
library's finder on the machine that they lead to: which is the lowest level
below LEVEL that one of CPUS is at? The text is in FILE, or comes from standard
input (also for '-').

LEVEL is 0 to 101; for a task of priority P it is P plus 2. CPUS is a list as in
taskset -c or a cpuset (0-1,3 or 0-7:2) or a mask (0x0b).

Of the events those that were refused are shown, then rows and levels after the
last one, and then

  asked       CPUS and LEVEL
  found       that level and what it means, with those of CPUS that are at it;
              or 'none'
  masks read  how many masks of CPUs the search read: one for each level below
              LEVEL that has a CPU, of CPUS or not, up to the level found, or
              for all of them on 'none'

A LEVEL over 101, or CPUS of which there are none or one is not there, is the
library's to refuse: the refusal is shown with its number from document 01, and
no mask was read. Without a machine every question is refused.

What takes over a second says how far it is, if standard error is a terminal.

exit status: 0 if nothing was refused, also on 'none', 1 if an event or the
question was refused, 2 on an error.
";

pub const REPLAY: &str = "\
usage: qoriwesh replay [FILE ...]

Replays recordings through the library, each FILE on a fresh machine of its own
('-' and no FILE: standard input), and says for each

  machine   the CPUs and the slice that its first record gives
  events    how many it has
  refused   how many of them were refused and skipped, and with which numbers
  moves     how many migrations followed the others
  night     the time from the first event to the last, and their stamps
  CPU       how long each CPU had a real-time task, in seconds and in per cent
            of the night

and at last that it is 'whole', 'cut' within the record at the byte that is
named, or 'stopped' at such a record, and why. All the rest is what the whole
records before that byte give; without a good first record there is none.

Stamps run past 4294967295 to 0: the time between two events is the difference
modulo 2^32.

The library reports no number of events, which numbers they were refused with,
nor the night: these are the tool's. It reads the bytes itself and runs the
events once more, one by one; if that gives other counts, tables or another
ending than the replay, the tool says so and ends with 2.

Of an input no more is read than the longest recording has, 65536 records, and
one byte, which is too many. What takes over a second says how far it is, if
standard error is a terminal.

exit status: 0 if all recordings are whole and no event was refused, 1 if not,
2 on an error. A FILE that cannot be read is told, and the next one follows.
";

pub const RECORD: &str = "\
usage: qoriwesh record [FILE] > RECORDING

Writes the events of a text, as 'qoriwesh help explain' describes it, to
standard output as a recording. The text is in FILE, or comes from standard
input (also for '-').

'@1500 wake 3' gives the event the stamp 1500, in microseconds. An event without
one has the stamp of the event before it, at first 0; so has each of the ticks
of 'tick CPU TIMES'. 'cpus N slice 100' is written as a record that names no
slice (kind 0), unless 'named' follows; any other slice, also the 25 of 'cpus N'
alone, is named (kind 12). Numbers of 'event' that its kind does not use are not
kept.

No recording holds a second 'cpus', 0 or over 64 CPUs, a slice not 1 to 1000, a
kind not 1 to 11, a task over 65535, another number over 255 or more than 65536
records with 'cpus'. Such a line is told with its number, and nothing is
written; nor is a recording written to a terminal.

exit status: 0 if it is written, 2 on an error.
";

pub const TEXT: &str = "\
usage: qoriwesh text [FILE]

Writes the recording in FILE, or from standard input (also for '-'), as the text
that 'qoriwesh record' and 'qoriwesh explain' read: 'cpus N slice TICKS', then
each event with its stamp. 'qoriwesh record' makes the same bytes of it.

Numbers out of range are written as they are. A policy other than fifo and rr is
a number, and so is ordinary work neither on nor off; CPUs are a mask (0x0) if
there are none, or if their list has over 18 characters. 'cpus N slice 100
named' is a first record that names the slice although it is 100.

Of a recording that is cut or stopped, the whole records before that are
written, and standard error says how it ends.

exit status: 0 if the recording is whole, 1 if it is cut or stopped, 2 on an
error.
";
