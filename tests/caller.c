/* Makes the calls of the tests and holds each answer to the one that is due. It reads lines, some with bytes after them, from its standard input
   and ends with status 0 and the count of calls when all answers were right. At the first wrong one it says which call of which input it was, and ends with status 1.

   A lent buffer ends at a page that can be neither read nor written, or begins right after one. The job's pages can only be read, and so can the
   plan's but in a call that is to write it, and the index's and the counters'. Slips and formulas are lent where a job is, traces where a plan is, and a Goal body or a salvaged job is
   written there, and a list of pairs where counters are. The plans for slips of the arm, one for each count, have memory of their own. `caller N`, N from 0 to 14, steps over one of these fences. */

#define _DEFAULT_SOURCE
#include <signal.h>
#include <stdio.h>
#include <stdlib.h>
#include <string.h>
#include <sys/mman.h>
#include <time.h>
#include <unistd.h>

#include "cabinet.h"

enum { PAGE = 4096, JOB_SIZE = 28 * PAGE, PLAN_SIZE = 17 * PAGE, INDEX_SIZE = 5 * PAGE, COUNTERS_SIZE = 130 * PAGE, LAYERS_SIZE = 65 * PAGE };
enum { INPUT, DUE, LEND, PLAN, START, FOLLOW, ADVICE, TIME, GOAL, DUE_INDEX, INDEXED, CHECK, TIME_START, TIME_FOLLOW, TIME_CHECK,
       DUE_LAYERS, LEND_LAYERS, PLAN_SLIPS, ADVICE_SLIPS, TIME_SLIPS, JUDGE, JUDGE_ALL, TIME_JUDGE,
       DUE_PAIRS, SALVAGE };

/* A line: what to do, the side of the fence (1: buffers begin after it), how many bytes come after it, the call's figures, the answer that is due. */
static struct {
  uint32_t what, side, length, figures[4], due[5];
} line;

/* Memory between two fences. No page is shared with another process: an emulator slows every call down once one is. */
typedef struct {
  uint8_t *inside;
  size_t size;
  int rights;
} fenced;

static fenced jobs = {NULL, JOB_SIZE, PROT_NONE}, plans = {NULL, PLAN_SIZE, PROT_NONE};
static fenced indexes = {NULL, INDEX_SIZE, PROT_NONE}, counts = {NULL, COUNTERS_SIZE, PROT_NONE}, layers = {NULL, LAYERS_SIZE, PROT_NONE};

static uint8_t due_plan[PLAN_SIZE], due_index[INDEX_SIZE], zeros[COUNTERS_SIZE], pool[2 * COUNTERS_SIZE], due_layers[LAYERS_SIZE];
static uint32_t job_len, due_len, due_index_len, due_counters_len, due_layers_len, due_pairs_len, lent_len, lent_layers_len, input[2], calls;
static uint8_t due_pairs[CABINET_PAIRS_MAX];
static unsigned long long all_calls;

static void fail(const char *why) {
  fprintf(stderr, "caller: %s\n", why);
  exit(2);
}

/* Says where it went wrong and how. */
static void wrong(const char *how, const uint32_t *found, const uint32_t *due, int count) {
  printf("%llu %u %s", (unsigned long long)input[1] << 32 | input[0], (unsigned)calls, how);
  for (int i = 0; i < count; i++) printf(" %u", (unsigned)found[i]);
  if (count > 0) printf(", due");
  for (int i = 0; i < count; i++) printf(" %u", (unsigned)due[i]);
  printf("\n");
  fflush(stdout);
  _exit(1);
}

/* An emulator may start a handler with the stack out of line, hence the attribute. */
__attribute__((force_align_arg_pointer)) static void ended(int number) {
  char how[80];
  signal(number, SIG_DFL); /* a second one ends the run at once */
  snprintf(how, sizeof how, "the call did not return: %s (signal %d)", number == SIGSEGV ? "memory fence touched" : "sudden end", number);
  wrong(how, NULL, NULL, 0);
}

/* From now on the memory can be read, or read and written. */
static void set_rights(fenced *memory, int rights) {
  if (memory->rights != rights && mprotect(memory->inside, memory->size, rights) != 0) fail("no rights set on memory");
  memory->rights = rights;
}

static void set_fences(fenced *memory) {
  uint8_t *all = mmap(NULL, memory->size + 2 * PAGE, PROT_NONE, MAP_PRIVATE | MAP_ANONYMOUS, -1, 0);
  if (all == MAP_FAILED) fail("no memory for fences");
  memory->inside = all + PAGE;
}

/* Where a buffer of this length begins. */
static uint8_t *place(const fenced *memory, size_t length) { return memory->inside + (line.side ? 0 : memory->size - length); }

/* Puts the bytes that follow the line against the fence and locks them. */
static uint32_t take(fenced *memory) {
  if (line.length > memory->size) fail("a line with too many bytes");
  set_rights(memory, PROT_READ | PROT_WRITE);
  if (fread(place(memory, line.length), 1, line.length, stdin) != line.length) fail("a line without its bytes");
  set_rights(memory, PROT_READ);
  return line.length;
}

/* Holds bytes of lent memory to those that are due; the first has this place in the lent buffer. */
static void same_bytes(const char *name, const uint8_t *found, const uint8_t *due, size_t count, long first) {
  if (memcmp(found, due, count) == 0) return;
  size_t i = 0;
  while (found[i] == due[i]) i++;
  char how[80];
  uint32_t byte[] = {found[i]}, should[] = {due[i]};
  snprintf(how, sizeof how, "byte %ld of the %s buffer:", first + (long)i, name);
  wrong(how, byte, should, 1);
}

/* What the memory of the plan holds before a call that is to write there. */
static const uint8_t *held_before(void) { return pool + line.figures[1] % PLAN_SIZE; }

/* A buffer of this length to be written to, its memory filled; where the call is to be refused, it can only be read. */
static uint8_t *lend(uint32_t room) {
  int good = line.due[0] == CABINET_OK;
  set_rights(&plans, good ? PROT_READ | PROT_WRITE : PROT_READ);
  if (good) memcpy(plans.inside, held_before(), PLAN_SIZE);
  return place(&plans, room);
}

/* Holds the memory of the plan to what a call that was to succeed, and did, has to leave. */
static void same_memory(const uint8_t *lent, uint32_t refusal) {
  if (line.due[0] != CABINET_OK || refusal != CABINET_OK) return;
  size_t at = (size_t)(lent - plans.inside), end = at + due_len;
  const uint8_t *before = held_before();
  same_bytes("plan", plans.inside, before, at, -(long)at);
  same_bytes("plan", lent, due_plan, due_len, 0);
  same_bytes("plan", plans.inside + end, before + end, PLAN_SIZE - end, (long)due_len);
}

/* So many bytes beside a buffer of words, of plans for slips or of pairs are held to as well, on the side where it touches no fence. */
enum { BESIDE = 256 };

/* Where the bytes that are filled and held to begin, and how many they are. */
static uint8_t *window(const fenced *memory, size_t lent, size_t *count) {
  size_t beside = memory->size - lent < BESIDE ? memory->size - lent : BESIDE;
  *count = lent + beside;
  return place(memory, *count);
}

/* So many bytes to be written to, with what the memory holds before chosen by a figure; where the call is to be refused, they can only be read. */
static uint8_t *lend_beside(fenced *memory, size_t lent) {
  size_t count;
  int good = line.due[0] == CABINET_OK;
  if (lent > memory->size) fail("too many bytes lent");
  set_rights(memory, good ? PROT_READ | PROT_WRITE : PROT_READ);
  uint8_t *from = window(memory, lent, &count);
  if (good) memcpy(from, held_before(), count);
  return place(memory, lent);
}

/* Holds those bytes to what a call that was to succeed, and did, has to leave: the first are due, and all others as before. */
static void same_beside(const char *name, const fenced *memory, size_t length, const uint8_t *due, size_t due_count, uint32_t refusal) {
  if (line.due[0] != CABINET_OK || refusal != CABINET_OK) return;
  size_t count;
  const uint8_t *from = window(memory, length, &count), *lent = place(memory, length), *before = held_before();
  size_t at = (size_t)(lent - from), end = at + due_count;
  same_bytes(name, from, before, at, -(long)at);
  same_bytes(name, lent, due, due_count, 0);
  same_bytes(name, from + end, before + end, count - end, (long)due_count);
}

/* Plans with so many words of index and counters. */
static cabinet_planned plan_indexed(const uint8_t *job, const uint32_t *f) {
  uint8_t *lent = lend(f[0]);
  size_t index_size = 2 * (size_t)f[2], counters_size = 2 * (size_t)f[3];
  uint16_t *index = (uint16_t *)lend_beside(&indexes, index_size), *counters = (uint16_t *)lend_beside(&counts, counters_size);
  cabinet_planned planned = cabinet_plan_indexed(job, job_len, lent, f[0], index, f[2], counters, f[3]);
  same_memory(lent, planned.refusal);
  same_beside("index", &indexes, index_size, due_index, due_index_len, planned.refusal);
  same_beside("counters", &counts, counters_size, zeros, 2 * (size_t)due_counters_len, planned.refusal);
  return planned;
}

/* Salvages into the memory of plans, with room for so many bytes of pairs in that of counters. */
static cabinet_salvaged salvage(const uint8_t *job, const uint32_t *f) {
  uint8_t *lent = lend(f[0]), *pairs = lend_beside(&counts, f[2]);
  cabinet_salvaged salvaged = cabinet_salvage(job, job_len, lent, f[0], pairs, f[2]);
  same_memory(lent, salvaged.refusal);
  same_beside("pairs", &counts, f[2], due_pairs, due_pairs_len, salvaged.refusal);
  return salvaged;
}

/* The time of so many calls of planning, by the second engine where it is asked for, or of writing a goal over so many propositions, in nanoseconds. */
static void say_time(const uint8_t *job, uint32_t times, uint32_t propositions, uint32_t indexed) {
  struct timespec from, to;
  set_rights(&plans, PROT_READ | PROT_WRITE);
  set_rights(&indexes, PROT_READ | PROT_WRITE);
  set_rights(&counts, PROT_READ | PROT_WRITE);
  uint16_t *index = (uint16_t *)indexes.inside, *counters = (uint16_t *)counts.inside;
  clock_gettime(CLOCK_MONOTONIC, &from);
  for (; indexed && times > 0; times--)
    cabinet_plan_indexed(job, job_len, plans.inside, CABINET_PLAN_MAX, index, CABINET_INDEX_MAX, counters, CABINET_COUNTERS_MAX);
  for (; propositions == 0 && times > 0; times--) cabinet_plan(job, job_len, plans.inside, CABINET_PLAN_MAX);
  for (; times > 0; times--) cabinet_goal(job, job_len, propositions, plans.inside, CABINET_GOAL_MAX);
  clock_gettime(CLOCK_MONOTONIC, &to);
  printf("%lld\n", (to.tv_sec - from.tv_sec) * 1000000000LL + (to.tv_nsec - from.tv_nsec));
  fflush(stdout);
}

/* The time of so many calls of starting, or of following from goal state 0, in nanoseconds. */
static void say_move_time(const uint8_t *job) {
  const uint32_t *f = line.figures;
  struct timespec from, to;
  uint32_t times = f[0], refused = 0;
  clock_gettime(CLOCK_MONOTONIC, &from);
  for (; line.what == TIME_START && times > 0; times--) refused |= cabinet_start(job, job_len).refusal;
  for (; times > 0; times--) refused |= cabinet_follow(job, job_len, f[1], 0, f[2], f[3]).refusal;
  clock_gettime(CLOCK_MONOTONIC, &to);
  if (refused != CABINET_OK) fail("a timed move is refused");
  printf("%lld\n", (to.tv_sec - from.tv_sec) * 1000000000LL + (to.tv_nsec - from.tv_nsec));
  fflush(stdout);
}

/* The time of so many checks of the plan that was lent, or of judgements of the formula over the trace that was. */
static void say_check_time(const uint8_t *job, uint32_t times) {
  const uint8_t *plan = place(&plans, lent_len);
  struct timespec from, to;
  clock_gettime(CLOCK_MONOTONIC, &from);
  for (; line.what == TIME_CHECK && times > 0; times--) cabinet_check(job, job_len, plan, lent_len);
  for (; times > 0; times--) cabinet_judge(job, job_len, plan, lent_len);
  clock_gettime(CLOCK_MONOTONIC, &to);
  printf("%lld\n", (to.tv_sec - from.tv_sec) * 1000000000LL + (to.tv_nsec - from.tv_nsec));
  fflush(stdout);
}

/* The time of so many calls of planning for so many slips. */
static void say_slips_time(const uint8_t *job, uint32_t times, uint32_t slips) {
  struct timespec from, to;
  uint32_t refused = 0;
  set_rights(&layers, PROT_READ | PROT_WRITE);
  clock_gettime(CLOCK_MONOTONIC, &from);
  for (; times > 0; times--) refused |= cabinet_plan_slips(job, job_len, slips, layers.inside, CABINET_PLAN_SLIPS_MAX).refusal;
  clock_gettime(CLOCK_MONOTONIC, &to);
  if (refused != CABINET_OK) fail("timed planning is refused");
  printf("%lld\n", (to.tv_sec - from.tv_sec) * 1000000000LL + (to.tv_nsec - from.tv_nsec));
  fflush(stdout);
}

/* Plans for so many slips. */
static cabinet_planned plan_slips(const uint8_t *job, const uint32_t *f) {
  uint8_t *lent = lend_beside(&layers, f[0]);
  cabinet_planned planned = cabinet_plan_slips(job, job_len, f[2], lent, f[0]);
  same_beside("plans", &layers, f[0], due_layers, due_layers_len, planned.refusal);
  return planned;
}

/* Judges the formula over every trace of labels below a bound, up to a length, in counting order; for each a byte that is due follows the line. */
static void judge_all(const uint8_t *formula) {
  static uint8_t due[PLAN_SIZE];
  const uint32_t labels = line.figures[0], longest = line.figures[1];
  uint32_t at = 0, count = 1;
  if (line.length > sizeof due || fread(due, 1, line.length, stdin) != line.length) fail("a line without its bytes");
  set_rights(&plans, PROT_READ | PROT_WRITE);
  for (uint32_t length = 1; length <= longest; length++) {
    uint8_t *trace = place(&plans, length);
    count *= labels;
    for (uint32_t number = 0; number < count; number++, at++) {
      for (uint32_t i = length, left = number; i > 0; i--, left /= labels) trace[i - 1] = (uint8_t)(left % labels);
      cabinet_judged judged = cabinet_judge(formula, job_len, trace, length);
      uint32_t answer[] = {judged.refusal, judged.holds}, should[] = {line.due[0], at < line.length ? due[at] : 2};
      if (memcmp(answer, should, sizeof answer) != 0) wrong("answer", answer, should, 2);
      calls++, all_calls++;
    }
  }
  if (at != line.length) fail("another count of traces");
}

static void call(void) {
  const uint8_t *job = place(&jobs, job_len), *plan = place(&plans, lent_len);
  const uint32_t *f = line.figures;
  uint32_t answer[5] = {0, 0, 0, 0, 0};
  if (line.what == PLAN) {
    uint8_t *lent = lend(f[0]);
    cabinet_planned planned = cabinet_plan(job, job_len, lent, f[0]);
    answer[0] = planned.refusal, answer[1] = planned.record;
    same_memory(lent, answer[0]);
  } else if (line.what == INDEXED) {
    cabinet_planned planned = plan_indexed(job, f);
    answer[0] = planned.refusal, answer[1] = planned.record;
  } else if (line.what == SALVAGE) {
    cabinet_salvaged salvaged = salvage(job, f);
    answer[0] = salvaged.refusal, answer[1] = salvaged.job_length, answer[2] = salvaged.pairs_length, answer[3] = salvaged.record;
  } else if (line.what == GOAL) {
    uint8_t *lent = lend(f[0]);
    cabinet_written goal = cabinet_goal(job, job_len, f[2], lent, f[0]);
    answer[0] = goal.refusal, answer[1] = goal.length;
    same_memory(lent, answer[0]);
  } else if (line.what == CHECK) {
    set_rights(&plans, PROT_READ);
    cabinet_checked checked = cabinet_check(job, job_len, plan, lent_len);
    answer[0] = checked.refusal, answer[1] = checked.state, answer[2] = checked.goal, answer[3] = checked.record;
  } else if (line.what == PLAN_SLIPS) {
    cabinet_planned planned = plan_slips(job, f);
    answer[0] = planned.refusal, answer[1] = planned.record;
  } else if (line.what == ADVICE_SLIPS) {
    const uint8_t *lent = place(&layers, lent_layers_len);
    cabinet_advised say = cabinet_advice_slips(job, job_len, f[0], lent, lent_layers_len, f[1], f[2], f[3]);
    answer[0] = say.refusal, answer[1] = say.value, answer[2] = say.action, answer[3] = say.number, answer[4] = say.record;
  } else if (line.what == JUDGE) {
    set_rights(&plans, PROT_READ);
    cabinet_judged judged = cabinet_judge(job, job_len, plan, lent_len);
    answer[0] = judged.refusal, answer[1] = judged.holds;
  } else if (line.what == ADVICE) {
    cabinet_advised say = cabinet_advice(job, job_len, plan, lent_len, f[0], f[1]);
    answer[0] = say.refusal, answer[1] = say.value, answer[2] = say.action, answer[3] = say.number, answer[4] = say.record;
  } else {
    cabinet_moved to = line.what == START ? cabinet_start(job, job_len) : cabinet_follow(job, job_len, f[0], f[1], f[2], f[3]);
    answer[0] = to.refusal, answer[1] = to.state, answer[2] = to.goal, answer[3] = to.record;
  }
  if (memcmp(answer, line.due, sizeof answer) != 0) wrong("answer", answer, line.due, 5);
  calls++, all_calls++;
}

/* Steps over a fence or writes to locked memory, to show that it ends the call. */
static void step_over(int fence) {
  fenced *all[] = {&jobs, &plans, &indexes, &counts, &layers}, *memory = all[fence / 3 % 5];
  volatile uint8_t *at = memory->inside;
  set_rights(memory, PROT_READ);
  if (fence % 3 == 0) at[-1];
  if (fence % 3 == 1) at[memory->size];
  if (fence % 3 == 2) at[0] = 0;
}

int main(int words, char **word) {
  static const int sudden_ends[] = {SIGILL, SIGABRT, SIGBUS, SIGFPE, SIGSEGV};
  for (size_t i = 0; i < sizeof sudden_ends / sizeof *sudden_ends; i++) signal(sudden_ends[i], ended);
  set_fences(&jobs);
  set_fences(&plans);
  set_fences(&indexes);
  set_fences(&counts);
  set_fences(&layers);
  if (words > 1) step_over(atoi(word[1]));
  uint32_t seed = 1;
  for (size_t i = 0; i < sizeof pool; i++) pool[i] = (uint8_t)((seed = seed * 1664525u + 1013904223u) >> 24);
  while (fread(&line, sizeof line, 1, stdin) == 1) {
    switch (line.what) {
    case INPUT:
      if (line.side == 0) calls = 0;
      input[0] = line.figures[0], input[1] = line.figures[1];
      job_len = take(&jobs);
      break;
    case DUE:
      due_len = line.length;
      if (due_len > sizeof due_plan || fread(due_plan, 1, due_len, stdin) != due_len) fail("a line without its bytes");
      break;
    case DUE_INDEX:
      due_index_len = line.length, due_counters_len = line.figures[0];
      if (due_index_len > sizeof due_index || fread(due_index, 1, due_index_len, stdin) != due_index_len) fail("a line without its bytes");
      break;
    case DUE_PAIRS:
      due_pairs_len = line.length;
      if (due_pairs_len > sizeof due_pairs || fread(due_pairs, 1, due_pairs_len, stdin) != due_pairs_len) fail("a line without its bytes");
      break;
    case LEND: lent_len = take(&plans); break;
    case DUE_LAYERS:
      due_layers_len = line.length;
      if (due_layers_len > sizeof due_layers || fread(due_layers, 1, due_layers_len, stdin) != due_layers_len) fail("a line without its bytes");
      break;
    case LEND_LAYERS: lent_layers_len = take(&layers); break;
    case TIME_SLIPS: say_slips_time(place(&jobs, job_len), line.figures[0], line.figures[1]); break;
    case JUDGE_ALL: judge_all(place(&jobs, job_len)); break;
    case TIME_JUDGE:
    case TIME_CHECK: say_check_time(place(&jobs, job_len), line.figures[0]); break;
    case TIME: say_time(place(&jobs, job_len), line.figures[0], line.figures[1], line.figures[2]); break;
    case TIME_START:
    case TIME_FOLLOW: say_move_time(place(&jobs, job_len)); break;
    default: call();
    }
  }
  printf("%llu calls made\n", all_calls);
  return 0;
}
