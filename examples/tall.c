/* A tall cabinet: writes its job in the tall form, plans it, and plays it once. `tall FILE` also writes the job's bytes into a file.

   The arm goes up an empty shaft of 256 shelves to a plate on the top shelf and brings it down to the light stage at the bottom. State h, below 256, is the
   empty arm at shelf h; state 256 + h is the arm with the plate at shelf h. The goal is the plate at the bottom, proposition 0 of state 256. */

#include <stdio.h>

#include "cabinet.h"

enum { SHELVES = 256, TOP = SHELVES - 1, LOADED = SHELVES, STATES = 2 * SHELVES };
enum { UP, DOWN, GRIP, ACTIONS };
enum { CONTENTS = 16, COUNTS = 8, RECORD = 5, GOAL = 6 };

static uint8_t job[CABINET_JOB_MAX], plan[CABINET_PLAN_MAX];
static size_t job_len;

static void byte(unsigned value) { job[job_len++] = (uint8_t)value; }

/* Two bytes, low byte first. */
static void word(unsigned value) {
  byte(value % 256);
  byte(value / 256);
}

static unsigned records;

static void record(unsigned state, unsigned action, unsigned outcome) {
  word(state);
  byte(action);
  word(outcome);
  records++;
}

/* The arm may go one shelf or two; gripping at the top may miss, and the plate stays where it is. */
static void write_moves(void) {
  for (unsigned h = 0; h < SHELVES; h++) {
    if (h + 1 <= TOP) record(h, UP, h + 1);
    if (h + 2 <= TOP) record(h, UP, h + 2);
    if (h == TOP) record(h, GRIP, h);
    if (h == TOP) record(h, GRIP, LOADED + h);
  }
  for (unsigned h = 1; h < SHELVES; h++) {
    if (h >= 2) record(LOADED + h, DOWN, LOADED + h - 2);
    record(LOADED + h, DOWN, LOADED + h - 1);
  }
}

static void write_job(void) {
  job_len = CONTENTS;
  word(STATES);
  byte(ACTIONS);
  byte(1);
  byte(2);
  word(0);
  byte(0);
  for (unsigned s = 0; s < STATES; s++) byte(s == LOADED);
  write_moves();
  byte(0), byte(1); /* goal state 0: 1 once the plate is at the bottom */
  byte(1), byte(1); /* goal state 1 stays */
  byte(0), byte(1); /* goal state 1 is final */
  unsigned lengths[] = {COUNTS, STATES, RECORD * records, GOAL}, at = CONTENTS;
  size_t end = job_len;
  job_len = 0;
  for (int i = 0; i < 4; i++) {
    word(at);
    word(lengths[i]);
    at += lengths[i];
  }
  job_len = end;
}

static const char *const values[] = {"losing", "pending", "winning"};

/* The outcome that one record of this state and action lists: this cabinet goes one shelf at a time, and its first grip misses. */
static uint32_t perform(uint32_t state, uint32_t action) {
  static int grips;
  if (action == UP) return state + 1;
  if (action == DOWN) return state - 1;
  return grips++ == 0 ? state : LOADED + state;
}

int main(int words, char **word) {
  write_job();
  if (words > 1) {
    FILE *file = fopen(word[1], "wb");
    if (file == NULL || fwrite(job, 1, job_len, file) != job_len || fclose(file) != 0) return 1;
  }
  cabinet_planned planned = cabinet_plan(job, job_len, plan, sizeof plan);
  if (planned.refusal != CABINET_OK) {
    printf("refused %u\n", (unsigned)planned.refusal);
    return 1;
  }
  printf("%u states, %u records, %zu bytes\n", (unsigned)STATES, records, job_len);
  cabinet_moved at = cabinet_start(job, job_len);
  unsigned moves = 0;
  for (;; moves++) {
    cabinet_advised say = cabinet_advice(job, job_len, plan, sizeof plan, at.state, at.goal);
    if (moves % 64 == 0 || say.action == GRIP || say.action == CABINET_NO_ACTION)
      printf("after %3u moves: state %3u, %s %u\n", moves, (unsigned)at.state, values[say.value], (unsigned)say.number);
    if (say.action == CABINET_NO_ACTION) break;
    at = cabinet_follow(job, job_len, at.state, at.goal, say.action, perform(at.state, say.action));
    if (at.refusal != CABINET_OK) return 1;
  }
  return 0;
}
