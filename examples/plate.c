/* One plate, planned and played: asks for advice, draws an outcome from the table, follows it, and says each move in words, with the number
   of its record in the table. */

#include <stdio.h>

#include "cabinet.h"

/* Document 01's worked job: states 0 drawer, 1 stage, 2 just exposed, 3 broken; actions 0 lift, 1 expose, 2 return. */
static const uint8_t job[] = {
    0x10, 0x00, 0x06, 0x00, 0x16, 0x00, 0x04, 0x00, 0x1A, 0x00, 0x12, 0x00, 0x2C, 0x00, 0x0F, 0x00, /* contents */
    0x04, 0x03, 0x02, 0x03, 0x00, 0x00,                                                             /* Counts */
    0x02, 0x00, 0x01, 0x00,                                                                         /* Labels */
    0x00, 0x00, 0x01, 0x00, 0x00, 0x03, 0x01, 0x01, 0x01,                                           /* Moves */
    0x01, 0x01, 0x02, 0x01, 0x02, 0x00, 0x02, 0x02, 0x00,
    0x00, 0x01, 0x00, 0x01, 0x01, 0x01, 0x02, 0x02, 0x02, 0x02, 0x02, 0x02, 0x00, 0x00, 0x01,       /* Goal */
};

static const char *const states[] = {"in the drawer", "on the stage", "just exposed", "broken"};
static const char *const actions[] = {"lift", "expose", "return"};
static const char *const values[] = {"losing", "pending", "winning"};

/* A small generator of draws, so that every run of a seed is the same. */
static uint32_t draw(uint32_t *seed) {
  *seed = *seed * 1664525u + 1013904223u;
  return *seed >> 16;
}

/* An outcome that the table lists for this state and action. */
static uint32_t outcome_of(uint32_t state, uint32_t action, uint32_t *seed) {
  uint32_t listed[4], n = 0;
  for (uint32_t t = 0; t < 4; t++)
    if (cabinet_follow(job, sizeof job, state, 0, action, t).refusal == CABINET_OK) listed[n++] = t;
  return listed[draw(seed) % n];
}

static void play(const uint8_t *plan, size_t plan_len, uint32_t seed) {
  cabinet_moved at = cabinet_start(job, sizeof job);
  for (int move = 0; move < 100; move++) {
    cabinet_advised say = cabinet_advice(job, sizeof job, plan, plan_len, at.state, at.goal);
    printf("  %s, goal state %u: %s", states[at.state], (unsigned)at.goal, values[say.value]);
    if (say.action == CABINET_NO_ACTION) {
      puts(say.value == CABINET_WINNING ? ", and the goal is met" : ", and the goal is lost");
      return;
    }
    printf(" by %u, so %s", (unsigned)say.number, actions[say.action]);
    uint32_t outcome = outcome_of(at.state, say.action, &seed);
    at = cabinet_follow(job, sizeof job, at.state, at.goal, say.action, outcome);
    if (at.refusal != CABINET_OK) { /* the table does not list the outcome, and a refusal's figures are no place */
      printf(", refused %u\n", (unsigned)at.refusal);
      return;
    }
    printf(" (record %u)\n", (unsigned)at.record); /* the move that was made, as the table numbers it */
  }
}

int main(void) {
  static uint8_t plan[CABINET_PLAN_MAX];
  cabinet_planned planned = cabinet_plan(job, sizeof job, plan, sizeof plan);
  if (planned.refusal != CABINET_OK) {
    printf("refused %u", (unsigned)planned.refusal);
    if (planned.refusal == CABINET_FIELD || planned.refusal == CABINET_ORDER) printf(" %u", (unsigned)planned.record); /* the bad record */
    printf("\n");
    return 1;
  }
  for (uint32_t seed = 1; seed <= 4; seed++) {
    printf("play %u\n", (unsigned)seed);
    play(plan, sizeof plan, seed);
  }
  return 0;
}
