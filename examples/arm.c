/* One plate with an arm that slips: planned for up to two slips and played. Sometimes the arm performs another open action than the one named; the program
   follows the action that was done, and takes a slip off where that is not the one named. */

#include <stdio.h>

#include "cabinet.h"

/* Document 01's worked job: states 0 drawer, 1 stage, 2 just exposed, 3 broken; actions 0 lift, 1 expose, 2 return. */
static const uint8_t job[] = {
    0x10, 0x00, 0x06, 0x00, 0x16, 0x00, 0x04, 0x00, 0x1A, 0x00, 0x12, 0x00, 0x2C, 0x00, 0x0F, 0x00, /* contents */
    0x04, 0x03, 0x02, 0x03, 0x00, 0x00,                                                             /* Counts */
    0x02, 0x00, 0x01, 0x00,                                                                         /* Labels */
    0x00, 0x00, 0x01, 0x00, 0x00, 0x03, 0x01, 0x01, 0x01,                                           /* Moves */
    0x01, 0x01, 0x02, 0x01, 0x02, 0x00, 0x02, 0x02, 0x00,
    0x00, 0x01, 0x00, 0x01, 0x01, 0x01, 0x02, 0x02, 0x02, 0x02, 0x02, 0x02, 0x00, 0x00, 0x01,       /* Goal */
};

enum { SLIPS = 2 };

static uint8_t plan[CABINET_PLAN_SLIPS_BYTES(4, 3, SLIPS)];
static const char *const states[] = {"in the drawer", "on the stage", "just exposed", "broken"};
static const char *const actions[] = {"lift", "expose", "return"};
static const char *const values[] = {"losing", "pending", "winning"};

/* A small generator of draws, so that every run of a seed is the same. */
static uint32_t draw(uint32_t *seed) {
  *seed = *seed * 1664525u + 1013904223u;
  return *seed >> 16;
}

/* The arm: most often it does what was named, and where a slip is left sometimes another open action; the outcome is one that the table lists. */
static uint32_t perform(uint32_t state, uint32_t named, uint32_t left, uint32_t *seed, uint32_t *outcome) {
  uint32_t listed[12][2], n = 0, slip = left > 0 && draw(seed) % 2 == 0;
  for (int other = slip ? 1 : 0; other >= 0 && n == 0; other--) /* no other action may be open */
    for (uint32_t action = 0; action < 3; action++)
      for (uint32_t t = 0; t < 4; t++)
        if ((action != named) == other && cabinet_follow(job, sizeof job, state, 0, action, t).refusal == CABINET_OK)
          listed[n][0] = action, listed[n++][1] = t;
  uint32_t one = draw(seed) % n;
  *outcome = listed[one][1];
  return listed[one][0];
}

static void play(uint32_t seed) {
  cabinet_moved at = cabinet_start(job, sizeof job);
  uint32_t left = SLIPS;
  for (int move = 0; move < 100; move++) {
    cabinet_advised say = cabinet_advice_slips(job, sizeof job, SLIPS, plan, sizeof plan, at.state, at.goal, left);
    printf("  %s, goal state %u, slips left %u: %s", states[at.state], (unsigned)at.goal, (unsigned)left, values[say.value]);
    if (say.action == CABINET_NO_ACTION) {
      puts(say.value == CABINET_WINNING ? ", and the goal is met" : ", and the goal is lost");
      return;
    }
    uint32_t outcome, done = perform(at.state, say.action, left, &seed, &outcome);
    printf(" by %u, so %s%s%s\n", (unsigned)say.number, actions[say.action], done == say.action ? "" : ", but the arm does ",
           done == say.action ? "" : actions[done]);
    at = cabinet_follow(job, sizeof job, at.state, at.goal, done, outcome); /* the action that was done */
    if (at.refusal != CABINET_OK) {                                         /* the table does not list the outcome */
      printf("  refused %u\n", (unsigned)at.refusal);
      return;
    }
    if (done != say.action) left--; /* one slip off: the arm above never slips with none left */
  }
}

int main(void) {
  cabinet_planned planned = cabinet_plan_slips(job, sizeof job, SLIPS, plan, sizeof plan);
  if (planned.refusal != CABINET_OK) {
    printf("refused %u\n", (unsigned)planned.refusal);
    return 1;
  }
  for (uint32_t seed = 1; seed <= 6; seed++) {
    printf("play %u\n", (unsigned)seed);
    play(seed);
  }
  return 0;
}
