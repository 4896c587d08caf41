/* One plate with a goal from slips: the clauses are written into the job as its Goal body, read aloud, and the job is planned, listed and played. */

#include <stdio.h>

#include "cabinet.h"

/* States 0 drawer, 1 stage, 2 just exposed, 3 broken; actions 0 lift, 1 expose, 2 return; propositions 0 exposed, 1 in the drawer. */
enum { EXPOSED, IN_DRAWER, PROPOSITIONS, GOAL_AT = 0x2C, STATES = 4, GOAL_STATES = 9 };

static const uint8_t clauses[] = {
    CABINET_EXISTENCE, EXPOSED, EXPOSED,
    CABINET_RESPONSE, EXPOSED, IN_DRAWER,
};

/* The job of document 01 up to its Goal body; Counts has Q = 9, for two clauses, and the first goal state 0. */
static uint8_t job[GOAL_AT + CABINET_GOAL_MAX] = {
    0x10, 0x00, 0x06, 0x00, 0x16, 0x00, 0x04, 0x00, 0x1A, 0x00, 0x12, 0x00, GOAL_AT, 0x00, 0x00, 0x00, /* contents */
    STATES, 0x03, PROPOSITIONS, GOAL_STATES, 0x00, 0x00,                                               /* Counts */
    0x02, 0x00, 0x01, 0x00,                                                                            /* Labels */
    0x00, 0x00, 0x01, 0x00, 0x00, 0x03, 0x01, 0x01, 0x01,                                              /* Moves */
    0x01, 0x01, 0x02, 0x01, 0x02, 0x00, 0x02, 0x02, 0x00,
};

static const char *const propositions[] = {"exposed", "in the drawer"};
static const char *const states[] = {"in the drawer", "on the stage", "just exposed", "broken"};
static const char *const actions[] = {"lift", "expose", "return"};
static const char *const values[] = {"losing", "pending", "winning"};

/* A clause read aloud. */
static void say(const uint8_t *clause) {
  const char *a = propositions[clause[1]], *b = propositions[clause[2]];
  if (clause[0] == CABINET_EXISTENCE) printf("at some moment %s\n", a);
  if (clause[0] == CABINET_ABSENCE) printf("never %s\n", a);
  if (clause[0] == CABINET_RESPONSE) printf("whenever %s, then or later %s\n", a, b);
  if (clause[0] == CABINET_PRECEDENCE) printf("%s before %s\n", a, b);
}

/* Plays by the plan, with these outcomes in turn, and says where the play stands before each move. */
static void play(size_t job_len, const uint8_t *plan, size_t plan_len, const uint32_t *outcomes, size_t count) {
  cabinet_moved at = cabinet_start(job, job_len);
  for (size_t move = 0; at.refusal == CABINET_OK && move <= count; move++) {
    cabinet_advised say = cabinet_advice(job, job_len, plan, plan_len, at.state, at.goal);
    printf("  %s, goal state %u: %s", states[at.state], (unsigned)at.goal, values[say.value]);
    if (say.action == CABINET_NO_ACTION) {
      puts(say.value == CABINET_WINNING ? ", and the goal is met" : ", and the goal is lost");
      return;
    }
    printf(" by %u, so %s\n", (unsigned)say.number, actions[say.action]);
    if (move < count) at = cabinet_follow(job, job_len, at.state, at.goal, say.action, outcomes[move]);
  }
  if (at.refusal != CABINET_OK) printf("refused %u\n", (unsigned)at.refusal);
}

/* Lists the plan as the listing program does: the starting place, and then every place. */
static void list(size_t job_len, const uint8_t *plan, size_t plan_len) {
  cabinet_moved at = cabinet_start(job, job_len);
  cabinet_advised say = cabinet_advice(job, job_len, plan, plan_len, at.state, at.goal);
  printf("start %u %u %s\n", (unsigned)at.state, (unsigned)at.goal, values[say.value]);
  for (uint32_t s = 0; s < STATES; s++)
    for (uint32_t q = 0; q < GOAL_STATES; q++) {
      say = cabinet_advice(job, job_len, plan, plan_len, s, q);
      printf("%u %u %s ", (unsigned)s, (unsigned)q, values[say.value]);
      if (say.action == CABINET_NO_ACTION)
        printf("- %u\n", (unsigned)say.number);
      else
        printf("%u %u\n", (unsigned)say.action, (unsigned)say.number);
    }
}

int main(void) {
  static uint8_t plan[CABINET_PLAN_MAX];
  cabinet_written goal = cabinet_goal(clauses, sizeof clauses, PROPOSITIONS, job + GOAL_AT, sizeof job - GOAL_AT);
  if (goal.refusal != CABINET_OK) {
    printf("refused %u\n", (unsigned)goal.refusal);
    return 1;
  }
  job[14] = (uint8_t)goal.length, job[15] = (uint8_t)(goal.length >> 8); /* the length of Goal, in the contents */
  size_t job_len = GOAL_AT + goal.length;
  for (size_t i = 0; i < sizeof clauses; i += 3) say(clauses + i);

  cabinet_planned planned = cabinet_plan(job, job_len, plan, sizeof plan);
  if (planned.refusal != CABINET_OK) {
    printf("refused %u", (unsigned)planned.refusal);
    if (planned.refusal == CABINET_FIELD || planned.refusal == CABINET_ORDER) printf(" %u", (unsigned)planned.record); /* the bad record */
    printf("\n");
    return 1;
  }
  list(job_len, plan, sizeof plan);
  static const uint32_t lucky[] = {1, 1, 2, 0}, broken[] = {3};
  puts("with luck");
  play(job_len, plan, sizeof plan, lucky, 4);
  puts("without");
  play(job_len, plan, sizeof plan, broken, 1);
  return 0;
}
