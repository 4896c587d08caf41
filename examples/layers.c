/* The plans of a job for up to K slips of the arm, listed: `layers K <job`. First the starting place with K slips left, then for each count of slips
   left the lines of the listing program: state, goal state, value, action (- for none) and number. */

#include <stdio.h>
#include <stdlib.h>

#include "cabinet.h"

/* As many bytes as the listing program takes in. */
static uint8_t job[49152], plan[CABINET_PLAN_SLIPS_MAX];
static const char *const values[] = {"losing", "pending", "winning"};

int main(int words, char **word) {
  uint32_t slips = words > 1 ? (uint32_t)strtoul(word[1], NULL, 10) : 0;
  size_t job_len = fread(job, 1, sizeof job, stdin);
  cabinet_planned planned = cabinet_plan_slips(job, job_len, slips, plan, sizeof plan);
  if (planned.refusal != CABINET_OK) {
    printf("refused %u", (unsigned)planned.refusal);
    if (planned.refusal == CABINET_FIELD || planned.refusal == CABINET_ORDER) printf(" %u", (unsigned)planned.record);
    printf("\n");
    return 0;
  }
  cabinet_moved at = cabinet_start(job, job_len);
  cabinet_advised say = cabinet_advice_slips(job, job_len, slips, plan, sizeof plan, at.state, at.goal, slips);
  printf("start %u %u %s\n", (unsigned)at.state, (unsigned)at.goal, values[say.value]);
  for (uint32_t left = 0; left <= slips; left++) {
    printf("left %u\n", (unsigned)left);
    for (uint32_t state = 0;; state++) { /* advice is refused 9 at the first state, and at the first goal state, that the job has not */
      if (cabinet_advice_slips(job, job_len, slips, plan, sizeof plan, state, 0, left).refusal == CABINET_PLACE) break;
      for (uint32_t goal = 0;; goal++) {
        say = cabinet_advice_slips(job, job_len, slips, plan, sizeof plan, state, goal, left);
        if (say.refusal == CABINET_PLACE) break;
        printf("%u %u %s ", (unsigned)state, (unsigned)goal, values[say.value]);
        if (say.action == CABINET_NO_ACTION) printf("- %u\n", (unsigned)say.number);
        else printf("%u %u\n", (unsigned)say.action, (unsigned)say.number);
      }
    }
  }
  return 0;
}
