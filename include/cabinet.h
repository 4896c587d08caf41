/* The planner of the cabinet, called from C with byte buffers and plain numbers.

   A job is a table of moves with a goal, in bytes. Planning labels every place of it (a state of the cabinet with a goal state) as
   winning, pending or losing, and writes a plan of four bytes a place into a buffer that you lend. You then find the starting place,
   ask the plan for advice, take the action, say which outcome was observed, and so on, until the goal is met or lost.

   A state is marked busy by 128 added to its label: the arm is still at work there, and a run does not end there. The goal is met where the
   goal state is final and the state is not busy. A final goal state in a busy state makes a place like any other: it has an action and a
   number, or is lost where nothing is open. The goal's automaton reads the label without the mark.

   A job comes in one of two forms, which the length of Counts in the contents tells apart: 6 is the old form and 8 the tall one. All numbers of
   two bytes are low byte first.

     contents  16 bytes: for Counts, Labels, Moves and Goal in this order an offset from the job's start and a length, two bytes each. The bodies
               follow in this order with no gap, the first at 16, and the last ends where the job ends
     Counts    old, 6 bytes: S, A, P, Q, first state, first goal state, a byte each. Tall, 8 bytes: the same, S and the first state of two bytes each.
               S is 1 to 128, in the tall form 1 to 512; A is 1 to 16, P 0 to 6, Q 1 to 32
     Labels    S bytes: bit i of a state's label says whether proposition i is true there
     Moves     records in ascending order, each once: state, action, outcome. Old: a byte each, at most 4,096 records. Tall: the state and the outcome of
               two bytes each, five bytes a record, at most 8,192 records. Their order is that of their numbers in both forms: 255 comes before 256
     Goal      for goal state q and label l the next goal state at q * 2^P + l, then for each goal state a mark, 1 where it is final

   What a job means does not depend on its form. A small job may come in the tall form, and a job that is rewritten gets the same plan and the same answers.

   The library needs no heap, keeps nothing between calls, and takes every input: what is bad is refused by number, the first fault
   first. A refusal changes nothing in a buffer that you lend.

   On the stack planning takes up to 20 KiB, planning with an index 44 KiB, planning for slips of the arm 76 KiB, the check of a plan 88 KiB, judging a run 32 KiB, and every
   other call less than 1 KiB, whatever the job.

   What you owe: a pointer and its length describe memory of yours that holds that many bytes, or words of two bytes in an index and counters, for as long as the call runs; a length of
   0 wants a pointer that is not null all the same; the buffers of a call do not overlap; and nothing else writes to them during a call.
   Calls on different buffers may run at the same time.

   Link with -lcabinet (GNU/Linux on x86-64-v2). */

#ifndef CABINET_H
#define CABINET_H

#include <stddef.h>
#include <stdint.h>

#ifdef __cplusplus
extern "C" {
#endif

/* The longest job that is not refused, and the longest plan: 4 bytes for each of 512 states with each of 32 goal states. Of the old form the
   longest job has 14,518 bytes and the longest plan 16,384. */
#define CABINET_JOB_MAX 43576
#define CABINET_PLAN_MAX 65536

/* What `cabinet_plan_indexed` needs beside the plan, in words of two bytes: an index, a word for each state and one for each record of Moves, and
   counters, one for each state with each goal state and each action. Below these the most that any job needs. */
#define CABINET_INDEX_WORDS(states, records) ((size_t)(states) + (size_t)(records))
#define CABINET_COUNTERS_WORDS(states, goals, actions) ((size_t)(states) * (size_t)(goals) * (size_t)(actions))
#define CABINET_INDEX_MAX 8704
#define CABINET_COUNTERS_MAX 262144

/* The most slips of the arm that are planned for, and the bytes that K + 1 plans take: four for each place with each count of slips left from 0 to K. */
#define CABINET_SLIPS_MAX 3
#define CABINET_PLAN_SLIPS_BYTES(states, goals, slips) (4 * ((size_t)(slips) + 1) * (size_t)(states) * (size_t)(goals))
#define CABINET_PLAN_SLIPS_MAX 262144

/* What is added to the label of a busy state. */
#define CABINET_BUSY 128

/* The longest Goal body that is written from slips: three clauses over six propositions. */
#define CABINET_GOAL_MAX 1755

/* Room for every list of removed pairs: three bytes for each of 8,192 records. */
#define CABINET_PAIRS_MAX 24576

/* Numbers that say no; 0 is success. In a call that reads a job the first in this order that applies is the answer, though 12 and 13 share
   one place, which the first bad record decides. In `cabinet_goal` 14 and 15 come before 7, and `cabinet_judge`, which reads no job,
   gives 19 to 22 in their order. */
enum cabinet_refusal {
  CABINET_OK = 0,
  CABINET_SHORT = 1,       /* the job is under 16 bytes */
  CABINET_CONTENTS = 2,    /* an offset or end breaks the job's layout, or Counts is neither 6 nor 8 bytes long */
  CABINET_COUNTS = 3,      /* a count or a first number is out of the range of the job's form */
  CABINET_LABELS = 4,      /* not one label a state, or a label that without its mark is 2^P or more */
  CABINET_MOVES = 5,       /* Moves is not whole records of the form, or has more than 4,096, in the tall form 8,192 */
  CABINET_FIELD = 12,      /* a field of a record is out of range; `record` says which */
  CABINET_ORDER = 13,      /* a record does not come after the one before it, compared field by field; `record` says which */
  CABINET_GOAL = 6,        /* Goal has the wrong length, a goal state is not below Q, or a mark is above 1 */
  CABINET_SLIPS = 18,      /* more than 3 slips of the arm */
  CABINET_ROOM = 7,        /* the plan buffer is under 4 * S * Q bytes, for K slips under K + 1 times that, or the Goal body, the salvaged job or the list of pairs has no room */
  CABINET_MEMORY = 17,     /* the index is under S + records words, or the counters are under S * Q * A */
  CABINET_PLACE = 9,       /* the state is not below S, the goal state is not below Q, or more slips are left than the plans are for */
  CABINET_ENTRY = 10,      /* the plan's entry has none of the four shapes */
  CABINET_OUTCOME = 11,    /* no record has this state, action and outcome */
  CABINET_NO_CLAUSES = 14, /* no clause, more than three, or a length that is no multiple of 3 */
  CABINET_CLAUSE = 15,     /* P above 6, a kind above 3, a proposition not below P, or b unlike a in kinds 0 and 1 */
  CABINET_WRONG = 16,      /* an entry of the plan is wrong; `state` and `goal` are the lowest such place */
  CABINET_TRACE = 19,      /* the trace is empty or has more than 64 labels */
  CABINET_FORMULA = 20,    /* the formula is empty, has more than 64 bytes, is malformed, has bytes left over, or an atom above 5 */
  CABINET_DEEP = 21,       /* more than three operators among until, eventually and always on one path of the formula */
  CABINET_LETTER = 22      /* a label of the trace is 64 or more */
};

/* The kinds of a clause, over the propositions a and b. Each is read over the labels of the states visited so far, the first one included. */
enum cabinet_kind {
  CABINET_EXISTENCE = 0, /* at some moment a */
  CABINET_ABSENCE = 1,   /* at no moment a */
  CABINET_RESPONSE = 2,  /* whenever a, then or later b */
  CABINET_PRECEDENCE = 3 /* no b before the first a, which may come together with it; or never b */
};

/* The nodes of a formula, a byte each, an operator before its parts; 0 to 5 are atoms, the propositions of a label. */
enum cabinet_node {
  CABINET_NOT = 16,
  CABINET_AND = 17,
  CABINET_NEXT = 18,       /* there is a next label, and the part holds there */
  CABINET_UNTIL = 19,      /* the second part holds at some label from here on, and the first at all before that one */
  CABINET_WEAK_NEXT = 20,  /* the part holds at the next label, if there is one */
  CABINET_EVENTUALLY = 21, /* the part holds at some label from here on */
  CABINET_ALWAYS = 22      /* the part holds at every label from here on */
};

/* The longest formula and the longest trace. */
#define CABINET_FORMULA_MAX 64
#define CABINET_TRACE_MAX 64

/* The value of a place. */
enum cabinet_value {
  CABINET_LOSING = 0,  /* no choice with any outcomes meets the goal */
  CABINET_PENDING = 1, /* some choices with some outcomes meet it, but none forces it */
  CABINET_WINNING = 2  /* some way of choosing meets it, whatever the outcomes */
};

/* The action of a place that has none: the goal is met, or lost. */
#define CABINET_NO_ACTION 255

/* The answers. The refusal comes first; where it is not 0, every other figure is 0, save the place with 16, and `record` with 12 and 13: the number of the first
   bad record of Moves, counted from 0 at the front, so that its fields begin at byte 3 * record of Moves, in the tall form at 5 * record. All records before
   it are good. Each is judged by its fields and then by its order, so 13 says that its fields are in range, and never names record 0. With
   every other refusal, and on success, `record` is 0, save where `cabinet_follow` succeeds: it is then the record that was followed. */
typedef struct {
  uint32_t refusal, record;
} cabinet_planned;

typedef struct {
  uint32_t refusal, state, goal, record;
} cabinet_moved;

typedef struct {
  uint32_t refusal, value, action, number, record;
} cabinet_advised;

typedef struct {
  uint32_t refusal, length;
} cabinet_written;

typedef struct {
  uint32_t refusal, state, goal, record;
} cabinet_checked;

typedef struct {
  uint32_t refusal, holds;
} cabinet_judged;

typedef struct {
  uint32_t refusal, job_length, pairs_length, record;
} cabinet_salvaged;

/* Plans the job into the buffer: entry s * Q + q, four bytes, says of state s with goal state q its value, its action (255: none) and
   its number, low byte first. Bytes beyond the plan stay as they are, and a refusal changes nothing in the plan buffer. Gives 1 to 7, 12, 13. */
cabinet_planned cabinet_plan(const uint8_t *job, size_t job_len, uint8_t *plan, size_t plan_len);

/* The same answer and the same plan, byte for byte, by a second engine, which works backward from where the goal is met with an index of the
   records that lead to each state. It looks at each record at most 3 * Q times beside reading and indexing it, whatever the numbers, where `cabinet_plan` looks at each up to Q times a
   round: take it where numbers are large. It needs two buffers more, lengths in words of two bytes: CABINET_INDEX_WORDS(S, records) and
   CABINET_COUNTERS_WORDS(S, Q, A). What they hold before does not matter. On success the index lists each record once: word t, below S, is the first
   record that leads to state t, word S + k the next after record k that leads where k does, and the count of records stands for none; the used
   counters are 0; and words beyond these stay as they are. Gives 1 to 7, 12, 13, and after 7 17. */
cabinet_planned cabinet_plan_indexed(const uint8_t *job, size_t job_len, uint8_t *plan, size_t plan_len, uint16_t *index, size_t index_len,
                                     uint16_t *counters, size_t counters_len);

/* The starting place: the first state, with the goal state that has read its label. Gives 1 to 6, 12, 13. */
cabinet_moved cabinet_start(const uint8_t *job, size_t job_len);

/* The place after an observed move: at this place the action was taken and led to the outcome. Any figures may be handed over. Following
   is allowed where the goal is met, too. On success `record` is the number of the record of Moves with this state, action and outcome,
   counted from 0 as with 12 and 13; there is no second one. Gives 1 to 6, 9, 11, 12, 13. */
cabinet_moved cabinet_follow(const uint8_t *job, size_t job_len, uint32_t state, uint32_t goal, uint32_t action, uint32_t outcome);

/* What a plan says of a place. From a winning place the goal is met within `number` moves if the advice is followed; from a pending one some
   outcomes reach a winning place in `number` moves. The plan is read and never written, and trusted by the asked entry's shape only: that
   it belongs to the job is yours to see to. Gives 1 to 7, 9, 10, 12, 13. */
cabinet_advised cabinet_advice(const uint8_t *job, size_t job_len, const uint8_t *plan, size_t plan_len, uint32_t state, uint32_t goal);

/* Writes the Goal body of slips into the buffer, and returns its length; bytes beyond it stay as they are. Slips are one to three clauses that must
   all hold, three bytes each: kind, a, b, with b the same as a in existence and absence. For n clauses and P propositions the body has 3^n goal
   states and takes 3^n * 2^P + 3^n bytes. The job that it goes into needs, in Counts, this P, Q = 3^n and the first goal state 0; then the goal state
   is final exactly where every clause holds on the labels of the states visited so far. A play ends at its first accepted place: absence, response
   and precedence hold where nothing has happened yet, so on their own they are met at the start, unless the first label speaks against them or the
   first state is busy. Put an
   existence clause beside them for what has to happen. The clauses and the buffer do not overlap. Gives 14, 15 and 7, in this order. */
cabinet_written cabinet_goal(const uint8_t *clauses, size_t clauses_len, uint32_t propositions, uint8_t *goal, size_t goal_len);

/* Whether a plan is right for the job, wherever it comes from: 0 exactly when each value and number is the place's own and each action is any open
   one that does, so a planner that breaks ties differently passes, and so does every plan of `cabinet_plan`. An action does at a winning place when
   all of its outcomes are winning with smaller numbers, at a pending one when some outcome is winning, where the number is 1, or else pending
   with a number one smaller; where the goal is met, or lost, it is 255. 16 comes with the place of the lowest wrong entry, the least of s * Q + q. An
   entry is judged by the job alone, whatever the plan's other entries say. Bytes beyond the plan are not looked at; neither job nor plan is written. The
   call plans the job for itself on the stack: it needs 88 KiB of it. Whoever follows a plan that passes has what following our own promises. Gives 1
   to 7, 12, 13, 16. */
cabinet_checked cabinet_check(const uint8_t *job, size_t job_len, const uint8_t *plan, size_t plan_len);

/* Plans for slips of the arm. An old arm sometimes performs another open action than the one commanded. With k slips left the cabinet may do the action
   named, to any of its listed outcomes with k left; or, if k is above 0, any other open action, to any of its listed outcomes with k - 1 left. Where one
   action alone is open no slip can happen. A slip is one move. Values, numbers and actions are those of planning over places with a count of slips
   left, so that a winning place is won within its number though all of its slips happen, and a pending one may be helped by a slip. `slips`, K, is 0 to
   3, and the buffer gets K + 1 plans, slips 0 first: entry (k * S + s) * Q + q says of state s with goal state q and k slips left what an entry says. With K = 0 it is
   `cabinet_plan`, byte for byte, and the first plan is that one for every K. Bytes beyond the plans stay as they are, and a refusal changes nothing. Gives
   1 to 6, 12, 13, then 18 for K above 3, then 7 for less than CABINET_PLAN_SLIPS_BYTES(S, Q, K). It goes by rounds, as `cabinet_plan` does, over K + 1 times the
   places: a tall job whose numbers reach into the thousands takes minutes. */
cabinet_planned cabinet_plan_slips(const uint8_t *job, size_t job_len, uint32_t slips, uint8_t *plan, size_t plan_len);

/* What plans for up to `slips` slips say of a place with `left` of them left. To follow them, begin with `left` = K; hand `cabinet_follow` the action that
   was done, and take one off `left` where that is not the action named (and only there: a slip that leads where the named action might have led is a slip
   all the same). A slip with none left is more than the plans are for. The plans are read and never written, and trusted by the asked entry's shape only;
   its number is below (K + 1) * S * Q. Gives 1 to 6, 12, 13, 18, 7, 9 (also where `left` is above K) and 10, in this order. */
cabinet_advised cabinet_advice_slips(const uint8_t *job, size_t job_len, uint32_t slips, const uint8_t *plan, size_t plan_len, uint32_t state,
                                     uint32_t goal, uint32_t left);

/* Judges a recorded run: whether a goal held on a log of labels. The formula has 1 to 64 bytes, one a node (`cabinet_node`), an operator before its parts; the
   trace 1 to 64 labels, without the mark of a busy state. `holds` is 1 where the formula holds at the first label, and 0 where it does not, or on a refusal.
   A clause of slips is the formula 21 a (existence), 22 16 a (absence), 22 16 17 a 16 21 b (response), 16 17 16 19 16 b a 16 22 16 b (precedence), and
   clauses are joined by 17: the answer is then that of the Goal body which `cabinet_goal` writes. Gives 19 to 22. */
cabinet_judged cabinet_judge(const uint8_t *formula, size_t formula_len, const uint8_t *trace, size_t trace_len);

/* Salvages a job whose records name outcomes that are no states, as when states were deleted from a table by hand. Every record of a state and action
   with any such outcome is removed, since an action that lost one outcome alone would look safer than it is; the other records are kept in order, and the
   contents are written anew (the length of Moves and the offset of Goal). The form and all else stay as they are, busy marks too. The removed pairs are
   listed in order, each once, three bytes each in both forms: the state in two, low byte first, then the action. Both lengths are returned; bytes
   beyond them stay as they are. A good job comes out byte for byte with no pairs, and so does a salvaged one. What is winning after salvage is winning,
   with a number no larger, in every job that keeps all else and gives the removed pairs any outcomes or none. The job is judged as it came and as in
   planning, with an outcome of S or more forgiven and nothing else: a state or an action out of range is 12 even beside such an outcome, and records
   must ascend with their outcomes as they stand. Then 7 where an output is shorter than what it must hold; an output shorter than the job may do, and
   CABINET_JOB_MAX and CABINET_PAIRS_MAX bytes always do. A refusal leaves both untouched. Gives 1 to 7, 12, 13. */
cabinet_salvaged cabinet_salvage(const uint8_t *job, size_t job_len, uint8_t *salvaged, size_t salvaged_len, uint8_t *pairs, size_t pairs_len);

/* In short:

     static uint8_t plan[CABINET_PLAN_MAX];
     if (cabinet_plan(job, job_len, plan, sizeof plan).refusal != CABINET_OK) return;
     cabinet_moved at = cabinet_start(job, job_len);
     for (;;) {
       cabinet_advised say = cabinet_advice(job, job_len, plan, sizeof plan, at.state, at.goal);
       if (say.action == CABINET_NO_ACTION) break;   // met where say.value is CABINET_WINNING, else lost
       uint32_t outcome = perform(say.action);        // your machine: the state that it is in now
       at = cabinet_follow(job, job_len, at.state, at.goal, say.action, outcome);
       if (at.refusal != CABINET_OK) break;           // an outcome that the table does not list: at is no place any more
     }

   With slips of the arm, plan has CABINET_PLAN_SLIPS_MAX bytes and `left` = K at first, the advice is cabinet_advice_slips(job, job_len, K, plan, sizeof plan, at.state, at.goal, left), and a move is:

       uint32_t done = what_was_done(), outcome = where_it_led();
       at = cabinet_follow(job, job_len, at.state, at.goal, done, outcome);
       if (done != say.action) { if (left == 0) break; left--; }   // more slips than planned for: plan again
*/

#ifdef __cplusplus
}
#endif

#endif
