/* The calls whose instructions are counted and whose stack is measured: those of cases.c or of table_cases.c. */
#ifndef CASES_H
#define CASES_H

#include <stdint.h>

/* One maker's calls: each list of cases has its own. */
struct calls;

extern const struct calls ours, plain, empty; /* empty: functions that do nothing */

extern const int cases_count;

const char *case_name(int i);

/* What the call must answer. */
uint32_t case_answer(int i);

/* Makes ready what the case hands over. */
void case_prepare(int i);

/* Makes the call and answers what it answered. */
uint32_t case_call(const struct calls *calls, int i);

#endif
