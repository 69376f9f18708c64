/* Prints how many bytes of stack each case's call touches: ours, plain C, and the case's name. */
#include <stdio.h>
#include <stdlib.h>
#include <ucontext.h>

#include "cases.h"

enum { WORDS = 8192 }; /* 64 KiB */

static const uint64_t paint = 0x5CA1AB1E0DDBA115;
static uint64_t stack[WORDS];

static const struct calls *calls_now;
static int case_now;
static uint32_t answer;

static void task(void)
{
    answer = case_call(calls_now, case_now);
}

/* Makes the case's call on a painted stack and answers how many bytes of it are no longer paint. */
static size_t depth(const struct calls *calls, int i)
{
    static ucontext_t here, there;
    size_t untouched = 0;

    for (size_t k = 0; k < WORDS; k++)
        stack[k] = paint;
    calls_now = calls;
    case_now = i;
    if (getcontext(&there) != 0)
        exit(1);
    there.uc_stack.ss_sp = stack;
    there.uc_stack.ss_size = sizeof stack;
    there.uc_link = &here;
    makecontext(&there, task, 0);
    if (swapcontext(&here, &there) != 0)
        exit(1);
    while (untouched < WORDS && stack[untouched] == paint)
        untouched++;
    return 8 * (WORDS - untouched);
}

/* What a call needs beyond an empty function called the same way. */
static size_t need(const struct calls *calls, int i)
{
    size_t least = depth(&empty, i);
    size_t bytes = depth(calls, i);

    if (answer != case_answer(i)) {
        fprintf(stderr, "stack: %s answered %u\n", case_name(i), (unsigned)answer);
        exit(1);
    }
    return bytes - least;
}

int main(void)
{
    for (int i = 0; i < cases_count; i++) {
        case_prepare(i);
        printf("%zu %zu %s\n", need(&ours, i), need(&plain, i), case_name(i));
    }
    return 0;
}
