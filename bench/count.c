/* count MAKER CASE CALLS: makes one case's call so many times. MAKER is ours, plain or empty. */
#include <stdio.h>
#include <stdlib.h>
#include <string.h>

#include "cases.h"

/* The maker is known at run time only, so that the compiler can neither inline nor hoist a call. */
static const struct calls *maker(const char *name)
{
    if (strcmp(name, "ours") == 0)
        return &ours;
    return strcmp(name, "plain") == 0 ? &plain : &empty;
}

int main(int argc, char **argv)
{
    const struct calls *calls;
    int i;
    uint32_t wrong = 0;

    if (argc != 4 || atoi(argv[2]) < 0 || atoi(argv[2]) >= cases_count) {
        fprintf(stderr, "usage: count ours|plain|empty CASE CALLS\n");
        return 2;
    }
    i = atoi(argv[2]);
    calls = maker(argv[1]);
    case_prepare(i);
    for (int left = atoi(argv[3]); left > 0; left--)
        wrong |= case_call(calls, i) ^ case_answer(i);
    return calls != &empty && wrong != 0;
}
