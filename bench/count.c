/* One case at one implementation, so many calls, for bench/instructions; without arguments, the list of cases. */
#include "cases.h"

#include <stdio.h>
#include <stdlib.h>

static void list_cases(void)
{
    for (unsigned i = 0; i < case_count; i++)
        printf("%s\t%s\n", cases[i].call, cases[i].name);
}

int main(int argc, char **argv)
{
    if (argc == 1) {
        list_cases();
        return 0;
    }
    unsigned which = argc == 4 ? (unsigned)atoi(argv[1]) : case_count;
    unsigned by = argc == 4 ? (unsigned)atoi(argv[2]) : IMPLEMENTATIONS;
    if (which >= case_count || by >= IMPLEMENTATIONS) {
        fprintf(stderr, "usage: count CASE IMPLEMENTATION CALLS\n");
        return 2;
    }
    const struct implementation *at = &implementations[by];
    cases[which].prepare(at);
    keep(at);
    for (int left = atoi(argv[3]); left > 0; left--) {
        if (cases[which].restored != NOTHING_BACK)
            put_back(at, cases[which].restored);
        cases[which].call_once(at);
    }
    return 0;
}
