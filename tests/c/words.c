/* Asks the C file of the library for words alone, so that sanitizers see each of its accesses. */
#include "asking.h"

/* The proved call, which no word needs. */
void needs_by_copy(void);
void needs_by_copy(void)
{
    abort();
}

int main(void)
{
    print_words();
    return 0;
}
