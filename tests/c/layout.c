/* The header is free of warnings by itself, in C and in C++. The program prints the version four
 * times: as the header's text, by the header's numbers, and as header and library say it in one
 * number; then what else the library says in that number; and then the sizes of its enums and the
 * layout of its structs, which the file that is included lists. */
#include <chanv.h>
#include <stdio.h>

#define ENUM(type) printf("enum %s %zu\n", #type, sizeof(enum type))
#define SIZE(type) printf("struct %s %zu\n", #type, sizeof(struct type))
#define FIELD(type, field)                                            \
    printf("    %s %zu %zu\n", #field, offsetof(struct type, field), \
           sizeof((struct type *)NULL)->field)

int main(void)
{
    uint32_t versions[] = {CHANV_VERSION_NUMBER, chanv_version() & ~CHANV_NOT_PROVED};
    printf("%s %d.%d.%d", CHANV_VERSION, CHANV_VERSION_MAJOR, CHANV_VERSION_MINOR,
           CHANV_VERSION_PATCH);
    for (int i = 0; i < 2; i++)
        printf(" %u.%u.%u", versions[i] >> 16, versions[i] >> 8 & 0xFF, versions[i] & 0xFF);
    printf("%s\n", chanv_version() & CHANV_NOT_PROVED ? " not proved" : "");
#include "structs.h"
    return 0;
}
