/* Hands inputs to the function OVER: those that libFuzzer makes, or with FILES defined each file
 * that is named. */
#include <stddef.h>
#include <stdint.h>
#include <stdio.h>

void OVER(const uint8_t *at, size_t len);
int LLVMFuzzerTestOneInput(const uint8_t *at, size_t len);

int LLVMFuzzerTestOneInput(const uint8_t *at, size_t len)
{
    OVER(at, len);
    return 0;
}

#ifdef FILES
int main(int count, char **names)
{
    static uint8_t bytes[1 << 16];
    for (int i = 1; i < count; i++) {
        FILE *file = fopen(names[i], "rb");
        if (file == NULL)
            return 2;
        size_t len = fread(bytes, 1, sizeof bytes, file);
        fclose(file);
        fprintf(stderr, "%s\n", names[i]);
        LLVMFuzzerTestOneInput(bytes, len);
    }
    printf("%d inputs\n", count - 1);
    return 0;
}
#endif
