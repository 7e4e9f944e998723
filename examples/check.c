/* Says whether the bytes on standard input are a request, and how long its round is. */
#include <stdio.h>

#include "floebucket.h"

int main(void) {
    uint8_t file[FLOE_FILE + 1], result[FLOE_RESULT]; /* a byte more than any request has: a longer file is seen to be one */
    size_t size = fread(file, 1, sizeof file, stdin);
    int refusal = floe_check(file, size, result, sizeof result);
    if (refusal != 0) {
        printf("refused %d\n", refusal);
        return 1;
    }
    printf("accepted: %d ticks\n", result[1] * 256 + result[2]);
    return 0;
}
