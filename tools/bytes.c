/*
 * The bytes of a stream that may be hex text, for programs that take bytes: `bytes NAME MOST [FILE]`, NAME the command that they are
 * for, MOST how many bytes it wants at most.
 */
#include <stdio.h>
#include <stdlib.h>
#include "input.h"

int main(int count, char **words)
{
    static struct input in;
    static uint8_t bytes[INPUT_WINDOW];
    unsigned long long left = count > 2 ? strtoull(words[2], NULL, 10) : 0;
    size_t many;
    if (!input_open(&in, count > 3 ? words[3] : NULL)) {
        fprintf(stderr, "%s: not a file that can be read: %s\n", words[1], words[3]);
        return 2;
    }
    do {
        many = input_take(&in, bytes, left < sizeof bytes ? (size_t)left : sizeof bytes);
        left -= many;
    } while (fwrite(bytes, 1, many, stdout) == many && many > 0);
    if (in.fault[0] != '\0') {
        fprintf(stderr, "%s: %s\n", words[1], in.fault);
        return 1;
    }
    return fflush(stdout) == 0 && !ferror(stdout) ? 0 : 1;
}
