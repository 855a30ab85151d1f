/*
 * The bytes of a stream, from a file or standard input, a few at a time. Input that is text is hex text: white space between the
 * bytes, `#` begins a comment. It is text when its first INPUT_WINDOW bytes, or all where there are fewer, hold no control character
 * but white space, and no byte above 0x7E outside a comment; a file called .hex is text in any case. Bytes with a record that is done
 * are never taken for text: they begin with SETUP, 07 00 00 00.
 */
#ifndef INPUT_H
#define INPUT_H

#include <stddef.h>
#include <stdint.h>

enum { INPUT_WINDOW = 4096, INPUT_WORD = 40 };

struct input {
    const char *name;             /* for what is said of it */
    int file;
    uint8_t window[INPUT_WINDOW]; /* what was read and not yet taken: from at to held */
    size_t at, held;
    int text;
    unsigned long line;           /* of a text, from 1 */
    char word[INPUT_WORD + 1];    /* how the word begins that stands at the place, and its length */
    size_t letters;
    char fault[160];              /* what is wrong with the text, once something is */
};

/* Opens a file, or standard input for NULL; 0 where it cannot be read. */
int input_open(struct input *in, const char *name);

/* Takes the next bytes, as many as are wanted unless the input ends or is faulty; how many they are. */
size_t input_take(struct input *in, uint8_t *bytes, size_t wanted);

#endif
