#define _POSIX_C_SOURCE 200809L
#include <errno.h>
#include <fcntl.h>
#include <stdio.h>
#include <string.h>
#include <unistd.h>
#include "input.h"

static int is_space(int letter)
{
    return letter == ' ' || (letter >= '\t' && letter <= '\r');
}

/* The value of a hex digit, or -1. */
static int digit(int letter)
{
    if (letter >= '0' && letter <= '9') {
        return letter - '0';
    }
    if (letter >= 'a' && letter <= 'f') {
        return letter - 'a' + 10;
    }
    return letter >= 'A' && letter <= 'F' ? letter - 'A' + 10 : -1;
}

/* Reads what there is behind what the window holds; 0 at the end. */
static size_t more(struct input *in)
{
    ssize_t many;
    do {
        many = read(in->file, in->window + in->held, INPUT_WINDOW - in->held);
    } while (many < 0 && errno == EINTR);
    if (many < 0) {
        snprintf(in->fault, sizeof in->fault, "%s cannot be read: %s", in->name, strerror(errno));
        return 0;
    }
    in->held += (size_t)many;
    return (size_t)many;
}

/* Fills the window until one of its bytes is none of a text, and says whether none is. */
static int looks_like_text(struct input *in)
{
    size_t at = 0;
    int comment = 0;
    for (;;) {
        for (; at < in->held; at++) {
            int letter = in->window[at];
            comment = letter != '\n' && (comment || letter == '#');
            if (!is_space(letter) && (letter < ' ' || letter == 0x7F || (letter > 0x7F && !comment))) {
                return 0;
            }
        }
        if (in->held == INPUT_WINDOW || more(in) == 0) {
            return in->held > 0;
        }
    }
}

int input_open(struct input *in, const char *name)
{
    size_t length = name == NULL ? 0 : strlen(name);
    memset(in, 0, sizeof *in);
    in->name = name == NULL || strcmp(name, "/dev/stdin") == 0 ? "standard input" : name;
    in->file = name == NULL ? STDIN_FILENO : open(name, O_RDONLY);
    in->line = 1;
    if (in->file < 0) {
        return 0;
    }
    in->text = looks_like_text(in) || (length >= 4 && strcmp(name + length - 4, ".hex") == 0);
    return 1;
}

/* The next byte as it stands there, or -1 at the end. */
static int raw(struct input *in)
{
    if (in->at == in->held) {
        in->at = in->held = 0;
        if (more(in) == 0) {
            return -1;
        }
    }
    return in->window[in->at++];
}

/* Keeps the beginning of the word for what may have to be said of it. */
static void spell(struct input *in, int letter)
{
    if (in->letters < INPUT_WORD) {
        in->word[in->letters] = (char)letter;
        in->word[in->letters + 1] = '\0';
    }
    in->letters++;
}

/* Says what is wrong with the word whose next letter is given, at the line where it stands. */
static int faulty(struct input *in, const char *what, int letter)
{
    while (letter >= 0 && letter != '#' && !is_space(letter)) {
        spell(in, letter < ' ' || letter > '~' ? '?' : letter);
        letter = raw(in);
    }
    snprintf(in->fault, sizeof in->fault, "%s, line %lu: %s: %s%s", in->name, in->line, what, in->word,
             in->letters > INPUT_WORD ? ".." : "");
    return -1;
}

/* The next letter that is not part of a comment. */
static int letter_of(struct input *in)
{
    int letter = raw(in);
    if (letter == '#') {
        while (letter >= 0 && letter != '\n') {
            letter = raw(in);
        }
    }
    return letter;
}

/* The next byte of hex text, or -1. */
static int pair(struct input *in)
{
    int first = letter_of(in), second;
    while (first >= 0 && is_space(first)) {
        in->line += first == '\n';
        in->letters = 0;
        first = letter_of(in);
    }
    if (first < 0) {
        return -1;
    }
    if (digit(first) < 0) {
        return faulty(in, "not hex", first);
    }
    spell(in, first);
    second = raw(in);
    if (second < 0 || second == '#' || is_space(second)) {
        return faulty(in, "odd number of hex digits", second);
    }
    if (digit(second) < 0) {
        return faulty(in, "not hex", second);
    }
    spell(in, second);
    return digit(first) * 16 + digit(second);
}

size_t input_take(struct input *in, uint8_t *bytes, size_t wanted)
{
    size_t many;
    for (many = 0; many < wanted && in->fault[0] == '\0'; many++) {
        int byte = in->text ? pair(in) : raw(in);
        if (byte < 0) {
            break;
        }
        bytes[many] = (uint8_t)byte;
    }
    return many;
}
