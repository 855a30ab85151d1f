/*
 * Gets command lists ready for the proved program, and says on standard error where a line stops being one:
 *   lists [FILE]            as they stand there
 *   lists --script [FILE]   of a shell script: comments and blank lines are left out, white space is one space, a `\` at the end of a
 *                           line joins it to the next, and `i2ctransfer` with its options and its bus is left out before a list
 * `./listing` builds and runs it.
 */
#include <stdio.h>
#include <stdlib.h>
#include <string.h>
#include "toralinge.h"

enum { MOST = 65536, SHOWN = 40 };

struct text {
    char *letters;
    size_t length, room;
};

static void add(struct text *text, char letter)
{
    if (text->length == text->room) {
        text->room = text->room == 0 ? MOST : 2 * text->room;
        text->letters = realloc(text->letters, text->room);
        if (text->letters == NULL) {
            fprintf(stderr, "listing: no memory for the lists\n");
            exit(1);
        }
    }
    text->letters[text->length++] = letter;
}

/* A word of a line, without the space after it. */
struct word {
    const char *at;
    size_t length;
};

static struct word word_at(const char *at, const char *end)
{
    const char *space = memchr(at, ' ', (size_t)(end - at));
    struct word word = {at, (size_t)((space == NULL ? end : space) - at)};
    return word;
}

static int is_hex(char letter)
{
    return letter != '\0' && strchr("0123456789abcdefABCDEF", letter) != NULL;
}

/* 0x and one or two hex digits. */
static int is_byte(struct word word)
{
    return (word.length == 3 || word.length == 4) && word.at[0] == '0' && word.at[1] == 'x' && is_hex(word.at[2]) &&
           is_hex(word.at[word.length - 1]);
}

/* How many bytes a message wN@ADDR or rN@ADDR has, or 0 for another word. */
static unsigned bytes_of(struct word word)
{
    unsigned many = 0;
    size_t at = 1;
    struct word address;
    if (word.length < 2 || (word.at[0] != 'w' && word.at[0] != 'r') || word.at[1] == '0') {
        return 0;
    }
    for (; at < word.length && at < 3 && word.at[at] >= '0' && word.at[at] <= '9'; at++) {
        many = 10 * many + (unsigned)(word.at[at] - '0');
    }
    address.at = word.at + at + 1;
    address.length = word.length > at ? word.length - at - 1 : 0;
    return many <= 64 && word.length > at && word.at[at] == '@' && is_byte(address) ? many : 0;
}

static int is_outside(struct word message)
{
    const char *digits = (const char *)memchr(message.at, 'x', message.length) + 1;
    unsigned long address = strtoul(digits, NULL, 16);
    return address < 0x08 || address > 0x77;
}

static int is_command(struct word word)
{
    static const char name[] = "i2ctransfer";
    size_t length = sizeof name - 1;
    return word.length >= length && memcmp(word.at + word.length - length, name, length) == 0 &&
           (word.length == length || word.at[word.length - length - 1] == '/');
}

static void say_word(struct word word)
{
    size_t at;
    for (at = 0; at < word.length && at < SHOWN; at++) {
        fputc(word.at[at] < ' ' || word.at[at] > '~' ? '?' : word.at[at], stderr);
    }
    fputs(word.length > SHOWN ? ".." : "", stderr);
}

/* Says of a word that is not empty why it cannot stand there: `left` bytes of the message before it are still to come. */
static void say_fault(struct word word, struct word message, unsigned left)
{
    say_word(word);
    if (left == 0 && bytes_of(word) > 0) {
        fputs(" has an address outside 0x08 to 0x77", stderr);
    } else if (left > 0) {
        fputs(" is no byte, 0x and one or two hex digits, of ", stderr);
        say_word(message);
    } else if (message.length > 0 && is_byte(word)) {
        fputs(" is one byte more than ", stderr);
        say_word(message);
        fputs(message.at[0] == 'w' ? " has" : " takes", stderr);
    } else if (is_command(word)) {
        fputs(" is left aside with --script alone, where a bus and a list follow it", stderr);
    } else {
        fputs(" is no message wN@ADDR or rN@ADDR, N 1 to 64, ADDR 0x and one or two hex digits", stderr);
    }
}

/* Says where a line stops being a list or, where it is one, which of its addresses is outside. */
static void explain(const char *at, const char *end, int is_list)
{
    struct word message = {"", 0};
    unsigned left = 0, number = 0;
    if (at == end) {
        fputs(": it is empty", stderr);
        return;
    }
    for (;;) {
        struct word word = word_at(at, end);
        unsigned bytes = bytes_of(word);
        number++;
        if (word.length == 0) {
            fprintf(stderr, ", word %u: it is empty; one space stands between words and none elsewhere", number);
            return;
        }
        if (left > 0 ? !is_byte(word) : bytes == 0 || (is_list && is_outside(word))) {
            fprintf(stderr, ", word %u: ", number);
            say_fault(word, message, left);
            return;
        }
        message = left > 0 ? message : word;
        left = left > 0 ? left - 1 : word.at[0] == 'w' ? bytes : 0;
        if (word.at + word.length == end) {
            break;
        }
        at = word.at + word.length + 1;
    }
    fprintf(stderr, ": it ends where %u more byte%s of ", left, left == 1 ? "" : "s");
    say_word(message);
    fputs(left == 1 ? " has to stand" : " have to stand", stderr);
}

/* Whether a list is refused; then it says so. */
static int refused(const char *name, unsigned long line, const char *at, const char *end)
{
    static uint8_t records[MOST];
    int64_t answer = toralinge_list((const uint8_t *)at, (size_t)(end - at), records, sizeof records);
    if (answer >= 0) {
        return 0;
    }
    fprintf(stderr, "listing: %s, line %lu", name, line);
    if (answer == -TORALINGE_NO_ROOM) {
        fputs(": its records have more than 65,536 bytes", stderr);
    } else {
        explain(at, end, answer == -TORALINGE_BAD_ADDRESS);
    }
    fputc('\n', stderr);
    return 1;
}

static int is_space(char letter)
{
    return letter == ' ' || (letter >= '\t' && letter <= '\r');
}

/* Adds the line of a script that begins at a place, as words with one space between them; the place after it. */
static const char *add_words(struct text *to, const char *at, const char *end, unsigned long *line)
{
    size_t from = to->length;
    int comment = 0, fresh = 1;
    for (; at < end && *at != '\n'; at++) {
        if (*at == '\\' && at + 1 < end && at[1] == '\n' && !comment) {
            at++;
            ++*line;
            fresh = 1;
            continue;
        }
        comment = comment || (*at == '#' && fresh);
        fresh = is_space(*at);
        if (!comment && !fresh) {
            add(to, *at);
        } else if (!comment && to->length > from && to->letters[to->length - 1] != ' ') {
            add(to, ' ');
        }
    }
    if (to->length > from && to->letters[to->length - 1] == ' ') {
        to->length--;
    }
    ++*line;
    return at < end ? at + 1 : end;
}

static const char *after(struct word word, const char *end)
{
    return word.at + word.length == end ? end : word.at + word.length + 1;
}

/* Where the list begins in the words of a line: after i2ctransfer, its options, its bus and options again. */
static const char *list_of(const char *at, const char *end)
{
    struct word word = word_at(at, end);
    int buses = 0;
    if (word.length == 4 && memcmp(word.at, "sudo", 4) == 0) {
        word = word_at(after(word, end), end);
    }
    if (!is_command(word)) {
        return at;
    }
    for (word = word_at(after(word, end), end); word.length > 0; word = word_at(after(word, end), end)) {
        if (word.at[0] != '-') {
            if (buses == 1 || bytes_of(word) > 0) {
                break;
            }
            buses = 1;
        }
    }
    return buses == 1 ? word.at : at;
}

static void read_all(struct text *text, FILE *file, size_t most)
{
    int letter;
    while (text->length < most && (letter = fgetc(file)) != EOF) {
        add(text, (char)letter);
    }
}

/* Each line of the input as the proved program is to have it; how many are refused. */
static int turn(const struct text *input, int script, const char *name, struct text *lists)
{
    const char *at = input->letters, *end = input->letters + input->length;
    unsigned long line = 1;
    int faults = 0;
    while (at < end) {
        struct text words = {NULL, 0, 0};
        unsigned long begun = line;
        const char *next, *list, *last;
        if (script) {
            next = add_words(&words, at, end, &line);
            list = words.length == 0 ? NULL : list_of(words.letters, words.letters + words.length);
            last = words.length == 0 ? NULL : words.letters + words.length;
        } else {
            const char *stop = memchr(at, '\n', (size_t)(end - at));
            list = at;
            last = stop == NULL ? end : stop;
            next = stop == NULL ? end : stop + 1;
            line++;
        }
        if (list != NULL) {
            faults += refused(name, begun, list, last);
            for (; list < last; list++) {
                add(lists, *list);
            }
            add(lists, '\n');
        }
        free(words.letters);
        at = next;
    }
    return faults;
}

int main(int count, char **words)
{
    struct text input = {NULL, 0, 0}, lists = {NULL, 0, 0};
    int script = count > 1 && strcmp(words[1], "--script") == 0, faults = 0;
    const char *name = count > 1 + script ? words[1 + script] : NULL;
    FILE *file = name == NULL ? stdin : fopen(name, "rb");
    if (file == NULL) {
        fprintf(stderr, "listing: not a file that can be read: %s\n", name);
        return 2;
    }
    read_all(&input, file, script ? (size_t)-1 : MOST + 1);
    if (input.length == 0) {
        return 0;
    }
    if (script || input.length <= MOST) {
        faults = turn(&input, script, name == NULL || strcmp(name, "/dev/stdin") == 0 ? "standard input" : name, &lists);
    } else {
        lists = input;
    }
    if (lists.length > MOST + 1) {
        lists.length = MOST + 1;
    }
    if (lists.length > 0) {
        fwrite(lists.letters, 1, lists.length, stdout);
    }
    return fflush(stdout) == 0 && faults == 0 ? 0 : 1;
}
