/*
 * Makes the calls of libtoralinge.so for a Python on another kind of processor: run under an emulator, it loads the library and
 * shares memory with the Python that started it (toralinge/library.py).
 *
 *   bridge LIBRARY FD        FD: a file that is mapped as the shared memory
 *
 * A request on standard input is three numbers of eight bytes: how many calls, where in the memory they stand, the memory's
 * size. A call is a row of ten numbers: its handle, which arguments are places in the memory (as bits), 1 where it answers
 * uint8_t, six arguments, and room for the answer. No calls: the memory begins with a call's name, and its handle, or -1, is
 * answered. All ones in the highest bit alone: the memory begins with a pointer to text, which is copied there; its length is
 * answered.
 */
#define _GNU_SOURCE
#include <dlfcn.h>
#include <stdint.h>
#include <stdio.h>
#include <stdlib.h>
#include <string.h>
#include <sys/mman.h>
#include <unistd.h>

/* Every argument of every call is a whole number or a pointer, and there are six at most: on x86-64 Linux they travel in the same
 * six registers whatever their widths, and a call looks at the ones that it has. */
typedef int64_t any_call(int64_t, int64_t, int64_t, int64_t, int64_t, int64_t);

enum { HANDLE, POINTERS, NARROW, FIRST, ANSWER = 9, ROW = 10, MOST = 256 };

static any_call *calls[MOST];
static int64_t known;

static int64_t find(void *library, const char *name)
{
    void *found = dlsym(library, name);
    if (found == NULL || known == MOST) {
        return -1;
    }
    memcpy(&calls[known], &found, sizeof found);
    return known++;
}

static void make(char *memory, int64_t *row)
{
    int64_t given[6];
    int at;
    for (at = 0; at < 6; at++) {
        given[at] = row[FIRST + at];
        if (row[POINTERS] >> at & 1) {
            given[at] = (int64_t)(intptr_t)(memory + given[at]);
        }
    }
    row[ANSWER] = calls[row[HANDLE]](given[0], given[1], given[2], given[3], given[4], given[5]);
    if (row[NARROW]) {
        row[ANSWER] = (uint8_t)row[ANSWER];
    }
}

static int64_t answer(void *library, char *memory, uint64_t many, uint64_t place)
{
    const char *text;
    uint64_t at;
    if (many == 0) {
        return find(library, memory);
    }
    if (many == UINT64_C(1) << 63) {
        memcpy(&text, memory, sizeof text);
        at = strlen(text);
        memcpy(memory, text, at);
        return (int64_t)at;
    }
    for (at = 0; at < many; at++) {
        make(memory, (int64_t *)(memory + place) + ROW * at);
    }
    return 0;
}

int main(int argc, char **argv)
{
    uint64_t request[3], size = 0;
    int64_t answered;
    char *memory = NULL;
    void *library = argc == 3 ? dlopen(argv[1], RTLD_NOW) : NULL;
    if (library == NULL) {
        fprintf(stderr, "bridge: %s\n", argc == 3 ? dlerror() : "bridge LIBRARY FD");
        return 2;
    }
    while (fread(request, sizeof request, 1, stdin) == 1) {
        if (request[2] != size) {
            if (memory != NULL) {
                munmap(memory, size);
            }
            size = request[2];
            memory = mmap(NULL, size, PROT_READ | PROT_WRITE, MAP_SHARED, atoi(argv[2]), 0);
            if (memory == MAP_FAILED) {
                perror("bridge");
                return 2;
            }
        }
        answered = answer(library, memory, request[0], request[1]);
        if (write(STDOUT_FILENO, &answered, sizeof answered) != sizeof answered) {
            return 2;
        }
    }
    return 0;
}
