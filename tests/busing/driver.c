/*
 * A driver as firmware people write one: calls on an open /dev/i2c-N, a line for each with what came back, or the name of its errno.
 *
 *   driver DEVICE CALL ..           one call after the other on one open file
 *   driver DEVICE loop N CALL ..    all of them N times; a line with the number done for each thousand, and each answer that differs
 *                                   from the first round's
 *
 *   slave:AA  force:AA  pec:0/1  ten:0/1  funcs  other          the calls that set something; `other` is no call of i2c-dev
 *   write:HEX  read:N                                            write() and read()
 *   rdwr:wAA:HEX,rAA:N,..  lens:AA:RR                            I2C_RDWR; lens: a register, then a read whose first byte is its length
 *   quick:r/w  byte:r  byte:w:RR  data:r:RR  data:w:RR:HEX       I2C_SMBUS; word, proc, block and i2c take registers and bytes alike
 */
#define _GNU_SOURCE
#include <errno.h>
#include <fcntl.h>
#include <linux/i2c-dev.h>
#include <linux/i2c.h>
#include <stdio.h>
#include <stdlib.h>
#include <string.h>
#include <sys/ioctl.h>
#include <unistd.h>

enum { LONGEST = 9000, MESSAGES = 50, LINE = 3 * LONGEST };

static int file;

static void usage(const char *call)
{
    fprintf(stderr, "driver: no such call: %s\n", call);
    exit(2);
}

static size_t bytes_of(const char *hex, unsigned char *bytes)
{
    size_t count = 0;
    unsigned value;
    for (; sscanf(hex, "%2x", &value) == 1 && count < LONGEST; hex += hex[1] ? 2 : 1)
        bytes[count++] = (unsigned char)value;
    return count;
}

/* The answer of a call: bytes, or its number where there are none, or an errno. */
static void say(char *line, long result, const unsigned char *bytes, size_t count)
{
    if (result < 0) {
        strcpy(line, strerrorname_np(errno));
    } else if (count == 0) {
        sprintf(line, "%ld", result);
    } else {
        for (size_t i = 0; i < count; i++)
            sprintf(line + 3 * i, i + 1 < count ? "%02x " : "%02x", bytes[i]);
    }
}

static void rdwr(char *list, char *line)
{
    static unsigned char room[MESSAGES][LONGEST], all[LONGEST];
    struct i2c_msg messages[MESSAGES];
    struct i2c_rdwr_ioctl_data data = {messages, 0};
    size_t given = 0;
    char *rest = list;
    for (char *one; (one = strsep(&rest, ",")) != NULL && data.nmsgs < MESSAGES; data.nmsgs++) {
        struct i2c_msg *message = &messages[data.nmsgs];
        const char *body = strchr(one, ':') + 1;
        message->addr = (unsigned short)strtoul(one + 1, NULL, 16);
        message->flags = one[0] == 'r' ? I2C_M_RD : 0;
        message->buf = room[data.nmsgs];
        message->len = (unsigned short)(one[0] == 'r' ? strtoul(body, NULL, 10) : bytes_of(body, message->buf));
    }
    long result = ioctl(file, I2C_RDWR, &data);
    for (unsigned i = 0; result >= 0 && i < data.nmsgs; i++)
        if (messages[i].flags & I2C_M_RD && given + messages[i].len <= sizeof all) {
            memcpy(all + given, messages[i].buf, messages[i].len);
            given += messages[i].len;
        }
    say(line, result, all, given);
}

static void lens(unsigned address, unsigned at, char *line)
{
    unsigned char asked = (unsigned char)at, block[34] = {1};
    struct i2c_msg messages[2] = {
        {.addr = (unsigned short)address, .len = 1, .buf = &asked},
        {.addr = (unsigned short)address, .flags = I2C_M_RD | I2C_M_RECV_LEN, .len = sizeof block, .buf = block},
    };
    struct i2c_rdwr_ioctl_data data = {messages, 2};
    long result = ioctl(file, I2C_RDWR, &data);
    say(line, result, block, result < 0 ? 0 : block[0] + 1u);
}

static void smbus(int size, char way, unsigned at, const char *hex, char *line)
{
    union i2c_smbus_data data = {0};
    struct i2c_smbus_ioctl_data call = {way == 'r' ? I2C_SMBUS_READ : I2C_SMBUS_WRITE, (unsigned char)at, (unsigned)size, &data};
    unsigned char *from = data.block;
    size_t given = bytes_of(hex, size == I2C_SMBUS_BLOCK_DATA || size == I2C_SMBUS_I2C_BLOCK_DATA ? from + 1 : from);
    if (size == I2C_SMBUS_BLOCK_DATA || size == I2C_SMBUS_I2C_BLOCK_DATA)
        from[0] = (unsigned char)given;
    if (size == I2C_SMBUS_I2C_BLOCK_DATA && way == 'r')
        from[0] = (unsigned char)strtoul(hex, NULL, 10);
    long result = ioctl(file, I2C_SMBUS, &call);
    size_t back = 0;
    if (way == 'r' || size == I2C_SMBUS_PROC_CALL)
        back = size == I2C_SMBUS_BYTE || size == I2C_SMBUS_BYTE_DATA ? 1 : size == I2C_SMBUS_WORD_DATA || size == I2C_SMBUS_PROC_CALL ? 2
               : size == I2C_SMBUS_QUICK ? 0 : from[0] + 1u;
    say(line, result, from, back);
}

static int size_of(const char *name)
{
    static const char *const names[] = {"quick", "byte", "data", "word", "proc", "block", "", "", "i2c"};
    for (int i = 0; i < 9; i++)
        if (names[i][0] && strcmp(names[i], name) == 0)
            return i;
    return -1;
}

static void call(const char *words, char *line)
{
    static unsigned char bytes[LONGEST];
    static char copy[LINE];
    snprintf(copy, sizeof copy, "%s", words);
    char *rest = copy, *name = strsep(&rest, ":"), *first = rest;
    unsigned long functions = 0;
    if (rest == NULL)
        first = rest = "";
    long hex = (long)strtoul(first, NULL, 16);
    if (strcmp(name, "slave") == 0) {
        say(line, ioctl(file, I2C_SLAVE, hex), NULL, 0);
    } else if (strcmp(name, "force") == 0) {
        say(line, ioctl(file, I2C_SLAVE_FORCE, hex), NULL, 0);
    } else if (strcmp(name, "pec") == 0) {
        say(line, ioctl(file, I2C_PEC, hex), NULL, 0);
    } else if (strcmp(name, "ten") == 0) {
        say(line, ioctl(file, I2C_TENBIT, hex), NULL, 0);
    } else if (strcmp(name, "other") == 0) {
        say(line, ioctl(file, 0x7FF, 0), NULL, 0);
    } else if (strcmp(name, "funcs") == 0) {
        say(line, ioctl(file, I2C_FUNCS, &functions), NULL, 0);
        sprintf(line + strlen(line), " %08lx", functions);
    } else if (strcmp(name, "write") == 0) {
        say(line, write(file, bytes, bytes_of(first, bytes)), NULL, 0);
    } else if (strcmp(name, "read") == 0) {
        long done = read(file, bytes, strtoul(first, NULL, 10));
        say(line, done, bytes, done < 0 ? 0 : (size_t)done);
    } else if (strcmp(name, "rdwr") == 0) {
        rdwr(first, line);
    } else if (strcmp(name, "lens") == 0) {
        lens((unsigned)hex, (unsigned)strtoul(strchr(first, ':') + 1, NULL, 16), line);
    } else if (size_of(name) >= 0) {
        char *way = strsep(&rest, ":"), *at = rest ? strsep(&rest, ":") : "0";
        smbus(size_of(name), way[0], (unsigned)strtoul(at, NULL, 16), rest ? rest : "", line);
    } else {
        usage(words);
    }
}

static void loop(long rounds, int count, char **calls)
{
    static char first[64][LINE], line[LINE];
    for (long round = 1; round <= rounds; round++) {
        for (int i = 0; i < count && i < 64; i++) {
            call(calls[i], round == 1 ? first[i] : line);
            if (round > 1 && strcmp(line, first[i]) != 0)
                printf("%s: %s in round 1, %s in round %ld\n", calls[i], first[i], line, round);
        }
        if (round % 1000 == 0) {
            printf("%ld\n", round);
            fflush(stdout);
        }
    }
    for (int i = 0; i < count && i < 64; i++)
        printf("%s -> %s\n", calls[i], first[i]);
}

int main(int count, char **words)
{
    static char line[LINE];
    if (count < 3) {
        fputs("driver: a device and calls\n", stderr);
        return 2;
    }
    file = open(words[1], O_RDWR);
    if (file < 0) {
        printf("open -> %s\n", strerrorname_np(errno));
        return 1;
    }
    if (strcmp(words[2], "loop") == 0 && count > 4) {
        loop(atol(words[3]), count - 4, words + 4);
        return 0;
    }
    for (int i = 2; i < count; i++) {
        call(words[i], line);
        printf("%s -> %s\n", words[i], line);
    }
    return close(file) == 0 ? 0 : 1;
}
