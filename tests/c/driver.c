/*
 * Holds the library to what the model expects: reads the blocks of `model generate` from standard input,
 * runs the library on the same streams and numbers, and prints each difference with its seed.
 */
#include "guard.h"
#include "toralinge.h"

#define MOST_SHOWN 20
#define PLAIN_BEGINNING 16384

static unsigned long streams, records, plainly, pieces, asked, rows, reasons, conversions, differences;

static void get(void *to, size_t size)
{
    if (fread(to, 1, size, stdin) != size) {
        fprintf(stderr, "driver: its input ends in the middle of a block\n");
        exit(2);
    }
}

static uint64_t get_number(size_t bytes)
{
    uint8_t read[8];
    uint64_t number = 0;
    get(read, bytes);
    while (bytes > 0) {
        bytes--;
        number = number << 8 | read[bytes];
    }
    return number;
}

static uint8_t *get_bytes(size_t size)
{
    uint8_t *bytes = malloc(size + 1);
    if (bytes == NULL) {
        fprintf(stderr, "driver: out of memory\n");
        exit(2);
    }
    get(bytes, size);
    return bytes;
}

struct expected {
    uint64_t seed, number;
    uint8_t *stream;
    size_t length;
    uint8_t *entries;
    size_t count;
    uint8_t reading_number;
    uint64_t reading[TORALINGE_READING_SIZE];
};

static int differs(const struct expected *want, const char *what)
{
    differences++;
    if (differences <= MOST_SHOWN) {
        printf("DIFFERENCE seed %llu stream %llu: %s\n", (unsigned long long)want->seed,
               (unsigned long long)want->number, what);
    }
    return differences <= MOST_SHOWN;
}

static void print_entry(const char *whose, const uint8_t *entry)
{
    printf("  %s: number %u flag %u byte %02X SYS_STAT %02X pins %u\n", whose, entry[0], entry[1], entry[2], entry[3],
           entry[4]);
}

/* The bytes of a record, the first forty of them. */
static void print_record(const struct expected *want, size_t record)
{
    size_t at = 0, end, shown;
    while (record > 0 && want->length - at >= 4) {
        at += 4 + want->stream[at] + 256 * (size_t)want->stream[at + 1];
        record--;
    }
    end = want->length;
    if (want->length - at >= 4) {
        size_t whole = 4 + want->stream[at] + 256 * (size_t)want->stream[at + 1];
        end = whole < want->length - at ? at + whole : want->length;
    }
    printf("  record:");
    for (shown = at; shown < end && shown < at + 40; shown++) {
        printf(" %02X", want->stream[shown]);
    }
    printf("%s\n", shown < end ? " .." : "");
}

static void compare_entries(const struct expected *want, const uint8_t *entries)
{
    size_t record;
    for (record = 0; record < want->count; record++) {
        const uint8_t *wanted = want->entries + TORALINGE_ENTRY_SIZE * record;
        const uint8_t *given = entries + TORALINGE_ENTRY_SIZE * record;
        if (memcmp(wanted, given, TORALINGE_ENTRY_SIZE) != 0) {
            char what[64];
            snprintf(what, sizeof what, "entry of record %lu", (unsigned long)record);
            if (differs(want, what)) {
                print_record(want, record);
                print_entry("model  ", wanted);
                print_entry("library", given);
            }
            return;
        }
    }
}

/* Plays into a room of some size: all entries where they fit, else -5 and no byte. */
static void play_into(const struct expected *want, size_t room)
{
    size_t full = TORALINGE_ENTRY_SIZE * want->count;
    int fits = room >= full;
    int64_t wanted = fits ? (int64_t)want->count : -5;
    struct guarded buffer = guarded_new(room);
    int64_t given = toralinge_play(want->stream, want->length, buffer.room, room);
    if (given != wanted) {
        if (differs(want, "count of entries")) {
            printf("  room %lu: model %lld, library %lld\n", (unsigned long)room, (long long)wanted, (long long)given);
        }
    }
    if (!guarded_kept(&buffer, fits ? full : 0)) {
        if (differs(want, "a byte is written that is not an entry's")) {
            printf("  room %lu of %lu\n", (unsigned long)room, (unsigned long)full);
        }
    }
    if (room == full) {
        compare_entries(want, buffer.room);
    } else if (fits && given == wanted) {
        struct guarded exact = guarded_new(full);
        toralinge_play(want->stream, want->length, exact.room, full);
        if (memcmp(exact.room, buffer.room, full) != 0) {
            differs(want, "entries are others where there is more room");
        }
        guarded_free(&exact);
    }
    guarded_free(&buffer);
}

/* The place after some records from a place on: the end where there are fewer, or one is cut short. */
static size_t after_records(const struct expected *want, size_t at, size_t many)
{
    while (many > 0 && at < want->length) {
        size_t left = want->length - at;
        size_t whole = left < 4 ? left : 4 + want->stream[at] + 256 * (size_t)want->stream[at + 1];
        at += whole < left ? whole : left;
        many--;
    }
    return at;
}

/* Fed to a kept chip in pieces of 1 to 9 records, the entries are the model's; the bytes behind the chip stay. */
static void feed_in_pieces(const struct expected *want)
{
    size_t at = 0, done = 0, full = TORALINGE_ENTRY_SIZE * want->count;
    uint64_t chance = want->number * 2654435761u + 1;
    struct guarded chip = guarded_new(TORALINGE_CHIP_SIZE);
    uint8_t *entries = malloc(full + 1);
    if (entries == NULL) {
        fprintf(stderr, "driver: out of memory\n");
        exit(2);
    }
    memset(chip.room, 0, TORALINGE_CHIP_SIZE);
    while (at < want->length && done < want->count) {
        size_t end = after_records(want, at, 1 + (size_t)(chance >> 33) % 9);
        int64_t given = toralinge_feed(chip.room, TORALINGE_CHIP_SIZE, want->stream + at, end - at,
                                       entries + TORALINGE_ENTRY_SIZE * done, full - TORALINGE_ENTRY_SIZE * done);
        if (given < 0) {
            differs(want, "a piece is not fed");
            break;
        }
        pieces++;
        done += (size_t)given;
        at = end;
        chance = chance * 6364136223846793005u + 1442695040888963407u;
    }
    if (done != want->count) {
        differs(want, "count of entries in pieces");
    } else {
        compare_entries(want, entries);
    }
    if (!guarded_kept(&chip, TORALINGE_CHIP_SIZE)) {
        differs(want, "a byte is written behind the chip");
    }
    free(entries);
    guarded_free(&chip);
}

/* The engine that keeps no runs: the model's entries, or -24; then what a longer stream begins with, as the other engine plays it. */
static void play_plainly(const struct expected *want)
{
    size_t full = TORALINGE_ENTRY_SIZE * want->count;
    int longer = want->length > TORALINGE_PLAIN_MOST;
    int64_t wanted = longer ? -TORALINGE_TOO_LONG : (int64_t)want->count;
    struct guarded buffer = guarded_new(full);
    int64_t given = toralinge_plain(want->stream, want->length, buffer.room, full);
    if (given != wanted && differs(want, "count of the plain engine's entries")) {
        printf("  model %lld, library %lld\n", (long long)wanted, (long long)given);
    }
    if (!guarded_kept(&buffer, longer ? 0 : full)) {
        differs(want, "the plain engine writes a byte that is not an entry's");
    }
    if (longer) {
        struct guarded other = guarded_new(full);
        wanted = toralinge_play(want->stream, PLAIN_BEGINNING, other.room, full);
        given = toralinge_plain(want->stream, PLAIN_BEGINNING, buffer.room, full);
        if (given != wanted || memcmp(other.room, buffer.room, full) != 0) {
            differs(want, "the plain engine begins otherwise");
        }
        guarded_free(&other);
    } else {
        compare_entries(want, buffer.room);
    }
    plainly += given < 0 ? 0 : (unsigned long)given;
    guarded_free(&buffer);
}

static void read_into(const struct expected *want, size_t room)
{
    uint8_t wanted = want->reading_number;
    uint8_t given;
    size_t written;
    struct guarded buffer = guarded_new(sizeof(double) * room);
    if (wanted == TORALINGE_DONE && room < TORALINGE_READING_SIZE) {
        wanted = TORALINGE_NO_ROOM;
    }
    written = wanted == TORALINGE_DONE ? TORALINGE_READING_SIZE * sizeof(double) : 0;
    given = toralinge_reading(want->stream, want->length, (double *)(void *)buffer.room, room);
    if (given != wanted && differs(want, "number of the reading")) {
        printf("  room %lu: model %u, library %u\n", (unsigned long)room, wanted, given);
    }
    if (!guarded_kept(&buffer, written)) {
        differs(want, "a byte is written that is not the reading's");
    }
    if (written != 0 && memcmp(buffer.room, want->reading, written) != 0 && differs(want, "reading")) {
        int place;
        for (place = 0; place < TORALINGE_READING_SIZE; place++) {
            double of_model, of_library;
            memcpy(&of_model, &want->reading[place], sizeof of_model);
            memcpy(&of_library, buffer.room + sizeof(double) * (size_t)place, sizeof of_library);
            printf("  place %d: model %.17g, library %.17g\n", place, of_model, of_library);
        }
    }
    guarded_free(&buffer);
}

/* A question to the chip that the stream leaves: cells to bleed for command 0, else a Smart Battery word. */
struct question {
    uint8_t command;
    uint32_t with;
    uint8_t number;
    uint8_t bytes[TORALINGE_REPLY_SIZE];
};

static void ask_into(const struct expected *want, const struct question *question, size_t room)
{
    uint8_t wanted = question->number;
    uint8_t given;
    size_t written;
    struct guarded buffer = guarded_new(room);
    if (wanted == TORALINGE_DONE && room < TORALINGE_REPLY_SIZE) {
        wanted = TORALINGE_NO_ROOM;
    }
    written = wanted == TORALINGE_DONE ? TORALINGE_REPLY_SIZE : 0;
    if (question->command == 0) {
        given = toralinge_bleed(want->stream, want->length, question->with, buffer.room, room);
    } else {
        given = toralinge_reply(want->stream, want->length, question->command, question->with, buffer.room, room);
    }
    asked++;
    if ((given != wanted || memcmp(buffer.room, question->bytes, written) != 0) && differs(want, "cells to bleed, or a word")) {
        const uint8_t *model = question->bytes;
        printf("  command %02X with %lu, room %lu\n", question->command, (unsigned long)question->with, (unsigned long)room);
        printf("  model  : number %u bytes %02X %02X %02X\n", wanted, model[0], model[1], model[2]);
        printf("  library: number %u bytes", given);
        for (written = 0; written < room && written < TORALINGE_REPLY_SIZE; written++) {
            printf(" %02X", buffer.room[written]);
        }
        printf("\n");
    }
    if (!guarded_kept(&buffer, wanted == TORALINGE_DONE ? TORALINGE_REPLY_SIZE : 0)) {
        differs(want, "a byte is written that is not the answer's");
    }
    guarded_free(&buffer);
}

static void ask_all(const struct expected *want)
{
    uint64_t many = get_number(8);
    while (many > 0) {
        struct question question;
        question.command = (uint8_t)get_number(1);
        question.with = (uint32_t)get_number(4);
        question.number = (uint8_t)get_number(1);
        get(question.bytes, sizeof question.bytes);
        if (want->length < 60000 || many % 8 == 0) { /* of a long stream every eighth */
            ask_into(want, &question, TORALINGE_REPLY_SIZE + (size_t)(many % 2));
            ask_into(want, &question, (size_t)(many % TORALINGE_REPLY_SIZE));
        }
        many--;
    }
}

static void season_into(const struct expected *want, uint8_t number, const uint8_t *wanted, size_t cells, size_t room)
{
    size_t full = number == 0 ? TORALINGE_SEASON_SIZE * cells : 0;
    int64_t answer = number != 0 ? -(int64_t)number : room < full ? -TORALINGE_NO_ROOM : (int64_t)cells;
    struct guarded buffer = guarded_new(sizeof(int64_t) * room);
    int64_t given = toralinge_season(want->stream, want->length, (int64_t *)(void *)buffer.room, room);
    size_t written = answer < 0 ? 0 : sizeof(int64_t) * full;
    if (given != answer && differs(want, "answer of the season")) {
        printf("  room %lu: model %lld, library %lld\n", (unsigned long)room, (long long)answer, (long long)given);
    }
    if (!guarded_kept(&buffer, written)) {
        differs(want, "a number is written that is not the season's");
    }
    if (memcmp(buffer.room, wanted, written) != 0 && differs(want, "season")) {
        size_t at;
        for (at = 0; at < full; at++) {
            int64_t of_model, of_library;
            memcpy(&of_model, wanted + sizeof of_model * at, sizeof of_model);
            memcpy(&of_library, buffer.room + sizeof of_library * at, sizeof of_library);
            if (of_model != of_library) {
                printf("  cell %lu place %lu: model %lld, library %lld\n", (unsigned long)(at / TORALINGE_SEASON_SIZE + 1),
                       (unsigned long)(at % TORALINGE_SEASON_SIZE), (long long)of_model, (long long)of_library);
            }
        }
    }
    guarded_free(&buffer);
}

static void season_all(const struct expected *want)
{
    uint8_t number = (uint8_t)get_number(1);
    size_t cells = (size_t)get_number(1);
    size_t full = TORALINGE_SEASON_SIZE * cells;
    uint8_t *wanted = get_bytes(sizeof(int64_t) * full);
    season_into(want, number, wanted, cells, full + (size_t)(want->number % 11));
    season_into(want, number, wanted, cells, full > 0 ? full - 1 : 0);
    season_into(want, number, wanted, cells, (size_t)(want->number % TORALINGE_SEASON_SIZE));
    rows += (unsigned long)cells;
    free(wanted);
}

/* A question about a bit, 'w', or a drive, 'o', after a record. */
struct rise {
    uint8_t call;
    uint64_t record;
    uint32_t of;
    uint8_t number;
    uint8_t row[TORALINGE_WHY_SIZE];
};

static size_t row_size(const struct rise *rise)
{
    return rise->call == 'w' ? TORALINGE_WHY_SIZE : TORALINGE_OFF_SIZE;
}

static void print_row(const char *whose, int64_t answer, const uint8_t *row, size_t many)
{
    size_t at;
    printf("  %s: %lld", whose, (long long)answer);
    for (at = 0; at < many; at++) {
        printf(" %02X", row[at]);
    }
    printf("\n");
}

static void rise_into(const struct expected *want, const struct rise *rise, size_t room)
{
    size_t size = row_size(rise);
    int64_t wanted = rise->number != 0 ? -(int64_t)rise->number : room < size ? -TORALINGE_NO_ROOM : 0;
    size_t written = wanted == 0 ? size : 0;
    struct guarded buffer = guarded_new(room);
    int64_t given = rise->call == 'w' ? toralinge_why(want->stream, want->length, rise->record, rise->of, buffer.room, room)
                                      : toralinge_off(want->stream, want->length, rise->record, rise->of, buffer.room, room);
    reasons++;
    if ((given != wanted || memcmp(buffer.room, rise->row, written) != 0) && differs(want, "why a bit rose, or a drive is off")) {
        printf("  %s of %lu after record %llu, room %lu\n", rise->call == 'w' ? "why" : "off", (unsigned long)rise->of,
               (unsigned long long)rise->record, (unsigned long)room);
        print_row("model  ", wanted, rise->row, written);
        print_row("library", given, buffer.room, written);
    }
    if (!guarded_kept(&buffer, written)) {
        differs(want, "a byte is written that is not the row's");
    }
    guarded_free(&buffer);
}

/* Each question in a room that is exact or larger, and every twelfth in one that is too short. */
static void rise_all(const struct expected *want)
{
    uint64_t many = get_number(8);
    while (many > 0) {
        struct rise rise;
        rise.call = (uint8_t)get_number(1);
        rise.record = get_number(8);
        rise.of = (uint32_t)get_number(4);
        rise.number = (uint8_t)get_number(1);
        if (rise.number == 0) {
            get(rise.row, row_size(&rise));
        }
        if (want->length < 60000 || many % 4 == 0) { /* of a long stream every fourth */
            rise_into(want, &rise, row_size(&rise) + (size_t)(many % 2));
        }
        if (many % 12 == 0) {
            rise_into(want, &rise, (size_t)(many % row_size(&rise)));
        }
        many--;
    }
}

static void stream_block(void)
{
    struct expected want;
    size_t full, place;
    uint8_t *lent;
    want.seed = get_number(8);
    want.number = get_number(8);
    want.length = (size_t)get_number(8);
    want.stream = get_bytes(want.length);
    want.count = (size_t)get_number(8);
    want.entries = get_bytes(TORALINGE_ENTRY_SIZE * want.count);
    want.reading_number = (uint8_t)get_number(1);
    for (place = 0; place < TORALINGE_READING_SIZE; place++) {
        want.reading[place] = get_number(8);
    }
    full = TORALINGE_ENTRY_SIZE * want.count;
    lent = malloc(want.length + 1);
    if (lent == NULL) {
        fprintf(stderr, "driver: out of memory\n");
        exit(2);
    }
    memcpy(lent, want.stream, want.length);
    play_into(&want, full);
    feed_in_pieces(&want);
    play_into(&want, full + 1 + (size_t)(want.number % 90));
    if (full > 0) {
        play_into(&want, full - 1);
        play_into(&want, full - TORALINGE_ENTRY_SIZE);
    }
    play_plainly(&want);
    read_into(&want, TORALINGE_READING_SIZE + (size_t)(want.number % 2));
    read_into(&want, (size_t)(want.number % TORALINGE_READING_SIZE));
    ask_all(&want);
    season_all(&want);
    rise_all(&want);
    if (memcmp(lent, want.stream, want.length) != 0) {
        differs(&want, "the stream itself is changed");
    }
    free(lent);
    streams++;
    records += (unsigned long)want.count;
    free(want.stream);
    free(want.entries);
}

/* One conversion; the value lent is 8 bytes wide, of which a call may write its own type's. */
static void conversion_block(void)
{
    uint8_t call = (uint8_t)get_number(1);
    uint8_t gain_code = (uint8_t)get_number(1);
    uint8_t offset = (uint8_t)get_number(1);
    uint16_t count = (uint16_t)get_number(2);
    int64_t wanted = (int64_t)get_number(8);
    uint8_t number = (uint8_t)get_number(1);
    int64_t value = (int64_t)get_number(8);
    struct guarded lent = guarded_new(8);
    int64_t *wide = (int64_t *)(void *)lent.room;
    size_t width = call == 'o' || call == 'u' ? 1 : 8;
    uint8_t given = 0;
    int64_t found = 0;
    switch (call) {
    case 'm': given = toralinge_cell_microvolts(gain_code, offset, count, wide); break;
    case 't': given = toralinge_thermistor_ohms(count, (uint64_t *)(void *)lent.room); break;
    case 'd': given = toralinge_die_temperature(count, wide); break;
    case 'o': given = toralinge_over_voltage_code(gain_code, offset, wanted, lent.room); break;
    case 'u': given = toralinge_under_voltage_code(gain_code, offset, wanted, lent.room); break;
    default: *wide = toralinge_cc_hundredths(count); break;
    }
    if (given == 0) {
        found = width == 1 ? (int64_t)lent.room[0] : *wide;
    }
    conversions++;
    if (given != number || found != value || !guarded_kept(&lent, number == 0 ? width : 0)) {
        differences++;
        if (differences <= MOST_SHOWN) {
            printf("DIFFERENCE conversion %c gain code %u offset %u count %u wanted %lld\n", call, gain_code, offset, count,
                   (long long)wanted);
            printf("  model: number %u value %lld; library: number %u value %lld; guards %s\n", number, (long long)value,
                   given, (long long)found, guarded_kept(&lent, number == 0 ? width : 0) ? "kept" : "BROKEN");
        }
    }
    guarded_free(&lent);
}

static void crc_block(void)
{
    uint8_t start = (uint8_t)get_number(1);
    size_t length = (size_t)get_number(8);
    uint8_t *bytes = get_bytes(length);
    uint8_t wanted = (uint8_t)get_number(1);
    uint8_t given = toralinge_crc8(start, bytes, length);
    conversions++;
    if (given != wanted) {
        differences++;
        if (differences <= MOST_SHOWN) {
            printf("DIFFERENCE CRC of %lu bytes from %02X: model %02X, library %02X\n", (unsigned long)length, start, wanted,
                   given);
        }
    }
    free(bytes);
}

int main(void)
{
    for (;;) {
        int block = getchar();
        if (block == 'S') {
            stream_block();
        } else if (block == 'V') {
            conversion_block();
        } else if (block == 'K') {
            crc_block();
        } else if (block == 'E') {
            break;
        } else {
            fprintf(stderr, "driver: its input has no such block\n");
            return 2;
        }
    }
    printf("driver: %lu streams, %lu records (%lu of them plainly), %lu pieces, %lu questions, %lu rows of seasons, %lu reasons and %lu conversions "
           "compared, %lu differences\n",
           streams, records, plainly, pieces, asked, rows, reasons, conversions, differences);
    return differences == 0 ? 0 : 1;
}
