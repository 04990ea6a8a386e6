/*
 * Measures the stack that the service takes: stack CENSUS REPAIR CALL ends with status 0 if a census takes less than CENSUS bytes, a
 * repair less than REPAIR, and each call and a format less than CALL. host/manual-test gives it the numbers that docs/HOST.md and
 * flex.h state.
 *
 * The work is done by a thread on a stack of our own, painted before; the deepest byte that lost its paint was used. The largest
 * diskette and the smallest are formatted, the census is taken of them, and every function that is served is called; then their
 * directory has no slot left and grows, and the census is taken again. Then files share a sector, and are repaired.
 */
#include <pthread.h>
#include <stdio.h>
#include <stdlib.h>
#include <string.h>

#include "flex.h"

enum { PAINT = 0xA5, STACK_BYTES = 64 * 1024, MOST_BYTES = 80 * 36 * 256, MOST_SECTORS = 79 * 36 };

static uint8_t stack[STACK_BYTES] __attribute__((aligned(4096)));
static const uint8_t *begin; /* where the stack stood when the entry was called */

static uint8_t image[MOST_BYTES];
static uint8_t table[FLEX_TABLE_BYTES];
static uint8_t sectors[2 * MOST_SECTORS];
static uint8_t owners[2 * MOST_SECTORS];
static size_t last, per;
static uint32_t answer;

static size_t image_bytes(void) { return (last + 1) * per * 256; }

static void *format(void *unused) {
    static const uint8_t label[11] = "STACK";
    begin = __builtin_frame_address(0);
    answer = flex_format(image, image_bytes(), last, per, label, sizeof label, 1, 11, 15, 82);
    return unused;
}

static void *census(void *unused) {
    begin = __builtin_frame_address(0);
    answer = flex_census(image, image_bytes(), sectors, 2 * last * per, owners, 2 * last * per);
    return unused;
}

static void *repair(void *unused) {
    begin = __builtin_frame_address(0);
    answer = flex_repair(image, image_bytes(), table, sizeof table);
    return unused;
}

static void *call(void *unused) {
    begin = __builtin_frame_address(0);
    answer = FLEX_ANSWER(flex_call(image, image_bytes(), table, sizeof table, 0, 'A'));
    return unused;
}

/* The bytes that the work takes below the frame of its thread's function. The answer must be 0. */
static size_t used(void *(*work)(void *), const char *what) {
    pthread_t thread;
    pthread_attr_t attributes;
    size_t deepest = 0;
    memset(stack, PAINT, sizeof stack);
    if (pthread_attr_init(&attributes) != 0 || pthread_attr_setstack(&attributes, stack, sizeof stack) != 0 ||
        pthread_create(&thread, &attributes, work, NULL) != 0 || pthread_join(thread, NULL) != 0) {
        fprintf(stderr, "stack: no thread could be made\n");
        exit(2);
    }
    if (answer != FLEX_DONE) {
        fprintf(stderr, "stack: %s was refused with %lu\n", what, (unsigned long)answer);
        exit(2);
    }
    while (stack[deepest] == PAINT) {
        deepest++;
    }
    return (size_t)(begin - (stack + deepest));
}

static size_t larger(size_t a, size_t b) { return a > b ? a : b; }

/* One function on block 0, by these eleven bytes of name and of new name, at 1,1. In an open block these presets are refused. */
static size_t asked(uint8_t code, const char *name, const char *new_name) {
    size_t i;
    flex_preset(table, sizeof table, 0, FLEX_FUNCTION, code);
    for (i = 0; i < 11; i++) {
        flex_preset(table, sizeof table, 0, FLEX_NAME + i, (uint8_t)name[i]);
        flex_preset(table, sizeof table, 0, FLEX_NEW_NAME + i, (uint8_t)new_name[i]);
    }
    flex_preset(table, sizeof table, 0, FLEX_POSITION, 1);
    flex_preset(table, sizeof table, 0, FLEX_POSITION + 1, 1);
    return used(call, "a call");
}

/* The most that a call takes, of all functions. 253 bytes are two sectors: a first one, a buffer stored, and a further one. */
static size_t calls(void) {
    static const struct {
        uint8_t code;
        int times;
    } jobs[] = {
        {FLEX_OPEN_WRITE, 1},     {FLEX_NEXT_BYTE, 253}, {FLEX_CLOSE, 1},
        {FLEX_OPEN_READ, 1},      {FLEX_NEXT_BYTE, 253}, {FLEX_REWIND, 1},      {FLEX_CLOSE, 1},
        {FLEX_OPEN_DIRECTORY, 1}, {FLEX_NEXT_SLOT, 1},   {FLEX_PUT_SLOT, 1},    {FLEX_NEXT_SLOT, 1},
        {FLEX_READ_SECTOR, 1},    {FLEX_WRITE_SECTOR, 1}, {FLEX_RENAME, 1},
    };
    size_t most = 0;
    size_t i;
    int n;
    for (i = 0; i < sizeof jobs / sizeof jobs[0]; i++) {
        for (n = 0; n < jobs[i].times; n++) {
            most = larger(most, asked(jobs[i].code, "A\0\0\0\0\0\0\0TXT", "B\0\0\0\0\0\0\0TXT"));
        }
    }
    return larger(most, asked(FLEX_DELETE, "B\0\0\0\0\0\0\0TXT", "C\0\0\0\0\0\0\0TXT"));
}

/* The most that each kind of work takes. */
struct most {
    size_t census, calls, format, repair;
};

/* Files that were open for write when the power failed take all slots of track 0; for one more the directory grows. */
static void crowd(struct most *most) {
    char name[] = "F000\0\0\0\0TXT";
    size_t slots = 10 * (per - 4);
    size_t i;
    for (i = 0; i <= slots; i++) {
        name[1] = (char)('0' + i / 100);
        name[2] = (char)('0' + i / 10 % 10);
        name[3] = (char)('0' + i % 10);
        memset(table, 0, sizeof table);
        most->calls = larger(most->calls, asked(FLEX_OPEN_WRITE, name, name));
    }
    if (table[FLEX_PLACE] == 0) {
        fprintf(stderr, "stack: the directory did not grow\n");
        exit(2);
    }
    most->census = larger(most->census, used(census, "a census"));
}

/* All files state one and the same sector, and more of them. */
static void share(struct most *most) {
    static const uint8_t record[7] = {1, 2, 9, 9, 255, 255, 1};
    size_t slot;
    memset(table, 0, sizeof table);
    for (slot = 1024 + 16; slot < 1024 + 256; slot += 24) {
        memcpy(image + slot + FLEX_START - FLEX_NAME, record, sizeof record);
    }
    most->repair = larger(most->repair, used(repair, "a repair"));
    most->census = larger(most->census, used(census, "a census"));
}

static void measure(struct most *most, size_t last_track, size_t per_track) {
    last = last_track;
    per = per_track;
    memset(table, 0, sizeof table);
    most->format = larger(most->format, used(format, "a format"));
    most->census = larger(most->census, used(census, "a census"));
    most->repair = larger(most->repair, used(repair, "a repair"));
    most->calls = larger(most->calls, calls());
    crowd(most);
    share(most);
}

/* Says and gives whether the work takes less than is stated. */
static int is_less(const char *what, size_t bytes, const char *stated) {
    printf("stack: %s takes %lu bytes, stated is less than %s\n", what, (unsigned long)bytes, stated);
    return bytes < strtoul(stated, NULL, 10);
}

int main(int argc, char **argv) {
    struct most most = {0, 0, 0, 0};
    int is_as_stated;
    if (argc != 4) {
        fprintf(stderr, "usage: stack CENSUS REPAIR CALL\n");
        return 2;
    }
    /* The first of each are not looked at: in them the loader finds memset and memcpy, on the same stack. */
    measure(&most, 1, 5);
    memset(&most, 0, sizeof most);
    measure(&most, 1, 5);
    measure(&most, 79, 36);
    is_as_stated = is_less("a census", most.census, argv[1]);
    is_as_stated &= is_less("a repair", most.repair, argv[2]);
    is_as_stated &= is_less("a call", most.calls, argv[3]);
    is_as_stated &= is_less("a format", most.format, argv[3]);
    return is_as_stated ? 0 : 1;
}
