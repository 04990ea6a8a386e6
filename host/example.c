/*
 * A C host: makes the smallest diskette, of five data sectors, writes a file, reads it back, shows what a refusal looks like, and
 * takes the census. Then a raw write breaks the file's chain, as service staff's programs can, and a repair mends it. It checks
 * what it gets and ends with status 0 if all is as promised.
 *
 * cc -I host host/example.c target/staticlib/libflex.a -o example
 */
#include <stdio.h>
#include <stdlib.h>
#include <string.h>

#include "flex.h"

enum { LAST = 1, PER = 5, IMAGE_BYTES = (LAST + 1) * PER * 256, DATA_SECTORS = LAST * PER };

static uint8_t image[IMAGE_BYTES];
static uint8_t table[FLEX_TABLE_BYTES];

static void fail(const char *what) {
    fprintf(stderr, "example: %s\n", what);
    exit(1);
}

/* A label, the volume number 1 and a date. No block may be open on the image; here all are closed, as the table is zero. */
static void make_blank(void) {
    static const uint8_t label[11] = "ALARMS";
    if (flex_format(image, sizeof image, LAST, PER, label, sizeof label, 1, 11, 15, 82) != FLEX_DONE) {
        fail("format was refused");
    }
}

/* The answer of one function on block 0. */
static uint32_t ask(uint8_t function) {
    if (flex_preset(table, sizeof table, 0, FLEX_FUNCTION, function) != FLEX_DONE) {
        fail("the preset of a function was refused");
    }
    return FLEX_ANSWER(flex_call(image, sizeof image, table, sizeof table, 0, 0));
}

/* A name of up to eight letters, and the extension TXT (code 1). */
static void name(const char *text) {
    size_t i;
    size_t used = strlen(text);
    for (i = 0; i < 11; i++) {
        uint8_t letter = i < used ? (uint8_t)text[i] : 0;
        if (flex_preset(table, sizeof table, 0, FLEX_NAME + i, letter) != FLEX_DONE) {
            fail("the preset of a name was refused");
        }
    }
    flex_extension(table, sizeof table, 0, 1);
}

static void write_file(const char *text) {
    size_t i;
    name("ALARM");
    if (ask(FLEX_OPEN_WRITE) != FLEX_DONE) {
        fail("open for write was refused");
    }
    for (i = 0; i < strlen(text); i++) {
        if (flex_call(image, sizeof image, table, sizeof table, 0, (uint8_t)text[i]) != FLEX_DONE) {
            fail("a byte was refused");
        }
    }
    if (ask(FLEX_CLOSE) != FLEX_DONE) {
        fail("close was refused");
    }
    printf("ALARM.TXT written: %lu bytes\n", (unsigned long)strlen(text));
}

/* The bytes come back, then zeros to the end of the sector, then 8. */
static void read_file(const char *text) {
    size_t count = 0;
    uint32_t packed;
    name("ALARM");
    if (ask(FLEX_OPEN_READ) != FLEX_DONE) {
        fail("open for read was refused");
    }
    while (FLEX_ANSWER(packed = flex_call(image, sizeof image, table, sizeof table, 0, 0)) == FLEX_DONE) {
        uint8_t expected = count < strlen(text) ? (uint8_t)text[count] : 0;
        if (FLEX_BYTE(packed) != expected) {
            fail("another byte came back");
        }
        count++;
    }
    if (FLEX_ANSWER(packed) != FLEX_AT_END || ask(FLEX_CLOSE) != FLEX_DONE) {
        fail("the file has no end");
    }
    printf("ALARM.TXT read back: %lu bytes with the zeros of its last sector\n", (unsigned long)count);
}

static void be_refused(void) {
    uint8_t text[16] = {0};
    uint32_t answer;
    name("NONE");
    answer = ask(FLEX_OPEN_READ);
    if (answer != FLEX_NOT_FOUND || table[FLEX_ERROR] != FLEX_NOT_FOUND) {
        fail("a file that does not exist was found");
    }
    flex_error_text(text, sizeof text - 1, (uint8_t)answer);
    printf("NONE.TXT: %s\n", (const char *)text);
}

/* Whose a sector is: nobody's, the directory's where it has grown, or the file's with this slot. */
static void print_owner(int sector, int owner) {
    if (owner == FLEX_OWNER_FREE) {
        printf("sector %d free\n", sector);
    } else if (owner == FLEX_OWNER_DIRECTORY) {
        printf("sector %d of the directory\n", sector);
    } else {
        printf("sector %d in slot %d\n", sector, owner);
    }
}

/* Its answer; where that is not 0, it has listed nothing. */
static uint32_t take_census(void) {
    uint8_t sectors[2 * DATA_SECTORS];
    uint8_t owners[2 * DATA_SECTORS];
    int i;
    uint32_t answer = flex_census(image, sizeof image, sectors, sizeof sectors, owners, sizeof owners);
    for (i = 0; i < DATA_SECTORS && answer == FLEX_DONE; i++) {
        print_owner(256 * sectors[2 * i] + sectors[2 * i + 1], 256 * owners[2 * i] + owners[2 * i + 1]);
    }
    return answer;
}

/* The sector 1,1, which is the file's first, gets a link to 9,9, where no sector is. */
static void write_raw(void) {
    flex_preset(table, sizeof table, 0, FLEX_POSITION, 1);
    flex_preset(table, sizeof table, 0, FLEX_POSITION + 1, 1);
    if (ask(FLEX_READ_SECTOR) != FLEX_DONE) {
        fail("a sector was not read");
    }
    flex_preset(table, sizeof table, 0, FLEX_BUFFER, 9);
    flex_preset(table, sizeof table, 0, FLEX_BUFFER + 1, 9);
    if (ask(FLEX_WRITE_SECTOR) != FLEX_DONE) {
        fail("a sector was not written");
    }
}

/* All blocks are closed by now. The file keeps its first sector, and its second is free again. */
static void repair(void) {
    printf("after a raw write: census %lu\n", (unsigned long)take_census());
    if (flex_repair(image, sizeof image, table, sizeof table) != FLEX_DONE) {
        fail("repair was refused");
    }
    printf("repaired:\n");
    if (take_census() != FLEX_DONE) {
        fail("the census refused a repaired diskette");
    }
}

int main(void) {
    const char *text =
        "22:41 NORTH AMPLIFIER 14 LEVEL LOW\n22:41 NORTH AMPLIFIER 15 NO SIGNAL\n22:58 NORTH AMPLIFIER 14 SUPPLY 41 VOLTS\n"
        "23:07 FEEDER 2 OFF BY HAND\n02:15 CREW AT AMPLIFIER 14\n02:52 FEEDER 2 ON\n"
        "02:53 NORTH AMPLIFIER 14 LEVEL NORMAL\n02:53 NORTH AMPLIFIER 15 LEVEL NORMAL\n05:02 MAINS FAILED\n05:06 MAINS BACK\n";
    printf("flex.h %s (%d)\n", FLEX_VERSION_TEXT, FLEX_VERSION);
    make_blank();
    write_file(text);
    read_file(text);
    be_refused();
    if (take_census() != FLEX_DONE) {
        fail("the census refused");
    }
    write_raw();
    repair();
    return 0;
}
