/*
 * flex.h: the proved FLEX diskette service, libflex.a (x86-64 Linux).
 *
 * The service works on two lent buffers, the image of a diskette and a table of eight control blocks, and keeps no state of
 * its own. What each entry answers and what it leaves in every byte of the lent buffers is proved for all inputs, refused
 * calls too; docs/RULES.md says it in words.
 *
 * What the host owes:
 *   - each pointer leads to as many bytes as the length beside it says, and is not NULL even where that length is 0;
 *   - no two slices of one call overlap;
 *   - two calls on the same buffers are not made at the same time.
 * Nothing else: every length, number and content is allowed, and a wrong one is refused with a number.
 *
 * A refused flex_call changes nothing but byte 1 of its control block, which gets the number; where there is no such block
 * (13) nothing at all. A refused flex_preset, flex_extension, flex_error_text, flex_format or flex_repair changes nothing.
 * flex_census says it below.
 *
 * Link: cc -I host program.c target/staticlib/libflex.a
 * A census takes less than 12,000 bytes of stack, a repair less than 6,500, a call or a format less than 1,000. docs/HOST.md has
 * the rest.
 */
#ifndef FLEX_H
#define FLEX_H

#include <stddef.h>
#include <stdint.h>

#ifdef __cplusplus
extern "C" {
#endif

/* The version of this header: 10000 * major + 100 * minor + patch, and as text. docs/HOST.md says what each part means. */
#define FLEX_VERSION 800
#define FLEX_VERSION_TEXT "0.8.0"

/* The table: eight control blocks of 320 bytes. All zero means that all are closed. */
#define FLEX_BLOCKS 8
#define FLEX_BLOCK_BYTES 320
#define FLEX_TABLE_BYTES 2560

/* Offsets in a control block. */
#define FLEX_FUNCTION 0    /* what flex_call does */
#define FLEX_ERROR 1       /* the number that the last call on the block answered */
#define FLEX_ACTIVITY 2    /* 0 closed, 1 read, 2 write, 16 directory */
#define FLEX_DRIVE 3       /* must be 0 */
#define FLEX_NAME 4        /* 4-11, filled up with zeros; 4-27 are as in the directory's slots */
#define FLEX_EXTENSION 12  /* 12-14, filled up with zeros */
#define FLEX_ATTRIBUTES 15 /* what the file is protected from */
#define FLEX_START 17      /* 17-18, track and sector */
#define FLEX_END 19        /* 19-20, track and sector */
#define FLEX_SIZE 21       /* 21-22, in sectors, high byte first */
#define FLEX_DATE 25       /* 25-27: month, day, year */
#define FLEX_POSITION 30   /* 30-31, track and sector */
#define FLEX_RECORD 32     /* 32-33, high byte first */
#define FLEX_INDEX 34      /* of the next byte in the buffer */
#define FLEX_PLACE 47      /* 47-49: track, sector and displacement of the slot, in any sector of the directory */
#define FLEX_NEW_NAME 53   /* 53-63: name and extension for a rename. Opening a file sets byte 59 to 255, so preset all
                              eleven before a rename: otherwise it answers 21 */
#define FLEX_BUFFER 64     /* 64-319: the sector at the position */

/* Attributes. A new file has none; the raw writes alone, FLEX_PUT_SLOT and FLEX_WRITE_SECTOR, can set them. */
#define FLEX_ATTRIBUTE_WRITE 128 /* the file is neither deleted nor renamed: 11 */
#define FLEX_ATTRIBUTE_DELETE 64 /* it is not deleted: 12 */
#define FLEX_ATTRIBUTE_READ 32   /* it is not opened for read: 17 */

/* Function codes. "Idle" is activity 0 or 16. */
#define FLEX_NEXT_BYTE 0      /* open for read: gives the next byte; open for write: takes one */
#define FLEX_OPEN_READ 1      /* idle; the file by this name. Sets the function to 0 */
#define FLEX_OPEN_WRITE 2     /* idle; a new file by this name and date. Sets the function to 0. Where no slot is left the
                                 directory takes the first free sector and keeps it for good */
#define FLEX_CLOSE 4          /* open; a file closed unwritten is deleted */
#define FLEX_REWIND 5         /* open for read: back to the first byte. Sets the function to 0 */
#define FLEX_OPEN_DIRECTORY 6 /* idle */
#define FLEX_NEXT_SLOT 7      /* open directory: the next slot to 4-27, whatever it holds */
#define FLEX_PUT_SLOT 8       /* open directory: 4-27 to the slot that was shown last. A raw write: see below */
#define FLEX_READ_SECTOR 9    /* idle; the sector at 30-31 to the buffer */
#define FLEX_WRITE_SECTOR 10  /* idle; the buffer to the sector at 30-31, any that exists. A raw write: see below */
#define FLEX_DELETE 12        /* idle; the file by this name. 4-27 are then the marked slot: byte 4 is 255 */
#define FLEX_RENAME 13        /* idle; the file by this name gets the new name */
/*
 * The two raw writes are for service staff's programs. They look at no name, no use and no protection, and can break a diskette:
 * nothing is promised of its files after one, until the census accepts the image again with all blocks closed.
 */

/* Answers. */
#define FLEX_DONE 0
#define FLEX_NOT_SERVED 1        /* function not served */
#define FLEX_IN_USE 2            /* the file is open: for write (to open it), at all (to delete or rename it); to repair: some
                                    block is not closed */
#define FLEX_EXISTS 3            /* the name exists already */
#define FLEX_NOT_FOUND 4         /* the name is not found */
#define FLEX_DIRECTORY 5         /* the directory is not right, or the block's place is not a slot of it */
#define FLEX_DISK_FULL 7         /* no free sector, for a byte or for a directory that has no slot left */
#define FLEX_AT_END 8            /* end of the file or of the directory */
#define FLEX_BAD_READ 9          /* bad address in reading or deleting */
#define FLEX_BAD_WRITE 10        /* bad address in writing, or where the directory is to grow; or it is at its longest; no such
                                    sector to write */
#define FLEX_WRITE_PROTECTED 11  /* the file is not to be deleted or renamed: attribute 128 */
#define FLEX_DELETE_PROTECTED 12 /* the file is not to be deleted: attribute 64 */
#define FLEX_NO_BLOCK 13         /* table length not 2,560, block number over 7, or close of a closed block */
#define FLEX_SHAPE 16            /* not the image of a diskette, or drive not 0 */
#define FLEX_READ_PROTECTED 17   /* the file is not to be opened for read: attribute 32 */
#define FLEX_UNFIT 18            /* activity unfit for the function, or a preset that is not allowed */
#define FLEX_BAD_NAME 21         /* name not legal */
#define FLEX_OUTPUT_LENGTH 40    /* a lent output, or an image or label to format, has the wrong length */
#define FLEX_CENSUS_SHAPE 41     /* not the image of a diskette; to format: no such shape */
#define FLEX_CENSUS_DIRECTORY 42 /* directory not right */
#define FLEX_CENSUS_NAMES 43     /* two files of one name */
#define FLEX_CENSUS_FREE 44      /* free chain not right */
#define FLEX_CENSUS_FILE 45      /* a file's chain not right */
#define FLEX_CENSUS_SECTORS 46   /* a data sector in no chain, or in two */

/* Owners that the census lists beside the numbers of slots, which are at most 28,760. */
#define FLEX_OWNER_FREE 0          /* in the free chain */
#define FLEX_OWNER_DIRECTORY 65534 /* taken by the directory when it had no slot left */

/*
 * Writes one byte of block fcb: offset 0 always; 3-27, 30-31 and 53-319 while the block is idle. Answers 0, 13 or 18.
 */
uint32_t flex_preset(uint8_t *table, size_t table_len, size_t fcb, size_t offset, uint8_t value);

/*
 * Gives block fcb an extension if it is idle and has none: code 0 to 11 of BIN TXT CMD BAS SYS BAK SCR DAT BAC DIR PRT OUT.
 * Otherwise nothing is changed. Answers 0 either way, or 13.
 */
uint32_t flex_extension(uint8_t *table, size_t table_len, size_t fcb, size_t code);

/*
 * Does what the function in byte 0 of block fcb says. Gives 256 times the answer plus the byte that was read, or plus 0.
 */
uint32_t flex_call(uint8_t *image, size_t image_len, uint8_t *table, size_t table_len, size_t fcb, uint8_t byte);

#define FLEX_ANSWER(packed) ((packed) / 256)
#define FLEX_BYTE(packed) ((uint8_t)((packed) % 256))

/*
 * Checks the whole diskette and lists which chain holds each data sector. M and S are bytes 550 and 551 of the image; each
 * output has 2 * M * S bytes, two an entry, high byte first. Accepted: answers 0; `sectors` has the numbers of the data
 * sectors ((t - 1) * S + s - 1), free chain first, then those that the directory has taken, in its order, then the files in
 * the order of their slots; `owners` has, place for place, FLEX_OWNER_FREE, FLEX_OWNER_DIRECTORY, or the slot's number, all
 * slots of the directory counted from 1. 41, then 40, change nothing; 42 to 46 fill both outputs with 255.
 */
uint32_t flex_census(const uint8_t *image, size_t image_len, uint8_t *sectors, size_t sectors_len, uint8_t *owners,
                     size_t owners_len);

/*
 * Writes "DISK ERROR #" and the number in three digits, 15 bytes and no terminating zero. Answers 0, or 40 under 15 bytes.
 */
uint32_t flex_error_text(uint8_t *text, size_t text_len, uint8_t number);

/*
 * Fills the image with a blank diskette of the tracks 0 to last_track with per_track sectors each: nothing of what it held is
 * left. All data sectors are free, in rising order; the directory has all of (0, 5) to (0, per_track). Label, volume number
 * and date may be anything. Answers 41 unless last_track is 1 to 79 and per_track 5 to 36; then 40 unless the image has
 * (last_track + 1) * per_track * 256 bytes and the label eleven; these change nothing. Else 0. No control block may be open
 * on the image before: flex_format does not see the table.
 */
uint32_t flex_format(uint8_t *image, size_t image_len, size_t last_track, size_t per_track, const uint8_t *label,
                     size_t label_len, uint16_t volume, uint8_t month, uint8_t day, uint8_t year);

/*
 * Repairs a damaged diskette. In the order of the slots each live file keeps the longest start of its chain that goes over data
 * sectors, none of them the directory's or kept already, and has no more of them than the file states. Start, end, size and the
 * last link are set by that; byte 23 of a file that is cut becomes 0. All other data sectors are then the free chain, in rising
 * order. No other byte changes, and flex_census accepts what comes out. A file that is rightly chained and shares no sector
 * keeps every byte. Of two files that share one the earlier slot keeps it: nothing on the diskette says whose it was.
 * Answers 13 unless the table has 2,560 bytes; 2 unless all its blocks are closed (activity 0); then 41, 42 or 43 as the
 * census has them, since without shape, directory and names there is no telling what the files are; these change nothing. Else
 * 0, on a sound diskette too, where it changes nothing but the order of the free chain. The table is only read.
 * A host that keeps the image on a card then writes it there by whole sectors, in any order: broken off anywhere and repaired
 * again, it is the same image. flex_repair itself stores byte by byte in the memory that it is lent.
 */
uint32_t flex_repair(uint8_t *image, size_t image_len, const uint8_t *table, size_t table_len);

#ifdef __cplusplus
}
#endif

#endif
