/* Hazelcrook: the replay of a memory trace, the trace of an analyser's capture,
 * and the plan that refills a flash, on the caller's own buffers.
 *
 * Every function below is proved for every input: it reads and writes nothing
 * but the bytes lent to it, keeps no pointer, and always returns. Two buffers
 * that are lent to one call must not overlap. */
#ifndef HAZELCROOK_H
#define HAZELCROOK_H

#include <stddef.h>
#include <stdint.h>

#ifdef __cplusplus
extern "C" {
#endif

/* Lengths, in bytes. */
#define HAZELCROOK_IMAGE 32768   /* an image, and its mask */
#define HAZELCROOK_TIMES 3200    /* an entry for each page of both chips */
#define HAZELCROOK_TIME 5        /* such an entry */
#define HAZELCROOK_REPLIES 40000 /* four for each record */
#define HAZELCROOK_RESULT 16
#define HAZELCROOK_TEXT 65536 /* the longest text, of a trace or of levels */
#define HAZELCROOK_MERGED 540553 /* no merged trace is longer */

/* For a plan. */
#define HAZELCROOK_CHIP 131072        /* a content of the whole flash */
#define HAZELCROOK_PLAN_LIST 133124   /* no plan is longer */
#define HAZELCROOK_PLAN_RESULT 8
#define HAZELCROOK_ERASE_LENGTH 4     /* an entry that erases */
#define HAZELCROOK_PROGRAM_LENGTH 260 /* an entry that programs a page */

/* Pages. */
#define HAZELCROOK_FLASH_PAGES 128  /* of the watched sector, 256 bytes each */
#define HAZELCROOK_EEPROM_PAGES 512 /* 64 bytes each */

/* Answers. */
enum {
  HAZELCROOK_SETTLED = 0,
  HAZELCROOK_BAD_BUFFERS = 1,   /* a wrong length, or a bit set in an image and in its mask */
  HAZELCROOK_TOO_LONG = 2,      /* text over 65,536 bytes */
  HAZELCROOK_BAD_LINE = 3,      /* a line of wrong form, or no text */
  HAZELCROOK_BACK_IN_TIME = 4,  /* a stamp below the one before */
  HAZELCROOK_IMPOSSIBLE = 5,    /* a record that cannot be */
  HAZELCROOK_CROWDED = 6,       /* more than 8 F, 8 E or 2 L records at one stamp */
  HAZELCROOK_ORDERS_DIFFER = 7, /* the trace does not fix the order at that stamp */
  HAZELCROOK_STATUS_LOST = 8    /* the flash's status is lost after that stamp */
};

/* Answers of the merge and of the second engine beside 0 to 5. */
enum {
  HAZELCROOK_TOO_SHORT = 10, /* the output is too short for the merged trace */
  HAZELCROOK_BAD_LEVEL = 12, /* a level line of wrong form, a wrong first line, a stamp below the
                                one before or equal to that of a record taken from the logger */
  HAZELCROOK_TOGETHER = 13   /* SCK changes together with CS, SI or HOLD, or SCL with SDA */
};

/* Answers of a plan; 0 is a plan. */
enum {
  HAZELCROOK_PLANNED = 0,
  HAZELCROOK_PLAN_UNFIT = 14,  /* a wrong length, or a status with other bits than 7, 3 and 2 */
  HAZELCROOK_PLAN_LOCKED = 15, /* a byte that differs stands in a locked sector */
  HAZELCROOK_PLAN_NO_ROOM = 16 /* the list is too short for the plan */
};

/* Kinds of a plan's entry (its first byte; then three address bytes). */
enum {
  HAZELCROOK_SECTOR_ERASE = 1,
  HAZELCROOK_CHIP_ERASE = 2,
  HAZELCROOK_PROGRAM = 3
};

/* Marks of a page's time (its first byte; then the stamp). */
enum {
  HAZELCROOK_NEVER = 0,
  HAZELCROOK_WRITTEN = 1
};

/* Kinds of a reply (its first byte; then value, mask, match). */
enum {
  HAZELCROOK_NOT_PLAYED = 0,
  HAZELCROOK_SILENT = 1,
  HAZELCROOK_BYTE = 2,
  HAZELCROOK_ACK = 3,
  HAZELCROOK_NO_ACK = 4,
  HAZELCROOK_STARTS = 5,
  HAZELCROOK_ENDS = 6,
  HAZELCROOK_NO_CYCLE = 7
};

/* Replays the text on the lent buffers and returns the answer.
 *
 * flash, eeprom: the kept bytes' values before the trace; flash_mask,
 * eeprom_mask: a 1 for each doubtful bit, which is 0 in the value. With no
 * dump: all values 00, all masks ff; a dump is sure: masks 00.
 *
 * times: when each page was last written; what it holds before the call says
 * nothing. Entry k is the watched sector's page k, entry 128 + k the EEPROM's
 * page k. An entry is a mark and a stamp of four bytes, low byte first: that
 * of the record that ended (`end`) or cut (`off`) the last cycle on the page;
 * all 0 for a page on which none was. A program touches its page even if no
 * bit changes, an erase every page that it reaches.
 *
 * result: the answer, the line (answers 3, 4, 5) or the stamp (6, 7, 8), the
 * count of replies that disagree, and the field (answer 3; else 0); four bytes
 * each, low byte first. Fields are what tabs part, up to the line's LF or the
 * text's end, and count from 1. The field is the first that is wrong where it
 * stands, or one too many; with none such, one past the last that is there: a
 * field or the LF is missing. No text is line 1, field 1. With a result that
 * is not 16 bytes the answer is 1 and nothing is written anywhere.
 *
 * Answers 1 to 5 leave every other buffer as it was. Answer 0 leaves the
 * images, masks and times after the trace, and the reply of the record on line
 * n at replies[4 * (n - 2)]; the rest of the replies is 0. Answers 6, 7, 8
 * leave images, masks, times and replies as they stand before that stamp, all
 * other replies 0. */
uint32_t hazelcrook_replay(const uint8_t *text, size_t text_len,
                           uint8_t *flash, size_t flash_len,
                           uint8_t *flash_mask, size_t flash_mask_len,
                           uint8_t *eeprom, size_t eeprom_len,
                           uint8_t *eeprom_mask, size_t eeprom_mask_len,
                           uint8_t *times, size_t times_len,
                           uint8_t *replies, size_t replies_len,
                           uint8_t *result, size_t result_len);

/* Where a page stands in its image, and how long it is: the page view for C.
 * chip 0 is the flash (pages 0 to 127 of 256 bytes), any other the EEPROM
 * (pages 0 to 511 of 64 bytes). Length 0 is refusal 11: a page number that the
 * chip has not, or an image that is not 32,768 bytes. No page has length 0. */
size_t hazelcrook_page_place(size_t flash_len, size_t eeprom_len,
                             uint32_t chip, size_t number);
size_t hazelcrook_page_length(size_t flash_len, size_t eeprom_len,
                              uint32_t chip, size_t number);

/* The list of erases and page programs that takes the flash from its present
 * content to the wanted one in the fewest write cycles; returns the answer.
 *
 * present, wanted: the whole chip's 131,072 bytes, without doubt; status: the
 * flash's status, whose bits 3 and 2 lock sectors. Any bit but 7, 3 and 2 is
 * refused: take bit 1 off what was read while write enable was on. In a cycle
 * the chip answers ff, which tells no status: read again after it.
 *
 * list: of any length, also 0; gets the plan's entries, one after the other
 * from its start; what is behind them stays as it was. An entry is a kind,
 * three address bytes, high byte first (its sector's or page's first; 0 for
 * the chip), and for a program its page's 256 wanted bytes. All erases stand
 * before all programs, each kind by rising address; a chip erase is there only
 * where no list without one is as short. Each entry is one write cycle; WREN
 * goes before each.
 *
 * result: the answer and the number of entries, four bytes each, low byte
 * first. Equal contents give answer 0 and number 0. With a result that is not
 * 8 bytes the answer is 14 and nothing is written anywhere; otherwise a
 * refusal (14, 15, 16, asked in that order) writes the result, with number 0,
 * and leaves the list as it was. */
uint32_t hazelcrook_plan(const uint8_t *present, size_t present_len,
                         const uint8_t *wanted, size_t wanted_len,
                         uint8_t status,
                         uint8_t *list, size_t list_len,
                         uint8_t *result, size_t result_len);

/* One trace of an analyser's capture and a logger's trace; returns the answer.
 *
 * levels: the capture, at most 65,536 bytes. Each line has a stamp, then CS,
 * SCK, SI, SO, HOLD, SCL and SDA, each 0 or 1, parted by tabs, and ends with
 * LF; stamps never fall. The first line shows CS, HOLD, SCL and SDA at 1 and
 * SCK at 0. trace: the logger's trace, as the replay takes it; its line
 * records and cycle ends are taken, its other records passed over. No level
 * line may have the stamp of a record that is taken.
 *
 * output: of any length, also 0; gets the merged trace under the logger's
 * board line, by stamp, and at one stamp F, E, L; what is behind it stays as
 * it was. It may be longer than the 65,536 bytes that the replay takes.
 *
 * result: the answer, the line (3, 4, 5: of the logger's trace; 12, 13: of the
 * levels), the length written, and the field (answer 3; else 0); four bytes
 * each, low byte first. With a result that is not 16 bytes the answer is 1 and
 * nothing is written anywhere. The refusals are asked in this order: 1; 2 to 5
 * of the logger's trace; 2 for the levels' length; 12 or 13 for their first
 * bad line; 10. Each but 1 writes the result, with length 0; all leave the
 * output as it was. */
uint32_t hazelcrook_merge(const uint8_t *levels, size_t levels_len,
                          const uint8_t *trace, size_t trace_len,
                          uint8_t *output, size_t output_len,
                          uint8_t *result, size_t result_len);

/* The second engine: plays the records of a capture and of the logger's trace
 * straight through on the lent images, in the order of the merged trace,
 * without writing one and without trying another order; returns the answer.
 *
 * levels, trace: as for the merge. flash to eeprom_mask: as for the replay.
 * result: as for the merge, its third number always 0. Refusals are those of
 * the merge without 10; 1 is the replay's, for these buffers. A refusal writes
 * only the result. Answer 0 leaves the images and masks after the last record.
 *
 * Where the replay of the merged trace on the same images answers 0, both
 * leave the same images and masks. The second engine judges no order and
 * never stops: where the replay does (6, 7, 8), or where the merged trace is
 * too long for it (2), images and masks are those of the written order alone,
 * which nothing shows to be the one that was. */
uint32_t hazelcrook_play_levels(const uint8_t *levels, size_t levels_len,
                                const uint8_t *trace, size_t trace_len,
                                uint8_t *flash, size_t flash_len,
                                uint8_t *flash_mask, size_t flash_mask_len,
                                uint8_t *eeprom, size_t eeprom_len,
                                uint8_t *eeprom_mask, size_t eeprom_mask_len,
                                uint8_t *result, size_t result_len);

#ifdef __cplusplus
}
#endif

#endif
