/* The key of a board, its collapse, the mark of a sheet, the replay of a move log, and fair copies of boards: the proved library, for C and C++
 * on x86-64 Linux.
 *
 * Link target/staticlib/libnizkabel.a, which ./build library makes. A call gives one of the numbers below and never fails in another way,
 * whatever the bytes; it allocates nothing, and calls from several threads don't meet. Lengths count elements. A pointer with length 0 may
 * point anywhere that is not null. What a call writes (plan, list, a replay's position sheet, copy, out) must not overlap anything else that it
 * is lent.
 *
 * Board: in version 1, four bytes a zone with one for the carrier, or in version 2, five with two for it, high byte first.
 * Plan: for each carrier in turn its number, the count of words of its route, the words; a word is 2 x zone + heading. Sheet: 0 and a plan,
 * or 1 and the blocked carriers ascending. List: carriers' numbers ascending, a word each.
 * Log: for each move the carrier's number and the word of the zone that it enters, or NIZKABEL_HOME. Position sheet: for each zone a 32-bit
 * word, 0 where it is free, otherwise 2 x carrier + heading. Copy: a board.
 */
#ifndef NIZKABEL_H
#define NIZKABEL_H

#include <stddef.h>
#include <stdint.h>

#ifdef __cplusplus
extern "C" {
#endif

/* Rooms that are enough for every board: 96 carriers with 2 + 2 x 96 words each, a word for each of them, a word for each of 96 zones, and six
 * bytes with five more for each of 96 zones. */
#define NIZKABEL_PLAN_ROOM 18624
#define NIZKABEL_LIST_ROOM 96
#define NIZKABEL_POSITION_ROOM 96
#define NIZKABEL_COPY_ROOM 486

/* In a log, in the place of a word: into home. */
#define NIZKABEL_HOME 65535

/* No call takes more bytes of stack, a first call through the dynamic linker included; a collapse, a mark, a replay or a write takes half of it
 * at most. .ci/run measures this. */
#define NIZKABEL_STACK 16384

/* The numbers, as in the README's table. L, P and Z are the board's length, points and zones, C the carriers out. */
enum nizkabel_number {
    NIZKABEL_ORDERED = 0,         /* key: all carriers go home */
    NIZKABEL_COLLAPSED = 0,       /* collapse: done */
    NIZKABEL_RIGHT = 0,           /* mark: the sheet is right */
    NIZKABEL_REPLAYED = 0,        /* replay: every move was carried out */
    NIZKABEL_WRITTEN = 0,         /* write: the copy is written */
    NIZKABEL_TOO_SHORT = 1,       /* under 6 bytes */
    NIZKABEL_WRONG_LENGTH = 2,    /* L isn't the count of bytes after it */
    NIZKABEL_WRONG_VERSION = 3,   /* version is neither 1 nor 2 */
    NIZKABEL_OUT_OF_RANGE = 4,    /* P, home or Z out of range */
    NIZKABEL_WRONG_COUNT = 5,     /* L isn't 4 + 4 x Z in version 1, 4 + 5 x Z in version 2 */
    NIZKABEL_BAD_ZONE = 6,        /* an end not below P, heading over 1, or a free zone with heading 1 */
    NIZKABEL_CARRIER_TWICE = 7,   /* a carrier in two zones */
    NIZKABEL_LOOSE_POINT = 8,     /* a point other than home with under two zones, a turning loop counted twice */
    NIZKABEL_APART = 9,           /* points that don't hang together */
    NIZKABEL_SHORT_PLAN = 10,     /* plan lent for under C x (2 + 2 x Z) words */
    NIZKABEL_SHORT_LIST = 11,     /* list lent for under C words */
    NIZKABEL_BLOCKED = 20,        /* key: some carrier is blocked, and then two or more are */
    NIZKABEL_BAD_SHEET = 30,      /* empty, starts with neither 0 nor 1, or an entry with under two words, a count of 0 or past the end */
    NIZKABEL_NOT_OUT = 31,        /* the carrier isn't still out */
    NIZKABEL_BAD_WORD = 32,       /* its first word isn't where it stands, or a word breaks the rules or goes on from home */
    NIZKABEL_NOT_HOME = 33,       /* its last word doesn't leave at home */
    NIZKABEL_STILL_OUT = 34,      /* a carrier is still out at the end */
    NIZKABEL_FALSE_CLAIM = 35,    /* a false claim of blocked */
    NIZKABEL_SHORT_POSITION = 36, /* position sheet lent for under Z words */
    NIZKABEL_ODD_LOG = 37,        /* the log has an odd count of words */
    NIZKABEL_FORBIDDEN = 38,      /* replay: stopped at a move that the rules forbid, or of a carrier that isn't out */
    NIZKABEL_UNWRITABLE = 39      /* position sheet of more or fewer than Z words, a word over 131,071, or fewer bytes lent than the copy has */
};

/* Draws the key of a board. Gives 0 or 20, or 1 to 11 where it is turned back. The plan's words and the blocked carriers' numbers are
 * written from the start of plan and list; past them, and on 1 to 11, both stay as they were. out[0] is the count of words in the plan,
 * out[1] the count of numbers in the list, out[2] the search count; all three are 0 on 1 to 11. The search count tells how hard the board is to
 * search. In each round the carriers out are tried, lowest number first, up to and with the first that can go home, which leaves; in the last
 * round none can, and all are tried. A try counts the words that the carrier reaches from its standing while the others stand still, the standing
 * included, and nothing past a word that leaves at home. The search count is the sum over all tries, at most Z x C x (C + 1). */
uint32_t nizkabel_key(const uint8_t *board, size_t board_len, uint16_t *plan, size_t plan_len, uint16_t *list, size_t list_len, uint32_t out[3]);

/* Collapses a board. Gives 0, or 1 to 9 or 11. out[0] is the count of carriers left, whose numbers are written to the list ascending; on
 * 1 to 9 and 11 it is 0, and the list stays as it was. */
uint32_t nizkabel_collapse(const uint8_t *board, size_t board_len, uint16_t *list, size_t list_len, uint32_t out[1]);

/* Marks a sheet: 0 where it is right, 30 to 35 where it is not, 1 to 9 for a bad board. Nothing is written. */
uint32_t nizkabel_mark(const uint8_t *board, size_t board_len, const uint16_t *sheet, size_t sheet_len);

/* Replays a move log from the board's first position. Gives 0 where every move was carried out, and 38 where it stopped, at a move that the
 * rules forbid or of a carrier that isn't out. A carrier goes into a word below 2 x Z whose zone is free and that starts where the carrier
 * leaves its own zone; one that leaves at the home point goes into home and nowhere else, and no other goes there. On 0 and 38 the first Z
 * words of the position sheet are the position after the moves done, the words past them stay as they were, and out[0] is the count of these
 * moves. Gives 1 to 9, 36 or 37, tried in this order, where it is turned back; the position sheet then stays as it was, and out[0] is 0. */
uint32_t nizkabel_replay(const uint8_t *board, size_t board_len, const uint16_t *log, size_t log_len, uint32_t *sheet, size_t sheet_len, uint64_t out[1]);

/* Writes the fair copy of a board: its track with the position of the sheet, which has a word for each zone. Gives 0 where it is written. The copy
 * is in version 1, with 6 + 4 x Z bytes, where every carrier of the sheet is at most 255, and in version 2, with 6 + 5 x Z, else; the board's own
 * position and version don't matter. Every operation accepts it, and its first position is the sheet's. Bytes past it stay as they were, and out[0]
 * is the count of its bytes. Gives 1 to 9 of the board, 39, or 6 or 7 of the copy (the word 1, which is a free zone with heading 1; a carrier in two
 * zones), tried in this order, where it is turned back; the bytes lent then stay as they were, and out[0] is 0. */
uint32_t nizkabel_write(const uint8_t *board, size_t board_len, const uint32_t *sheet, size_t sheet_len, uint8_t *copy, size_t copy_len, uint32_t out[1]);

#ifdef __cplusplus
}
#endif

#endif
