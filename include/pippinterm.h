/*
 * Pippinterm: the table of heights of a curve card, by 503-0-45 or by the Minsk
 * handbook, a day's cards in one table, the book of cards, read and written, and
 * the least length of a clothoid.
 *
 * Link libcapi.a, which `rt lib --cpu x86-64` in crates/capi proves and builds
 * for x86-64 and the System V calling convention, as gcc has it there, and for
 * no other target: the SSE registers are used, and so are the 128 bytes below
 * the stack pointer (the red zone), which an interrupt handler on the same
 * stack must leave alone; the stack pointer is a multiple of 16 wherever one of
 * these functions is called, else the processor may fault. No call reckons with
 * floats. It needs memcpy and memset, which every C compiler expects, no start-up,
 * and less than 5 KB of stack besides what these two take. It keeps nothing between
 * two calls, so that calls from several threads meet only in what they are lent.
 *
 * No call asks for a test beforehand: every card, every radius, every text,
 * every list and every length has its reply. Only the C side can see to this
 * much:
 *   - a pointer leads to as many numbers, bytes or cards as are said to be there,
 *     and they lie as C aligns them. A table, a text, a list, names, a buffer, a day's
 *     cards or its reply list may be NULL where the length given with it is 0;
 *     card, count, fresh, line and looked are never NULL, since a card has its eleven
 *     numbers in every call, and count, fresh, line and looked are always written;
 *   - what is lent for writing in one call shares no memory with anything else
 *     that is lent in it, and nothing else writes to what is lent while the
 *     call runs.
 */
#ifndef PIPPINTERM_H
#define PIPPINTERM_H

#include <stddef.h>
#include <stdint.h>

#ifdef __cplusplus
extern "C" {
#endif

/* The version of the library that this header is delivered with, as three numbers
   and as text with points between; CHANGES.md says what each version brought. */
#define PIPPINTERM_VERSION_MAJOR 0
#define PIPPINTERM_VERSION_MINOR 8
#define PIPPINTERM_VERSION_PATCH 1
#define PIPPINTERM_VERSION_JOINED_(major, minor, patch) #major "." #minor "." #patch
#define PIPPINTERM_VERSION_JOINED(major, minor, patch) \
    PIPPINTERM_VERSION_JOINED_(major, minor, patch)
#define PIPPINTERM_VERSION \
    PIPPINTERM_VERSION_JOINED(PIPPINTERM_VERSION_MAJOR, PIPPINTERM_VERSION_MINOR, \
                              PIPPINTERM_VERSION_PATCH)

/* The numbers of a card, in their order. A card is relative, and its heights count
   by 503-0-45 from the inner brow at station 0, by the handbook from the axis; or it
   is absolute, and its heights count from the benchmark: the axis stands at the
   card's height at station 0, and at station d, in mm, grade x d micrometres higher.
   The other lines are then as far above or below the axis as a relative card has
   them.
   Cards that were not read from a book may hold anything. One of the first eight
   numbers that is below 0 counts as 4294967295, which is more than any of them may
   be, so that the card is refused. With the mark 0 the height and the grade are not
   looked at. Any other mark is absolute, though only 1 can be written into a book. */
#define PIPPINTERM_CARD_PROFILE 0     /* 1 to 5: II, III, IV, V two lanes, V one lane */
#define PIPPINTERM_CARD_TERRAIN 1     /* 1 level, 2 mountain */
#define PIPPINTERM_CARD_RADIUS 2      /* in metres */
#define PIPPINTERM_CARD_CLOTHOID 3    /* length in mm */
#define PIPPINTERM_CARD_SLOPE 4       /* full slope in per mille */
#define PIPPINTERM_CARD_WIDENING 5    /* full widening in mm */
#define PIPPINTERM_CARD_STEP 6        /* between rows, in mm */
#define PIPPINTERM_CARD_UNIT 7        /* in mm: 1 or 10 */
#define PIPPINTERM_CARD_MARK 8        /* relative or absolute */
#define PIPPINTERM_CARD_HEIGHT 9      /* of the axis at station 0 above the benchmark, in mm; either sign */
#define PIPPINTERM_CARD_GRADE 10      /* along the road in per mille: above 0 it climbs, below 0 it falls */
#define PIPPINTERM_CARD_NUMBERS 11

/* The mark of a card. */
#define PIPPINTERM_MARK_RELATIVE 0    /* the height and the grade are 0 in a list that was read */
#define PIPPINTERM_MARK_ABSOLUTE 1

/* The numbers of a row by 503-0-45, in their order: the station in mm, the others in
   counts of the card's unit, each rounded once from its exact fraction to the
   nearest. Halfway goes to the higher number where the unit is 1 mm and to the
   lower where it is 10 mm, also below nought: 67.5 mm to 68 and -67.5 mm to -67,
   22.5 cm to 22 and -22.5 cm to -23. Heights count from the inner brow at station
   0, or from the benchmark where the card is absolute: the sum of the axis and of
   a line's distance from it is what is rounded. The inner shoulder, from the inner
   edge to the inner brow, is the greater of the least shoulder and the shoulder
   less the widening: where the least is greater, the bank is widened. */
#define PIPPINTERM_ROW_STATION 0
#define PIPPINTERM_ROW_WIDENING 1
#define PIPPINTERM_ROW_INNER_BROW 2
#define PIPPINTERM_ROW_INNER_EDGE 3
#define PIPPINTERM_ROW_AXIS 4
#define PIPPINTERM_ROW_OUTER_EDGE 5
#define PIPPINTERM_ROW_OUTER_BROW 6
#define PIPPINTERM_ROW_NUMBERS 7

/* The numbers of a row by the Minsk handbook, in their order: the station in mm, the
   others in counts of the card's unit, rounded as above. Heights count from the axis,
   or from the benchmark where the card is absolute. The strip is the strengthened
   part of the shoulder beside the carriageway; the outer shoulder and both strips lie
   at the carriageway's slope, the inner shoulder beyond its strip at 40 per mille or
   at the inner slope, whichever is greater. */
#define PIPPINTERM_MINSK_ROW_STATION 0
#define PIPPINTERM_MINSK_ROW_WIDENING 1
#define PIPPINTERM_MINSK_ROW_AXIS 2
#define PIPPINTERM_MINSK_ROW_OUTER_EDGE 3
#define PIPPINTERM_MINSK_ROW_OUTER_STRIP 4
#define PIPPINTERM_MINSK_ROW_OUTER_BROW 5
#define PIPPINTERM_MINSK_ROW_INNER_EDGE 6
#define PIPPINTERM_MINSK_ROW_INNER_STRIP 7
#define PIPPINTERM_MINSK_ROW_INNER_BROW 8
#define PIPPINTERM_MINSK_ROW_NUMBERS 9

/* The numbers of a curve in a card list, in their order. The card of curve i, counted
   from 0, is handed on as it stands: list + 13 x i + 2. */
#define PIPPINTERM_CURVE_NAME_PLACE 0 /* byte place of the name in the text or in the names' bytes, from 0 */
#define PIPPINTERM_CURVE_NAME_SIZE 1  /* how many bytes the name has, 1 to 8 */
#define PIPPINTERM_CURVE_CARD 2       /* the eleven numbers of its card begin here */
#define PIPPINTERM_CURVE_NUMBERS 13

/* The numbers of a card in the reply list of a day, in their order. */
#define PIPPINTERM_REPLY_REASON 0     /* 0, or the reason that refuses the card */
#define PIPPINTERM_REPLY_COUNT 1      /* its count of rows, 0 where it is refused */
#define PIPPINTERM_REPLY_NUMBERS 2

/* Sizes. */
#define PIPPINTERM_MOST_ROWS 301      /* no card has more rows */
#define PIPPINTERM_ENOUGH_TABLE 2107  /* numbers of a table that is long enough for every card by 503-0-45 */
#define PIPPINTERM_ENOUGH_MINSK_TABLE 2709 /* the same by the handbook */
#define PIPPINTERM_MOST_CARDS 64      /* no day has more cards */
#define PIPPINTERM_ENOUGH_DAY 134848  /* numbers of a table that is long enough for every day */
#define PIPPINTERM_ENOUGH_REPLIES 128 /* numbers of a reply list that is long enough for every day */
#define PIPPINTERM_MOST_CURVES 64     /* no book has more curves */
#define PIPPINTERM_MOST_BYTES 8192    /* a text above this is refused */
#define PIPPINTERM_LEAST_LIST 832     /* a list below this is refused; enough for every book */
#define PIPPINTERM_ENOUGH_BOOK 6049   /* bytes of a buffer that is long enough for every book */

/* The profiles: widths in mm, slopes in per mille, least radius in metres.
   Profile, half the carriageway, shoulder, crown slope, shoulder slope, least
   shoulder, least radius, added slope on level ground and in mountains:

     1  3750  3750  20  40  1500  125   5   5
     2  3500  2500  20  40  1500  100  10  20
     3  3000  2000  20  50  1000   60  10  20
     4  3000  2000  30  60  1000   30  10  20
     5  2250  1750  30  60  1000   30  10  20

   The least length of the clothoid in metres, by the radius in metres; between
   two of these radii the longer of their two lengths holds:

     30:30  40:30  50:35  60:40  70:40  80:45  90:45  100:50  125:55  150:60
     200:70  250:80  300:90  400:100  500:110  600:120  700:120  800:120
     1000:120  2000:100

   By the handbook there are profiles 1 to 3 alone, with these widths in mm: half
   the carriageway, shoulder with its strip, strip, and the least that widening
   leaves of the inner shoulder with its strip. The crown slope is 20 per mille;
   least radius, least length and added slope are those above.

     II   3500  3000  750  1500
     III  3500  2500  500  1500
     IV   3000  2000  500  1000 */

/* What a turned-away card, book, day or list says: the trade's word, and the condition.
   A line is malformed where it is missing, not ended by byte 10, or anything
   else than: a number (the count line); a name, one blank and a number (a
   contents line); eight numbers with one blank between, or ten (the body of a
   relative curve, or of an absolute one). A number is 1 to 7 decimal digits,
   without a leading zero but in 0 itself; the last two of ten may have a minus
   before a number other than 0. A name is 1 to 8 capitals or digits. */
#define PIPPINTERM_ACCEPTED 0
#define PIPPINTERM_REFUSED_PROFILE 1          /* profile: not 1 to 5 */
#define PIPPINTERM_REFUSED_TERRAIN 2          /* terrain: not 1 or 2 */
#define PIPPINTERM_REFUSED_RADIUS 3           /* radius: below the profile's least, or above 2000 */
#define PIPPINTERM_REFUSED_CLOTHOID 4         /* clothoid: shorter than the least length, or above 300000 */
#define PIPPINTERM_REFUSED_FULL_SLOPE 5       /* full slope: below the profile's crown slope, or above 60 */
#define PIPPINTERM_REFUSED_WIDENING 6         /* widening: above 3500, or above 0 with a radius above 1000 */
#define PIPPINTERM_REFUSED_NARROW_SHOULDER 7  /* narrow shoulder: no longer given; the bank is widened instead */
#define PIPPINTERM_REFUSED_ADDED_SLOPE 8      /* added slope: half the carriageway x (crown slope + full
                                                 slope) above added slope x length of the clothoid; by
                                                 the handbook, half the carriageway x (full slope - 20)
                                                 above added slope x (length - length x radius / 2000) */
#define PIPPINTERM_REFUSED_STEP 9             /* step: below 1000 or above 20000 */
#define PIPPINTERM_REFUSED_UNIT 10            /* unit: not 1 or 10 */
#define PIPPINTERM_REFUSED_SHORT_TABLE 11     /* short table: below 7 numbers a row, by the handbook 9 */
#define PIPPINTERM_REFUSED_BOOK_SIZE 21       /* book size: 0 bytes, or above 8192; line 0 */
#define PIPPINTERM_REFUSED_COUNT_LINE 22      /* count line: malformed, or not 1 to 64 */
#define PIPPINTERM_REFUSED_CONTENTS_LINE 23   /* contents line: malformed */
#define PIPPINTERM_REFUSED_WRONG_LINE 24      /* wrong line: not the number due */
#define PIPPINTERM_REFUSED_TWIN_NAME 25       /* twin name: stands in an earlier contents line */
#define PIPPINTERM_REFUSED_BODY 26            /* body: malformed */
#define PIPPINTERM_REFUSED_TAIL 27            /* tail: bytes after the last body */
#define PIPPINTERM_REFUSED_SHORT_LIST 28      /* short list: below 832 numbers; line 0 */
#define PIPPINTERM_REFUSED_MANY_CARDS 29      /* many cards: more than 64 in one call */
#define PIPPINTERM_REFUSED_SHORT_REPLIES 30   /* short replies: a reply list below two numbers a card */
#define PIPPINTERM_REFUSED_WRONG_LIST 31      /* wrong list: a length not thirteen times 1 to 64, a malformed
                                                 name, or one outside the names' bytes: so is one with
                                                 a place or a length below 0 */
#define PIPPINTERM_REFUSED_LISTED_TWIN 32     /* listed twin: a twin name, two names of the same bytes */
#define PIPPINTERM_REFUSED_SHORT_BUFFER 33    /* short buffer: below the book's bytes; or a number above
                                                 seven digits, its minus not counted; a mark not 0 or 1;
                                                 one of the first eight numbers of a card below 0; or
                                                 a height or a grade other than 0 beside mark 0 */
#define PIPPINTERM_REFUSED_HEIGHT 34          /* height: of an absolute card, outside -100000 to 9000000, or
                                                 not a whole number of units */
#define PIPPINTERM_REFUSED_GRADE 35           /* grade: of an absolute card, outside -80 to 80 */
#define PIPPINTERM_REFUSED_METHOD 36          /* method, by the handbook alone: a full slope of 20, a radius
                                                 of 2000, or profile 4 or 5 */
#define PIPPINTERM_REFUSED_FIRST_STAGE 37     /* first stage, by the handbook alone: half the carriageway x 8
                                                 is longer than length x radius / 2000 */
#define PIPPINTERM_REFUSED_WIDENING_PLACE 38  /* widening place, by the handbook alone: a widening above 0
                                                 where the radius is above 500, or length x radius / 500
                                                 is no whole mm */

/*
 * Checks a card by 503-0-45.
 * Gives 0 where none of the reasons 1 to 6, 8 to 10, 34 and 35 is met, else the
 * number of the first one that is, in this order. A relative card meets neither 34
 * nor 35. Changes nothing.
 */
uint32_t pippinterm_check_card(const int32_t card[PIPPINTERM_CARD_NUMBERS]);

/*
 * The least length of a clothoid by the radius, both in metres: 1000 times as
 * many mm are the least that reason 4 lets pass.
 * Gives the length that the table above has for the radius, between two of its
 * radii the longer of their two lengths; below 30 it is 30, as at 30, and above
 * 2000 it is 100, as at 2000, though no card with such a radius is accepted.
 * *looked is how many radii of that table the search looked at, from the least
 * on: it leaves at the first that is not below the radius, so that for a radius
 * up to 2000 it is one more than lie below. Above 2000 it is 20, all of them.
 * Refuses nothing.
 */
uint32_t pippinterm_least_length(uint32_t radius, uint32_t *looked);

/*
 * Fills a table with the rows of a card by 503-0-45.
 * Gives 0 for an accepted card: *count is then the count of rows, at most 301,
 * and the rows stand in the table from its start, seven numbers each, at
 * stations 0, step, 2 x step and so on below the clothoid's end, then one at
 * its end. The table's numbers after the last row are as they were.
 * Else gives the number of the first reason met, 1 to 6, 8 to 10, 34, 35 and at
 * last 11: *count is then 0, and the table is as it was.
 * table_length is in numbers, not in bytes, and may be any, 0 too.
 */
uint32_t pippinterm_fill_table(const int32_t card[PIPPINTERM_CARD_NUMBERS],
                               int32_t *table, size_t table_length,
                               uint32_t *count);

/*
 * Fills a table with the rows of a card by 503-0-45, walking from row to row.
 * Number, *count and the whole table are those of pippinterm_fill_table, for every
 * card and every length; but each row is made from the one before it, by adding and
 * carrying the remainder, and only these are worked afresh: the first row, the last,
 * the first past the joint of two stages, and the first past each station where a rule
 * that takes the greater of two changes sides. There are three such rules: the inner
 * slope is the crown slope or the outer slope, the shoulder's is the shoulder slope or
 * the inner slope, and the inner shoulder is the least shoulder or what the widening
 * leaves. A row on such a station is not yet past it.
 * *fresh is how many rows were worked afresh, each counted once: 2 to 5 for an accepted
 * card, 0 with a refusal.
 * table_length is in numbers, not in bytes, and may be any, 0 too.
 */
uint32_t pippinterm_walk_table(const int32_t card[PIPPINTERM_CARD_NUMBERS],
                               int32_t *table, size_t table_length,
                               uint32_t *count, uint32_t *fresh);

/*
 * Checks a card by the method of the Minsk handbook: the card is the same, but no book
 * tells by which method it is meant, so such cards are not kept in books.
 * Gives 0 where none of the reasons 1 to 6, 36, 37, 38, 8, 9, 10, 34 and 35 is met,
 * else the number of the first one that is, in this order. Changes nothing.
 */
uint32_t pippinterm_check_minsk_card(const int32_t card[PIPPINTERM_CARD_NUMBERS]);

/*
 * Fills a table with the rows of a card by the method of the Minsk handbook.
 * The road is crowned at 20 per mille up to station length x radius / 2000 less the
 * first stage, which is half the carriageway x 8 long; through it the outer edge
 * climbs at 5 per mille until the slope is 20 per mille; from there the slope goes
 * in a straight line to the full slope at the clothoid's end. The inner slope is
 * never below 20 per mille. The widening starts 20 m before length x radius / 500,
 * has grown there to all of it, in a straight line, stays so to the clothoid's end,
 * and narrows the inner shoulder.
 * Gives 0 for an accepted card: *count is then the count of rows, at most 301,
 * and the rows stand in the table from its start, nine numbers each, at the
 * stations of pippinterm_fill_table. The table's numbers after the last row are as
 * they were.
 * Else gives the number of the first reason met, those of the check and at last 11:
 * *count is then 0, and the table is as it was.
 * table_length is in numbers, not in bytes, and may be any, 0 too.
 */
uint32_t pippinterm_fill_minsk_table(const int32_t card[PIPPINTERM_CARD_NUMBERS],
                                     int32_t *table, size_t table_length,
                                     uint32_t *count);

/*
 * Fills one table with the rows of a whole day's cards, by 503-0-45.
 * Gives 0 for a list of at most 64 cards and a reply list of two numbers a card
 * or more: *count is then the count of cards, accepted or not. Each card, in
 * order, gets the part of the table that the cards before it have not used: its
 * reply and its rows are those of pippinterm_fill_table on that part. A refused
 * card uses nothing, and the next is tried, so that after a card that the rest
 * of the table is too short for, 11, a shorter one may still fit. The number and
 * the count of rows of card i, counted from 0, stand in replies[2 x i] and
 * replies[2 x i + 1]; its rows begin at 7 x the sum of the counts of the cards
 * before it.
 * The table's numbers after the last rows, and the reply list's after the last
 * card's two, are as they were. No cards at all are right: 0, and *count is 0.
 * Else gives 29 for more than 64 cards, then 30 for a shorter reply list: *count
 * is then 0, and the table and the reply list are as they were.
 * cards_length is in cards of eleven numbers, table_length and replies_length are
 * in numbers; each may be any, 0 too. A book's list has thirteen numbers a curve, so
 * copy the eleven of each card out of it. Cards that are not const are handed over
 * as they are; C before C23 may want (const int32_t (*)[11])cards, as gcc does
 * with -pedantic.
 */
uint32_t pippinterm_fill_day(const int32_t (*cards)[PIPPINTERM_CARD_NUMBERS],
                             size_t cards_length,
                             int32_t *table, size_t table_length,
                             uint32_t *replies, size_t replies_length,
                             uint32_t *count);

/*
 * Reads a book of cards into a list.
 * Gives 0 for an accepted book: *count is then the count of curves, 1 to 64,
 * *line is 0, and the curves stand in the list from its start in the order of
 * the book, thirteen numbers each. The list's numbers after them are as they were.
 * Else gives the number of the refusal: 28, then 21, then that of the first
 * line at fault, 22 to 27, in a contents line 23 before 24 before 25. *count
 * is then 0, *line is the number of that line, from 1, and 0 with 28 and 21;
 * the list is as it was. With n curves the i-th contents line names line
 * n + 1 + i, and 27 names line 2 x n + 2.
 * A curve whose card would be refused does not refuse its book, so that heights and
 * grades of up to seven digits are read.
 * text_length is in bytes, list_length in numbers; each may be any, 0 too.
 */
uint32_t pippinterm_read_book(const uint8_t *text, size_t text_length,
                              int32_t *list, size_t list_length,
                              uint32_t *count, uint32_t *line);

/*
 * Writes the book of a list of curves, as pippinterm_read_book gives it.
 * The list has thirteen numbers a curve and nothing else: of a list that was read,
 * hand over its first 13 x count numbers. An absolute curve gets a body of ten
 * numbers, a relative one of eight; to make a curve relative, set its mark, its
 * height and its grade to 0. The places of the names count in
 * names, which is the text that was read, or any other bytes; names are compared
 * as bytes, wherever they stand.
 * Gives 0 for a list that makes a book which the buffer has room for: *count is
 * then the count of its bytes, at most 6049, and they stand in the buffer from its
 * start; the later bytes are as they were. Reading these bytes gives the names and
 * the numbers of the list, and a list that was read from a book, with the text of
 * that book as names, gives the book's bytes again.
 * Else gives 31, then 32, then 33, each looked for in the whole list before the
 * next: *count is then 0, and the whole buffer is as it was.
 * A card that would be refused is written all the same: ask pippinterm_check_card.
 * list_length is in numbers, names_length and buffer_length are in bytes; each
 * may be any, 0 too. The buffer may not be the text that holds the names.
 */
uint32_t pippinterm_write_book(const int32_t *list, size_t list_length,
                               const uint8_t *names, size_t names_length,
                               uint8_t *buffer, size_t buffer_length,
                               uint32_t *count);

#ifdef __cplusplus
}
#endif

#endif
