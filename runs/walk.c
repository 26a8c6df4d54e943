/*
 * Fills a table with the rows of each card of a text by walking from row to row,
 * and compares with the figures that are due; fills a second table by the call
 * that works every row afresh, and compares the two number by number:
 *
 *   walk CARDS < TEXT
 *
 * Ends with 0 where the text has so many cards and no figure failed, with 1 where
 * a figure failed, and with 2 where a line is not understood or the cards are not
 * so many. A line of the text begins with #, or is a letter and whole numbers:
 *
 *   c TABLE 11 NUMBERS        begins a card: how many numbers of each table are lent,
 *                             and the card: eight, the mark, the height, the grade
 *   z 11 NUMBERS              the same, where no table is lent: NULL and the length 0
 *   n NUMBER COUNT FRESH      runs both calls: what the walk gives, its count of rows,
 *                             and how many rows it worked afresh
 *   r ROW 7 NUMBERS           the numbers of the walked table from place 7 x ROW on
 *   k TABLE                   the place from which on the walked table keeps its marks;
 *                             ends the card
 *
 * Rows and places count from 0. Each number of an n or k line is a figure that is
 * compared, and so is each of an r line after its first. So are, of every card, the
 * other call's number and count with the walk's; whether both tables are alike, with
 * what stands around them; whether both calls have left the card as it was; and the
 * numbers beside the two that the walk gives.
 */
#include "pippinterm.h"

#include <stdio.h>
#include <stdlib.h>
#include <string.h>

#define MOST_LENT (2 * PIPPINTERM_ENOUGH_TABLE)    /* numbers of a table */
#define GUARD PIPPINTERM_ENOUGH_TABLE              /* numbers around it that are not lent */
#define ROOM (GUARD + MOST_LENT + GUARD)
#define MOST_NUMBERS (1 + PIPPINTERM_CARD_NUMBERS) /* in a line of the text */

/* Each place of a room begins with a mark of its own, which no row has. */
#define MARK 1000000000
static int32_t walked_room[ROOM];
static int32_t filled_room[ROOM];
static int32_t card[PIPPINTERM_CARD_NUMBERS];

/* What the text has to go on with: a card, its reply, or its figures. */
static enum { CARD, REPLY, FIGURES } due;
static long table_length;
static int is_null;

static unsigned long line, cards, figures, failed, failed_before, failed_cards;

static void compare(long figure, long found)
{
    figures++;
    if (found != figure) {
        printf("line %lu: %ld is due, %ld is found\n", line, figure, found);
        failed++;
    }
}

static void put_marks(int32_t *room)
{
    int32_t i;
    for (i = 0; i < ROOM; i++) {
        room[i] = MARK + i;
    }
}

/* Of the walked room's first numbers the place after the last that has lost its mark, or 0. */
static long kept_from(long numbers)
{
    while (numbers > 0 && walked_room[numbers - 1] == MARK + numbers - 1) {
        numbers--;
    }
    return numbers;
}

/* The same of all, counted from the first that is lent; -1 where the guard before it is changed. */
static long lent_kept_from(void)
{
    long place = kept_from(ROOM);
    if (kept_from(GUARD) != 0) {
        return -1;
    }
    return place == 0 ? 0 : place - GUARD;
}

/* The first place from which on the two rooms are not alike; ROOM where they are. */
static long alike_to(void)
{
    long place = 0;
    while (place < ROOM && walked_room[place] == filled_room[place]) {
        place++;
    }
    return place;
}

static int within(long number, long most)
{
    return number >= 0 && number <= most;
}

static int32_t *lent(int32_t *room)
{
    return is_null ? NULL : room + GUARD;
}

/* Each of the next functions does what a line says, or gives 0 where it is not understood. */

static int begin_card(const long *numbers, long length, int with_null)
{
    int i;
    if (due != CARD || !within(length, MOST_LENT)) {
        return 0;
    }
    for (i = 0; i < PIPPINTERM_CARD_NUMBERS; i++) {
        if (numbers[i] < INT32_MIN || numbers[i] > INT32_MAX) {
            return 0;
        }
        card[i] = (int32_t)numbers[i];
    }
    table_length = length;
    is_null = with_null;
    put_marks(walked_room);
    put_marks(filled_room);
    due = REPLY;
    return 1;
}

/* The walk, and what it has put beside its count and beside the rows that it worked afresh. */
static uint32_t walk(const long *numbers, uint32_t *count)
{
    uint32_t counts[3] = {MARK, MARK + 1, MARK + 2}, fresh[3] = {MARK + 3, MARK + 4, MARK + 5};
    uint32_t number = pippinterm_walk_table(card, lent(walked_room), (size_t)table_length,
                                            &counts[1], &fresh[1]);
    compare(numbers[0], (long)number);
    compare(numbers[1], (long)counts[1]);
    compare(numbers[2], (long)fresh[1]);
    compare(MARK, (long)counts[0]);
    compare(MARK + 2, (long)counts[2]);
    compare(MARK + 3, (long)fresh[0]);
    compare(MARK + 5, (long)fresh[2]);
    *count = counts[1];
    return number;
}

static int run_calls(const long *numbers)
{
    uint32_t number, walked, filled = MARK;
    int32_t before[PIPPINTERM_CARD_NUMBERS];
    if (due != REPLY) {
        return 0;
    }
    memcpy(before, card, sizeof before);
    number = walk(numbers, &walked);
    compare((long)number, (long)pippinterm_fill_table(card, lent(filled_room),
                                                      (size_t)table_length, &filled));
    compare((long)walked, (long)filled);
    compare(ROOM, alike_to());
    compare(0, memcmp(before, card, sizeof before) != 0);
    due = FIGURES;
    return 1;
}

static int compare_row(const long *numbers)
{
    const int32_t *row;
    int i;
    if (due != FIGURES || !within(numbers[0], table_length / PIPPINTERM_ROW_NUMBERS - 1)) {
        return 0;
    }
    row = walked_room + GUARD + PIPPINTERM_ROW_NUMBERS * numbers[0];
    for (i = 0; i < PIPPINTERM_ROW_NUMBERS; i++) {
        compare(numbers[1 + i], (long)row[i]);
    }
    return 1;
}

static int end_card(long kept)
{
    if (due != FIGURES) {
        return 0;
    }
    compare(kept, lent_kept_from());
    cards++;
    failed_cards += failed > failed_before;
    failed_before = failed;
    due = CARD;
    return 1;
}

/* How many numbers come after the letter, a blank before each; -1 where anything else comes. */
static int read_numbers(const char *rest, long *numbers)
{
    int count = 0;
    char *end;
    while (*rest == ' ' && count < MOST_NUMBERS) {
        numbers[count] = strtol(rest + 1, &end, 10);
        if (end == rest + 1) {
            return -1;
        }
        rest = end;
        count++;
    }
    return *rest == '\n' ? count : -1;
}

static int follow(const char *text)
{
    long numbers[MOST_NUMBERS];
    int count = read_numbers(text + 1, numbers);
    switch (text[0]) {
    case 'c': return count == MOST_NUMBERS && begin_card(numbers + 1, numbers[0], 0);
    case 'z': return count == PIPPINTERM_CARD_NUMBERS && begin_card(numbers, 0, 1);
    case 'n': return count == 3 && run_calls(numbers);
    case 'r': return count == 1 + PIPPINTERM_ROW_NUMBERS && compare_row(numbers);
    case 'k': return count == 1 && end_card(numbers[0]);
    default: return 0;
    }
}

int main(int argc, char **argv)
{
    static char text[200];
    unsigned long cards_due = argc == 2 ? strtoul(argv[1], NULL, 10) : 0;
    while (fgets(text, sizeof text, stdin) != NULL) {
        line++;
        if (text[0] != '#' && !follow(text)) {
            printf("line %lu: not understood\n", line);
            return 2;
        }
    }
    printf("%lu cards, %lu figures compared, %lu failed in %lu cards\n",
           cards, figures, failed, failed_cards);
    if (due != CARD || cards != cards_due || cards == 0) {
        printf("%lu cards are due, each to its end\n", cards_due);
        return 2;
    }
    return failed == 0 ? 0 : 1;
}
