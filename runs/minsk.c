/*
 * Checks the cards of a text by the method of the Minsk handbook, fills a table
 * with the rows of each, and compares with the figures that are due:
 *
 *   minsk CARDS < TEXT
 *
 * Ends with 0 where the text has so many cards and no figure failed, with 1 where
 * a figure failed, and with 2 where a line is not understood or the cards are not
 * so many. A line of the text begins with #, or is a letter and whole numbers:
 *
 *   c TABLE 11 NUMBERS        begins a card: how many numbers of the table are lent,
 *                             and the card: eight, the mark, the height, the grade
 *   z 11 NUMBERS              the same, where no table is lent: NULL and the length 0
 *   n CHECK NUMBER COUNT      runs both calls: what the check gives, and what the
 *                             call that fills the table gives, with its count
 *   r ROW 9 NUMBERS           the numbers of the table from place 9 x ROW on
 *   f ROW COLUMN NUMBER       one of them alone, at place 9 x ROW + COLUMN
 *   k TABLE                   the place from which on the table keeps its marks;
 *                             ends the card
 *
 * Rows, columns and places count from 0. Each number of an n or k line is a figure
 * that is compared, and so is each of an r line after its first, and the last of
 * an f line. So is, of every card, whether the calls have left it as it was, and
 * the numbers beside the count.
 */
#include "pippinterm.h"

#include <stdio.h>
#include <stdlib.h>
#include <string.h>

#define MOST_LENT (2 * PIPPINTERM_ENOUGH_MINSK_TABLE) /* numbers of a table */
#define GUARD PIPPINTERM_ENOUGH_MINSK_TABLE           /* numbers around it that are not lent */
#define ROOM (GUARD + MOST_LENT + GUARD)
#define MOST_NUMBERS (1 + PIPPINTERM_CARD_NUMBERS)    /* in a line of the text */

/* Each place of the room begins with a mark of its own, which no row has. */
#define MARK 1000000000
static int32_t room[ROOM];
static int32_t card[PIPPINTERM_CARD_NUMBERS];

/* What the text has to go on with: a card, its reply, or its figures. */
static enum { CARD, REPLY, FIGURES } due;
static long table_length;
static int32_t *table;

static unsigned long line, cards, figures, failed, failed_before, failed_cards;

static void compare(long figure, long found)
{
    figures++;
    if (found != figure) {
        printf("line %lu: %ld is due, %ld is found\n", line, figure, found);
        failed++;
    }
}

static void put_marks(void)
{
    int32_t i;
    for (i = 0; i < ROOM; i++) {
        room[i] = MARK + i;
    }
}

/* Of the room's first numbers the place after the last that has lost its mark, or 0. */
static long kept_from(long numbers)
{
    while (numbers > 0 && room[numbers - 1] == MARK + numbers - 1) {
        numbers--;
    }
    return numbers;
}

/* The same of all, counted from the first that is lent; -1 where the guard before it is changed. */
static long lent_kept_from(void)
{
    long place = kept_from(ROOM);
    if (kept_from(GUARD) != 0) {
        return -1;
    }
    return place == 0 ? 0 : place - GUARD;
}

static int within(long number, long most)
{
    return number >= 0 && number <= most;
}

/* Each of the next functions does what a line says, or gives 0 where it is not understood. */

static int begin_card(const long *numbers, long length, int32_t *lent)
{
    int i;
    if (due != CARD || !within(length, MOST_LENT)) {
        return 0;
    }
    for (i = 0; i < PIPPINTERM_CARD_NUMBERS; i++) {
        if (numbers[i] < INT32_MIN || numbers[i] > INT32_MAX) {
            return 0;
        }
        card[i] = (int32_t)numbers[i];
    }
    table_length = length;
    table = lent;
    put_marks();
    due = REPLY;
    return 1;
}

static int run_calls(const long *numbers)
{
    uint32_t count[3] = {MARK, MARK + 1, MARK + 2};
    int32_t before[PIPPINTERM_CARD_NUMBERS];
    if (due != REPLY) {
        return 0;
    }
    memcpy(before, card, sizeof before);
    compare(numbers[0], (long)pippinterm_check_minsk_card(card));
    compare(0, kept_from(ROOM));
    compare(numbers[1],
            (long)pippinterm_fill_minsk_table(card, table, (size_t)table_length, &count[1]));
    compare(numbers[2], (long)count[1]);
    compare(MARK, (long)count[0]);
    compare(MARK + 2, (long)count[2]);
    compare(0, memcmp(before, card, sizeof before) != 0);
    due = FIGURES;
    return 1;
}

static int is_row(long row)
{
    return due == FIGURES && within(row, table_length / PIPPINTERM_MINSK_ROW_NUMBERS - 1);
}

static int compare_number(long row, long column, long figure)
{
    if (!is_row(row) || !within(column, PIPPINTERM_MINSK_ROW_NUMBERS - 1)) {
        return 0;
    }
    compare(figure, (long)room[GUARD + PIPPINTERM_MINSK_ROW_NUMBERS * row + column]);
    return 1;
}

static int compare_row(const long *numbers)
{
    int i, understood = is_row(numbers[0]);
    for (i = 0; understood && i < PIPPINTERM_MINSK_ROW_NUMBERS; i++) {
        understood = compare_number(numbers[0], i, numbers[1 + i]);
    }
    return understood;
}

static int end_card(long kept)
{
    if (due != FIGURES) {
        return 0;
    }
    compare(kept, lent_kept_from());
    cards++;
    failed_cards += failed > failed_before;
    failed_before = failed;
    due = CARD;
    return 1;
}

/* How many numbers come after the letter, a blank before each; -1 where anything else comes. */
static int read_numbers(const char *rest, long *numbers)
{
    int count = 0;
    char *end;
    while (*rest == ' ' && count < MOST_NUMBERS) {
        numbers[count] = strtol(rest + 1, &end, 10);
        if (end == rest + 1) {
            return -1;
        }
        rest = end;
        count++;
    }
    return *rest == '\n' ? count : -1;
}

static int follow(const char *text)
{
    long numbers[MOST_NUMBERS];
    int count = read_numbers(text + 1, numbers);
    switch (text[0]) {
    case 'c': return count == MOST_NUMBERS && begin_card(numbers + 1, numbers[0], room + GUARD);
    case 'z': return count == PIPPINTERM_CARD_NUMBERS && begin_card(numbers, 0, NULL);
    case 'n': return count == 3 && run_calls(numbers);
    case 'r': return count == 1 + PIPPINTERM_MINSK_ROW_NUMBERS && compare_row(numbers);
    case 'f': return count == 3 && compare_number(numbers[0], numbers[1], numbers[2]);
    case 'k': return count == 1 && end_card(numbers[0]);
    default: return 0;
    }
}

int main(int argc, char **argv)
{
    static char text[200];
    unsigned long cards_due = argc == 2 ? strtoul(argv[1], NULL, 10) : 0;
    while (fgets(text, sizeof text, stdin) != NULL) {
        line++;
        if (text[0] != '#' && !follow(text)) {
            printf("line %lu: not understood\n", line);
            return 2;
        }
    }
    printf("%lu cards, %lu figures compared, %lu failed in %lu cards\n",
           cards, figures, failed, failed_cards);
    if (due != CARD || cards != cards_due || cards == 0) {
        printf("%lu cards are due, each to its end\n", cards_due);
        return 2;
    }
    return failed == 0 ? 0 : 1;
}
