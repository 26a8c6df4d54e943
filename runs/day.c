/*
 * Runs the day's call over the days of a text, and compares with the figures
 * that are due:
 *
 *   day DAYS < TEXT
 *
 * Ends with 0 where the text has so many days and no figure failed, with 1 where
 * a figure failed, and with 2 where a line is not understood or the days are not
 * so many. A line of the text begins with #, or is a letter and whole numbers:
 *
 *   d CARDS TABLE REPLIES     begins a day: how many cards are lent, how many
 *                             numbers of the table and how many of the reply list
 *   z CARDS TABLE REPLIES     the same, and what has the length 0 is lent as NULL
 *   c 11 NUMBERS              the next card: eight, the mark, the height, the grade
 *   m TIMES 11 NUMBERS        the next cards, all alike
 *   n NUMBER COUNT            runs the day: its reply
 *   p CARD NUMBER COUNT       that card's two numbers in the reply list
 *   r ROW 7 NUMBERS           the numbers of the table from place 7 x ROW on
 *   k TABLE REPLIES           the places from which on table and reply list keep
 *                             their marks; ends the day
 *
 * Cards, rows and places count from 0. Each number of an n or k line is a figure
 * that is compared, and so is each of a p or r line after its first.
 */
#include "pippinterm.h"

#include <stdio.h>
#include <stdlib.h>

#define MOST_CARDS (PIPPINTERM_MOST_CARDS + 1)  /* so that one too many can be lent */
#define MOST_LENT (2 * PIPPINTERM_ENOUGH_TABLE) /* numbers of a table or of a reply list */
#define GUARD PIPPINTERM_ENOUGH_TABLE           /* numbers around them that are not lent */
#define ROOM (GUARD + MOST_LENT + GUARD)
#define MOST_NUMBERS (1 + PIPPINTERM_CARD_NUMBERS) /* in a line of the text */

/* Each place of a room begins with a mark of its own, which no row and no reply has. */
#define MARK 1000000000
static uint32_t table_room[ROOM];
static uint32_t replies_room[ROOM];
static int32_t cards[MOST_CARDS][PIPPINTERM_CARD_NUMBERS];

/* What the text has to go on with: a day, the cards and the reply of one, or its figures. */
static enum { DAY, CARDS, FIGURES } due;
static long cards_length, table_length, replies_length, cards_read;
static int null_where_empty;

static unsigned long line, days, figures, failed, failed_before, failed_days;

static void compare(long figure, long found)
{
    figures++;
    if (found != figure) {
        printf("line %lu: %ld is due, %ld is found\n", line, figure, found);
        failed++;
    }
}

static void put_marks(uint32_t *room)
{
    uint32_t i;
    for (i = 0; i < ROOM; i++) {
        room[i] = MARK + i;
    }
}

/* Of the room's first numbers the place after the last that has lost its mark, or 0. */
static long kept_from(const uint32_t *room, long numbers)
{
    while (numbers > 0 && room[numbers - 1] == (uint32_t)(MARK + numbers - 1)) {
        numbers--;
    }
    return numbers;
}

/* The same of all, counted from the first that is lent; -1 where the guard before it is changed. */
static long lent_kept_from(const uint32_t *room)
{
    long place = kept_from(room, ROOM);
    if (kept_from(room, GUARD) != 0) {
        return -1;
    }
    return place == 0 ? 0 : place - GUARD;
}

static int within(long number, long most)
{
    return number >= 0 && number <= most;
}

static int is_null(long length)
{
    return null_where_empty && length == 0;
}

/* Each of the next functions does what a line says, or gives 0 where it is not understood. */

static int begin_day(const long *numbers, int with_null)
{
    if (due != DAY || !within(numbers[0], MOST_CARDS) || !within(numbers[1], MOST_LENT) ||
        !within(numbers[2], MOST_LENT)) {
        return 0;
    }
    cards_length = numbers[0];
    table_length = numbers[1];
    replies_length = numbers[2];
    null_where_empty = with_null;
    cards_read = 0;
    put_marks(table_room);
    put_marks(replies_room);
    due = CARDS;
    return 1;
}

static int add_card(const long *numbers)
{
    int i;
    if (due != CARDS || cards_read == cards_length) {
        return 0;
    }
    for (i = 0; i < PIPPINTERM_CARD_NUMBERS; i++) {
        if (numbers[i] < INT32_MIN || numbers[i] > INT32_MAX) {
            return 0;
        }
        cards[cards_read][i] = (int32_t)numbers[i];
    }
    cards_read++;
    return 1;
}

static int add_cards(long times, const long *numbers)
{
    int understood = times > 0;
    for (; understood && times > 0; times--) {
        understood = add_card(numbers);
    }
    return understood;
}

static int run_day(const long *numbers)
{
    uint32_t number, count = MARK;
    if (due != CARDS || cards_read != cards_length) {
        return 0;
    }
    number = pippinterm_fill_day(
        is_null(cards_length) ? NULL : (const int32_t (*)[PIPPINTERM_CARD_NUMBERS])cards,
        (size_t)cards_length,
        is_null(table_length) ? NULL : (int32_t *)table_room + GUARD, (size_t)table_length,
        is_null(replies_length) ? NULL : replies_room + GUARD, (size_t)replies_length, &count);
    compare(numbers[0], (long)number);
    compare(numbers[1], (long)count);
    due = FIGURES;
    return 1;
}

static int compare_reply(const long *numbers)
{
    const uint32_t *reply;
    if (due != FIGURES || !within(numbers[0], replies_length / PIPPINTERM_REPLY_NUMBERS - 1)) {
        return 0;
    }
    reply = replies_room + GUARD + PIPPINTERM_REPLY_NUMBERS * numbers[0];
    compare(numbers[1], (long)reply[PIPPINTERM_REPLY_REASON]);
    compare(numbers[2], (long)reply[PIPPINTERM_REPLY_COUNT]);
    return 1;
}

static int compare_row(const long *numbers)
{
    const int32_t *row;
    int i;
    if (due != FIGURES || !within(numbers[0], table_length / PIPPINTERM_ROW_NUMBERS - 1)) {
        return 0;
    }
    row = (const int32_t *)table_room + GUARD + PIPPINTERM_ROW_NUMBERS * numbers[0];
    for (i = 0; i < PIPPINTERM_ROW_NUMBERS; i++) {
        compare(numbers[1 + i], (long)row[i]);
    }
    return 1;
}

static int end_day(const long *numbers)
{
    if (due != FIGURES) {
        return 0;
    }
    compare(numbers[0], lent_kept_from(table_room));
    compare(numbers[1], lent_kept_from(replies_room));
    days++;
    failed_days += failed > failed_before;
    failed_before = failed;
    due = DAY;
    return 1;
}

/* How many numbers come after the letter, a blank before each; -1 where anything else comes. */
static int read_numbers(const char *rest, long *numbers)
{
    int count = 0;
    char *end;
    while (*rest == ' ' && count < MOST_NUMBERS) {
        numbers[count] = strtol(rest + 1, &end, 10);
        if (end == rest + 1) {
            return -1;
        }
        rest = end;
        count++;
    }
    return *rest == '\n' ? count : -1;
}

static int follow(const char *text)
{
    long numbers[MOST_NUMBERS];
    int count = read_numbers(text + 1, numbers);
    switch (text[0]) {
    case 'd': return count == 3 && begin_day(numbers, 0);
    case 'z': return count == 3 && begin_day(numbers, 1);
    case 'c': return count == PIPPINTERM_CARD_NUMBERS && add_card(numbers);
    case 'm': return count == MOST_NUMBERS && add_cards(numbers[0], numbers + 1);
    case 'n': return count == 2 && run_day(numbers);
    case 'p': return count == 3 && compare_reply(numbers);
    case 'r': return count == 8 && compare_row(numbers);
    case 'k': return count == 2 && end_day(numbers);
    default: return 0;
    }
}

int main(int argc, char **argv)
{
    static char text[200];
    unsigned long days_due = argc == 2 ? strtoul(argv[1], NULL, 10) : 0;
    while (fgets(text, sizeof text, stdin) != NULL) {
        line++;
        if (text[0] != '#' && !follow(text)) {
            printf("line %lu: not understood\n", line);
            return 2;
        }
    }
    printf("%lu days, %lu figures compared, %lu failed in %lu days\n",
           days, figures, failed, failed_days);
    if (due != DAY || days != days_due || days == 0) {
        printf("%lu days are due, each to its end\n", days_due);
        return 2;
    }
    return failed == 0 ? 0 : 1;
}
