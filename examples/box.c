/*
 * A program of the kind that the box has: reads a book of cards from a file,
 * fills the table of each curve and prints it. With --day it fills one table
 * with all the cards of the book by one call, and prints the same. Where a card
 * is refused for its clothoid, its height or its grade, it says on standard error
 * within what limits that must be.
 *
 * With --walk it fills the table of each curve by walking from row to row, and
 * prints the same. Walking is for a box that shows the next row while it drives:
 * that row is made from the one before by adding and carrying, and only a few rows
 * of a curve are worked afresh.
 *
 * With --write it prints no table, but writes the book to the file NEW, which
 * may be BOOK itself. Where a curve's NAME, the NUMBER of one of its body's
 * numbers, from 1, and a VALUE are given, that number is changed before: one of
 * the first eight, or 9 and 10, the height and the grade of an absolute curve. A
 * relative curve has no 9 and no 10: the program says so and writes nothing.
 * It ends with 1 where the book or the list is refused, and writes nothing.
 */
#include "pippinterm.h"

#include <stdio.h>
#include <string.h>

/* One byte more than a book may have, so that a longer file is refused too. */
static uint8_t text[PIPPINTERM_MOST_BYTES + 1];
static int32_t list[PIPPINTERM_LEAST_LIST];
static int32_t cards[PIPPINTERM_MOST_CARDS][PIPPINTERM_CARD_NUMBERS];
static uint32_t replies[PIPPINTERM_ENOUGH_REPLIES];
/* A card by itself gets the first PIPPINTERM_ENOUGH_TABLE numbers of it. */
static int32_t table[PIPPINTERM_ENOUGH_DAY];
/* The book that is written: not in the text, where the names stand. */
static uint8_t buffer[PIPPINTERM_ENOUGH_BOOK];

static int32_t *curve_at(uint32_t i)
{
    return list + PIPPINTERM_CURVE_NUMBERS * i;
}

static void print_row(const int32_t *row)
{
    int i;
    for (i = 0; i < PIPPINTERM_ROW_NUMBERS; i++) {
        printf("%s%ld", i == 0 ? "" : " ", (long)row[i]);
    }
    printf("\n");
}

static void print_name(FILE *file, const int32_t *curve)
{
    fprintf(file, "%.*s", (int)curve[PIPPINTERM_CURVE_NAME_SIZE],
            (const char *)text + curve[PIPPINTERM_CURVE_NAME_PLACE]);
}

/* What reason 4 asks for at the radius of this card. */
static void tell_lengths(const int32_t *card)
{
    uint32_t radius = (uint32_t)card[PIPPINTERM_CARD_RADIUS];
    uint32_t looked;
    uint32_t least = pippinterm_least_length(radius, &looked);
    fprintf(stderr, "at a radius of %lu m reason 4 asks for a clothoid of %lu to 300 m\n",
            (unsigned long)radius, (unsigned long)least);
}

/* What some reasons ask for of this curve: for the reader, and no part of the sheet. */
static void tell_limits(const int32_t *curve, uint32_t number)
{
    const int32_t *card = curve + PIPPINTERM_CURVE_CARD;
    if (number != PIPPINTERM_REFUSED_CLOTHOID && number != PIPPINTERM_REFUSED_HEIGHT &&
        number != PIPPINTERM_REFUSED_GRADE) {
        return;
    }
    print_name(stderr, curve);
    fprintf(stderr, ": ");
    if (number == PIPPINTERM_REFUSED_CLOTHOID) {
        tell_lengths(card);
    } else if (number == PIPPINTERM_REFUSED_HEIGHT) {
        fprintf(stderr, "reason 34 asks for a height of -100000 to 9000000 mm, "
                        "in whole units of %ld mm\n", (long)card[PIPPINTERM_CARD_UNIT]);
    } else {
        fprintf(stderr, "reason 35 asks for a grade of -80 to 80 per mille\n");
    }
}

/* Prints a curve: its card's reply, and its rows from the start of its part of the table. */
static void print_curve(const int32_t *curve, uint32_t number, uint32_t rows, const int32_t *part)
{
    uint32_t i;
    print_name(stdout, curve);
    if (number != PIPPINTERM_ACCEPTED) {
        printf(" refused %lu\n", (unsigned long)number);
        tell_limits(curve, number);
        return;
    }
    printf(" %lu\n", (unsigned long)rows);
    for (i = 0; i < rows; i++) {
        print_row(part + PIPPINTERM_ROW_NUMBERS * i);
    }
}

/* Fills the table with one card's rows, walking or not: the rows are the same. */
static uint32_t fill_table(const int32_t *card, int walking, uint32_t *rows)
{
    uint32_t fresh; /* how many of them were worked afresh, which is no part of the sheet */
    if (walking) {
        return pippinterm_walk_table(card, table, PIPPINTERM_ENOUGH_TABLE, rows, &fresh);
    }
    return pippinterm_fill_table(card, table, PIPPINTERM_ENOUGH_TABLE, rows);
}

/* Every card by a call of its own: each begins at the table's start. */
static void print_one_by_one(uint32_t curves, int walking)
{
    uint32_t number, rows, i;
    for (i = 0; i < curves; i++) {
        number = fill_table(curve_at(i) + PIPPINTERM_CURVE_CARD, walking, &rows);
        print_curve(curve_at(i), number, rows, table);
    }
}

/* All cards by one call, which gives 0, or the number that refuses the day. */
static uint32_t fill_day(uint32_t curves, uint32_t *count)
{
    uint32_t i;
    for (i = 0; i < curves; i++) {
        memcpy(cards[i], curve_at(i) + PIPPINTERM_CURVE_CARD, sizeof cards[i]);
    }
    /* C before C23 makes a list of cards const by a cast only. */
    return pippinterm_fill_day((const int32_t (*)[PIPPINTERM_CARD_NUMBERS])cards, curves,
                               table, PIPPINTERM_ENOUGH_DAY,
                               replies, PIPPINTERM_ENOUGH_REPLIES, count);
}

/* The cards' rows follow one another in the table; a refused card has none.
   Gives what the program ends with. */
static int print_day(uint32_t curves)
{
    const int32_t *part = table;
    const uint32_t *reply = replies;
    uint32_t count, i;
    uint32_t number = fill_day(curves, &count);
    if (number != PIPPINTERM_ACCEPTED) {
        /* Never so: no book has more than 64 curves, and the reply list is long enough. */
        fprintf(stderr, "box: the day is refused, %lu\n", (unsigned long)number);
        return 2;
    }
    for (i = 0; i < count; i++) {
        print_curve(curve_at(i), reply[PIPPINTERM_REPLY_REASON],
                    reply[PIPPINTERM_REPLY_COUNT], part);
        part += PIPPINTERM_ROW_NUMBERS * reply[PIPPINTERM_REPLY_COUNT];
        reply += PIPPINTERM_REPLY_NUMBERS;
    }
    return 0;
}

/* Reads the book into the list; of a refused one it prints what that says, and gives 0. */
static int read_book(size_t length, uint32_t *curves)
{
    uint32_t line;
    uint32_t number = pippinterm_read_book(text, length, list, PIPPINTERM_LEAST_LIST,
                                           curves, &line);
    if (number != PIPPINTERM_ACCEPTED) {
        printf("book %lu line %lu\n", (unsigned long)number, (unsigned long)line);
    }
    return number == PIPPINTERM_ACCEPTED;
}

static int print_book(size_t length, int by_day, int walking)
{
    uint32_t curves;
    if (!read_book(length, &curves)) {
        return 0;
    }
    if (by_day) {
        return print_day(curves);
    }
    print_one_by_one(curves, walking);
    return 0;
}

/* The curve of that name, or NULL where the book has none. */
static int32_t *find_curve(uint32_t curves, const char *name)
{
    size_t size = strlen(name);
    uint32_t i;
    for (i = 0; i < curves; i++) {
        if ((size_t)curve_at(i)[PIPPINTERM_CURVE_NAME_SIZE] == size &&
            memcmp(text + curve_at(i)[PIPPINTERM_CURVE_NAME_PLACE], name, size) == 0) {
            return curve_at(i);
        }
    }
    return NULL;
}

/* Reads a number of 32 bits, below 0 only where that may be; gives 0 where anything else stands. */
static int read_number(const char *word, int may_be_below, int32_t *number)
{
    int below = may_be_below && *word == '-';
    const char *digit = word + below;
    int64_t value = 0;
    int understood = *digit != '\0';
    for (; understood && *digit != '\0'; digit++) {
        value = 10 * value + (*digit - '0');
        understood = *digit >= '0' && *digit <= '9' && value <= 2147483647 + (int64_t)below;
    }
    if (understood) {
        *number = (int32_t)(below ? -value : value);
    }
    return understood;
}

/* The place in a card of one of its body's numbers, which count from 1; -1 where there is none.
   A body has no mark: its ninth and tenth numbers are the height and the grade, if it has them. */
static int find_number(const int32_t *card, const char *name, const char *which)
{
    int32_t number;
    if (!read_number(which, 0, &number) || number < 1 || number >= PIPPINTERM_CARD_NUMBERS) {
        fprintf(stderr, "box: %s is not 1 to 10, as the numbers of a body are counted\n", which);
        return -1;
    }
    if (number <= PIPPINTERM_CARD_MARK) {
        return number - 1;
    }
    if (card[PIPPINTERM_CARD_MARK] == PIPPINTERM_MARK_RELATIVE) {
        /* With one of the two the other would be a guess. */
        fprintf(stderr, "box: %s is relative, and has no height and no grade\n", name);
        return -1;
    }
    return number;
}

/* Changes one number of a card; gives its curve, or NULL where the words are not understood. */
static const int32_t *change_card(uint32_t curves, const char *name, const char *which,
                                  const char *value)
{
    int32_t *curve = find_curve(curves, name);
    int place;
    if (curve == NULL) {
        fprintf(stderr, "box: the book has no curve %s\n", name);
        return NULL;
    }
    place = find_number(curve + PIPPINTERM_CURVE_CARD, name, which);
    if (place < 0) {
        return NULL;
    }
    if (!read_number(value, place > PIPPINTERM_CARD_MARK, curve + PIPPINTERM_CURVE_CARD + place)) {
        fprintf(stderr, "box: %s is no whole number from %s to 2147483647\n", value,
                place > PIPPINTERM_CARD_MARK ? "-2147483648" : "0");
        return NULL;
    }
    return curve;
}

static int write_file(const char *path, size_t bytes)
{
    FILE *file = fopen(path, "wb");
    size_t written = file == NULL ? 0 : fwrite(buffer, 1, bytes, file);
    if (file == NULL || fclose(file) != 0 || written != bytes) {
        fprintf(stderr, "box: %s cannot be written\n", path);
        return 2;
    }
    return 0;
}

/* The file is opened only once its bytes stand in the buffer. */
static int write_list(size_t length, uint32_t curves, const char *path)
{
    uint32_t bytes;
    uint32_t number = pippinterm_write_book(list, PIPPINTERM_CURVE_NUMBERS * curves, text, length,
                                            buffer, PIPPINTERM_ENOUGH_BOOK, &bytes);
    if (number != PIPPINTERM_ACCEPTED) {
        /* The buffer is long enough for every book, and a list that was read has right marks,
           so 33 can mean a number only. */
        fprintf(stderr, "box: the list is refused, %lu%s\n", (unsigned long)number,
                number == PIPPINTERM_REFUSED_SHORT_BUFFER ? ": a number above seven digits" : "");
        return 1;
    }
    return write_file(path, bytes);
}

/* The book holds a changed card whatever its numbers are, so it is asked here. */
static void tell_refusal(const int32_t *curve)
{
    uint32_t number = pippinterm_check_card(curve + PIPPINTERM_CURVE_CARD);
    if (number == PIPPINTERM_ACCEPTED) {
        return;
    }
    print_name(stderr, curve);
    fprintf(stderr, ": the book is written, but this card is refused, %lu\n", (unsigned long)number);
    tell_limits(curve, number);
}

/* Writes the book to the file, after the change where there is one: three words, or NULL. */
static int write_book(size_t length, const char *path, char **change)
{
    const int32_t *changed = NULL;
    uint32_t curves;
    int ended;
    if (!read_book(length, &curves)) {
        return 1;
    }
    if (change != NULL) {
        changed = change_card(curves, change[0], change[1], change[2]);
        if (changed == NULL) {
            return 2;
        }
    }
    ended = write_list(length, curves, path);
    if (ended == 0 && changed != NULL) {
        tell_refusal(changed);
    }
    return ended;
}

int main(int argc, char **argv)
{
    int by_day = argc == 3 && strcmp(argv[1], "--day") == 0;
    int walking = argc == 3 && strcmp(argv[1], "--walk") == 0;
    int writes = (argc == 4 || argc == 7) && strcmp(argv[1], "--write") == 0;
    const char *path = argc == 2 ? argv[1]
                     : by_day || walking ? argv[2]
                     : writes ? argv[3] : NULL;
    FILE *book = path == NULL ? NULL : fopen(path, "rb");
    size_t length;
    int ended;
    if (path == NULL) {
        fprintf(stderr, "usage: box [--day | --walk] BOOK\n"
                        "       box --write NEW BOOK [NAME NUMBER VALUE]: reads BOOK, writes NEW\n");
        return 2;
    }
    length = book == NULL ? 0 : fread(text, 1, sizeof text, book);
    if (book == NULL || ferror(book)) {
        fprintf(stderr, "box: %s cannot be read\n", path);
        return 2;
    }
    fclose(book);
    ended = writes ? write_book(length, argv[2], argc == 7 ? argv + 4 : NULL)
                   : print_book(length, by_day, walking);
    if (fflush(stdout) != 0 || ferror(stdout)) {
        fprintf(stderr, "box: the tables cannot be written\n");
        return 2;
    }
    return ended;
}
