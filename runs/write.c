/*
 * Runs the call that writes a book over the lists of a text, and compares with
 * the figures that are due:
 *
 *   write RUNS < TEXT
 *
 * Ends with 0 where the text has so many runs and no figure failed, with 1 where
 * a figure failed, and with 2 where a line is not understood or the runs are not
 * so many. A line of the text begins with #, or is one of these:
 *
 *   l NUMBERS NAMES             begins a list: how many of its numbers, and how
 *                               many of the names' bytes, are lent
 *   t BYTES                     the names' next bytes
 *   c 1 TO 13 NUMBERS           the list's next numbers
 *   b BYTES                     the next bytes of its book
 *   r ROOM NUMBER COUNT KEPT    runs the list with a buffer of so many bytes: its
 *                               reply, and the place from which on the buffer
 *                               keeps its marks
 *   z ROOM NUMBER COUNT KEPT    the same, and what has the length 0 is lent as NULL
 *
 * Bytes stand for themselves, but \n is byte 10, \\ is \ and \x with two digits
 * is the byte of that number. Numbers and bytes beyond those that are lent stand
 * behind them in memory, so that reading too far is not refused by luck. The last
 * three numbers of an r or z line are figures that are compared. Where a reply of
 * 0 is due, so is the book, as one figure: the first bytes of the buffer, as many
 * as the count that is found. So are, in every run, how many numbers or bytes of
 * the list, of the names and beside the count are changed: none.
 */
#include "pippinterm.h"

#include <stdio.h>
#include <stdlib.h>
#include <string.h>

#define MOST_NUMBERS (PIPPINTERM_LEAST_LIST + 26) /* so that lists too long can be lent */
#define MOST_BYTES PIPPINTERM_MOST_BYTES          /* of names, of a book and of a buffer */
#define GUARD 300                                 /* numbers or bytes before and after them */
#define LIST_ROOM (GUARD + MOST_NUMBERS + GUARD)
#define BYTES_ROOM (GUARD + MOST_BYTES + GUARD)

/* What is lent for reading stands twice: the second is compared with afterwards. */
#define MARK 1000000000
static int32_t list_room[LIST_ROOM], list_before[LIST_ROOM];
static uint8_t names_room[BYTES_ROOM], names_before[BYTES_ROOM];
static uint8_t buffer_room[BYTES_ROOM];
static uint8_t book[MOST_BYTES];

/* How many numbers and bytes are lent, and how many the text has. */
static long list_length, names_length, list_read, names_read, book_read;
/* Where the text stands: before the first list, in a list, or after a run of it. */
static enum { NO_LIST, LIST, RUN } begun;

static unsigned long line, lists, runs, figures, failed, failed_runs;

static void compare(const char *what, long figure, long found)
{
    figures++;
    if (found != figure) {
        printf("line %lu, %s: %ld is due, %ld is found\n", line, what, figure, found);
        failed++;
    }
}

/* A byte that stands in no book, and in none of the 126 places before this one. */
static uint8_t mark(long place)
{
    return (uint8_t)(128 + place % 127);
}

/* Around the names are capitals: a name that goes too far is not refused for its bytes. */
static void put_marks(void)
{
    long i;
    for (i = 0; i < LIST_ROOM; i++) {
        list_room[i] = (int32_t)(MARK + i);
    }
    for (i = 0; i < BYTES_ROOM; i++) {
        names_room[i] = (uint8_t)('A' + i % 26);
    }
}

static void put_buffer_marks(void)
{
    long i;
    for (i = 0; i < BYTES_ROOM; i++) {
        buffer_room[i] = mark(i);
    }
}

/* The place after the buffer's last byte without its mark, or 0; -1 where the guard is changed. */
static long kept_from(void)
{
    long place = BYTES_ROOM, i;
    for (i = 0; i < GUARD; i++) {
        if (buffer_room[i] != mark(i)) {
            return -1;
        }
    }
    while (place > GUARD && buffer_room[place - 1] == mark(place - 1)) {
        place--;
    }
    return place - GUARD;
}

static long numbers_changed(void)
{
    long changed = 0, i;
    for (i = 0; i < LIST_ROOM; i++) {
        changed += list_room[i] != list_before[i];
    }
    return changed;
}

static long names_changed(void)
{
    long changed = 0, i;
    for (i = 0; i < BYTES_ROOM; i++) {
        changed += names_room[i] != names_before[i];
    }
    return changed;
}

/* One figure: how many bytes the book has, or, where it is another, up to where it is the same. */
static void compare_book(uint32_t count)
{
    long same = 0;
    while (same < book_read && (uint32_t)same < count && buffer_room[GUARD + same] == book[same]) {
        same++;
    }
    compare("the book's bytes", book_read, same == book_read ? (long)count : same);
}

static int within(long number, long most)
{
    return number >= 0 && number <= most;
}

/* Each of the next functions does what a line says, or gives 0 where it is not understood. */

static int begin_list(const long *numbers)
{
    if (begun == LIST || !within(numbers[0], MOST_NUMBERS) || !within(numbers[1], MOST_BYTES)) {
        return 0;
    }
    list_length = numbers[0];
    names_length = numbers[1];
    list_read = names_read = book_read = 0;
    put_marks();
    lists++;
    begun = LIST;
    return 1;
}

static int add_numbers(const long *numbers, int count)
{
    int i;
    if (begun != LIST || count < 1 || list_read + count > MOST_NUMBERS) {
        return 0;
    }
    for (i = 0; i < count; i++) {
        if (numbers[i] < INT32_MIN || numbers[i] > INT32_MAX) {
            return 0;
        }
        list_room[GUARD + list_read++] = (int32_t)numbers[i];
    }
    return 1;
}

static int hex_digit(char digit)
{
    static const char digits[] = "0123456789abcdef";
    const char *found = digit == '\0' ? NULL : strchr(digits, digit);
    return found == NULL ? -1 : (int)(found - digits);
}

/* The byte that begins here, and in *end where the next one does; -1 where it is not understood. */
static int read_byte(const char *text, const char **end)
{
    *end = text + 1;
    if (text[0] != '\\') {
        return (unsigned char)text[0];
    }
    *end = text + 2;
    if (text[1] == 'n' || text[1] == '\\') {
        return text[1] == 'n' ? 10 : '\\';
    }
    if (text[1] != 'x' || hex_digit(text[2]) < 0 || hex_digit(text[3]) < 0) {
        return -1;
    }
    *end = text + 4;
    return 16 * hex_digit(text[2]) + hex_digit(text[3]);
}

/* Adds the bytes up to the end of the line to those that are read already. */
static int add_bytes(const char *text, uint8_t *bytes, long *count)
{
    int byte = 0;
    if (begun != LIST || *text != ' ') {
        return 0;
    }
    text++;
    while (byte >= 0 && *text != '\n' && *text != '\0' && *count < MOST_BYTES) {
        byte = read_byte(text, &text);
        bytes[(*count)++] = (uint8_t)byte;
    }
    return byte >= 0 && *text == '\n';
}

static void compare_run(const long *numbers, uint32_t number, const uint32_t *lent)
{
    unsigned long failed_before = failed;
    compare("the number", numbers[1], (long)number);
    compare("the count", numbers[2], (long)lent[1]);
    if (numbers[1] == PIPPINTERM_ACCEPTED) {
        compare_book(lent[1]);
    }
    compare("the buffer's marks", numbers[3], kept_from());
    compare("the list", 0, numbers_changed());
    compare("the names", 0, names_changed());
    compare("beside the count", 0, (lent[0] != MARK) + (lent[2] != MARK + 2));
    failed_runs += failed > failed_before;
}

static int run_list(const long *numbers, int null_where_empty)
{
    uint32_t lent[3] = {MARK, MARK + 1, MARK + 2};
    uint32_t number;
    if (begun == NO_LIST || !within(numbers[0], MOST_BYTES) || list_read < list_length ||
        names_read < names_length) {
        return 0;
    }
    put_buffer_marks();
    memcpy(list_before, list_room, sizeof list_room);
    memcpy(names_before, names_room, sizeof names_room);
    number = pippinterm_write_book(
        null_where_empty && list_length == 0 ? NULL : list_room + GUARD, (size_t)list_length,
        null_where_empty && names_length == 0 ? NULL : names_room + GUARD, (size_t)names_length,
        null_where_empty && numbers[0] == 0 ? NULL : buffer_room + GUARD, (size_t)numbers[0],
        &lent[1]);
    compare_run(numbers, number, lent);
    runs++;
    begun = RUN;
    return 1;
}

/* How many numbers come after the letter, a blank before each; -1 where anything else comes. */
static int read_numbers(const char *rest, long *numbers)
{
    int count = 0;
    char *end;
    while (*rest == ' ' && count < PIPPINTERM_CURVE_NUMBERS) {
        numbers[count] = strtol(rest + 1, &end, 10);
        if (end == rest + 1) {
            return -1;
        }
        rest = end;
        count++;
    }
    return *rest == '\n' ? count : -1;
}

static int follow(const char *text)
{
    long numbers[PIPPINTERM_CURVE_NUMBERS];
    int count = read_numbers(text + 1, numbers);
    switch (text[0]) {
    case 'l': return count == 2 && begin_list(numbers);
    case 't': return add_bytes(text + 1, names_room + GUARD, &names_read);
    case 'c': return add_numbers(numbers, count);
    case 'b': return add_bytes(text + 1, book, &book_read);
    case 'r': return count == 4 && run_list(numbers, 0);
    case 'z': return count == 4 && run_list(numbers, 1);
    default: return 0;
    }
}

int main(int argc, char **argv)
{
    static char text[500];
    unsigned long runs_due = argc == 2 ? strtoul(argv[1], NULL, 10) : 0;
    while (fgets(text, sizeof text, stdin) != NULL) {
        line++;
        if (text[0] != '#' && !follow(text)) {
            printf("line %lu: not understood\n", line);
            return 2;
        }
    }
    printf("%lu lists, %lu runs, %lu figures compared, %lu failed in %lu runs\n",
           lists, runs, figures, failed, failed_runs);
    if (begun != RUN || runs != runs_due) {
        printf("%lu runs are due, and one at least of every list\n", runs_due);
        return 2;
    }
    return failed == 0 ? 0 : 1;
}
