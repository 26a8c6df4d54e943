/*
 * Prints the tables of cards by the method of the Minsk handbook:
 *
 *   minsk < CARDS
 *   minsk NAME 11 NUMBERS
 *
 * A line of CARDS is a name and the eleven numbers of a card, one blank before
 * each: profile, terrain, radius in m, clothoid in mm, full slope in per mille,
 * full widening in mm, step in mm, unit in mm, then 0 0 0 for a relative card, or 1,
 * the height of the axis in mm and the grade in per mille. The second form takes one
 * such card from the command line. Of each it prints the name and the count of rows,
 * then the rows, nine numbers each; or the name and the number that refuses it.
 * Ends with 0, and with 2 where a card is not understood.
 */
#include "pippinterm.h"

#include <errno.h>
#include <stdio.h>
#include <stdlib.h>
#include <string.h>

#define WORDS (1 + PIPPINTERM_CARD_NUMBERS) /* of a line: the name and the numbers */
#define MOST_NAME 8

static int32_t table[PIPPINTERM_ENOUGH_MINSK_TABLE];

static void print_row(const int32_t *row)
{
    int i;
    for (i = 0; i < PIPPINTERM_MINSK_ROW_NUMBERS; i++) {
        printf("%s%ld", i == 0 ? "" : " ", (long)row[i]);
    }
    printf("\n");
}

/* Fills the table with the rows of a card, and prints them. */
static void print_card(const char *name, const int32_t *card)
{
    uint32_t rows, i;
    uint32_t number = pippinterm_fill_minsk_table(card, table, PIPPINTERM_ENOUGH_MINSK_TABLE,
                                                  &rows);
    if (number != PIPPINTERM_ACCEPTED) {
        printf("%s refused %lu\n", name, (unsigned long)number);
        return;
    }
    printf("%s %lu\n", name, (unsigned long)rows);
    for (i = 0; i < rows; i++) {
        print_row(table + PIPPINTERM_MINSK_ROW_NUMBERS * i);
    }
}

/* A name is 1 to 8 capitals or digits, as in a book. */
static int is_name(const char *word)
{
    size_t length = strspn(word, "ABCDEFGHIJKLMNOPQRSTUVWXYZ0123456789");
    return length > 0 && length <= MOST_NAME && word[length] == '\0';
}

/* Reads a whole number of 32 bits; gives 0 where the word is none. */
static int read_number(const char *word, int32_t *number)
{
    long found;
    size_t digits = strspn(word + (word[0] == '-'), "0123456789");
    if (digits == 0 || digits > 10 || word[(word[0] == '-') + digits] != '\0') {
        return 0;
    }
    errno = 0;
    found = strtol(word, NULL, 10);
    if (errno != 0 || found < INT32_MIN || found > INT32_MAX) {
        return 0;
    }
    *number = (int32_t)found;
    return 1;
}

/* Prints the card of these words; gives 0 where they are not a name and eleven numbers. */
static int print_words(char *const *words)
{
    int32_t card[PIPPINTERM_CARD_NUMBERS];
    int i, understood = is_name(words[0]);
    for (i = 0; understood && i < PIPPINTERM_CARD_NUMBERS; i++) {
        understood = read_number(words[1 + i], &card[i]);
    }
    if (understood) {
        print_card(words[0], card);
    }
    return understood;
}

/* Cuts a line into its words, one blank between them; gives 0 where they are not as many as a card has. */
static int cut_line(char *line, char **words)
{
    int count = 0;
    char *end = strchr(line, '\n');
    if (end == NULL) {
        return 0;
    }
    *end = '\0';
    while (line != NULL && count < WORDS) {
        words[count] = line;
        count++;
        line = strchr(line, ' ');
        if (line != NULL) {
            *line = '\0';
            line++;
        }
    }
    return count == WORDS && line == NULL;
}

/* Prints every card of standard input; gives what the program ends with. */
static int print_lines(void)
{
    static char line[200];
    char *words[WORDS];
    unsigned long count = 0;
    while (fgets(line, sizeof line, stdin) != NULL) {
        count++;
        if (!cut_line(line, words) || !print_words(words)) {
            fprintf(stderr, "minsk: line %lu is not a name and eleven numbers\n", count);
            return 2;
        }
    }
    return 0;
}

int main(int argc, char **argv)
{
    if (argc == 1) {
        return print_lines();
    }
    if (argc != 1 + WORDS || !print_words(argv + 1)) {
        fprintf(stderr, "minsk: give a name and the eleven numbers of a card, or cards by standard input\n");
        return 2;
    }
    return 0;
}
