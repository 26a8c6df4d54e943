/*
 * Asks for the least length of a clothoid at the radii of a text, and compares
 * with the figures that are due:
 *
 *   least RADII < TEXT
 *
 * Ends with 0 where the text has so many radii and no figure failed, with 1 where
 * a figure failed, and with 2 where a line is not understood or the radii are not
 * so many. A line of the text begins with #, or is three whole numbers: a radius,
 * its least length, and how many listed radii are looked at.
 */
#include "pippinterm.h"

#include <stdio.h>
#include <stdlib.h>

/* What is lent, and its neighbours, which are not, have a mark before the call. */
#define MARK 1000000000

static unsigned long radii, figures, failed;

static void compare(uint32_t radius, unsigned long figure, uint32_t found)
{
    figures++;
    if (found != figure) {
        printf("radius %lu: %lu is due, %lu is found\n", (unsigned long)radius, figure,
               (unsigned long)found);
        failed++;
    }
}

static void run(uint32_t radius, unsigned long length, unsigned long looked)
{
    uint32_t lent[3] = {MARK, MARK + 1, MARK + 2};
    uint32_t found = pippinterm_least_length(radius, &lent[1]);
    compare(radius, length, found);
    compare(radius, looked, lent[1]);
    compare(radius, MARK, lent[0]);
    compare(radius, MARK + 2, lent[2]);
    radii++;
}

/* Runs a line of the text; gives 0 where it is not understood. */
static int run_line(const char *line)
{
    unsigned long radius, length, looked;
    char end;
    if (line[0] == '#') {
        return 1;
    }
    if (sscanf(line, "%lu %lu %lu%c", &radius, &length, &looked, &end) != 4 || end != '\n' ||
        radius > UINT32_MAX) {
        return 0;
    }
    run((uint32_t)radius, length, looked);
    return 1;
}

int main(int argc, char **argv)
{
    char line[200];
    while (fgets(line, sizeof line, stdin) != NULL) {
        if (!run_line(line)) {
            fprintf(stderr, "least: not understood: %s\n", line);
            return 2;
        }
    }
    printf("%lu radii, %lu figures compared, %lu failed\n", radii, figures, failed);
    if (argc != 2 || radii == 0 || radii != strtoul(argv[1], NULL, 10)) {
        return 2;
    }
    return failed != 0;
}
