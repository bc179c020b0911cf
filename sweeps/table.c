/* A thousand runs in one process, and a table of them:

       table examples/small-queue.txt > table.csv
       table --flows examples/small-queue.txt > flows.csv

   The description is run with 10 limits, 10 windows and 10 seeds in the place of its own. The
   columns are described in README.md; table.py writes the same tables. With --flows no record is
   printed or read, and the column `full`, which counts records, is left out. */
#include <inttypes.h>
#include <stdio.h>
#include <stdlib.h>
#include <string.h>

#include "remyline.h"

#define MOST_TEXT 4096

static uint8_t out[REMYLINE_ENOUGH + 1]; /* one more for the 0 that ends a string */

static void fail(const char *what) {
    fprintf(stderr, "table: %s\n", what);
    exit(1);
}

/* The description with another limit, policy and seed; answers its length. */
static size_t described(char *text, const char *base, unsigned limit, unsigned window, unsigned seed) {
    size_t at = 0;
    for (const char *line = base; *line;) {
        const char *end = strchr(line, '\n');
        int len = end ? (int)(end - line) + 1 : (int)strlen(line);
        size_t room = MOST_TEXT - at;
        int n;
        if (strncmp(line, "limit=", 6) == 0)
            n = snprintf(text + at, room, "limit=%u\n", limit);
        else if (strncmp(line, "policy=", 7) == 0)
            n = snprintf(text + at, room, "policy=grown:2:%u\n", window);
        else if (strncmp(line, "seed=", 5) == 0)
            n = snprintf(text + at, room, "seed=%u\n", seed);
        else
            n = snprintf(text + at, room, "%.*s", len, line);
        if (n < 0 || (size_t)n >= room)
            fail("the description is too long");
        at += n;
        line += len;
    }
    return at;
}

static double double_of(const char *digits) {
    uint64_t bits = strtoull(digits, NULL, 16);
    double value;
    memcpy(&value, &bits, sizeof value);
    return value;
}

/* A row of the table from the lines of a run, or from its last lines. */
static void row(const char *lines, const char *end, int flows_only, unsigned limit, unsigned window, unsigned seed) {
    unsigned stop = 0, flows = 0, rates = 0;
    uint64_t sent = 0, counted = 0, full = 0;
    double sum = 0;
    while (lines < end) {
        const char *next = (const char *)memchr(lines, '\n', end - lines) + 1;
        const char *mark = lines + sizeof "time=0000000000000000 part=" - 1;
        if (lines[0] == 't') {
            while (*mark != ' ')
                mark++;
            full += mark[sizeof " mark=" - 1] == 'F';
        } else if (lines[0] == 's') {
            stop = strtoul(lines + 5, NULL, 10);
        } else {
            uint64_t s, c;
            char rate[17];
            if (sscanf(lines, "flow=%*u sent=%" SCNu64 " counted=%" SCNu64 " rate=%16s", &s, &c, rate) != 3)
                fail("a line that is none");
            flows++;
            sent += s;
            counted += c;
            if (rate[0] != '-') {
                rates++;
                sum += double_of(rate);
            }
        }
        lines = next;
    }
    printf("%u,%u,%u,%u,", limit, window, seed, stop);
    if (flows)
        printf("%" PRIu64 ",%" PRIu64 ",", sent, counted);
    else
        printf("-,-,");
    if (!flows_only && flows)
        printf("%" PRIu64 ",", full);
    else if (!flows_only)
        printf("-,");
    if (rates)
        printf("%.3f\n", sum / rates);
    else
        printf("-\n");
}

int main(int argc, char **argv) {
    char base[MOST_TEXT] = "", text[MOST_TEXT];
    int flows_only = argc == 3 && strcmp(argv[1], "--flows") == 0;
    FILE *file = argc == 2 + flows_only ? fopen(argv[argc - 1], "rb") : NULL;
    if (!file)
        fail("give the file of a description");
    base[fread(base, 1, sizeof base - 1, file)] = 0;
    fclose(file);
    printf("limit,window,seed,stop,sent,counted,%srate\n", flows_only ? "" : "full,");
    for (unsigned limit = 22400; limit <= 224000; limit += 22400)
        for (unsigned window = 2; window <= 20; window += 2)
            for (unsigned seed = 1; seed <= 10; seed++) {
                size_t len = described(text, base, limit, window, seed);
                size_t n = flows_only ? remyline_flows((const uint8_t *)text, len, out, REMYLINE_FLOWS_ENOUGH)
                                      : remyline_print((const uint8_t *)text, len, out, REMYLINE_ENOUGH);
                if (n == 0)
                    fail("the buffer is too small");
                out[n] = 0;
                row((const char *)out, (const char *)out + n, flows_only, limit, window, seed);
            }
    return fflush(stdout) ? 1 : 0;
}
