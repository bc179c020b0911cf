/* A function of the sweep library on the text of standard input, for bench/run:

       library print|flows COUNT < description

   calls it COUNT times with one buffer and prints the bytes of its last answer, 0 without a call. With
   `show` in the place of COUNT it calls it once and writes out what was put into the buffer. Compiled
   without FLOWS it does not know remyline_flows. */
#include <stdio.h>
#include <stdlib.h>
#include <string.h>

#include "remyline.h"

#define MOST_TEXT 4096

typedef size_t function(const uint8_t *text, size_t text_len, uint8_t *out, size_t out_len);

static int fail(const char *what) {
    fprintf(stderr, "library: %s\n", what);
    return 2;
}

static function *named(const char *name) {
    if (strcmp(name, "print") == 0)
        return remyline_print;
#ifdef FLOWS
    if (strcmp(name, "flows") == 0)
        return remyline_flows;
#endif
    return NULL;
}

int main(int argc, char **argv) {
    static uint8_t text[MOST_TEXT];
    function *called = argc == 3 ? named(argv[1]) : NULL;
    if (!called)
        return fail("usage: library print|flows COUNT|show < description");
    int show = strcmp(argv[2], "show") == 0;
    unsigned long count = show ? 1 : strtoul(argv[2], NULL, 10);
    size_t text_len = fread(text, 1, sizeof text, stdin);
    uint8_t *out = malloc(REMYLINE_ENOUGH);
    if (!out)
        return fail("no memory");
    memset(out, 1, REMYLINE_ENOUGH); /* 1: the pages are then there before the first call */
    size_t answer = 0;
    for (unsigned long i = 0; i < count; i++) {
        answer = called(text, text_len, out, REMYLINE_ENOUGH);
        if (answer == 0)
            return fail("the buffer is too small");
    }
    if (show)
        fwrite(out, 1, answer, stdout);
    else
        printf("%zu\n", answer);
    return 0;
}
