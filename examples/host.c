/*
 * Names the frames of a recording, one line each, as ./run name_frames does:
 * a host in C that reads into a buffer and moves bytes, and nothing else.
 *
 *     tools/build_library
 *     cc -O2 -Iinclude -o host examples/host.c -Ltarget/library -lskiffleshower
 *     ./host < examples/search.rec
 *
 * An argument is the size of the buffer in bytes, 1 to 65536.
 */
#include "skiffleshower.h"

#include <inttypes.h>
#include <stdio.h>
#include <stdlib.h>

enum { BUFFER = 65536 };

static void print(skiffle_answer told)
{
    switch (told.kind) {
    case SKIFFLE_EMPTY:
        puts("EMPTY");
        break;
    case SKIFFLE_SEARCH:
        printf("SEARCH %016" PRIX64 "\n", told.code);
        break;
    case SKIFFLE_ALARM:
        printf("ALARM %016" PRIX64 "\n", told.code);
        break;
    case SKIFFLE_NOBODY:
        puts("NOBODY");
        break;
    case SKIFFLE_PAD:
        printf("PAD %016" PRIX64 " %04X\n", told.code, (unsigned)told.raw);
        break;
    case SKIFFLE_OTHER:
        puts("OTHER");
        break;
    default:
        printf("REFUSED %" PRIu32 "\n", told.kind - SKIFFLE_REFUSED);
    }
}

/* Hands over what a read brought, name after name; a read of nothing is the
 * end of the recording. */
static skiffle_answer name_piece(skiffle_line *line, size_t held,
                                 const uint8_t *bytes, size_t count)
{
    size_t at = 0;
    for (;;) {
        skiffle_answer told =
            skiffle_next(line, held, bytes, count, at, count == 0);
        if (told.kind == SKIFFLE_MORE || told.kind == SKIFFLE_DONE)
            return told;
        print(told);
        held = told.held;
        at = told.next;
    }
}

int main(int argc, char **argv)
{
    static uint8_t buffer[BUFFER];
    unsigned long size = argc > 1 ? strtoul(argv[1], NULL, 10) : BUFFER;
    skiffle_line line;
    skiffle_answer told = {0};

    if (size < 1 || size > BUFFER) {
        fputs("host: the buffer has 1 to 65536 bytes\n", stderr);
        return 2;
    }
    do {
        size_t count = fread(buffer, 1, size, stdin);
        told = name_piece(&line, told.held, buffer, count);
    } while (told.kind == SKIFFLE_MORE);
    if (ferror(stdin) || fflush(stdout) != 0) {
        perror("host");
        return 1;
    }
    return 0;
}
