/*
 * Skiffleshower for a host in C or C++: the names of the frames of a 1-Wire
 * recording, and the 1-Wire CRC.
 *
 * The functions keep nothing between calls, allocate nothing, call nothing
 * else, and write only what is said of them. They are proved to do what is
 * said here, whatever the bytes and numbers are, if the host keeps its part:
 * no pointer is null, `bytes` has `count` bytes, nobody writes them or `line`
 * during a call, and the two do not overlap. With a count of 0 no byte is read.
 */
#ifndef SKIFFLESHOWER_H
#define SKIFFLESHOWER_H

#include <stdbool.h>
#include <stddef.h>
#include <stdint.h>

#ifdef __cplusplus
extern "C" {
#endif

/* The kinds of an answer. A refusal is SKIFFLE_REFUSED plus its number. */
enum {
    SKIFFLE_DONE = 0,   /* the recording is over */
    SKIFFLE_EMPTY = 1,  /* nobody was present at the reset */
    SKIFFLE_SEARCH = 2, /* a pass of a search, with its code */
    SKIFFLE_ALARM = 3,  /* a pass of an alarm search, with its code */
    SKIFFLE_NOBODY = 4, /* a search that nobody answered */
    SKIFFLE_PAD = 5,    /* a scratchpad, with its code and raw reading */
    SKIFFLE_OTHER = 6,  /* any other frame */
    SKIFFLE_MORE = 7,   /* the piece is used up: hand over the next */
    SKIFFLE_REFUSED = 100
};

/* Room for a line that is not finished yet: as many characters as tell that
 * it is over-long. The host lends it, and need not set it or look into it. */
typedef struct {
    uint8_t characters[135];
} skiffle_line;

typedef struct {
    uint64_t code; /* of SKIFFLE_SEARCH, SKIFFLE_ALARM, SKIFFLE_PAD; else 0 */
    size_t next;   /* the place in the piece at which the next call goes on */
    size_t held;   /* how many characters of an unfinished line are held */
    uint32_t kind; /* one of the above */
    uint16_t raw;  /* of SKIFFLE_PAD, scratchpad bytes 1 and 0; else 0 */
} skiffle_answer;

/*
 * The next line of a recording that is handed over in pieces, cut anywhere.
 *
 * `bytes` and `count` are a piece of any length, `at` is the place in it to go
 * on from, and `ended` says that the recording ends with it. The first call
 * has `held` 0 and `at` 0. Each call after it has the `held` and `next` of the
 * answer before, with the same `line` and piece; after SKIFFLE_MORE it has the
 * next piece and `at` 0. A piece may be empty, the last one too.
 *
 * Answers the name or the refusal of the next line; SKIFFLE_MORE where the
 * piece has no whole line more; SKIFFLE_DONE where the recording has none.
 * A line over 134 characters is refused with 3, once, however long it is and
 * wherever it is cut. A last line without a feed is refused with 3 if it is so
 * long, else with 2. So the answers in turn are those for the whole recording,
 * whatever the pieces.
 *
 * The piece stays as it is. `line` gets the characters of a line that does not
 * stand whole in the piece, the first 135 of them, and else stays as it is.
 *
 * Any numbers are taken: a `held` over 135 is 135, and an `at` past the end is
 * the end. Characters that are held may be any, also feeds, which are then no
 * ends of a line.
 */
skiffle_answer skiffle_next(skiffle_line *line, size_t held,
                            const uint8_t *bytes, size_t count, size_t at,
                            bool ended);

/* The CRC X^8 + X^5 + X^4 + 1 of the bytes, their bits taken from the lowest
 * up, from a register of zero; 0 of no bytes. The bytes stay as they are. */
uint8_t skiffle_crc(const uint8_t *bytes, size_t count);

#ifdef __cplusplus
}
#endif

#endif
