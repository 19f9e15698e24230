/*
 * The CRCs of rows of bytes that this program lends, so many times, each result
 * written into its row:
 *
 *     lent BYTES ROWS TIMES
 *
 * With -DOURS it is that of our library, else that of a table.
 */
#include "skiffleshower.h"

#include <stdio.h>
#include <stdlib.h>

#ifdef OURS
#define crc_of skiffle_crc
static void fill(void) {}
#else
static uint8_t table[256];

static void fill(void)
{
    for (unsigned i = 0; i < 256; i++) {
        unsigned r = i;
        for (int bit = 0; bit < 8; bit++)
            r = r & 1 ? r >> 1 ^ 0x8C : r >> 1;
        table[i] = (uint8_t)r;
    }
}

static uint8_t crc_of(const uint8_t *bytes, size_t count)
{
    uint8_t r = 0;
    for (size_t i = 0; i < count; i++)
        r = table[r ^ bytes[i]];
    return r;
}
#endif

int main(int argc, char **argv)
{
    size_t words[3] = {0};
    uint8_t *bytes, last = 0;

    for (int i = 0; i < 3 && i + 1 < argc; i++)
        words[i] = strtoul(argv[i + 1], NULL, 10);
    size_t count = words[0], rows = words[1], times = words[2];
    if (count == 0 || (bytes = malloc(count * rows)) == NULL)
        return 2;
    fill();
    for (size_t i = 0; i < count * rows; i++)
        bytes[i] = (uint8_t)(i % 4096 * 157 / 3 % 256);
    for (; times > 0; times--)
        for (uint8_t *row = bytes; row < bytes + count * rows; row += count) {
            last = crc_of(row, count);
            row[0] = last;
        }
    printf("%02x\n", last);
    free(bytes);
    return 0;
}
