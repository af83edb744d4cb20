/* read_card SITE POINT TIME BITS: the answer to a card at a point, in the fresh state of the site, or the number of the call that is turned back.
 * BITS are those of the reader, as text of 0 and 1, as many as it handed over. */
#include "warblehay.h"

#include <ctype.h>
#include <stdio.h>
#include <stdlib.h>
#include <string.h>

/* A byte more than the longest, so that a longer file is turned back by its length. A state is never longer than its site. */
static uint8_t site[WARBLEHAY_LARGEST_SITE + 1];
static uint8_t state[sizeof site];
static uint8_t entry[WARBLEHAY_ENTRY_SIZE];
static uint8_t answer[WARBLEHAY_ANSWER_SIZE];

/* Whether a file could be read. */
static int read_file(const char *name, uint8_t *buffer, size_t room, size_t *length)
{
    FILE *file = fopen(name, "rb");
    if (file == NULL)
        return 0;
    *length = fread(buffer, 1, room, file);
    int whole = !ferror(file);
    fclose(file);
    return whole;
}

/* Whether text is a number of four bytes; it is written high byte first. */
static int read_number(const char *text, uint8_t *bytes)
{
    char *end;
    unsigned long long number = strtoull(text, &end, 10);
    for (int i = 0; i < 4; i++)
        bytes[i] = (uint8_t)(number >> (24 - 8 * i));
    return isdigit((unsigned char)text[0]) && *end == '\0' && number <= UINT32_MAX;
}

/* Whether text is at most 64 bits; they become one number, the first bit highest. */
static int read_bits(const char *text, uint64_t *number, uint32_t *count)
{
    size_t length = strlen(text);
    *number = 0;
    *count = (uint32_t)length;
    for (size_t i = 0; i < length; i++)
        *number = *number << 1 | (text[i] == '1');
    return length <= 64 && strspn(text, "01") == length;
}

int main(int count, char **arguments)
{
    if (count != 5) {
        fprintf(stderr, "usage: read_card SITE POINT TIME BITS\n");
        return 1;
    }
    size_t site_length;
    uint64_t bits;
    uint32_t bits_count;
    if (!read_file(arguments[1], site, sizeof site, &site_length)) {
        perror("read_card");
        return 1;
    }
    if (!read_number(arguments[2], &entry[WARBLEHAY_ENTRY_INSTANCE]) || !read_number(arguments[3], &entry[WARBLEHAY_ENTRY_TIME])
        || !read_bits(arguments[4], &bits, &bits_count)) {
        fprintf(stderr, "read_card: POINT and TIME are numbers, BITS at most 64, each 0 or 1\n");
        return 1;
    }

    entry[WARBLEHAY_ENTRY_OPERATION] = WARBLEHAY_OPERATION_FACTOR;
    uint32_t returned = warblehay_read_wiegand26(bits, bits_count, &entry[WARBLEHAY_ENTRY_ARGUMENT], &entry[WARBLEHAY_ENTRY_VALUE]);
    size_t state_length = warblehay_state_length(site, site_length);
    if (returned == WARBLEHAY_WORKED_THROUGH)
        returned = warblehay_fresh_state(site, site_length, state, state_length);
    if (returned == WARBLEHAY_WORKED_THROUGH)
        returned = warblehay_run_journal(site, site_length, state, state_length, entry, sizeof entry, answer, sizeof answer);
    if (returned != WARBLEHAY_WORKED_THROUGH) {
        printf("%u\n", (unsigned)returned);
        return 0;
    }
    for (size_t i = 0; i < sizeof answer; i++)
        printf("%02X", answer[i]);
    printf("\n");
    return 0;
}
