/* convert_state shorten SITE LONGER STATE brings over the longer state that an engine of before left; convert_state lengthen SITE STATE LONGER is the
 * way back. Of what is turned back no file is written. */
#include "warblehay.h"

#include <stdio.h>
#include <string.h>

/* A byte more than the longest, so that a longer file is turned back by its length. A state is never longer than its site. */
static uint8_t site[WARBLEHAY_LARGEST_SITE + 1];
static uint8_t from[sizeof site], to[sizeof site];

/* Whether a file could be read. */
static int read_file(const char *name, uint8_t *buffer, size_t room, size_t *length)
{
    FILE *file = fopen(name, "rb");
    if (file == NULL)
        return 0;
    *length = fread(buffer, 1, room, file);
    int whole = !ferror(file);
    fclose(file);
    return whole;
}

/* Whether a file could be written. */
static int write_file(const char *name, const uint8_t *buffer, size_t length)
{
    FILE *file = fopen(name, "wb");
    if (file == NULL)
        return 0;
    int whole = fwrite(buffer, 1, length, file) == length;
    return fclose(file) == 0 && whole;
}

int main(int count, char **arguments)
{
    int is_shortened = count == 5 && strcmp(arguments[1], "shorten") == 0;
    if (!is_shortened && (count != 5 || strcmp(arguments[1], "lengthen") != 0)) {
        fprintf(stderr, "usage: convert_state shorten|lengthen SITE FROM TO\n");
        return 1;
    }
    size_t site_length, from_length;
    if (!read_file(arguments[2], site, sizeof site, &site_length) || !read_file(arguments[3], from, sizeof from, &from_length)) {
        perror("convert_state");
        return 1;
    }

    size_t to_length = is_shortened ? warblehay_state_length(site, site_length) : site_length;
    uint32_t returned = is_shortened ? warblehay_shorten_state(site, site_length, from, from_length, to, to_length)
                                     : warblehay_lengthen_state(site, site_length, from, from_length, to, to_length);
    if (returned != WARBLEHAY_WORKED_THROUGH) {
        fprintf(stderr, "convert_state: turned back with %u\n", (unsigned)returned);
        return 1;
    }
    if (!write_file(arguments[4], to, to_length)) {
        perror("convert_state");
        return 1;
    }
    return 0;
}
