/* print_answers SITE JOURNAL: the answers to a journal from the fresh state, or the number of the call that is turned back. */
#include "warblehay.h"

#include <stdio.h>

/* A byte more than the longest, so that a longer file is turned back by its length. A state is never longer than its site. */
static uint8_t site[WARBLEHAY_LARGEST_SITE + 1];
static uint8_t state[sizeof site];
static uint8_t journal[WARBLEHAY_LARGEST_JOURNAL + 1];
static uint8_t answers[sizeof journal / WARBLEHAY_ENTRY_SIZE * WARBLEHAY_ANSWER_SIZE];

/* Whether a file could be read. */
static int read_file(const char *name, uint8_t *buffer, size_t room, size_t *length)
{
    FILE *file = fopen(name, "rb");
    if (file == NULL)
        return 0;
    *length = fread(buffer, 1, room, file);
    int whole = !ferror(file);
    fclose(file);
    return whole;
}

int main(int count, char **arguments)
{
    if (count != 3) {
        fprintf(stderr, "usage: print_answers SITE JOURNAL\n");
        return 1;
    }
    size_t site_length, journal_length;
    if (!read_file(arguments[1], site, sizeof site, &site_length)
        || !read_file(arguments[2], journal, sizeof journal, &journal_length)) {
        perror("print_answers");
        return 1;
    }

    size_t state_length = warblehay_state_length(site, site_length);
    size_t answers_length = journal_length / WARBLEHAY_ENTRY_SIZE * WARBLEHAY_ANSWER_SIZE;
    uint32_t returned = warblehay_fresh_state(site, site_length, state, state_length);
    if (returned == WARBLEHAY_WORKED_THROUGH)
        returned = warblehay_run_journal(site, site_length, state, state_length, journal, journal_length, answers, answers_length);
    if (returned != WARBLEHAY_WORKED_THROUGH) {
        printf("%u\n", (unsigned)returned);
        return 0;
    }
    for (size_t i = 0; i < answers_length; i++)
        printf("%02X%s", answers[i], (i + 1) % WARBLEHAY_ANSWER_SIZE == 0 ? "\n" : "");
    return 0;
}
