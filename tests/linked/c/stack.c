/* stack SITE JOURNAL: the bytes of stack that each call uses, a line each, with the function that makes the call. Each runs on a stack of its own,
 * painted before. */
#define _XOPEN_SOURCE 700
#include "warblehay.h"

#include <stdio.h>
#include <string.h>
#include <ucontext.h>

enum { STACK_SIZE = 1 << 16, PAINT = 0xC5 };

static uint8_t stack[STACK_SIZE];
static uint8_t site[WARBLEHAY_LARGEST_SITE], state[sizeof site], longer[sizeof site], journal[WARBLEHAY_LARGEST_JOURNAL], answers[sizeof journal];
static size_t site_length, state_length, journal_length, place, offset;
static uint32_t returned, card_bits;
static uint8_t format, value[8];
static ucontext_t caller, callee;

static size_t read_file(const char *name, uint8_t *buffer, size_t room)
{
    FILE *file = fopen(name, "rb");
    size_t length = file == NULL ? 0 : fread(buffer, 1, room, file);
    if (file != NULL)
        fclose(file);
    return length;
}

static void check_site(void)
{
    returned = warblehay_check_site(site, site_length);
}

/* It is never turned back. */
static void measure_state(void)
{
    state_length = warblehay_state_length(site, site_length);
}

static void fresh(void)
{
    returned = warblehay_fresh_state(site, site_length, state, state_length);
}

static void check_state(void)
{
    returned = warblehay_check_state(site, site_length, state, state_length);
}

static void run(void)
{
    size_t answers_length = journal_length / WARBLEHAY_ENTRY_SIZE * WARBLEHAY_ANSWER_SIZE;
    returned = warblehay_run_journal(site, site_length, state, state_length, journal, journal_length, answers, answers_length);
}

static void lengthen_state(void)
{
    returned = warblehay_lengthen_state(site, site_length, state, state_length, longer, site_length);
}

static void shorten_state(void)
{
    returned = warblehay_shorten_state(site, site_length, longer, site_length, state, state_length);
}

/* The lookups and the writing of bits are never turned back. */
static void place_of_zone(void)
{
    place = warblehay_place_of_zone(site, site_length, WARBLEHAY_NONE, &offset);
}

static void place_of_point(void)
{
    place = warblehay_place_of_point(site, site_length, WARBLEHAY_NONE, &offset);
}

static void place_of_credential(void)
{
    place = warblehay_place_of_credential(site, site_length, WARBLEHAY_NONE, &offset);
}

static void write_wiegand26(void)
{
    card_bits = warblehay_write_wiegand26(131, 77);
}

static void read_wiegand26(void)
{
    returned = warblehay_read_wiegand26(card_bits, WARBLEHAY_WIEGAND26_BITS, &format, value);
}

/* The bytes down to the lowest that a call wrote; those below the stack pointer count too. */
static size_t used_by(void (*call)(void))
{
    memset(stack, PAINT, sizeof stack);
    getcontext(&callee);
    callee.uc_stack.ss_sp = stack;
    callee.uc_stack.ss_size = sizeof stack;
    callee.uc_link = &caller;
    makecontext(&callee, call, 0);
    swapcontext(&caller, &callee);

    size_t unused = 0;
    while (unused < sizeof stack && stack[unused] == PAINT)
        unused++;
    return sizeof stack - unused;
}

int main(int count, char **arguments)
{
    if (count != 3)
        return 1;
    site_length = read_file(arguments[1], site, sizeof site);
    journal_length = read_file(arguments[2], journal, sizeof journal);
    if (site_length == 0 || journal_length == 0)
        return 1;

    void (*const calls[])(void) = {
        check_site, measure_state, fresh, check_state, run, lengthen_state, shorten_state, place_of_zone, place_of_point, place_of_credential,
        write_wiegand26, read_wiegand26
    };
    for (size_t index = 0; index < sizeof calls / sizeof *calls; index++) {
        size_t used = used_by(calls[index]);
        if (returned != WARBLEHAY_WORKED_THROUGH)
            return 1;
        printf("%zu\n", used);
    }
    return 0;
}
