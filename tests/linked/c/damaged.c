/* damaged SITE JOURNAL MODE SEED CASES: every call on copies of a site, its fresh state, the longer state of before, a journal and its answers whose
 * bytes and lengths are damaged at random, and on a reader's bits at random. The library is not itself instrumented, so MODE says how a step past a
 * buffer's bounds is seen:
 *
 *   heap    each buffer is an allocation of exactly its length
 *   before  each ends right before a page that faults, with bytes before it that must stay
 *   after   each begins right after a page that faults, with bytes after it that must stay
 *
 * It writes how often each call returned each number, and a sum over all that was returned and written, which no mode may change. */
#define _DEFAULT_SOURCE
#include "warblehay.h"

#include <stdio.h>
#include <stdlib.h>
#include <string.h>
#include <sys/mman.h>
#include <unistd.h>

#define EXPECT(fact) ((fact) ? (void)0 : fail(#fact, __LINE__))

enum { ROOM = 1 << 17, KEPT_BYTES = 64, KEPT = 0xC5 };
enum { HEAP, BEFORE, AFTER };
enum { SITE, STATE, JOURNAL, ANSWERS, RUN_BUFFERS, LONGER = RUN_BUFFERS, EXAMPLES, FORMAT = EXAMPLES, VALUE, OFFSET, BUFFERS };
enum { CHECK_SITE, FRESH, CHECK_STATE, RUN, SHORTEN, LENGTHEN, READ_WIEGAND26, CALLS };
enum { LARGEST_RETURNED = WARBLEHAY_NOT_TWENTY_SIX_BITS, VALUE_SIZE = 8, WIEGAND26_NUMBERS = 67108864 };

/* What the case puts into a buffer. */
struct bytes {
    uint8_t at[ROOM];
    size_t length;
};

/* The buffer that is lent to a call. */
struct lent {
    uint8_t *at;
    size_t length;
};

static int mode;
static unsigned long case_number;
static struct bytes example[EXAMPLES], damaged[BUFFERS], made;
static struct lent lent[BUFFERS];
static uint8_t *between_guards[BUFFERS];
static unsigned long returned_times[CALLS][LARGEST_RETURNED + 1];
static unsigned long found_times[WARBLEHAY_ACCESS_CREDENTIAL + 1], missed_times[WARBLEHAY_ACCESS_CREDENTIAL + 1];
static unsigned long empty_times, filled_times;
static unsigned long error_times, good_times, written_times;
static uint64_t sum = 14695981039346656037u;

static void fail(const char *fact, int line)
{
    fprintf(stderr, "damaged.c:%d: case %lu: not so: %s\n", line, case_number, fact);
    exit(1);
}

/* Random numbers: xorshift. */
static uint64_t random_state;

static uint64_t below(uint64_t bound)
{
    random_state ^= random_state << 13;
    random_state ^= random_state >> 7;
    random_state ^= random_state << 17;
    return (random_state >> 16) % bound;
}

static void add_to_sum(const uint8_t *bytes, size_t length)
{
    for (size_t i = 0; i < length; i++)
        sum = (sum ^ bytes[i]) * 1099511628211u;
}

static uint32_t number_at(const uint8_t *bytes)
{
    return (uint32_t)bytes[0] << 24 | (uint32_t)bytes[1] << 16 | (uint32_t)bytes[2] << 8 | bytes[3];
}

/* Memory between two pages that fault. */
static uint8_t *map_between_guards(void)
{
    size_t page = (size_t)sysconf(_SC_PAGESIZE);
    uint8_t *map = mmap(NULL, ROOM + 2 * page, PROT_NONE, MAP_PRIVATE | MAP_ANONYMOUS, -1, 0);
    EXPECT(map != MAP_FAILED && ROOM % page == 0);
    EXPECT(mprotect(map + page, ROOM, PROT_READ | PROT_WRITE) == 0);
    return map + page;
}

static uint8_t *kept_bytes(const struct lent *buffer)
{
    return mode == BEFORE ? buffer->at - KEPT_BYTES : buffer->at + buffer->length;
}

/* Lends a buffer of its own to the next call. One of length 0 is NULL half of the time. */
static void lend(int i)
{
    const struct bytes *bytes = &damaged[i];
    struct lent *buffer = &lent[i];
    buffer->length = bytes->length;
    if (mode == HEAP)
        buffer->at = malloc(bytes->length);
    else
        buffer->at = between_guards[i] + (mode == BEFORE ? ROOM - bytes->length : 0);
    if (mode != HEAP)
        memset(kept_bytes(buffer), KEPT, KEPT_BYTES);
    if (bytes->length != 0) {
        EXPECT(buffer->at != NULL);
        memcpy(buffer->at, bytes->at, bytes->length);
    } else if (case_number % 2 == 0) {
        free(mode == HEAP ? buffer->at : NULL);
        buffer->at = NULL;
    }
}

/* Lends a buffer with any bytes in it. */
static void lend_any(int i, size_t length)
{
    damaged[i].length = length;
    for (size_t k = 0; k < length; k++)
        damaged[i].at[k] = (uint8_t)below(256);
    lend(i);
}

static int is_as_it_was(int i)
{
    return lent[i].length == 0 || memcmp(lent[i].at, damaged[i].at, lent[i].length) == 0;
}

static void take_back(int i)
{
    struct lent *buffer = &lent[i];
    if (mode != HEAP && buffer->at != NULL)
        for (size_t k = 0; k < KEPT_BYTES; k++)
            EXPECT(kept_bytes(buffer)[k] == KEPT);
    add_to_sum(buffer->at, buffer->length);
    if (mode == HEAP)
        free(buffer->at);
}

/* Damage. */
static void change_byte(struct bytes *bytes)
{
    if (bytes->length != 0)
        bytes->at[below(bytes->length)] ^= (uint8_t)(below(2) == 0 ? 1u << below(8) : below(256));
}

static void set_length(struct bytes *bytes, size_t length)
{
    EXPECT(length <= ROOM - KEPT_BYTES);
    if (length > bytes->length)
        memset(bytes->at + bytes->length, 0, length - bytes->length);
    bytes->length = length;
}

static void change_length(struct bytes *bytes, size_t unit)
{
    size_t by = below(2) == 0 ? unit : 1 + below(unit);
    if (below(8) == 0)
        set_length(bytes, 0);
    else if (below(2) == 0)
        set_length(bytes, bytes->length + by);
    else
        set_length(bytes, bytes->length < by ? 0 : bytes->length - by);
}

/* Whether a record of the site is one that has a state. */
static int has_state(size_t place)
{
    unsigned kind = damaged[SITE].at[place * WARBLEHAY_RECORD_SIZE];
    return kind == WARBLEHAY_ACCESS_ZONE || kind == WARBLEHAY_ACCESS_POINT || kind == WARBLEHAY_ACCESS_CREDENTIAL;
}

/* The bytes of state of the first records of the site. */
static size_t state_before(size_t records)
{
    size_t length = 0;
    for (size_t i = 0; i < records; i++)
        length += has_state(i) ? WARBLEHAY_RECORD_SIZE : 0;
    return length;
}

static size_t expected_state_length(void)
{
    return state_before(damaged[SITE].length / WARBLEHAY_RECORD_SIZE);
}

static int have_states_their_lengths(void)
{
    return damaged[STATE].length == expected_state_length() && damaged[LONGER].length == damaged[SITE].length;
}

static void change_record(struct bytes *bytes, size_t from, int is_repeated)
{
    size_t length = bytes->length, rest = from + WARBLEHAY_RECORD_SIZE;
    if (is_repeated) {
        set_length(bytes, length + WARBLEHAY_RECORD_SIZE);
        memcpy(bytes->at + length, bytes->at + from, WARBLEHAY_RECORD_SIZE);
    } else {
        memmove(bytes->at + from, bytes->at + rest, length - rest);
        set_length(bytes, length - WARBLEHAY_RECORD_SIZE);
    }
}

/* Repeats a record at the end, or cuts it out, in site and states. */
static void change_records(int is_repeated)
{
    size_t records = damaged[SITE].length / WARBLEHAY_RECORD_SIZE;
    if (records == 0 || !have_states_their_lengths())
        return;
    size_t place = below(records);
    if (has_state(place))
        change_record(&damaged[STATE], state_before(place), is_repeated);
    change_record(&damaged[SITE], place * WARBLEHAY_RECORD_SIZE, is_repeated);
    change_record(&damaged[LONGER], place * WARBLEHAY_RECORD_SIZE, is_repeated);
}

/* A journal that is as long as a journal may be, or an entry longer, with answers to suit. */
static void lengthen_journal(void)
{
    struct bytes *journal = &damaged[JOURNAL];
    size_t length = WARBLEHAY_LARGEST_JOURNAL + below(2) * WARBLEHAY_ENTRY_SIZE;
    size_t repeated = journal->length;
    set_length(journal, length);
    for (size_t i = repeated; i < length && repeated != 0; i++)
        journal->at[i] = journal->at[i - repeated];
    set_length(&damaged[ANSWERS], length / WARBLEHAY_ENTRY_SIZE * WARBLEHAY_ANSWER_SIZE);
}

static void damage(void)
{
    static const size_t units[EXAMPLES] = {
        WARBLEHAY_RECORD_SIZE, WARBLEHAY_RECORD_SIZE, WARBLEHAY_ENTRY_SIZE, WARBLEHAY_ANSWER_SIZE, WARBLEHAY_RECORD_SIZE
    };
    uint64_t kind = below(100);
    size_t buffer = below(EXAMPLES);
    if (kind < 50)
        change_byte(&damaged[buffer]);
    else if (kind < 75)
        change_length(&damaged[buffer], units[buffer]);
    else if (kind < 98)
        change_records(below(2) == 0);
    else if (kind < 99)
        lengthen_journal();
    else
        set_length(&damaged[SITE], WARBLEHAY_LARGEST_SITE + WARBLEHAY_RECORD_SIZE);
}

/* The calls. Each lends what it needs, and afterwards every buffer but one worked through is as it was. */
static void count_returned(int call, uint32_t returned)
{
    EXPECT(returned <= LARGEST_RETURNED);
    returned_times[call][returned]++;
    uint8_t byte = (uint8_t)returned;
    add_to_sum(&byte, 1);
}

static uint32_t try_check_site(void)
{
    lend(SITE);
    uint32_t returned = warblehay_check_site(lent[SITE].at, lent[SITE].length);
    count_returned(CHECK_SITE, returned);
    EXPECT(returned <= WARBLEHAY_SITE_MISSING);
    EXPECT(is_as_it_was(SITE));
    take_back(SITE);
    return returned;
}

static size_t expected_place(unsigned kind, uint32_t instance)
{
    for (size_t i = 0; i < damaged[SITE].length / WARBLEHAY_RECORD_SIZE; i++) {
        const uint8_t *record = damaged[SITE].at + i * WARBLEHAY_RECORD_SIZE;
        if (record[0] == kind && number_at(record + 4) == instance)
            return i;
    }
    return WARBLEHAY_NOWHERE;
}

/* Where there is no such record, the offset is NOWHERE too. */
static size_t expected_offset(size_t place)
{
    return place == WARBLEHAY_NOWHERE ? WARBLEHAY_NOWHERE : state_before(place);
}

/* A lookup, with any bytes in the offset before. */
static void try_place(unsigned kind, size_t (*place_of)(const uint8_t *, size_t, uint32_t, size_t *), uint32_t instance)
{
    lend_any(OFFSET, sizeof(size_t));
    size_t place = place_of(lent[SITE].at, lent[SITE].length, instance, (size_t *)lent[OFFSET].at);
    size_t offset;
    memcpy(&offset, lent[OFFSET].at, sizeof offset);
    EXPECT(place == expected_place(kind, instance));
    EXPECT(offset == expected_offset(place));
    (place == WARBLEHAY_NOWHERE ? missed_times : found_times)[kind]++;
    take_back(OFFSET);
}

/* The lookups, of an instance that some record has, or of none. */
static void try_places(void)
{
    size_t records = damaged[SITE].length / WARBLEHAY_RECORD_SIZE;
    uint32_t instance = (uint32_t)below(30);
    if (records != 0 && below(2) == 0)
        instance = number_at(damaged[SITE].at + below(records) * WARBLEHAY_RECORD_SIZE + 4);
    lend(SITE);
    try_place(WARBLEHAY_ACCESS_ZONE, warblehay_place_of_zone, instance);
    try_place(WARBLEHAY_ACCESS_POINT, warblehay_place_of_point, instance);
    try_place(WARBLEHAY_ACCESS_CREDENTIAL, warblehay_place_of_credential, instance);
    EXPECT(is_as_it_was(SITE));
    take_back(SITE);
}

static void try_state_length(void)
{
    lend(SITE);
    size_t length = warblehay_state_length(lent[SITE].at, lent[SITE].length);
    EXPECT(length == expected_state_length());
    *(length == 0 ? &empty_times : &filled_times) += 1;
    EXPECT(is_as_it_was(SITE));
    take_back(SITE);
}

static uint32_t try_fresh(uint32_t expected)
{
    if (expected == WARBLEHAY_WORKED_THROUGH && damaged[STATE].length != expected_state_length())
        expected = WARBLEHAY_STATE_LENGTH;
    lend(SITE);
    lend(STATE);
    uint32_t returned = warblehay_fresh_state(lent[SITE].at, lent[SITE].length, lent[STATE].at, lent[STATE].length);
    count_returned(FRESH, returned);
    EXPECT(returned == expected);
    EXPECT(is_as_it_was(SITE));
    EXPECT(returned == WARBLEHAY_WORKED_THROUGH || is_as_it_was(STATE));
    take_back(SITE);
    take_back(STATE);
    return returned;
}

static uint32_t check_lent_state(void)
{
    return warblehay_check_state(lent[SITE].at, lent[SITE].length, lent[STATE].at, lent[STATE].length);
}

static uint32_t try_check_state(uint32_t expected)
{
    lend(SITE);
    lend(STATE);
    uint32_t returned = check_lent_state();
    count_returned(CHECK_STATE, returned);
    if (expected == WARBLEHAY_WORKED_THROUGH && returned == WARBLEHAY_STATE_FORM)
        expected = WARBLEHAY_STATE_FORM;
    EXPECT(returned == expected);
    EXPECT(is_as_it_was(SITE) && is_as_it_was(STATE));
    take_back(SITE);
    take_back(STATE);
    return returned;
}

static void try_run(uint32_t expected)
{
    size_t journal = damaged[JOURNAL].length, answers = damaged[ANSWERS].length;
    for (int i = 0; i < RUN_BUFFERS; i++)
        lend(i);
    uint32_t returned = warblehay_run_journal(lent[SITE].at, lent[SITE].length, lent[STATE].at, lent[STATE].length, lent[JOURNAL].at,
                                              journal, lent[ANSWERS].at, answers);
    count_returned(RUN, returned);
    if (expected == WARBLEHAY_WORKED_THROUGH && (journal % WARBLEHAY_ENTRY_SIZE != 0 || journal > WARBLEHAY_LARGEST_JOURNAL))
        expected = WARBLEHAY_JOURNAL_LENGTH;
    else if (expected == WARBLEHAY_WORKED_THROUGH && answers != journal / WARBLEHAY_ENTRY_SIZE * WARBLEHAY_ANSWER_SIZE)
        expected = WARBLEHAY_ANSWERS_LENGTH;
    EXPECT(returned == expected);
    EXPECT(is_as_it_was(SITE) && is_as_it_was(JOURNAL));
    if (returned == WARBLEHAY_WORKED_THROUGH)
        EXPECT(check_lent_state() == WARBLEHAY_WORKED_THROUGH); /* The state is well formed again. */
    else
        EXPECT(is_as_it_was(STATE) && is_as_it_was(ANSWERS));
    for (int i = 0; i < RUN_BUFFERS; i++)
        take_back(i);
}

/* Puts the longer state's records of zones, points and credentials into `made`. Whether those of rules and factors are zero. */
static int make_shorter(void)
{
    static const uint8_t zeros[WARBLEHAY_RECORD_SIZE];
    int is_zero_elsewhere = 1;
    made.length = 0;
    for (size_t at = 0; at < damaged[SITE].length; at += WARBLEHAY_RECORD_SIZE) {
        const uint8_t *record = damaged[LONGER].at + at;
        if (has_state(at / WARBLEHAY_RECORD_SIZE)) {
            memcpy(made.at + made.length, record, WARBLEHAY_RECORD_SIZE);
            made.length += WARBLEHAY_RECORD_SIZE;
        } else if (memcmp(record, zeros, WARBLEHAY_RECORD_SIZE) != 0) {
            is_zero_elsewhere = 0;
        }
    }
    return is_zero_elsewhere;
}

/* Puts the state's records at the places of their site records into `made`, and zeros elsewhere. */
static void make_longer(void)
{
    const uint8_t *record = damaged[STATE].at;
    made.length = 0;
    set_length(&made, damaged[SITE].length);
    memset(made.at, 0, made.length);
    for (size_t at = 0; at < made.length; at += WARBLEHAY_RECORD_SIZE) {
        if (!has_state(at / WARBLEHAY_RECORD_SIZE))
            continue;
        memcpy(made.at + at, record, WARBLEHAY_RECORD_SIZE);
        record += WARBLEHAY_RECORD_SIZE;
    }
}

static uint32_t check_damaged_site_with(const struct bytes *state)
{
    return warblehay_check_state(damaged[SITE].at, damaged[SITE].length, state->at, state->length);
}

/* The buffer that is written has what was made where the call was worked through, and nothing else is changed. */
static void expect_made(int written, int read, uint32_t returned)
{
    EXPECT(is_as_it_was(SITE) && is_as_it_was(read));
    if (returned != WARBLEHAY_WORKED_THROUGH)
        EXPECT(is_as_it_was(written));
    else if (made.length != 0)
        EXPECT(memcmp(lent[written].at, made.at, made.length) == 0);
    take_back(SITE);
    take_back(read);
    take_back(written);
}

static void lend_site_and_states(void)
{
    lend(SITE);
    lend(STATE);
    lend(LONGER);
}

static void try_shorten(uint32_t expected)
{
    if (expected == WARBLEHAY_WORKED_THROUGH && !have_states_their_lengths())
        expected = WARBLEHAY_STATE_LENGTH;
    else if (expected == WARBLEHAY_WORKED_THROUGH)
        expected = make_shorter() ? check_damaged_site_with(&made) : WARBLEHAY_STATE_FORM;
    lend_site_and_states();
    uint32_t returned = warblehay_shorten_state(lent[SITE].at, lent[SITE].length, lent[LONGER].at, lent[LONGER].length, lent[STATE].at,
                                                lent[STATE].length);
    count_returned(SHORTEN, returned);
    EXPECT(returned == expected);
    expect_made(STATE, LONGER, returned);
}

static void try_lengthen(uint32_t expected)
{
    if (expected == WARBLEHAY_WORKED_THROUGH && !have_states_their_lengths())
        expected = WARBLEHAY_STATE_LENGTH;
    else if (expected == WARBLEHAY_WORKED_THROUGH)
        expected = check_damaged_site_with(&damaged[STATE]);
    if (expected == WARBLEHAY_WORKED_THROUGH)
        make_longer();
    lend_site_and_states();
    uint32_t returned = warblehay_lengthen_state(lent[SITE].at, lent[SITE].length, lent[STATE].at, lent[STATE].length, lent[LONGER].at,
                                                 lent[LONGER].length);
    count_returned(LENGTHEN, returned);
    EXPECT(returned == expected);
    expect_made(LONGER, STATE, returned);
}

static void lend_factor(void)
{
    lend_any(FORMAT, 1);
    lend_any(VALUE, VALUE_SIZE);
}

static uint32_t read_to_lent(uint64_t number, uint32_t count)
{
    uint32_t returned = warblehay_read_wiegand26(number, count, lent[FORMAT].at, lent[VALUE].at);
    count_returned(READ_WIEGAND26, returned);
    return returned;
}

static int is_lent_value(uint8_t facility, uint16_t card)
{
    const uint8_t value[VALUE_SIZE] = { 0, 0, 0, 0, 0, facility, (uint8_t)(card >> 8), (uint8_t)card };
    return memcmp(lent[VALUE].at, value, VALUE_SIZE) == 0;
}

/* Good bits are those that are written for what was read from them; of others nothing was read. */
static void expect_factor_of(uint64_t number)
{
    const uint8_t *value = lent[VALUE].at;
    uint16_t card = (uint16_t)(value[6] << 8 | value[7]);
    if (*lent[FORMAT].at == WARBLEHAY_FORMAT_WIEGAND26) {
        EXPECT(is_lent_value(value[5], card));
        EXPECT(warblehay_write_wiegand26(value[5], card) == number);
        good_times++;
    } else {
        EXPECT(*lent[FORMAT].at == WARBLEHAY_FORMAT_ERROR);
        EXPECT(is_lent_value(0, 0));
        error_times++;
    }
}

/* Any 26 bits, or those of a card, at times with one bit changed, of the 26 or above them. */
static uint64_t random_bits(void)
{
    if (below(2) == 0)
        return below(WIEGAND26_NUMBERS);
    uint8_t facility = (uint8_t)below(256);
    uint64_t bits = warblehay_write_wiegand26(facility, (uint16_t)below(65536));
    return below(2) == 0 ? bits : bits ^ UINT64_C(1) << below(64);
}

/* Half of the time 26, else any count or one that is 26 in its lowest byte. */
static uint32_t random_count(void)
{
    if (below(2) == 0)
        return WARBLEHAY_WIEGAND26_BITS;
    return (uint32_t)(below(2) == 0 ? below(65) : below(1 << 24) << 8 | WARBLEHAY_WIEGAND26_BITS);
}

static void try_read_wiegand26(void)
{
    uint64_t number = random_bits();
    uint32_t count = random_count();
    lend_factor();
    uint32_t returned = read_to_lent(number, count);
    if (count != WARBLEHAY_WIEGAND26_BITS || number >= WIEGAND26_NUMBERS) {
        EXPECT(returned == WARBLEHAY_NOT_TWENTY_SIX_BITS);
        EXPECT(is_as_it_was(FORMAT) && is_as_it_was(VALUE));
    } else {
        EXPECT(returned == WARBLEHAY_WORKED_THROUGH);
        expect_factor_of(number);
    }
    take_back(FORMAT);
    take_back(VALUE);
}

static void try_write_wiegand26(void)
{
    uint8_t facility = (uint8_t)below(256);
    uint16_t card = (uint16_t)below(65536);
    lend_factor();
    uint32_t number = warblehay_write_wiegand26(facility, card);
    EXPECT(read_to_lent(number, WARBLEHAY_WIEGAND26_BITS) == WARBLEHAY_WORKED_THROUGH);
    EXPECT(*lent[FORMAT].at == WARBLEHAY_FORMAT_WIEGAND26);
    EXPECT(is_lent_value(facility, card));
    written_times++;
    take_back(FORMAT);
    take_back(VALUE);
}

static void try_case(void)
{
    for (int i = 0; i < EXAMPLES; i++) {
        damaged[i].length = example[i].length;
        memcpy(damaged[i].at, example[i].at, example[i].length);
    }
    for (uint64_t damages = below(4); damages > 0; damages--)
        damage();
    try_state_length();
    try_places();
    uint32_t returned = try_check_site();
    try_shorten(returned);
    try_lengthen(returned);
    try_run(try_check_state(try_fresh(returned)));
    try_read_wiegand26();
    try_write_wiegand26();
}

static void read_example(int i, const char *name)
{
    FILE *file = fopen(name, "rb");
    EXPECT(file != NULL);
    example[i].length = fread(example[i].at, 1, ROOM, file);
    EXPECT(example[i].length != 0 && feof(file));
    fclose(file);
}

/* The fresh state and the longer one, and answers that any write would change. */
static void make_rest_of_example(void)
{
    const struct bytes *site = &example[SITE];
    struct bytes *state = &example[STATE], *longer = &example[LONGER];
    state->length = warblehay_state_length(site->at, site->length);
    longer->length = site->length;
    EXPECT(state->length != 0 && state->length < longer->length);
    EXPECT(warblehay_fresh_state(site->at, site->length, state->at, state->length) == WARBLEHAY_WORKED_THROUGH);
    EXPECT(warblehay_lengthen_state(site->at, site->length, state->at, state->length, longer->at, longer->length) == WARBLEHAY_WORKED_THROUGH);
    example[ANSWERS].length = example[JOURNAL].length / WARBLEHAY_ENTRY_SIZE * WARBLEHAY_ANSWER_SIZE;
    memset(example[ANSWERS].at, KEPT, example[ANSWERS].length);
}

/* Every number that a call can return has occurred, and no other: worked through, and those from first to last that are not of answers. */
static void report(int call, const char *name, uint32_t first, uint32_t last)
{
    printf("%s", name);
    for (uint32_t returned = 0; returned <= LARGEST_RETURNED; returned++) {
        int is_in_answers = returned >= WARBLEHAY_REFUSED_FORM && returned <= WARBLEHAY_REFUSED_COUNT;
        int is_turned_back = returned >= first && returned <= last && !is_in_answers;
        unsigned long times = returned_times[call][returned];
        if (times != 0)
            printf(" %u:%lu", (unsigned)returned, times);
        EXPECT((times != 0) == (returned == WARBLEHAY_WORKED_THROUGH || is_turned_back));
    }
    printf("\n");
}

/* Bits have been turned away, been errors and been good, and have been written. */
static void report_wiegand26(void)
{
    report(READ_WIEGAND26, "read_wiegand26", WARBLEHAY_NOT_TWENTY_SIX_BITS, WARBLEHAY_NOT_TWENTY_SIX_BITS);
    printf("read_wiegand26 errors:%lu good:%lu\n", error_times, good_times);
    printf("write_wiegand26 read back:%lu\n", written_times);
    EXPECT(error_times != 0 && good_times != 0 && written_times != 0);
}

/* Sites have had a state, and none. */
static void report_state_length(void)
{
    printf("state_length empty:%lu filled:%lu\n", empty_times, filled_times);
    EXPECT(empty_times != 0 && filled_times != 0);
}

/* Each lookup has found a record, and none. */
static void report_places(unsigned kind, const char *name)
{
    printf("%s found:%lu missed:%lu\n", name, found_times[kind], missed_times[kind]);
    EXPECT(found_times[kind] != 0 && missed_times[kind] != 0);
}

static int mode_of(const char *name)
{
    static const char *const names[] = { [HEAP] = "heap", [BEFORE] = "before", [AFTER] = "after" };
    for (int i = HEAP; i <= AFTER; i++)
        if (strcmp(name, names[i]) == 0)
            return i;
    return -1;
}

int main(int count, char **arguments)
{
    if (count != 6 || mode_of(arguments[3]) < 0) {
        fprintf(stderr, "usage: damaged SITE JOURNAL heap|before|after SEED CASES\n");
        return 1;
    }
    read_example(SITE, arguments[1]);
    read_example(JOURNAL, arguments[2]);
    make_rest_of_example();
    mode = mode_of(arguments[3]);
    random_state = strtoull(arguments[4], NULL, 10) * 2 + 1; /* Not zero. */
    unsigned long cases = strtoul(arguments[5], NULL, 10);
    for (int i = 0; i < BUFFERS; i++)
        between_guards[i] = map_between_guards();
    for (case_number = 0; case_number < cases; case_number++)
        try_case();
    report(CHECK_SITE, "check_site", WARBLEHAY_SITE_LENGTH, WARBLEHAY_SITE_MISSING);
    report(FRESH, "fresh_state", WARBLEHAY_SITE_LENGTH, WARBLEHAY_STATE_LENGTH);
    report(CHECK_STATE, "check_state", WARBLEHAY_SITE_LENGTH, WARBLEHAY_STATE_FORM);
    report(RUN, "run_journal", WARBLEHAY_SITE_LENGTH, WARBLEHAY_ANSWERS_LENGTH);
    report(SHORTEN, "shorten_state", WARBLEHAY_SITE_LENGTH, WARBLEHAY_STATE_FORM);
    report(LENGTHEN, "lengthen_state", WARBLEHAY_SITE_LENGTH, WARBLEHAY_STATE_FORM);
    report_state_length();
    report_places(WARBLEHAY_ACCESS_ZONE, "place_of_zone");
    report_places(WARBLEHAY_ACCESS_POINT, "place_of_point");
    report_places(WARBLEHAY_ACCESS_CREDENTIAL, "place_of_credential");
    report_wiegand26();
    printf("sum %016llX\n", (unsigned long long)sum);
    return 0;
}
