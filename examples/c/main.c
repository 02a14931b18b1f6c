/* Day D of document 01 through the C functions, and a batch of quotes: prints Day D's list, and ends with 1 where an answer is not
 * the papers'. */
#include <stdio.h>
#include <string.h>

#include "hasurenta.h"

static const uint8_t day_d[] = {
    0x01, 0x02, 0x80, 0xD0, 0xBB, 0x1B, 0x0A, 0x0A, 0x0A, 0x0A,
    0x01, 0xE8, 0x07, 0x02, 0x00, 0x6E, 0x14, 0x0F, 0x78, 0x14, 0x00,
    0x03, 0x00, 0x00, 0x64, 0x0C, 0x00, 0x00, 0x00, 0x00,
    0x07, 0xE8, 0x07, 0x00, 0x02, 0x6E, 0x14,
};
static const char list[] = "event what a b c\n1 T 0 1 0\n2 F 0 12 8\n";
static const uint8_t sheet[] = {0, 12, 8};
enum { HEADER = 10, QUOTE = 11 };

/* Two quotes at once: that of Day D, and one without a bid. */
static const uint8_t batch[] = {
    0x0A, 0xE8, 0x07, 0x02, 0x02,
    0x00, 0x6E, 0x14, 0x0F, 0x78, 0x14, 0x00,
    0x01, 0x00, 0x00, 0x00, 0x82, 0x01, 0x14, 0x00,
};
enum { BATCH_WORDS = 5 + 2 * 7 };

static int wrong = 0;

static void expect(const char *what, int holds) {
    if (!holds) {
        printf("wrong: %s\n", what);
        wrong = 1;
    }
}

static uint64_t refusal(uint64_t number, uint64_t place) { return number << 32 | place; }

/* Whether out holds n bytes, and after them what it held before. */
static int holds(const uint8_t *out, size_t len, const void *bytes, size_t n) {
    for (size_t i = n; i < len; i++)
        if (out[i] != 0xA5) return 0;
    return memcmp(out, bytes, n) == 0;
}

static void whole_journal(void) {
    uint8_t out[64];
    memset(out, 0xA5, sizeof out);
    expect("journal", hasurenta_journal(day_d, sizeof day_d) == 0);
    expect("no journal", hasurenta_journal(NULL, 0) == refusal(2, 0));
    expect("day, no room", hasurenta_day(day_d, sizeof day_d, out, sizeof list - 2) == refusal(9, 0) && holds(out, sizeof out, "", 0));
    int listed = hasurenta_day(day_d, sizeof day_d, out, sizeof out) == sizeof list - 1 && holds(out, sizeof out, list, sizeof list - 1);
    expect("day", listed);
    if (listed) printf("%.*s", (int)(sizeof list - 1), (const char *)out);
    memset(out, 0xA5, sizeof out);
    expect("rewrite", hasurenta_rewrite(day_d, sizeof day_d, out, sizeof out) == sizeof day_d && holds(out, sizeof out, day_d, sizeof day_d));
}

static void sheets(void) {
    uint8_t out[8];
    memset(out, 0xA5, sizeof out);
    expect("sheet", hasurenta_sheet(day_d, sizeof day_d, out, sizeof out) == sizeof sheet && holds(out, sizeof out, sheet, sizeof sheet));
    expect("check", hasurenta_check(day_d, sizeof day_d, sheet, sizeof sheet) == 0);
    out[1] = 11, out[2] = 9;
    expect("check, one too few", hasurenta_check(day_d, sizeof day_d, out, 3) == refusal(25, 0));
    expect("check, no sheet", hasurenta_check(day_d, sizeof day_d, NULL, 0) == refusal(20, 0));
    uint64_t sums[HASURENTA_TOTALS] = {1, 1, 1, 1};
    expect("totals", hasurenta_totals(day_d, sizeof day_d, sums, HASURENTA_TOTALS) == HASURENTA_TOTALS);
    expect("no order sent", sums[0] == 0 && sums[1] == 0 && sums[2] == 0 && sums[3] == 0);
    expect("totals, no room", hasurenta_totals(day_d, sizeof day_d, sums, 3) == refusal(9, 0));
}

static void one_record(void) {
    uint32_t numbers[HASURENTA_WRITE_NUMBERS_LEAST] = {1, 2, 57600000, 10, 10, 10, 10};
    uint32_t words[HASURENTA_RECORD_WORDS_LEAST];
    uint8_t out[16];
    memset(out, 0xA5, sizeof out);
    expect("header", hasurenta_write_header(numbers, HASURENTA_HEADER_NUMBERS, out, sizeof out) == HEADER && holds(out, sizeof out, day_d, HEADER));
    expect("header, wrong count", hasurenta_write_header(numbers, 18, out, sizeof out) == refusal(HASURENTA_WRONG_COUNT, 0));
    expect("read", hasurenta_read_record(numbers, HASURENTA_READ_NUMBERS, day_d + HEADER, sizeof day_d - HEADER, words, HASURENTA_RECORD_WORDS_LEAST) == HASURENTA_RECORD_WORDS_LEAST);
    expect("a quote of 11 bytes", words[0] == QUOTE && words[1] == 1 && words[2] == 1000 && words[5] == 110 && words[10] == 0);
    memcpy(numbers + HASURENTA_READ_NUMBERS, words + 1, 10 * sizeof *words);
    memset(out, 0xA5, sizeof out);
    expect("written again", hasurenta_write_record(numbers, HASURENTA_WRITE_NUMBERS_LEAST, out, sizeof out) == QUOTE && holds(out, sizeof out, day_d + HEADER, QUOTE));
    expect("record, wrong count", hasurenta_write_record(numbers, HASURENTA_WRITE_NUMBERS_LEAST - 1, out, sizeof out) == refusal(HASURENTA_WRONG_COUNT, 0));
    numbers[HASURENTA_READ_NUMBERS] = 0;
    expect("unknown kind", hasurenta_write_record(numbers, HASURENTA_WRITE_NUMBERS_LEAST, out, sizeof out) == refusal(4, 0));
}

static void one_batch(void) {
    uint32_t numbers[HASURENTA_WRITE_NUMBERS_MOST] = {1, 2, 57600000, 10, 10, 10, 10};
    uint32_t words[HASURENTA_RECORD_WORDS_MOST];
    uint8_t out[32];
    const size_t count = HASURENTA_READ_NUMBERS + BATCH_WORDS - 1;
    expect("a batch, no room", hasurenta_read_record(numbers, HASURENTA_READ_NUMBERS, batch, sizeof batch, words, BATCH_WORDS - 1) == refusal(9, 0));
    expect("a batch read", hasurenta_read_record(numbers, HASURENTA_READ_NUMBERS, batch, sizeof batch, words, HASURENTA_RECORD_WORDS_MOST) == BATCH_WORDS);
    expect("two quotes", words[0] == sizeof batch && words[1] == 10 && words[3] == 2 && words[4] == 2 && words[6] == 110 && words[16] == 130);
    memcpy(numbers + HASURENTA_READ_NUMBERS, words + 1, (BATCH_WORDS - 1) * sizeof *words);
    memset(out, 0xA5, sizeof out);
    expect("a batch, a number short", hasurenta_write_record(numbers, count - 1, out, sizeof out) == refusal(5, 0) && holds(out, sizeof out, "", 0));
    expect("a batch written", hasurenta_write_record(numbers, count, out, sizeof out) == sizeof batch && holds(out, sizeof out, batch, sizeof batch));
    numbers[HASURENTA_READ_NUMBERS + 3] = 33;
    expect("33 quotes", hasurenta_write_record(numbers, HASURENTA_WRITE_NUMBERS_MOST, out, sizeof out) == refusal(5, 0));
}

int main(void) {
    whole_journal();
    sheets();
    one_record();
    one_batch();
    return wrong;
}
