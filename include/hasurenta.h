/* The linkage desk's proved functions for C, and for any language that calls C: the archive that
 * `bench/native-archive desk libdesk.a` makes, for x86-64.
 *
 * Every function answers one number, refusal * 2^32 + place. Refusal 0 means accepted: then the low 32 bits are how many
 * elements of `out` were written, from its start, and the rest of `out` is as it was (0 for a function without `out`). Any
 * other refusal is one of document 01's table, with its place, or HASURENTA_WRONG_COUNT, and all of `out` is as it was.
 * A record's kind is one of document 01's 1 to 7, or one of four of document 02, of which 8, 9 and 11 print nothing:
 * 8, the number of a Satisfaction Order and an exchange: home cancels the order and names the initiator of its trade. In time
 * that makes reason 14, judged after 9 and before 11, with claim 0; late, it changes nothing. A number that is no exchange's is
 * 5. An order that is not there or was cancelled before, a trade without initiator, an exchange that is not the initiator: 7.
 * 9, without fields: the closing window has begun. A second is 7; of each trade after it every claim is at most 10 contracts.
 * 10, an exchange, a count from 1 to 32, and for each quote its series and the last six numbers of a quote: a batch of quotes. It
 * stands for as many records of kind 1, the later ones with no time before them; a series may come twice. Where the exchange is home
 * each quote has a line Q of its own, all with the batch's event number. A count out of range is 5, found before a quote is read; once all are read the
 * first quote that kind 1 would refuse, with the batch's exchange and time, gives its 5 or 6, at the start of the batch.
 * 11, the number of a Satisfaction Order: home cancels an order that has the price of its trade, as for a block, where the trade
 * was none. The order keeps its reason, and its exchange may send one more for the trade: that one has reason 15, in the place of
 * 8 and 9, if it comes later than 180,000 ms after the cancellation. An order that is not there or was cancelled before by 8 or
 * 11, a block, another price than the trade's, more than 180,000 ms after the order, a second 11 for the exchange and trade: 7.
 * Of a received order (6) document 02 moves the line R that hasurenta_day writes, and nothing else: after a principal order of an
 * exchange that was owed whole, its next ones have no duty up to and including 15,000 ms later, reason 4, and then, up to and
 * including 60,000, answer 2 with the lesser of their size and home's principal size; docs/NUMBERS.md has where neither holds.
 * What each function answers is proved for every input: crates/desk_c/src/lib.rt has the statement over it.
 *
 * A slice is a pointer and a count of elements, and NULL with 0 is an empty one. Nothing is asked of what the slices hold
 * or how long they are. The caller's part: each pointer reaches as many elements as are counted, and `out` overlaps no
 * other slice. Nothing is kept between calls, no memory is taken but the stack (some 250 KB
 * by hasurenta_day, 120 KB by the others), and calls from several threads may run at once. */
#ifndef HASURENTA_H
#define HASURENTA_H

#include <stddef.h>
#include <stdint.h>

#ifdef __cplusplus
extern "C" {
#endif

/* The refusal of an answer, 0 where it is accepted; and its place, or the count written. */
#define HASURENTA_REFUSAL(answer) ((uint32_t)((uint64_t)(answer) >> 32))
#define HASURENTA_LOW(answer) ((uint32_t)(answer))

enum {
    HASURENTA_TOTALS = 4,         /* sent, filled, cancelled, pending */
    HASURENTA_HEADER_NUMBERS = 19, /* home, N, close, then 16 sizes: automatic and principal of exchanges 1 to 8, of which 2N count */
    HASURENTA_READ_NUMBERS = 20,  /* those 19, and the time so far */
    /* those 20, kind, milliseconds, 8 to 226 fields, of which as many count as the record has: 226 are those of a batch of 32 */
    HASURENTA_WRITE_NUMBERS_LEAST = 30,
    HASURENTA_WRITE_NUMBERS_MOST = 248,
    /* bytes used, kind, milliseconds, the record's fields; where it has fewer than 8, zeros behind them */
    HASURENTA_RECORD_WORDS_LEAST = 11,
    HASURENTA_RECORD_WORDS_MOST = 229,
    HASURENTA_WRONG_COUNT = 98    /* the refusal of numbers that are more or fewer than the function takes */
};

/* Accepts the journal, or refuses it: 1 to 8. */
uint64_t hasurenta_journal(const uint8_t *journal, size_t journal_len);

/* Writes the day totals: contracts sent, filled, cancelled, pending. The journal's refusal, then 9. */
uint64_t hasurenta_totals(const uint8_t *journal, size_t journal_len, uint64_t *out, size_t out_len);

/* Writes the list that the day program prints, from "event what a b c" on. The journal's refusal, then 9. */
uint64_t hasurenta_day(const uint8_t *journal, size_t journal_len, uint8_t *out, size_t out_len);

/* Writes our own sheet: reason, filled, cancelled for each Satisfaction Order. The journal's refusal, then 9. */
uint64_t hasurenta_sheet(const uint8_t *journal, size_t journal_len, uint8_t *out, size_t out_len);

/* Accepts the sheet of the journal, or refuses it: the journal's refusal, then 20 to 26. */
uint64_t hasurenta_check(const uint8_t *journal, size_t journal_len, const uint8_t *sheet, size_t sheet_len);

/* Reads the journal and writes it again: the same bytes. The journal's refusal, then 9. */
uint64_t hasurenta_rewrite(const uint8_t *journal, size_t journal_len, uint8_t *out, size_t out_len);

/* Writes a header of 19 numbers. 98, 3, 9. */
uint64_t hasurenta_write_header(const uint32_t *numbers, size_t numbers_len, uint8_t *out, size_t out_len);

/* Writes a record of 30 to 248 numbers. Fewer fields than the record needs are 5, those beyond its own do not count: 30 numbers
 * do for every kind but a batch, which has 2 fields and 7 for each quote. 98, 3, 4, 5, 6, 9. */
uint64_t hasurenta_write_record(const uint32_t *numbers, size_t numbers_len, uint8_t *out, size_t out_len);

/* Reads the record at the front of the bytes, given 20 numbers, and writes its words: 11, or for a batch 5 and 7 for each quote.
 * What follows the record is not looked at. 98, 3, 2, 4, 2, 5, 6 in the journal's order, places counted in the bytes; of a batch
 * the count's 5 comes before the 2 of a quote. Then 9, where `out` has no room for these words. */
uint64_t hasurenta_read_record(const uint32_t *numbers, size_t numbers_len, const uint8_t *bytes, size_t bytes_len,
                               uint32_t *out, size_t out_len);

#ifdef __cplusplus
}
#endif

#endif
