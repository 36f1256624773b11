/* include/robijan.h against the library: each number by an input that it is for, each answer's fields and each call's arguments by figures of
 * document 01. A number, a field or an argument exchanged in the header is seen here, but for the names of two arguments
 * of one type. */
#include <inttypes.h>
#include <stdio.h>
#include <stdlib.h>
#include <string.h>

#include "robijan.h"

static int wrong;

static void same(const char *what, int64_t wanted, int64_t got)
{
    if (wanted != got) {
        printf("%s: wanted %" PRId64 ", got %" PRId64 "\n", what, wanted, got);
        wrong = 1;
    }
}

#define NUMBER(wanted, call) same(#wanted " of " #call, wanted, (int64_t)(call))

enum { SIZE = 5072, FIRST = 9497 };

static int64_t book[SIZE], statement[3], output[3];

/* Lag and horizon 1. */
static robijan_terms terms(uint64_t accounts, uint64_t first)
{
    return (robijan_terms){.accounts = accounts, .lag = 1, .horizon = 1, .first = first};
}

static robijan_answer opened(size_t words, uint64_t accounts, uint64_t first)
{
    return robijan_open(book, words, terms(accounts, first));
}

static robijan_answer taken(const char *bytes, size_t length)
{
    return robijan_submit(book, SIZE, (const uint8_t *)bytes, length);
}

/* A row without tranches, all zeros, given twice: 2 + 2 * 388 bytes. */
static robijan_answer taken_twice(void)
{
    static char file[2 + 2 * 388];
    file[0] = 2;
    memcpy(file + 2, "\x00\x19\x25\x00", 4);
    memcpy(file + 2 + 388, "\x00\x19\x25\x00", 4);
    return taken(file, sizeof file);
}

static void numbers_of_a_book(void)
{
    NUMBER(0, ROBIJAN_ACCEPTED);
    NUMBER(ROBIJAN_OUTSIDE_RANGE, opened(SIZE, 0, FIRST).number);
    NUMBER(1, ROBIJAN_OUTSIDE_RANGE);
    NUMBER(ROBIJAN_WORDS_TOO_FEW, opened(SIZE - 1, 2, FIRST).number);
    NUMBER(2, ROBIJAN_WORDS_TOO_FEW);
    NUMBER(ROBIJAN_ACCEPTED, opened(SIZE, 2, 36524).number);
    book[ROBIJAN_WORD_NEXT_DAY] = 36525;
    NUMBER(ROBIJAN_NOT_WELL_FORMED, robijan_judge(book, SIZE)); /* a closed day without rows */
    NUMBER(3, ROBIJAN_NOT_WELL_FORMED);

    NUMBER(ROBIJAN_ACCEPTED, opened(SIZE, 2, FIRST).number);
    NUMBER(ROBIJAN_FIELD_NOT_WHOLE, taken("\0\0\0\0\0\0\0", 7).number);
    NUMBER(4, ROBIJAN_FIELD_NOT_WHOLE);
    same("position of 4", 6, (int64_t)taken("\0\0\0\0\0\0\0", 7).position);
    NUMBER(ROBIJAN_FIELD_OUT_OF_RANGE, taken("\1\0\2", 3).number);
    NUMBER(5, ROBIJAN_FIELD_OUT_OF_RANGE);
    same("position of 5", 2, (int64_t)taken("\1\0\2", 3).position);
    NUMBER(ROBIJAN_DAY_NOT_OPEN, taken("\1\0\0\x1A\x25", 5).number);
    NUMBER(6, ROBIJAN_DAY_NOT_OPEN);
    NUMBER(ROBIJAN_ROW_REPEATED, taken_twice().number);
    NUMBER(7, ROBIJAN_ROW_REPEATED);
    same("position of 7", 391, (int64_t)taken_twice().position);
    NUMBER(ROBIJAN_BYTES_AFTER_END, taken("\0\0\0\0\0\0\0\0\0", 9).number);
    NUMBER(8, ROBIJAN_BYTES_AFTER_END);
    NUMBER(ROBIJAN_ACCEPTED, taken("\0\0\0\0\0\0\0\0", 8).number);
    NUMBER(ROBIJAN_OUTPUT_TOO_SHORT, robijan_close(book, SIZE, statement, 2).number);
    NUMBER(10, ROBIJAN_OUTPUT_TOO_SHORT);
    NUMBER(ROBIJAN_DATUM_ABSENT, robijan_close(book, SIZE, statement, 3).number);
    NUMBER(11, ROBIJAN_DATUM_ABSENT);
    same("position of 11", 84, (int64_t)robijan_close(book, SIZE, statement, 3).position);
}

/* One account's only day, closed; then the book is finished. */
static void a_closed_book(void)
{
    static uint8_t file[784];
    uint8_t *at = file;
    memcpy(at, "\1\0\0\xAC\x8E\0", 6), at += 6; /* one vesting row of day 36,524 */
    for (int i = 0; i < 48; i++, at += 8)
        memcpy(at, "\x90\1\0\0\x98\x3A\0\0", 8); /* BVQ 400, BVP 15,000 */
    memcpy(at, "\1\0\0\xAC\x8E\1", 6), at += 6; /* one meter row */
    for (int i = 0; i < 48; i++, at += 8)
        memcpy(at, "\x10\x27\0\0\3\0\0\0", 8); /* MEP 10,000, IEQ 3 */
    NUMBER(ROBIJAN_ACCEPTED, opened(SIZE, 1, 36524).number);
    NUMBER(ROBIJAN_ACCEPTED, robijan_submit(book, SIZE, file, sizeof file).number);
    robijan_answer closed = robijan_close(book, SIZE, statement, 2);
    NUMBER(ROBIJAN_ACCEPTED, closed.number);
    same("position of a close", 0, (int64_t)closed.position);
    same("day closed", 36524, (int64_t)closed.day);
    same("residuals settled", 0, (int64_t)closed.count);
    same("no rounding", 0, closed.difference);
    same("account's amount", 96000, statement[0]);
    same("MSSL's amount", -96000, statement[1]);
    same("account's balance", 96000, book[ROBIJAN_WORD_BALANCE(0)]);
    same("MSSL's balance", -96000, book[ROBIJAN_WORD_MSSL_BALANCE]);
    same("next day", 36525, book[ROBIJAN_WORD_NEXT_DAY]);
    same("accounts", 1, book[ROBIJAN_WORD_ACCOUNTS]);
    same("one account's flag", 1, book[ROBIJAN_WORD_FIRST_INTERVAL(1) + ROBIJAN_INTERVAL_ACCOUNTS]);
    NUMBER(ROBIJAN_BOOK_FINISHED, robijan_close(book, SIZE, statement, 2).number);
    NUMBER(9, ROBIJAN_BOOK_FINISHED);
    same("size", 5072, (int64_t)robijan_book_size(terms(2, FIRST)).words);
    robijan_terms longest = {.accounts = 1, .lag = 75, .horizon = 92, .first = FIRST};
    NUMBER(ROBIJAN_ACCEPTED, robijan_book_size(longest).number);
    longest.lag = 92;
    NUMBER(ROBIJAN_OUTSIDE_RANGE, robijan_book_size(longest).number);
    NUMBER(ROBIJAN_OUTSIDE_RANGE, robijan_book_size(terms(2, FIRST - 1)).number); /* as an opening says */
}

static uint8_t rows[2 + 388 + 2 + 388 + 2 + 771 + 2 + 194];
static size_t length;

static void put(uint64_t value, int bytes)
{
    for (; bytes > 0; bytes--, value >>= 8)
        rows[length++] = (uint8_t)value;
}

/* One account's rows for a close, all zeros but for 1 kWh at this price in interval 0, V being 0; those of the day before too, if wanted. */
static robijan_answer taken_at(uint64_t day, uint64_t price, uint64_t settles)
{
    length = 0;
    put(1, 2), put(0, 1), put(day, 2), put(0, 1), put(1, 4), put(price, 4), put(0, 47 * 8); /* a vesting row */
    put(1, 2), put(0, 1), put(day, 2), put(1, 1), put(0, 48 * 8); /* a meter row */
    put(settles, 2);
    if (settles)
        put(0, 1), put(day - 1, 2), put(0, 48 * 16);
    put(settles, 2);
    if (settles)
        put(day - 1, 2), put(0, 48 * 4);
    return robijan_submit(book, SIZE, rows, length);
}

/* 499 thousandths of a cent are 0 cents, 500 are 1. */
static void differences(void)
{
    NUMBER(8, ROBIJAN_WORD_DIFFERENCES);
    NUMBER(ROBIJAN_ACCEPTED, opened(SIZE, 1, FIRST).number);
    same("difference of an opening", 0, opened(SIZE, 1, FIRST).difference);
    same("sum of a new book", 0, book[ROBIJAN_WORD_DIFFERENCES]);
    NUMBER(ROBIJAN_ACCEPTED, taken_at(FIRST, 499, 0).number);
    same("difference of a submission", 0, taken_at(FIRST, 499, 0).difference);
    robijan_answer closed = robijan_close(book, SIZE, statement, 2);
    NUMBER(ROBIJAN_ACCEPTED, closed.number);
    same("difference rounded down", 499, closed.difference);
    same("amount rounded down", 0, statement[0]);
    same("sum after a close", 499, book[ROBIJAN_WORD_DIFFERENCES]);
    closed = robijan_close(book, SIZE, statement, 2);
    NUMBER(ROBIJAN_DATUM_ABSENT, closed.number);
    same("difference of a refused close", 0, closed.difference);
    same("sum after a refused close", 499, book[ROBIJAN_WORD_DIFFERENCES]);

    NUMBER(ROBIJAN_ACCEPTED, taken_at(FIRST + 1, 500, 1).number);
    closed = robijan_close(book, SIZE, statement, 2);
    NUMBER(ROBIJAN_ACCEPTED, closed.number);
    same("position of the second close", 0, (int64_t)closed.position);
    same("second day closed", FIRST + 1, (int64_t)closed.day);
    same("residuals of the second close", 48, (int64_t)closed.count);
    same("difference rounded up", -500, closed.difference);
    same("amount rounded up", 1, statement[0]);
    same("MSSL's amount rounded", -1, statement[1]);
    same("sum after both", -1, book[ROBIJAN_WORD_DIFFERENCES]);

    /* two closes of one account: 1,000 thousandths either way */
    for (int64_t sign = -1; sign <= 1; sign += 2) {
        book[ROBIJAN_WORD_DIFFERENCES] = sign * 1000;
        NUMBER(ROBIJAN_ACCEPTED, robijan_judge(book, SIZE));
        book[ROBIJAN_WORD_DIFFERENCES] = sign * 1001;
        NUMBER(ROBIJAN_NOT_WELL_FORMED, robijan_judge(book, SIZE));
    }
}

/* X: 0, or 9,497 to 36,524, whole, in its word; anything else there is no book. */
static void change_days(void)
{
    static const uint64_t good[] = {0, 9497, 36524}, bad[] = {1, 9496, 36525, 9497 + (UINT64_C(1) << 32)};
    robijan_terms changing = terms(2, 20000);
    for (int i = 0; i < 3; i++) {
        changing.change = good[i];
        NUMBER(ROBIJAN_ACCEPTED, robijan_open(book, SIZE, changing).number);
        same("change day", (int64_t)good[i], book[ROBIJAN_WORD_CHANGE]);
        same("first day", 20000, book[ROBIJAN_WORD_NEXT_DAY]);
        NUMBER(ROBIJAN_ACCEPTED, robijan_judge(book, SIZE));
    }
    for (int i = 0; i < 4; i++) {
        changing.change = bad[i];
        NUMBER(ROBIJAN_OUTSIDE_RANGE, robijan_open(book, SIZE, changing).number);
        NUMBER(ROBIJAN_OUTSIDE_RANGE, robijan_book_size(changing).number);
        book[ROBIJAN_WORD_CHANGE] = (int64_t)bad[i];
        NUMBER(ROBIJAN_NOT_WELL_FORMED, robijan_judge(book, SIZE));
    }
}

/* Each section's row of account 1, without figures: its flags stand where the header says, in the first interval and in the second. */
static void places(void)
{
    static const struct { const char *heading; size_t bytes, values; } sections[] = {
        {"\1\0\1\x19\x25\0", 6, 2}, {"\1\0\1\x19\x25\1", 6, 2}, {"\1\0\1\x19\x25", 5, 4}, {"\1\0\x19\x25", 4, 1}};
    static uint8_t file[21 + 48 * 4 * 9];
    uint8_t *at = file;
    for (int s = 0; s < 4; s++, at += sections[s - 1].bytes + 48 * 4 * sections[s - 1].values)
        memcpy(at, sections[s].heading, sections[s].bytes);
    NUMBER(ROBIJAN_ACCEPTED, opened(SIZE, 2, FIRST).number);
    NUMBER(ROBIJAN_ACCEPTED, robijan_submit(book, SIZE, file, sizeof file).number);
    for (int i = 0; i < 2; i++) {
        const int64_t *interval = book + ROBIJAN_WORD_FIRST_INTERVAL(2) + i * ROBIJAN_INTERVAL_WORDS(2);
        const int64_t *account = interval + ROBIJAN_INTERVAL_ACCOUNTS + ROBIJAN_ACCOUNT_WORDS;
        same("NCC flag", 1, interval[ROBIJAN_INTERVAL_NCC_FLAG]);
        same("vesting flag", 1, account[ROBIJAN_ACCOUNT_VESTING_FLAG]);
        same("meter flag", 1, account[ROBIJAN_ACCOUNT_METER_FLAG]);
        same("residual flag", 1, account[ROBIJAN_ACCOUNT_RESIDUAL_FLAG]);
    }
}

static void rules(void)
{
    static const int64_t mep[] = {10000, 10001}, ieq[] = {3, 1}, uegq[] = {100, 200, 300};
    same("price", 10000, robijan_price(mep, 2, ieq, 2).price);
    NUMBER(ROBIJAN_OUTSIDE_RANGE, robijan_price(mep, 2, ieq, 1).number);
    /* 2,000,000 is an injection and no price */
    static const int64_t large[] = {2000000};
    NUMBER(ROBIJAN_OUTSIDE_RANGE, robijan_price(large, 1, ieq, 1).number);
    NUMBER(ROBIJAN_ACCEPTED, robijan_price(ieq, 1, large, 1).number);
    NUMBER(ROBIJAN_ACCEPTED, robijan_share(300, uegq, 3, output, 3));
    same("first share", 50, output[0]);
    same("last share", 150, output[2]);
    NUMBER(ROBIJAN_OUTPUT_TOO_SHORT, robijan_share(300, uegq, 3, output, 2));
    static const int64_t ones[] = {1, 1, 1};
    NUMBER(ROBIJAN_ACCEPTED, robijan_second_share(2, ones, 3, output, 3));
    same("first share of the second edition", 0, output[0]);
    same("second share of the second edition", 1, output[1]);
    same("last share of the second edition", 1, output[2]);
    NUMBER(ROBIJAN_ACCEPTED, robijan_share(2, ones, 3, output, 3));
    same("last share of the first edition", 0, output[2]);
    NUMBER(ROBIJAN_OUTPUT_TOO_SHORT, robijan_second_share(2, ones, 3, output, 2));
    NUMBER(ROBIJAN_OUTSIDE_RANGE, robijan_second_share(2 + (INT64_C(1) << 32), ones, 3, output, 2));
    robijan_tranche_answer tranches = robijan_tranche(150, 400, 490);
    same("first tranche", 90, tranches.first);
    same("second tranche", 60, tranches.second);
}

/* The limits of a pair are 80 and 125 kWh, of the day 1,920 and 3,000; T may be 480,000,000, D may not. */
static void profiles(void)
{
    static int64_t profile[49];
    for (int i = 0; i < 49; i++)
        profile[i] = 50;
    NUMBER(ROBIJAN_ACCEPTED, robijan_profile(profile, 48, 2400, 100).number);
    same("a profile that keeps the limits", 1, (int64_t)robijan_profile(profile, 48, 2400, 100).keeps);
    profile[0] = 20, profile[2] = 80;
    NUMBER(ROBIJAN_ACCEPTED, robijan_profile(profile, 48, 2400, 100).number);
    same("a profile that does not", 0, (int64_t)robijan_profile(profile, 48, 2400, 100).keeps);
    NUMBER(ROBIJAN_TOTAL_IMPOSSIBLE, robijan_profile(profile, 48, 3001, 100).number);
    NUMBER(15, ROBIJAN_TOTAL_IMPOSSIBLE);
    NUMBER(ROBIJAN_TOTAL_IMPOSSIBLE, robijan_profile(profile, 48, 480000000, 100).number);
    NUMBER(ROBIJAN_OUTSIDE_RANGE, robijan_profile(profile, 48, 100, 480000000).number);
    NUMBER(ROBIJAN_OUTSIDE_RANGE, robijan_profile(profile, 49, 2400, 100).number);
    const int64_t wide = INT64_C(1) << 32; /* no word is cut on its way */
    NUMBER(ROBIJAN_OUTSIDE_RANGE, robijan_profile(profile, 48, 2400 + wide, 100).number);
    NUMBER(ROBIJAN_OUTSIDE_RANGE, robijan_profile(profile, 48, 2400, 100 + wide).number);
}

/* Written and read back: every byte, each figure of the answer, each refusal. */
static void packed(void)
{
    static const int64_t amounts[] = {-1, INT64_C(4294967297), 2400}, large[] = {0, INT64_C(1000000000000000)};
    static const uint8_t wanted[] = {0, 0, 0, 0, 0, 0, 0, 0x1D, 0, 0, 0x04, 0x29, 0x49, 0x67, 0x29, 0x7C, 0, 0, 0, 0, 0, 0x02, 0x40, 0x0C};
    uint8_t fields[3 * ROBIJAN_PACKED_FIELD_BYTES + 1] = {0};
    fields[24] = 0xAA;
    NUMBER(8, ROBIJAN_PACKED_FIELD_BYTES);
    NUMBER(ROBIJAN_ACCEPTED, robijan_pack(amounts, 3, fields, sizeof fields));
    for (int i = 0; i < 24; i++)
        same("packed byte", wanted[i], fields[i]);
    same("byte beyond", 0xAA, fields[24]);
    NUMBER(ROBIJAN_OUTSIDE_RANGE, robijan_pack(amounts, 1, fields, 24));
    NUMBER(ROBIJAN_OUTSIDE_RANGE, robijan_pack(large, 2, fields, 16));
    NUMBER(ROBIJAN_OUTPUT_TOO_SHORT, robijan_pack(amounts, 3, fields, 23));

    static const int64_t several[] = {1, 2, 3, 4, 5, 6};
    uint8_t many[6 * ROBIJAN_PACKED_FIELD_BYTES];
    NUMBER(ROBIJAN_ACCEPTED, robijan_pack(several, 6, many, sizeof many));
    for (int i = 0; i < 6; i++)
        same("last byte of a field, in the order of the amounts", 16 * (i + 1) + 0xC, many[8 * i + 7]);

    output[0] = output[1] = output[2] = 7;
    robijan_unpack_answer read = robijan_unpack(fields, 16, output, 3);
    NUMBER(ROBIJAN_ACCEPTED, read.number);
    same("position of fields read", 0, (int64_t)read.position);
    same("amounts read", 2, (int64_t)read.count);
    same("first amount read", -1, output[0]);
    same("second amount read", amounts[1], output[1]);
    same("word beyond", 7, output[2]);
    same("all amounts read", 3, (int64_t)robijan_unpack(fields, 24, output, 3).count);
    same("last amount read", 2400, output[2]);
    NUMBER(ROBIJAN_OUTSIDE_RANGE, robijan_unpack(fields, 15, output, 3).number);
    NUMBER(ROBIJAN_OUTPUT_TOO_SHORT, robijan_unpack(fields, 24, output, 2).number);
    read = robijan_unpack(fields, 23, output, 3);
    NUMBER(ROBIJAN_PACKED_FIELD_WRONG, read.number);
    NUMBER(16, ROBIJAN_PACKED_FIELD_WRONG);
    same("position of a cut field", 16, (int64_t)read.position);
    same("amounts of a cut field", 0, (int64_t)read.count);
    fields[11] = 0x2A;
    same("position of a wrong digit", 11, (int64_t)robijan_unpack(fields, 23, output, 3).position);
    fields[7] = 0x0D;
    same("position of a zero with D", 7, (int64_t)robijan_unpack(fields, 23, output, 3).position);
}

static void calendar(void)
{
    static const int64_t none[1], friday[] = {9575}, bad[] = {5, 5}; /* 20 March 2026 */
    robijan_date_answer date = robijan_date(9554);
    same("year", 2026, (int64_t)date.year);
    same("month", 2, (int64_t)date.month);
    same("day of the month", 27, (int64_t)date.day);
    same("day", 9554, (int64_t)robijan_day(2026, 2, 27).day);
    NUMBER(ROBIJAN_NO_SUCH_DATE, robijan_day(2026, 2, 29).number);
    NUMBER(12, ROBIJAN_NO_SUCH_DATE);
    same("weekday", 5, (int64_t)robijan_weekday(FIRST).weekday);
    same("statement day", 9572, (int64_t)robijan_statement_day(FIRST).day);
    same("business day", 1, (int64_t)robijan_business_day(9575, none, 0).business);
    same("holiday", 0, (int64_t)robijan_business_day(9575, friday, 1).business);
    NUMBER(ROBIJAN_BAD_HOLIDAYS, robijan_business_day(FIRST, bad, 2).number);
    NUMBER(13, ROBIJAN_BAD_HOLIDAYS);
    same("final statement", (int64_t)robijan_day(2026, 3, 31).day, (int64_t)robijan_final_statement(FIRST, none, 0).day);
    same("final statement, a holiday", (int64_t)robijan_day(2026, 4, 1).day, (int64_t)robijan_final_statement(FIRST, friday, 1).day);
    NUMBER(ROBIJAN_PAST_LAST_DAY, robijan_statement_day(36450).number);
    NUMBER(14, ROBIJAN_PAST_LAST_DAY);
    same("residual data due", (int64_t)robijan_day(2026, 3, 11).day, (int64_t)robijan_residual_due(2026, 1, none, 0).day);
}

int main(void)
{
    numbers_of_a_book();
    a_closed_book();
    differences();
    change_days();
    places();
    rules();
    profiles();
    packed();
    calendar();
    return wrong;
}
