/* A small settlement through Robijan: two accounts, a lag of 75 days, and the first day's uncovered load settled 75 days later. The book is
 * kept in the file that the program's one word names. examples/rust has the same in Rust; tests/run builds and runs both and compares what
 * they print with examples/expected.txt. */
#define _POSIX_C_SOURCE 200809L
#include <inttypes.h>
#include <stdio.h>
#include <stdlib.h>
#include <string.h>
#include <unistd.h>

#include "robijan.h"

enum { ACCOUNTS = 2, LAG = 75, HORIZON = 1, INTERVALS = 48 };

/* An empty list has a pointer too, which is not NULL. */
static const int64_t no_holidays[1];

/* ---- A submission file, written field by field; all fields are little-endian. */

static uint8_t file[4096];
static size_t length;

static void put(uint32_t value, int bytes)
{
    for (; bytes > 0; bytes--, value >>= 8)
        file[length++] = (uint8_t)value;
}

/* One interval's values, for each of the 48. */
static void put_all_day(const int32_t *values, int count)
{
    for (int interval = 0; interval < INTERVALS; interval++)
        for (int i = 0; i < count; i++)
            put((uint32_t)values[i], 4);
}

/* Every account's vesting and meter row of a day. */
static void write_contracts(uint32_t day)
{
    length = 0;
    put(2, 2); /* section 1: two vesting rows */
    /* account 0: 400 kWh at 15,000 cents per MWh under its base contract, no tender contract */
    put(0, 1), put(day, 2), put(0, 1);
    put_all_day((int32_t[]){400, 15000}, 2);
    /* account 1: no base contract; 100 kWh at 9,001 cents per MWh under one tender contract */
    put(1, 1), put(day, 2), put(1, 1);
    put_all_day((int32_t[]){0, 0, 100, 9001}, 4);
    put(2, 2); /* section 2: two meter rows */
    /* one facility each, paid 10,000 cents per MWh for what it injected: V is 10,000 */
    for (uint32_t account = 0; account < ACCOUNTS; account++) {
        put(account, 1), put(day, 2), put(1, 1);
        put_all_day((int32_t[]){10000, 500}, 2);
    }
    put(0, 2); /* section 3: no residual row */
    put(0, 2); /* section 4: no NCC row */
}

/* Every account's residual row and the NCC load of a day.
 *
 * The small consumers took 650 kWh, of which contracts cover 400 + 100: 150 are shared. The accounts had 100 and 200 kWh to spare, so they
 * get 50 and 100. Account 0's base contract could have given 420, 20 more than it did: tranche 1 is 20, tranche 2 is 30. Account 1 has no
 * base contract: all of its 100 are tranche 2. */
static void write_residuals(uint32_t day)
{
    length = 0;
    put(0, 2); /* section 1: no vesting row */
    put(0, 2); /* section 2: no meter row */
    put(2, 2); /* section 3: two residual rows, of UEGQ, MQ, RVP1 and RVP2 */
    put(0, 1), put(day, 2);
    put_all_day((int32_t[]){100, 420, 12000, 11000}, 4);
    put(1, 1), put(day, 2);
    put_all_day((int32_t[]){200, 0, 12000, 11500}, 4);
    put(1, 2); /* section 4: the load */
    put(day, 2);
    put_all_day((int32_t[]){650}, 1);
}

/* ---- What is printed */

static void print_date(const char *what, uint64_t day)
{
    robijan_date_answer date = robijan_date((int64_t)day);
    printf("%s %04" PRIu64 "-%02" PRIu64 "-%02" PRIu64 "\n", what, date.year, date.month, date.day);
}

/* What a close lacks, told from the flag at this position of the book. */
static void print_missing(const int64_t *book, uint64_t position)
{
    uint64_t accounts = (uint64_t)book[ROBIJAN_WORD_ACCOUNTS];
    uint64_t next = (uint64_t)book[ROBIJAN_WORD_NEXT_DAY], settled = next - (uint64_t)book[ROBIJAN_WORD_LAG];
    uint64_t word = (position - ROBIJAN_WORD_FIRST_INTERVAL(accounts)) % ROBIJAN_INTERVAL_WORDS(accounts);
    if (word == ROBIJAN_INTERVAL_NCC_FLAG) {
        print_date("  missing: the NCC row of", settled);
        return;
    }
    uint64_t account = (word - ROBIJAN_INTERVAL_ACCOUNTS) / ROBIJAN_ACCOUNT_WORDS;
    uint64_t flag = (word - ROBIJAN_INTERVAL_ACCOUNTS) % ROBIJAN_ACCOUNT_WORDS;
    const char *row = flag == ROBIJAN_ACCOUNT_VESTING_FLAG ? "vesting" : flag == ROBIJAN_ACCOUNT_METER_FLAG ? "meter" : "residual";
    char what[64];
    snprintf(what, sizeof what, "  missing: account %" PRIu64 "'s %s row of", account, row);
    print_date(what, flag == ROBIJAN_ACCOUNT_RESIDUAL_FLAG ? settled : next);
}

static void print_close(const char *what, robijan_answer answer, const int64_t *book, const int64_t *statement)
{
    if (answer.number != ROBIJAN_ACCEPTED) {
        printf("close refused: number %" PRIu64 ", position %" PRIu64 "\n", answer.number, answer.position);
        if (answer.number == ROBIJAN_DATUM_ABSENT)
            print_missing(book, answer.position);
        return;
    }
    print_date(what, answer.day);
    printf("  residuals settled: %" PRIu64 "\n", answer.count);
    for (int account = 0; account < ACCOUNTS; account++)
        printf("  account %d: %" PRId64 " cents\n", account, statement[account]);
    printf("  MSSL: %" PRId64 " cents\n", statement[ACCOUNTS]);
    printf("  rounding difference: %" PRId64 " thousandths\n", answer.difference);
}

static void print_balances(const int64_t *book)
{
    printf("balances");
    for (int account = 0; account < ACCOUNTS; account++)
        printf(" %" PRId64, book[ROBIJAN_WORD_BALANCE(account)]);
    printf(", MSSL %" PRId64 "\n", book[ROBIJAN_WORD_MSSL_BALANCE]);
    printf("  rounding differences so far: %" PRId64 " thousandths\n", book[ROBIJAN_WORD_DIFFERENCES]);
}

/* The statement for a ledger that takes packed decimal, a field an amount, and read back from there. */
static void print_packed(const int64_t *statement)
{
    uint8_t fields[ROBIJAN_PACKED_FIELD_BYTES * (ACCOUNTS + 1)];
    int64_t amounts[ACCOUNTS + 1];
    if (robijan_pack(statement, ACCOUNTS + 1, fields, sizeof fields) != ROBIJAN_ACCEPTED)
        exit(1);
    for (const uint8_t *field = fields; field < fields + sizeof fields; field += ROBIJAN_PACKED_FIELD_BYTES) {
        printf("  packed");
        for (int i = 0; i < ROBIJAN_PACKED_FIELD_BYTES; i++)
            printf(" %02X", field[i]);
        printf("\n");
    }
    robijan_unpack_answer answer = robijan_unpack(fields, sizeof fields, amounts, ACCOUNTS + 1);
    int same = answer.number == ROBIJAN_ACCEPTED && memcmp(amounts, statement, sizeof amounts) == 0;
    printf("  read back: %" PRIu64 " amounts, %s\n", answer.count, same ? "the same" : "others");
}

/* ---- The book's file
 *
 * The calls are made on a copy in memory. It becomes the file's content by a rename, and only when it is whole on the disk: a process that
 * dies at any time leaves the book before or the book after, never something between. */

static void keep(const char *path, const int64_t *book, uint64_t words)
{
    char new_path[4096];
    snprintf(new_path, sizeof new_path, "%s.new", path);
    FILE *out = fopen(new_path, "wb");
    if (out == NULL || fwrite(book, sizeof *book, words, out) != words || fflush(out) != 0 || fsync(fileno(out)) != 0 || fclose(out) != 0
        || rename(new_path, path) != 0) {
        perror(path);
        exit(1);
    }
}

int main(int count, char **arguments)
{
    const char *path = count > 1 ? arguments[1] : "settlement.book";

    robijan_terms terms = {.accounts = ACCOUNTS, .lag = LAG, .horizon = HORIZON, .first = robijan_day(2026, 1, 1).day, .change = 0};

    /* The words are ours: the library says how many a book takes. */
    robijan_size_answer size = robijan_book_size(terms);
    int64_t *book = malloc(size.words * sizeof *book), *copy = malloc(size.words * sizeof *copy);
    int64_t statement[ACCOUNTS + 1] = {0};
    if (size.number != ROBIJAN_ACCEPTED || book == NULL || copy == NULL)
        return 1;
    printf("book of %" PRIu64 " words\n", size.words);

    if (robijan_open(book, size.words, terms).number != ROBIJAN_ACCEPTED)
        return 1;
    uint32_t first = (uint32_t)terms.first;
    keep(path, book, size.words);
    print_date("opened, first day", first);
    print_date("residual data of January are due", robijan_residual_due(2026, 1, no_holidays, 0).day);

    /* 75 days with contracts and meter data alone. An interval is (15,000 - 10,000) x 400 thousandths of a cent to account 0, 2,000 cents, and
     * (9,001 - 10,000) x 100 to account 1, -99.9 cents. The day's 48 are 96,000 and -4,795.2, posted as 96,000 and -4,795; the MSSL is posted
     * -91,205 for -91,204.8, a rounding difference of -200 thousandths a day. */
    for (uint32_t day = first; day < first + LAG; day++) {
        write_contracts(day);
        if (robijan_submit(book, size.words, file, length).number != ROBIJAN_ACCEPTED)
            return 1;
        robijan_answer answer = robijan_close(book, size.words, statement, ACCOUNTS + 1);
        if (answer.number == ROBIJAN_ACCEPTED)
            keep(path, book, size.words);
        if (day == first || answer.number != ROBIJAN_ACCEPTED)
            print_close("closed", answer, book, statement);
    }
    print_balances(book);

    /* The next close settles the first day's uncovered load too, so it needs that day's residual data. */
    write_contracts(first + LAG);
    if (robijan_submit(book, size.words, file, length).number != ROBIJAN_ACCEPTED)
        return 1;
    keep(path, book, size.words);
    print_close("closed", robijan_close(book, size.words, statement, ACCOUNTS + 1), book, statement);

    /* With them, account 0 gets (12,000 - 10,000) x 20 + (11,000 - 10,000) x 30 thousandths an interval more, 70 cents; account 1
     * (11,500 - 10,000) x 100, 150 cents. The day is 96,000 + 3,360 cents to account 0 and -4,795.2 + 7,200 = 2,404.8 to account 1, posted as
     * 2,405; the MSSL is posted -101,765 for -101,764.8, -200 thousandths again. A look ahead is a close on a copy. */
    write_residuals(first);
    if (robijan_submit(book, size.words, file, length).number != ROBIJAN_ACCEPTED)
        return 1;
    keep(path, book, size.words);
    memcpy(copy, book, size.words * sizeof *book);
    print_close("would close", robijan_close(copy, size.words, statement, ACCOUNTS + 1), copy, statement);
    print_balances(book);

    robijan_answer answer = robijan_close(book, size.words, statement, ACCOUNTS + 1);
    if (answer.number == ROBIJAN_ACCEPTED)
        keep(path, book, size.words);
    print_close("closed", answer, book, statement);
    if (answer.number == ROBIJAN_ACCEPTED)
        print_packed(statement);
    print_balances(book);
    print_date("final statement of the first day", robijan_final_statement(first, no_holidays, 0).day);
    free(copy);
    free(book);
    return 0;
}
