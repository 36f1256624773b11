/* How much stack each call takes: less than the 16 KiB that include/robijan.h promises. A call runs in a thread whose stack is painted first;
 * what it took is how far the paint is gone below the caller's frame (what the thread takes to end is counted too). */
#define _XOPEN_SOURCE 700
#include <inttypes.h>
#include <pthread.h>
#include <stdio.h>
#include <stdlib.h>
#include <string.h>

#include "robijan.h"

enum { ACCOUNTS = 32, TENDERS = 3, FACILITIES = 4, FIRST = 9497, PROMISED = 16 * 1024, PAINT = 0xA5 };

static unsigned char stack[1 << 20] __attribute__((aligned(4096)));

static unsigned char *caller;

static void *run(void *call)
{
    unsigned char here;
    caller = &here;
    (*(void (**)(void))call)();
    return NULL;
}

static size_t depth(void (*call)(void))
{
    pthread_attr_t attributes;
    pthread_t thread;
    memset(stack, PAINT, sizeof stack);
    if (pthread_attr_init(&attributes) || pthread_attr_setstack(&attributes, stack, sizeof stack)
        || pthread_create(&thread, &attributes, run, &call) || pthread_join(thread, NULL))
        exit(2);
    size_t painted = 0;
    while (painted < sizeof stack && stack[painted] == PAINT)
        painted++;
    return (size_t)(caller - stack) - painted;
}

/* ---- A book of 32 accounts, and a file with every row of two days, all tender contracts and facilities used */

static int64_t book[64 + 8 * ACCOUNTS + 48 * 2 * (4 + 24 * ACCOUNTS)];
static int64_t statement[ACCOUNTS + 1];
static uint8_t file[1 << 20];
static size_t length;

static void put(uint32_t value, int bytes)
{
    for (; bytes > 0; bytes--, value >>= 8)
        file[length++] = (uint8_t)value;
}

static void put_rows(uint32_t day, int accounts, int count, int values)
{
    put((uint32_t)accounts, 2);
    for (uint32_t account = 0; account < (uint32_t)accounts; account++) {
        put(account, 1), put(day, 2);
        if (count >= 0)
            put((uint32_t)count, 1);
        for (int i = 0; i < 48 * values; i++)
            put(10000 + account, 4);
    }
}

/* Contracts and meter data of a day, residual data of the day before if wanted. */
static void write_file(uint32_t day, int residuals)
{
    length = 0;
    put_rows(day, ACCOUNTS, TENDERS, 2 + 2 * TENDERS);
    put_rows(day, ACCOUNTS, FACILITIES, 2 * FACILITIES);
    put_rows(day - 1, residuals ? ACCOUNTS : 0, -1, 4);
    put(residuals ? 1 : 0, 2);
    if (residuals) {
        put(day - 1, 2);
        for (int i = 0; i < 48; i++)
            put(2000000, 4);
    }
}

/* ---- The calls, each accepted */

static uint64_t number;
static const int64_t list[ACCOUNTS] = {1, 2, 3, 4};
static const int64_t profile[48];
static int64_t output[ACCOUNTS + 1];
static uint8_t fields[ROBIJAN_PACKED_FIELD_BYTES * (ACCOUNTS + 1)];

static void nothing(void) { number = ROBIJAN_ACCEPTED; }
static const robijan_terms terms = {.accounts = ACCOUNTS, .lag = 1, .horizon = 1, .first = FIRST, .change = FIRST};
static void size(void) { number = robijan_book_size(terms).number; }
static void open_book(void) { number = robijan_open(book, sizeof book / 8, terms).number; }
static void submit(void) { number = robijan_submit(book, sizeof book / 8, file, length).number; }
static void close_day(void) { number = robijan_close(book, sizeof book / 8, statement, ACCOUNTS + 1).number; }
static void judge(void) { number = robijan_judge(book, sizeof book / 8); }
static void price(void) { number = robijan_price(list, 4, list, 4).number; }
static void share(void) { number = robijan_share(5, list, ACCOUNTS, output, ACCOUNTS); }
static void second_share(void) { number = robijan_second_share(5, list, ACCOUNTS, output, ACCOUNTS); }
static void tranche(void) { number = robijan_tranche(3, 2, 1).number; }
static void check_profile(void) { number = robijan_profile(profile, 48, 0, 0).number; }
static void pack(void) { number = robijan_pack(statement, ACCOUNTS + 1, fields, sizeof fields); }
static void unpack(void) { number = robijan_unpack(fields, sizeof fields, output, ACCOUNTS + 1).number; }
static void date(void) { number = robijan_date(36524).number; }
static void day(void) { number = robijan_day(2099, 12, 31).number; }
static void weekday(void) { number = robijan_weekday(36524).number; }
static void statement_day(void) { number = robijan_statement_day(9497).number; }
static void business_day(void) { number = robijan_business_day(9497, list, 4).number; }
static void final_statement(void) { number = robijan_final_statement(9497, list, 4).number; }
static void residual_due(void) { number = robijan_residual_due(2026, 1, list, 4).number; }

static int wrong;

static void measure(const char *name, void (*call)(void))
{
    size_t taken = depth(call);
    printf("%-16s %5zu bytes\n", name, taken);
    if (number != ROBIJAN_ACCEPTED || taken >= PROMISED) {
        printf("%s: number %" PRIu64 ", more than %d bytes or not accepted\n", name, number, PROMISED - 1);
        wrong = 1;
    }
}

int main(void)
{
    measure("no call", nothing);
    measure("size", size);
    measure("open", open_book);
    write_file(FIRST, 0);
    measure("submit", submit);
    measure("close", close_day);
    write_file(FIRST + 1, 1);
    measure("submit", submit);
    measure("judge", judge);
    measure("close, residuals", close_day);
    measure("price", price);
    measure("share", share);
    measure("second share", second_share);
    measure("tranche", tranche);
    measure("profile", check_profile);
    measure("pack", pack);
    measure("unpack", unpack);
    measure("date", date);
    measure("day", day);
    measure("weekday", weekday);
    measure("statement day", statement_day);
    measure("business day", business_day);
    measure("final statement", final_statement);
    measure("residual due", residual_due);
    return wrong;
}
