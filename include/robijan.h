/* Robijan: the settlement book of Singapore's residual vesting scheme, for programs in C and C++ on x86-64 Linux.
 *
 * Link target/staticlib/librobijan.a, which `tools/archive` writes:
 *
 *     cc -std=c99 -Iinclude program.c target/staticlib/librobijan.a -o program
 *
 * The library needs memcpy and memset of the C library and nothing else.
 *
 * WHAT IT KEEPS. Accounts hold vesting contracts, which fix the price of a quantity for each of a day's 48 half-hours. A book is opened for
 * some accounts, takes submission files with the data of each account and day, and is closed day by day. A close posts to each account one
 * amount, in whole cents. Summed over the day's intervals it is what the contracts come to, (contract price - V) * quantity, with V the
 * account's own reference price at that interval; and from day first + lag on, what its share of the load that no contract covered `lag` days
 * earlier comes to, (RVP1 - V) * first part + (RVP2 - V) * second part, with the V, prices and quantities of that earlier day. Shares are whole
 * kWh. Those of an earlier day before `change`, or of every day where `change` is 0, are rounded down (the first edition); those of an earlier day from
 * `change` on use every kWh (the second). What counts is the earlier day, not the day closed. The day's sum is
 * rounded once, to the nearest cent, a tie away from zero. The MSSL (the buyer for small consumers) is posted minus the sum of these amounts,
 * so that the balances of a book that only these calls have changed total zero. Its exact amount is minus the sum of the accounts' unrounded
 * ones; a close returns the rounding difference, by which the posted one exceeds it, and the book keeps the running sum.
 *
 * UNITS
 *   day              days since 1 January 2000, 0 to 36,524 (31 December 2099); 1 January 2026 is 9,497
 *   interval         a half-hour of a day, 0 to 47
 *   quantity         whole kWh, 0 to 10,000,000; metered injection (IEQ) -10,000,000 to 10,000,000
 *   NCC load         the load of the small consumers of an interval, whole kWh, 0 to 1,000,000,000
 *   price            whole cents per MWh, -1,000,000 to 1,000,000
 *   amount, balance  whole cents; above 0 is owed to the account
 *   difference       of rounding: whole thousandths of a cent, as kWh times price is; above 0 the MSSL is posted more than its exact amount
 *
 * MEMORY. The caller owns all memory. The library allocates none, keeps no pointer after a call returns and has no state of its own, so a
 * book may be copied, stored in a file, mapped and moved between calls. A list is a pointer and then its length in elements:
 *   - the pointer is not NULL and is aligned to its element (8 bytes for int64_t), even where the length is 0;
 *   - so many elements are there; those to be written may hold anything, as malloc gives them;
 *   - a list that a call writes (one without const) overlaps no other list of that call. Lists that are only read may overlap.
 * These are all the demands there are. Every value of every argument is answered: numbers out of range, books with any content, files of
 * any bytes. No call reads or writes outside its lists, fails to end, or aborts the program; a refused call has changed no lent word or
 * byte, an accepted one only what is said below. A call takes less than 16 KiB of stack.
 *
 * A PROCESS THAT DIES. An accepted call changes its words one after another. Where the process dies in the midst of it, the words are neither
 * the book before nor the book after, and no call can tell. So never lend the only copy: copy the book (or keep its file as it is), make the
 * calls on the copy, and when they are accepted write it to a new file, sync that, and rename it over the old one, as examples/settlement.c
 * does. A preview of a close is a close on a copy that is thrown away.
 *
 * THREADS. A call touches its lists and its stack. Calls on different memory may run at the same time; calls that share a list may, if none
 * of them writes it; else the caller takes turns.
 *
 * ANSWERS. Each has a number: 0 for accepted, else why the call was refused. A position is that of the refusal, and 0 where the number has
 * none; in a refused answer every other figure is 0. Checks are tried in the order of the list that each call gives, and the first that
 * strikes is answered.
 *
 * CHANGES. The calls of document 01 and its numbers 0 to 14 are as they were, but for what is said here. New with document 02:
 *   P1   robijan_profile, number 15
 *   P2   robijan_second_share; robijan_terms has a fifth field, `change`: every program that passes it (robijan_open, robijan_book_size) is compiled
 *        again and sets the field. 0, as an initialiser that leaves the field out gives it, opens the book of before. Word 7 of a book, zero until
 *        then, holds it: a book opened before P2 is one whose `change` is 0, and keeps the first edition.
 *   P3   nothing that a program sees
 *   P4   robijan_pack, robijan_unpack, number 16
 *   P5   robijan_answer has a fifth field, `difference`: every program that calls robijan_open, robijan_submit or robijan_close is compiled again.
 *        The struct is returned through memory, now as before: in a program that is not, each of these calls writes 8 bytes beyond its answer.
 *        Word 8 of a book, zero until then, holds the sum of the differences: a book opened and closed before P5 has 0 there and is well formed,
 *        but its sum counts only from the next close on.
 */
#ifndef ROBIJAN_H
#define ROBIJAN_H

#include <stddef.h>
#include <stdint.h>

#ifdef __cplusplus
extern "C" {
#endif

enum {
    ROBIJAN_ACCEPTED = 0,
    ROBIJAN_OUTSIDE_RANGE = 1,       /* a parameter, or a list's length, outside its range; MEP and IEQ lists of unequal length */
    ROBIJAN_WORDS_TOO_FEW = 2,       /* an opening got fewer words than the book takes */
    ROBIJAN_NOT_WELL_FORMED = 3,     /* the words lent are not a well-formed book */
    ROBIJAN_FIELD_NOT_WHOLE = 4,     /* the file ends before or within the field at byte `position` */
    ROBIJAN_FIELD_OUT_OF_RANGE = 5,  /* the account, count or value at byte `position` is out of range */
    ROBIJAN_DAY_NOT_OPEN = 6,        /* the day at byte `position` takes no such row, or none any more */
    ROBIJAN_ROW_REPEATED = 7,        /* the row whose day is at byte `position` was given earlier in the same section */
    ROBIJAN_BYTES_AFTER_END = 8,     /* bytes follow the last section, from byte `position` */
    ROBIJAN_BOOK_FINISHED = 9,       /* 31 December 2099 is closed */
    ROBIJAN_OUTPUT_TOO_SHORT = 10,   /* the list to be written is too short */
    ROBIJAN_DATUM_ABSENT = 11,       /* a datum that the close needs was not given; word `position` of the book is its flag */
    ROBIJAN_NO_SUCH_DATE = 12,       /* no such date or month in 2000 to 2099, or day outside 0 to 36,524 */
    ROBIJAN_BAD_HOLIDAYS = 13,       /* holidays are not strictly ascending days */
    ROBIJAN_PAST_LAST_DAY = 14,      /* the day asked for is past 31 December 2099 */
    ROBIJAN_TOTAL_IMPOSSIBLE = 15,   /* no profile could have this total within the limits */
    ROBIJAN_PACKED_FIELD_WRONG = 16  /* a digit or the sign in byte `position` of packed fields is wrong, or the last field, from there on, is cut */
};

/* open, submit, close; day, count and difference 0 but for a close */
typedef struct { uint64_t number, position, day, count; int64_t difference; } robijan_answer;
typedef struct { uint64_t number, words; } robijan_size_answer;
typedef struct { uint64_t number; int64_t price; } robijan_price_answer;
typedef struct { uint64_t number; int64_t first, second; } robijan_tranche_answer;
typedef struct { uint64_t number, keeps; } robijan_profile_answer;
typedef struct { uint64_t number, position, count; } robijan_unpack_answer;
typedef struct { uint64_t number, year, month, day; } robijan_date_answer;
typedef struct { uint64_t number, day; } robijan_day_answer;
typedef struct { uint64_t number, weekday; } robijan_weekday_answer;
typedef struct { uint64_t number, business; } robijan_business_answer;

/* ---- The book */

typedef struct {
    uint64_t accounts; /* 1 to 32, numbered from 0 */
    uint64_t lag;      /* 1 to 75: after how many days the uncovered load of a day is settled (the market rule says 75) */
    uint64_t horizon;  /* 1 to 92: how many days, from the next one to close, rows may be given for */
    uint64_t first;    /* 9,497 to 36,524: the first day to close */
    uint64_t change;   /* 0, for never, or 9,497 to 36,524, before `first` too: from which day on the uncovered load of a day is shared by the second
                        * edition; no call changes it later */
} robijan_terms;

/* A book takes 64 + 8 * accounts + 48 * (lag + horizon) * (4 + 24 * accounts) words: 5,072 for 2 accounts, lag 1 and horizon 1, and
 * 6,188,672 (49.5 MB) for the largest. More words may be lent; those beyond are neither read nor written. All words may be read at any time;
 * they are the library's to write. A book that another hand has changed is refused only where its form shows it: ranges, zeros, rows of
 * closed days, bounds of balances and of the differences' sum. A price, a balance, that sum or the change day changed within its range is not
 * noticed.
 *
 * LAYOUT, by index:
 *   0        395
 *   1 to 4   accounts, lag, horizon, first
 *   5        C, the next day to close; 36,525 when all are closed
 *   6        the MSSL's balance
 *   7        change
 *   8        the sum of the differences so far, at most 500 * accounts * (C - first) either way; 9 to 63 are zero
 *   ROBIJAN_WORD_BALANCE(account)   the account's balance; seven zeros follow
 *   from 64 + 8 * accounts on       lag + horizon slots of 48 intervals each; day d has slot (d - first) mod (lag + horizon)
 * An interval has ROBIJAN_INTERVAL_WORDS(accounts) words: the NCC load, its flag, two zeros, then 24 words an account:
 *   0        vesting flag: 0 absent, else 1 + tender contracts; 1, 2: BVQ, BVP; 3 to 8: TVQ, TVP of each tender contract
 *   9        meter flag: 0 absent, else facilities; 10 to 17: MEP, IEQ of each facility
 *   18       residual flag: 0 or 1; 19 to 22: UEGQ, MQ, RVP1, RVP2; 23: zero
 * So the position of a close's 11 says what is missing: a vesting or meter row of day C, or the NCC row or a residual row of day C - lag. */
enum {
    ROBIJAN_WORD_ACCOUNTS = 1,
    ROBIJAN_WORD_LAG = 2,
    ROBIJAN_WORD_NEXT_DAY = 5,
    ROBIJAN_WORD_MSSL_BALANCE = 6,
    ROBIJAN_WORD_CHANGE = 7,
    ROBIJAN_WORD_DIFFERENCES = 8,
    ROBIJAN_INTERVAL_NCC_FLAG = 1,   /* in an interval */
    ROBIJAN_INTERVAL_ACCOUNTS = 4,
    ROBIJAN_ACCOUNT_WORDS = 24,      /* of an account in an interval */
    ROBIJAN_ACCOUNT_VESTING_FLAG = 0,
    ROBIJAN_ACCOUNT_METER_FLAG = 9,
    ROBIJAN_ACCOUNT_RESIDUAL_FLAG = 18
};
#define ROBIJAN_WORD_BALANCE(account) (64 + 8 * (account))
#define ROBIJAN_WORD_FIRST_INTERVAL(accounts) (64 + 8 * (accounts))
#define ROBIJAN_INTERVAL_WORDS(accounts) (4 + 24 * (accounts))

/* How many words a book of these terms takes. All of them are judged, as by an opening; first and change have no part in the size. Refused: 1. */
robijan_size_answer robijan_book_size(robijan_terms terms);

/* Opens a book: writes every word of its size, whatever they held. Refused: 1, 2. */
robijan_answer robijan_open(int64_t *book, size_t book_words, robijan_terms terms);

/* Takes a whole submission file, or refuses it and stores nothing of it. Refused: 3, then 4 to 8 at the first faulty field, in file order.
 *
 * A file has four sections in this order, each a count of rows (2 bytes) and then that many rows in any order. All is little-endian; a value
 * is 4 bytes in two's complement, and a row has the values of interval 0, then of 1, to 47. With C the next day to close:
 *
 *   section       a row                                                                           days
 *   1 vesting     account (1 byte), day (2), tender contracts 0 to 3 (1); BVQ, BVP, and for each   C to C + horizon - 1
 *                 tender contract TVQ, TVP: quantity and price of the base and tender contracts
 *   2 meter       account, day, facilities 1 to 4 (1); for each facility MEP, IEQ: its price       C to C + horizon - 1
 *                 and metered injection
 *   3 residual    account, day; UEGQ (spare generation), MQ (the most that the base contract       C - lag to C + horizon - 1,
 *                 could have given; 0 without one), RVP1, RVP2 (prices of the share's two parts)   from the first day on
 *   4 NCC         day; NCC load                                                                    as in section 3
 *
 * No day is past 36,524. A row given again in a later file replaces the one before. Eight zero bytes are a file without rows. */
robijan_answer robijan_submit(int64_t *book, size_t book_words, const uint8_t *file, size_t file_bytes);

/* Closes the next day. Needed are every account's vesting and meter row of that day and, from day first + lag on, the NCC row and every
 * account's residual row of the day `lag` days earlier. Accepted, it writes accounts + 1 amounts to the statement, the MSSL's last (words
 * beyond are kept), and adds them to the balances; `day` is the day closed, `count` how many residuals (account and interval) were settled.
 * `difference` is by how many thousandths of a cent 1,000 times the MSSL's posted cents exceed its exact amount of that day, at most
 * accounts * 500 either way; it is added to word 8. Refused: 3, 9, 10, 11. */
robijan_answer robijan_close(int64_t *book, size_t book_words, int64_t *statement, size_t statement_words);

/* 0 for a well-formed book, as every accepted call leaves it; else 3. The other calls ask this themselves. */
uint64_t robijan_judge(const int64_t *book, size_t book_words);

/* ---- Reference price, shares, tranches, profiles: no book */

/* V of 1 to 4 facilities: the average of their prices (MEP) weighted with their injections (IEQ), negative ones counting 0; the simple
 * average where all weights are 0; to the nearest cent per MWh, a tie away from zero. Refused: 1. */
robijan_price_answer robijan_price(const int64_t *mep, size_t meps, const int64_t *ieq, size_t ieqs);

/* First edition: shares the residual load (-1,280,000,000 to 1,000,000,000 kWh) among 1 to 32 accounts in proportion to their spare generation, each at
 * most that, rounded down, and zeros where the residual is 0 or less or there is none to spare; one word an account is written, words beyond
 * are kept. Returns the number. Refused: 1, 10. */
uint64_t robijan_share(int64_t residual, const int64_t *uegq, size_t uegqs, int64_t *output, size_t output_words);

/* Second edition: the same, but the shares total exactly the smaller of the residual load (0 if negative) and `all`, the sum of all spare
 * generation. Where 0 < residual < all, account a gets, each quotient rounded down,
 *
 *     residual * (uegq[0] + .. + uegq[a]) / all  -  residual * (uegq[0] + .. + uegq[a - 1]) / all
 *
 * so that 2 kWh among accounts with 1, 1 and 1 are shared 0, 1, 1. Returns the number. Refused: 1, 10. */
uint64_t robijan_second_share(int64_t residual, const int64_t *uegq, size_t uegqs, int64_t *output, size_t output_words);

/* The parts of a share, all three being quantities: `first` is at most what the base contract (BVQ) left of MQ, 0 where BVQ is MQ or more;
 * `second` is the rest. Refused: 1. */
robijan_tranche_answer robijan_tranche(int64_t rvq, int64_t bvq, int64_t mq);

/* Whether a forecaster's profile of a day, 48 quantities, keeps its limits. The intervals at indices 0 and 1, 2 and 3, .. are a Gas Balancing
 * Period each; its kWh may be from 80 to 125 per cent of `contracted`, both ends included, and the day's must be `total`. `contracted` is the
 * daily contracted quantity in kWh for one such period, 0 to 10,000,000; `total` is 0 to 480,000,000. `keeps` is 1 if all of this is so, else
 * 0. Refused: 1, for a list not of 48 too; then 15 where no 48 quantities could keep these limits, whatever those given are. */
robijan_profile_answer robijan_profile(const int64_t *profile, size_t intervals, int64_t total, int64_t contracted);

/* ---- Statements in packed decimal: no book
 *
 * A statement here is 2 to 33 amounts; its fields stand one after another. A field is an amount in 8 bytes: 15 digits, most significant first,
 * two a byte, and a last half byte for the sign, hex C for zero and above, hex D below zero. 2,400 is 00 00 00 00 00 02 40 0C, -1 is
 * 00 00 00 00 00 00 00 1D. Only one field stands for each amount, so zero with D is wrong. */
enum { ROBIJAN_PACKED_FIELD_BYTES = 8 };

/* Writes a statement as `count` fields; bytes beyond are kept. Every statement that robijan_close writes fits. Returns the number. Refused: 1,
 * for fewer than 2 or more than 33 amounts, and for an amount of more than 15 digits; then 10, for fewer than 8 * count bytes. */
uint64_t robijan_pack(const int64_t *amounts, size_t count, uint8_t *output, size_t output_bytes);

/* Reads such fields back: `count` is how many amounts were written, words beyond are kept. Refused: 1, for fewer than 2 or more than 33 whole
 * fields (15 bytes are one); 10, for fewer words than whole fields; then 16, `position` being, field by field, the byte of the first digit or
 * sign that is wrong, or the last byte of a zero with D, and after all whole fields the first byte of one that is cut. */
robijan_unpack_answer robijan_unpack(const uint8_t *fields, size_t field_bytes, int64_t *output, size_t output_words);

/* ---- The trading calendar: no book. Holidays are days, strictly ascending. */

/* The date of a day. Refused: 12. */
robijan_date_answer robijan_date(int64_t day);

/* The day of a date. Refused: 12. */
robijan_day_answer robijan_day(int64_t year, int64_t month, int64_t day);

/* 0 for Saturday, 1 for Sunday, to 6 for Friday. Refused: 12. */
robijan_weekday_answer robijan_weekday(int64_t day);

/* The day 75 days later. Refused: 12, 14. */
robijan_day_answer robijan_statement_day(int64_t day);

/* 1 for Monday to Friday and no holiday, else 0. Refused: 12, 13. */
robijan_business_answer robijan_business_day(int64_t day, const int64_t *holidays, size_t listed);

/* The tenth business day after the statement day of `day`, which is 75 days later. Refused: 12, 13, 14. */
robijan_day_answer robijan_final_statement(int64_t day, const int64_t *holidays, size_t listed);

/* When a month's residual data fall due: the first business day after the 10th of the second month following. Refused: 12, 13, 14. */
robijan_day_answer robijan_residual_due(int64_t year, int64_t month, const int64_t *holidays, size_t listed);

#ifdef __cplusplus
}
#endif

#endif
