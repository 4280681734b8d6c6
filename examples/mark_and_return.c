/* Tries a day's work and goes back: a book with a loan is marked, its day is closed, and after the return to the mark the day goes otherwise. */
#include <claim_tracker.h>
#include <inttypes.h>
#include <stdio.h>
#include <string.h>

static uint32_t calendar[CLAIM_TRACKER_CALENDAR_WORDS];
static uint64_t balances[CLAIM_TRACKER_BALANCE_WORDS];
static uint64_t store[CLAIM_TRACKER_STORE_WORDS]; /* zeros: no mark is set */

/* Security 0 pays half a cent on the dollar on 15 April and on 15 May 2023; the others are unused. */
static const uint32_t tables[CLAIM_TRACKER_TABLE_WORDS] = {
    CLAIM_TRACKER_SECURITY_AGENCY_MBS, CLAIM_TRACKER_FREQUENCY_MONTHLY,
    20230401, 20230401, 20230415, 5000000, 0, 0, 0,
    20230501, 20230501, 20230515, 5000000, 0, 0, 0};

/* Any par of a security can be delivered. */
static const uint32_t pieces[CLAIM_TRACKER_PIECE_WORDS] = {1, 1, 1, 1, 1, 1, 1, 1, 1, 1, 1, 1, 1, 1, 1, 1};

/* Opens Monday to Friday; January 2000 begins on a Saturday. */
static void open_weekdays(void) {
    static const int days[12] = {31, 28, 31, 30, 31, 30, 31, 31, 30, 31, 30, 31};
    for (int month = 0, weekday = 5; month < CLAIM_TRACKER_CALENDAR_WORDS; month++)
        for (int day = 0; day < days[month % 12] + (month % 48 == 1); day++, weekday = (weekday + 1) % 7)
            if (weekday < 5) calendar[month] |= UINT32_C(1) << day;
}

/* Prints what a call answers, and gives its book. */
static struct claim_tracker_book told(const char *call, struct claim_tracker_done done) {
    printf("%s: %u %s, day %" PRIu32 ", transfer %" PRIu32 "\n", call, done.number, claim_tracker_text(done.number), done.book.day,
           done.book.count);
    return done.book;
}

/* Works a transfer of security 0 with a tracking code. */
static struct claim_tracker_done transfer(struct claim_tracker_book book, uint8_t sender, uint8_t receiver, uint8_t code, uint32_t par) {
    struct claim_tracker_transfer_fields fields = {.sender = sender, .receiver = receiver, .code = code, .par = par};
    uint8_t lines[2][CLAIM_TRACKER_LINE_BYTES], message[CLAIM_TRACKER_TRANSFER_BYTES], claims[1];
    memset(lines, ' ', sizeof lines);
    if (claim_tracker_write_transfer(message, sizeof message, fields, lines[0], lines[1]) != 0) memset(message, 0, sizeof message);
    return claim_tracker_transfer(calendar, CLAIM_TRACKER_CALENDAR_WORDS, tables, CLAIM_TRACKER_TABLE_WORDS, pieces,
                                  CLAIM_TRACKER_PIECE_WORDS, book, balances, CLAIM_TRACKER_BALANCE_WORDS, message, sizeof message, claims,
                                  0);
}

/* Closes the day and prints the claims. */
static struct claim_tracker_book close_day(struct claim_tracker_book book) {
    static const uint8_t close[CLAIM_TRACKER_CLOSE_BYTES] = {2, 0, 2, 0};
    uint8_t claims[CLAIM_TRACKER_CLAIM_ROOM(1)];
    struct claim_tracker_done done =
        claim_tracker_close(calendar, CLAIM_TRACKER_CALENDAR_WORDS, tables, CLAIM_TRACKER_TABLE_WORDS, book, balances,
                            CLAIM_TRACKER_BALANCE_WORDS, close, sizeof close, claims, sizeof claims);
    book = told("close", done);
    for (size_t i = 0; i < done.claims; i++) {
        struct claim_tracker_claim claim = claim_tracker_read_claim(claims + CLAIM_TRACKER_CLAIM_ROOM(i), CLAIM_TRACKER_CLAIM_BYTES).claim;
        printf("account %u pays account %u %" PRIu64 " cents of interest on %" PRIu32 "\n", claim.payer, claim.payee, claim.interest,
               claim.release);
    }
    return book;
}

int main(void) {
    open_weekdays();
    struct claim_tracker_book book = claim_tracker_open(calendar, CLAIM_TRACKER_CALENDAR_WORDS, tables, CLAIM_TRACKER_TABLE_WORDS, balances,
                                                        CLAIM_TRACKER_BALANCE_WORDS, 20230331).book;
    book = told("loan of 15,000", transfer(book, 1, 2, CLAIM_TRACKER_CODE_SLST, 15000));
    uint16_t number = claim_tracker_set_mark(calendar, CLAIM_TRACKER_CALENDAR_WORDS, book, balances, CLAIM_TRACKER_BALANCE_WORDS, store,
                                             CLAIM_TRACKER_STORE_WORDS, 1);
    printf("set mark 1: %u %s\n", number, claim_tracker_text(number));
    book = close_day(book);
    book = told("return to mark 1",
                claim_tracker_return_to_mark(calendar, CLAIM_TRACKER_CALENDAR_WORDS, book, balances, CLAIM_TRACKER_BALANCE_WORDS, store,
                                             CLAIM_TRACKER_STORE_WORDS, 1)); /* the claim of that close is to be dropped */
    book = told("return of 5,000", transfer(book, 2, 1, CLAIM_TRACKER_CODE_CLSL, 5000));
    close_day(book);
    return 0;
}
