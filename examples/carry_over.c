/* Carries a book over that was saved on 31 March 2023 with the balances on loan alone, works a return on it and closes the day. */
#include <claim_tracker.h>
#include <inttypes.h>
#include <stdio.h>
#include <string.h>

static uint32_t calendar[CLAIM_TRACKER_CALENDAR_WORDS];
static uint64_t balances[CLAIM_TRACKER_BALANCE_WORDS];

/* What was saved: of security 0, account 1 has lent 15,000 to account 2. */
static const struct claim_tracker_book saved_book = {.day = 20230331, .count = 3};
static const uint64_t saved[CLAIM_TRACKER_LENDING_WORDS] = {[16 * 1 + 2] = 15000};

/* Security 0 pays half a cent on the dollar on 15 April and on 15 May 2023; the others are unused. */
static const uint32_t tables[CLAIM_TRACKER_TABLE_WORDS] = {
    CLAIM_TRACKER_SECURITY_AGENCY_MBS, CLAIM_TRACKER_FREQUENCY_MONTHLY,
    20230401, 20230401, 20230415, 5000000, 0, 0, 0,
    20230501, 20230501, 20230515, 5000000, 0, 0, 0};

/* Any par of a security can be delivered. */
static const uint32_t pieces[CLAIM_TRACKER_PIECE_WORDS] = {1, 1, 1, 1, 1, 1, 1, 1, 1, 1, 1, 1, 1, 1, 1, 1};

/* Opens Monday to Friday; January 2000 begins on a Saturday. */
static void open_weekdays(void) {
    static const int days[12] = {31, 28, 31, 30, 31, 30, 31, 31, 30, 31, 30, 31};
    for (int month = 0, weekday = 5; month < CLAIM_TRACKER_CALENDAR_WORDS; month++)
        for (int day = 0; day < days[month % 12] + (month % 48 == 1); day++, weekday = (weekday + 1) % 7)
            if (weekday < 5) calendar[month] |= UINT32_C(1) << day;
}

/* Prints what a call answers. */
static int is_accepted(const char *call, struct claim_tracker_done done) {
    printf("%s: %u %s, day %" PRIu32 ", transfer %" PRIu32 "\n", call, done.number, claim_tracker_text(done.number), done.book.day,
           done.book.count);
    return done.number == CLAIM_TRACKER_ACCEPTED;
}

int main(void) {
    struct claim_tracker_transfer_fields fields = {.sender = 2, .receiver = 1, .code = CLAIM_TRACKER_CODE_CLSL, .par = 5000};
    uint8_t lines[2][CLAIM_TRACKER_LINE_BYTES], message[CLAIM_TRACKER_TRANSFER_BYTES], close[CLAIM_TRACKER_CLOSE_BYTES];
    uint8_t claims[CLAIM_TRACKER_CLAIM_ROOM(1)];
    memset(lines, ' ', sizeof lines);
    open_weekdays();
    if (claim_tracker_write_transfer(message, sizeof message, fields, lines[0], lines[1]) != 0) return 1;
    if (claim_tracker_write_close(close, sizeof close) != 0) return 1;
    struct claim_tracker_done done = claim_tracker_carry_over(calendar, CLAIM_TRACKER_CALENDAR_WORDS, saved_book, saved,
                                                              CLAIM_TRACKER_LENDING_WORDS, balances, CLAIM_TRACKER_BALANCE_WORDS);
    if (!is_accepted("carry over", done)) return 1;
    done = claim_tracker_transfer(calendar, CLAIM_TRACKER_CALENDAR_WORDS, tables, CLAIM_TRACKER_TABLE_WORDS, pieces,
                                  CLAIM_TRACKER_PIECE_WORDS, done.book, balances, CLAIM_TRACKER_BALANCE_WORDS, message, sizeof message,
                                  claims, sizeof claims);
    if (!is_accepted("return of 5,000", done)) return 1;
    done = claim_tracker_close(calendar, CLAIM_TRACKER_CALENDAR_WORDS, tables, CLAIM_TRACKER_TABLE_WORDS, done.book, balances,
                               CLAIM_TRACKER_BALANCE_WORDS, close, sizeof close, claims, sizeof claims);
    if (!is_accepted("close", done)) return 1;
    for (size_t i = 0; i < done.claims; i++) {
        struct claim_tracker_claim claim = claim_tracker_read_claim(claims + CLAIM_TRACKER_CLAIM_ROOM(i), CLAIM_TRACKER_CLAIM_BYTES).claim;
        printf("account %u pays account %u %" PRIu64 " cents of interest on %" PRIu32 "\n", claim.payer, claim.payee, claim.interest,
               claim.release);
    }
    return 0;
}
