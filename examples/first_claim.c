/* Opens a book on 4 April 2023, works a transfer that was agreed for 15 March, and prints the claim that it gives. */
#include <claim_tracker.h>
#include <inttypes.h>
#include <stdio.h>
#include <string.h>

static uint32_t calendar[CLAIM_TRACKER_CALENDAR_WORDS];
static uint64_t balances[CLAIM_TRACKER_BALANCE_WORDS];

/* Security 0 pays half a cent on the dollar on 15 April and on 15 May 2023; the others are unused. */
static const uint32_t tables[CLAIM_TRACKER_TABLE_WORDS] = {
    CLAIM_TRACKER_SECURITY_AGENCY_MBS, CLAIM_TRACKER_FREQUENCY_MONTHLY,
    20230401, 20230401, 20230415, 5000000, 0, 0, 0,
    20230501, 20230501, 20230515, 5000000, 0, 0, 0};

/* Any par of a security can be delivered. */
static const uint32_t pieces[CLAIM_TRACKER_PIECE_WORDS] = {1, 1, 1, 1, 1, 1, 1, 1, 1, 1, 1, 1, 1, 1, 1, 1};

/* Opens Monday to Friday; January 2000 begins on a Saturday. */
static void open_weekdays(void) {
    static const int days[12] = {31, 28, 31, 30, 31, 30, 31, 31, 30, 31, 30, 31};
    for (int month = 0, weekday = 5; month < CLAIM_TRACKER_CALENDAR_WORDS; month++)
        for (int day = 0; day < days[month % 12] + (month % 48 == 1); day++, weekday = (weekday + 1) % 7)
            if (weekday < 5) calendar[month] |= UINT32_C(1) << day;
}

int main(void) {
    struct claim_tracker_transfer_fields fields = {.sender = 1, .receiver = 2, .security = 0, .par = 200000};
    uint8_t lines[2][CLAIM_TRACKER_LINE_BYTES], message[CLAIM_TRACKER_TRANSFER_BYTES];
    uint8_t claims[CLAIM_TRACKER_CLAIM_ROOM(CLAIM_TRACKER_MOST_TRANSFER_CLAIMS)];
    memset(lines, ' ', sizeof lines);
    memcpy(lines[0], "{98A:CNTR/20230315}", 19);
    open_weekdays();
    struct claim_tracker_done done = claim_tracker_open(calendar, 480, tables, 1824, balances, CLAIM_TRACKER_BALANCE_WORDS, 20230404);
    if (claim_tracker_write_transfer(message, sizeof message, fields, lines[0], lines[1]) != 0) return 1;
    if (done.number == 0)
        done = claim_tracker_transfer(calendar, 480, tables, 1824, pieces, CLAIM_TRACKER_PIECE_WORDS, done.book, balances,
                                      CLAIM_TRACKER_BALANCE_WORDS, message, sizeof message, claims, sizeof claims);
    printf("%u %s, transfer %u\n", done.number, claim_tracker_text(done.number), done.book.count);
    for (size_t i = 0; i < done.claims; i++) {
        struct claim_tracker_claim claim = claim_tracker_read_claim(claims + CLAIM_TRACKER_CLAIM_ROOM(i), CLAIM_TRACKER_CLAIM_BYTES).claim;
        printf("account %u pays account %u %" PRIu64 " cents of interest on %u\n", claim.payer, claim.payee, claim.interest, claim.release);
    }
    return done.number != 0;
}
