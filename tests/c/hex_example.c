/* Replays document 01's hex example through the exported functions: the book opened on 20230404 with the cases' tables, the first
   case's transfer from account 1 to 2, and all bytes that come out. Then the codecs both ways, two payments that wait for their Payment
   Dates, an interim claim, a close, refusals, both calls on the caller's own book, a repo beside a loan, date limits, half a book,
   minimum pieces, days before 20230130, a saved book of loans that is carried over, and marks that are set and returned to. */
#include <string.h>

#include "checking.h"
#include "claim_tracker.h"

enum { WORDS = CLAIM_TRACKER_BALANCE_WORDS, REPO = 4096 }; /* REPO: the first word of repos */

static uint32_t calendar[CLAIM_TRACKER_CALENDAR_WORDS];
static uint32_t tables[CLAIM_TRACKER_TABLE_WORDS];
static uint64_t balances[WORDS];
static const uint32_t published[CLAIM_TRACKER_LIMIT_WORDS] = {7, 6, 3, 2, 1};
static const uint32_t ones[CLAIM_TRACKER_PIECE_WORDS] = {1, 1, 1, 1, 1, 1, 1, 1, 1, 1, 1, 1, 1, 1, 1, 1};

static int month_length(int year, int month) {
    static const int lengths[12] = {31, 28, 31, 30, 31, 30, 31, 31, 30, 31, 30, 31};
    return lengths[month] + (month == 1 && year % 4 == 0);
}

/* Monday to Friday; 1 January 2000 is a Saturday, and no year divisible by 100 but 2000 occurs. */
static void weekdays(void) {
    int weekday = 5;
    for (int m = 0; m < CLAIM_TRACKER_CALENDAR_WORDS; m++) {
        calendar[m] = 0;
        for (int d = 0; d < month_length(2000 + m / 12, m % 12); d++) {
            if (weekday < 5) calendar[m] |= (uint32_t)1 << d;
            weekday = (weekday + 1) % 7;
        }
    }
}

/* Security 0: agency MBS, monthly, rows for April and May 2023. */
static void case_tables(void) {
    static const uint32_t words[16] = {3,        1,        20230401, 20230401, 20230415, 5000000, 0, 0,
                                       0,        20230501, 20230501, 20230515, 5000000,  0,       0, 0};
    memset(tables, 0, sizeof tables);
    memcpy(tables, words, sizeof words);
}

/* Limits that break one rule each. */
static const struct {
    const char *name;
    size_t words;
    uint32_t limits[6];
} broken[] = {
    {"no limits", 0, {7, 6, 3, 2, 1}},
    {"four limits", 4, {7, 6, 3, 2, 1}},
    {"six limits", 6, {7, 6, 3, 2, 1, 1}},
    {"an MBS limit of 0", 5, {0, 6, 3, 2, 1}},
    {"an annual limit of 0", 5, {7, 6, 3, 2, 0}},
    {"an MBS limit of 17", 5, {17, 6, 3, 2, 1}},
    {"a monthly limit of 17", 5, {7, 17, 3, 2, 1}},
    {"a quarterly limit above the monthly one", 5, {7, 6, 7, 2, 1}},
    {"a semiannual limit above the quarterly one", 5, {7, 6, 3, 4, 1}},
    {"an annual limit above the semiannual one", 5, {7, 6, 3, 2, 3}},
};

static struct claim_tracker_done with_limits(const uint32_t *limits, size_t limit_words, struct claim_tracker_book book,
                                             const uint8_t *message, size_t message_bytes, uint8_t *claims, size_t claim_bytes) {
    return claim_tracker_transfer_with_limits(calendar, 480, tables, 1824, limits, limit_words, ones, 16, book, balances, WORDS, message,
                                              message_bytes, claims, claim_bytes);
}

/* Pieces of another length, or with one number out of its range. */
static const struct {
    const char *name;
    size_t words, place;
    uint32_t piece;
} bad_pieces[] = {
    {"no pieces", 0, 0, 1},
    {"fifteen pieces", 15, 0, 1},
    {"seventeen pieces", 17, 0, 1},
    {"a piece of 0 in front", 16, 0, 0},
    {"a piece of 0 at the end", 16, 15, 0},
    {"a piece of 1,000,001", 16, 7, 1000001},
};

/* Transfers in security 0, whose piece is 1,000, where account 1 has lent account 2 40,500 of it on loan and 30,500 on repo. */
static const struct {
    const char *name;
    struct claim_tracker_transfer_fields fields;
    uint16_t number;
} by_piece[] = {
    {"a par on the piece", {1, 2, 0, 0, CLAIM_TRACKER_CODE_NONE, 200000}, 0},
    {"a par off the piece", {1, 2, 0, 0, CLAIM_TRACKER_CODE_NONE, 200500}, 14},
    {"a par off the piece that is a balance", {2, 1, 0, 0, CLAIM_TRACKER_CODE_NONE, 40500}, 14},
    {"a loan's start off the piece", {1, 2, 0, 0, CLAIM_TRACKER_CODE_SLST, 1500}, 14},
    {"a return of the whole balance", {2, 1, 0, 0, CLAIM_TRACKER_CODE_CLSL, 40500}, 0},
    {"a reversal of the whole balance", {2, 1, 0, 0, CLAIM_TRACKER_CODE_SLRV, 40500}, 0},
    {"a decrease of the whole balance", {2, 1, 0, 0, CLAIM_TRACKER_CODE_ADSR, 40500}, 0},
    {"a return of less on the piece", {2, 1, 0, 0, CLAIM_TRACKER_CODE_CLSL, 40000}, 0},
    {"a return of less off the piece", {2, 1, 0, 0, CLAIM_TRACKER_CODE_CLSL, 500}, 14},
    {"a return of more on the piece", {2, 1, 0, 0, CLAIM_TRACKER_CODE_CLSL, 41000}, 7},
    {"a return of more off the piece", {2, 1, 0, 0, CLAIM_TRACKER_CODE_CLSL, 41500}, 14},
    {"a return by the lender", {1, 2, 0, 0, CLAIM_TRACKER_CODE_CLSL, 40500}, 14},
    {"an increase of the balance's own par", {1, 2, 0, 0, CLAIM_TRACKER_CODE_SLST, 40500}, 14},
    {"a repo's close of a loan's balance", {2, 1, 0, 0, CLAIM_TRACKER_CODE_CLRP, 40500}, 14},
    {"a repo's close of its whole balance", {2, 1, 0, 0, CLAIM_TRACKER_CODE_CLRP, 30500}, 0},
    {"a loan's return of a repo's balance", {2, 1, 0, 0, CLAIM_TRACKER_CODE_CLSL, 30500}, 14},
};

/* A transfer in one of its three forms. */
static struct claim_tracker_done by_form(int form, struct claim_tracker_book book, const uint32_t *pieces, size_t piece_words,
                                         const uint8_t *message, uint8_t *claims, size_t claim_bytes) {
    if (form == 0)
        return claim_tracker_transfer(calendar, 480, tables, 1824, pieces, piece_words, book, balances, WORDS, message, 141, claims,
                                      claim_bytes);
    if (form == 1)
        return claim_tracker_transfer_with_limits(calendar, 480, tables, 1824, published, 5, pieces, piece_words, book, balances, WORDS,
                                                  message, 141, claims, claim_bytes);
    struct claim_tracker_reply reply = claim_tracker_transfer_in(calendar, 480, tables, 1824, pieces, piece_words, &book, balances, WORDS,
                                                                 message, 141, claims, claim_bytes);
    return (struct claim_tracker_done){reply.number, book, reply.claims};
}

/* Each form answers the number for a late delivery of these fields; refused, it leaves book, balances and claim buffer. */
static void check_pieces(const char *name, const uint32_t *pieces, size_t piece_words, struct claim_tracker_transfer_fields fields,
                         uint16_t number) {
    static uint64_t before[WORDS];
    uint8_t lines[2][64], message[141], claims[35], untouched[35];
    before[16 * 1 + 2] = 40500;
    before[REPO + 16 * 1 + 2] = 30500;
    memset(untouched, 0xaa, sizeof untouched);
    memset(lines, ' ', sizeof lines);
    memcpy(lines[0], "{98A:CNTR/20230315}", 19);
    check(name, claim_tracker_write_transfer(message, sizeof message, fields, lines[0], lines[1]) == 0);
    for (int form = 0; form < 3; form++) {
        memcpy(balances, before, sizeof before);
        memcpy(claims, untouched, sizeof claims);
        struct claim_tracker_done done =
            by_form(form, (struct claim_tracker_book){20230404, 0}, pieces, piece_words, message, claims, sizeof claims);
        check(name, done.number == number && done.book.day == 20230404 && done.book.count == (number == 0));
        if (number != 0)
            check(name, done.claims == 0 && memcmp(claims, untouched, sizeof claims) == 0 && memcmp(balances, before, sizeof before) == 0);
    }
}

/* Par on the piece and off it, what a whole balance allows, and pieces that are refused, of a loan too. */
static void minimum_pieces(void) {
    static const struct claim_tracker_transfer_fields fail = {1, 2, 0, 0, CLAIM_TRACKER_CODE_NONE, 200000},
                                                      start = {1, 2, 0, 0, CLAIM_TRACKER_CODE_SLST, 15000};
    uint32_t pieces[17];
    for (size_t i = 0; i < 17; i++) pieces[i] = 1;
    pieces[0] = 1000;
    for (size_t i = 0; i < sizeof by_piece / sizeof *by_piece; i++)
        check_pieces(by_piece[i].name, pieces, 16, by_piece[i].fields, by_piece[i].number);
    pieces[0] = 1;
    for (size_t i = 0; i < sizeof bad_pieces / sizeof *bad_pieces; i++) {
        pieces[bad_pieces[i].place] = bad_pieces[i].piece;
        check_pieces(bad_pieces[i].name, pieces, bad_pieces[i].words, fail, CLAIM_TRACKER_BAD_PIECES);
        check_pieces(bad_pieces[i].name, pieces, bad_pieces[i].words, start, CLAIM_TRACKER_BAD_PIECES);
        pieces[bad_pieces[i].place] = 1;
    }
    for (size_t i = 0; i < 16; i++) pieces[i] = 1000000;
    check_pieces("sixteen pieces of 1,000,000", pieces, 16, (struct claim_tracker_transfer_fields){1, 2, 0, 0, 0, 1000000}, 0);
}

/* The Beneficiary Dates of a pool: the day before that of six months before 20230127, that day, and ten more up to 20230127. */
static const uint32_t half_year[12] = {20220726, 20220727, 20220801, 20220901, 20221001, 20221101,
                                       20221201, 20230101, 20230110, 20230117, 20230126, 20230127};

/* Security 0: an agency MBS with these dates, of which the first is paid and all others wait until 20230228. Security 1: a Treasury with
   one that is paid. */
static void half_year_tables(void) {
    static const uint32_t note[9] = {1, 3, 20230115, 20230115, 20230116, 5000000, 0, 0, 0};
    memset(tables, 0, sizeof tables);
    tables[0] = CLAIM_TRACKER_SECURITY_AGENCY_MBS;
    tables[1] = CLAIM_TRACKER_FREQUENCY_MONTHLY;
    for (size_t r = 0; r < 12; r++) {
        uint32_t *row = tables + 2 + CLAIM_TRACKER_ROW_WORDS * r;
        row[0] = row[1] = half_year[r];
        row[2] = r == 0 ? 20220801 : 20230228;
        row[3] = 5000000;
    }
    memcpy(tables + CLAIM_TRACKER_SECURITY_WORDS, note, sizeof note);
}

/* Transfers on a day before the memo and on its first, where account 1 has lent account 2 40,500 of security 0 on loan. */
static const struct {
    const char *name;
    uint32_t day;
    const char *tag;
    struct claim_tracker_transfer_fields fields;
    uint16_t number;
    size_t claims;
} by_day[] = {
    {"eleven rows within six months", 20230127, "{98A:CNTR/20220601}", {1, 2, 0, 0, CLAIM_TRACKER_CODE_NONE, 200000}, 0, 11},
    {"the first that waits on the first day", 20230130, "{98A:CNTR/20220601}", {1, 2, 0, 0, CLAIM_TRACKER_CODE_NONE, 200000}, 0, 1},
    {"ten behind the earliest", 20230127, "{98A:CNTR/20220727}", {1, 2, 0, 0, CLAIM_TRACKER_CODE_NONE, 200000}, 0, 10},
    {"no fail of a Treasury", 20230127, "{98A:CNTR/20220601}", {1, 2, 1, 0, CLAIM_TRACKER_CODE_NONE, 200000}, 0, 0},
    {"one on the first day", 20230130, "{98A:CNTR/20220601}", {1, 2, 1, 0, CLAIM_TRACKER_CODE_NONE, 200000}, 0, 1},
    {"an empty tag", 20230127, "{98A:CNTR/}", {1, 2, 0, 0, CLAIM_TRACKER_CODE_NONE, 200000}, 0, 0},
    {"an empty tag of class 1", 20230127, "{98A:CNTR/}", {1, 2, 0, 1, CLAIM_TRACKER_CODE_NONE, 200000}, 0, 0},
    {"an empty tag of a repo", 20230127, "{98A:CNTR/}", {1, 2, 0, 0, CLAIM_TRACKER_CODE_RPST, 200000}, 0, 0},
    {"an empty tag of a loan", 20230127, "{98A:CNTR/}", {1, 2, 0, 0, CLAIM_TRACKER_CODE_SLST, 200000}, 15, 0},
    {"an empty tag on the first day", 20230130, "{98A:CNTR/}", {1, 2, 0, 0, CLAIM_TRACKER_CODE_NONE, 200000}, 135, 0},
    {"an empty tag of class 1 on the first day", 20230130, "{98A:CNTR/}", {1, 2, 0, 1, CLAIM_TRACKER_CODE_NONE, 200000}, 135, 0},
    {"an empty tag of a repo on the first day", 20230130, "{98A:CNTR/}", {1, 2, 0, 0, CLAIM_TRACKER_CODE_RPST, 200000}, 135, 0},
    {"a blank in a tag", 20230127, "{98A:CNTR/ }", {1, 2, 0, 0, CLAIM_TRACKER_CODE_NONE, 200000}, 135, 0},
    {"a blank in a loan's tag", 20230127, "{98A:CNTR/ }", {1, 2, 0, 0, CLAIM_TRACKER_CODE_SLST, 200000}, 135, 0},
    {"a date before 2000", 20230127, "{98A:CNTR/19991231}", {1, 2, 0, 0, CLAIM_TRACKER_CODE_NONE, 200000}, 135, 0},
    {"an empty tag twice", 20230127, "{98A:CNTR/}{98A:CNTR/}", {1, 2, 0, 0, CLAIM_TRACKER_CODE_NONE, 200000}, 132, 0},
    {"a tag without an end", 20230127, "{98A:CNTR/", {1, 2, 0, 0, CLAIM_TRACKER_CODE_NONE, 200000}, 133, 0},
    {"a loan's start", 20230127, "", {1, 2, 0, 0, CLAIM_TRACKER_CODE_SLST, 15000}, 15, 0},
    {"a reversal of a start", 20230127, "", {2, 1, 0, 0, CLAIM_TRACKER_CODE_SLRV, 40500}, 15, 0},
    {"a loan's return", 20230127, "", {2, 1, 0, 0, CLAIM_TRACKER_CODE_CLSL, 40500}, 15, 0},
    {"a reversal of a return", 20230127, "", {1, 2, 0, 0, CLAIM_TRACKER_CODE_CLSR, 15000}, 15, 0},
    {"the balance alone, up", 20230127, "", {1, 2, 0, 0, CLAIM_TRACKER_CODE_ADSL, 15000}, 15, 0},
    {"the balance alone, down", 20230127, "", {2, 1, 0, 0, CLAIM_TRACKER_CODE_ADSR, 40500}, 15, 0},
    {"a return above the balance", 20230127, "", {2, 1, 0, 0, CLAIM_TRACKER_CODE_CLSL, 40501}, 15, 0},
    {"a repo's start", 20230127, "", {1, 2, 0, 0, CLAIM_TRACKER_CODE_RPST, 15000}, 0, 0},
    {"a repo's close above the balance", 20230127, "", {2, 1, 0, 0, CLAIM_TRACKER_CODE_CLRP, 1}, 7, 0},
    {"a loan's start on the first day", 20230130, "", {1, 2, 0, 0, CLAIM_TRACKER_CODE_SLST, 15000}, 0, 0},
    {"a loan's return on the first day", 20230130, "", {2, 1, 0, 0, CLAIM_TRACKER_CODE_CLSL, 40500}, 0, 0},
};

static void write_tagged(uint8_t message[CLAIM_TRACKER_TRANSFER_BYTES], struct claim_tracker_transfer_fields fields, const char *tag) {
    uint8_t lines[2][CLAIM_TRACKER_LINE_BYTES];
    memset(lines, ' ', sizeof lines);
    memcpy(lines[0], tag, strlen(tag));
    check(tag, claim_tracker_write_transfer(message, CLAIM_TRACKER_TRANSFER_BYTES, fields, lines[0], lines[1]) == 0);
}

/* Each form answers the number and gives the claims; refused, it leaves book, balances and claim buffer. */
static void check_days(void) {
    static uint64_t before[WORDS];
    uint8_t message[CLAIM_TRACKER_TRANSFER_BYTES], claims[CLAIM_TRACKER_CLAIM_ROOM(11)], untouched[sizeof claims];
    before[16 * 1 + 2] = 40500;
    memset(untouched, 0xaa, sizeof untouched);
    for (size_t i = 0; i < sizeof by_day / sizeof *by_day; i++) {
        write_tagged(message, by_day[i].fields, by_day[i].tag);
        for (int form = 0; form < 3; form++) {
            struct claim_tracker_book book = {by_day[i].day, 7};
            memcpy(balances, before, sizeof before);
            memcpy(claims, untouched, sizeof claims);
            struct claim_tracker_done done = by_form(form, book, ones, 16, message, claims, sizeof claims);
            check(by_day[i].name, done.number == by_day[i].number && done.claims == by_day[i].claims && done.book.day == book.day
                                      && done.book.count == 7 + (uint32_t)(by_day[i].number == 0));
            if (by_day[i].number != 0)
                check(by_day[i].name, memcmp(claims, untouched, sizeof claims) == 0 && memcmp(balances, before, sizeof before) == 0);
        }
    }
}

/* The eleven claims of a fail on 20230127, whatever the limits are; a buffer one byte short; and a loan off its piece. */
static void check_half_year(void) {
    static const uint32_t fewest[CLAIM_TRACKER_LIMIT_WORDS] = {1, 1, 1, 1, 1};
    static const struct claim_tracker_transfer_fields fail = {1, 2, 0, 0, CLAIM_TRACKER_CODE_NONE, 200000},
                                                      start = {1, 2, 0, 0, CLAIM_TRACKER_CODE_SLST, 15000};
    uint32_t thousands[CLAIM_TRACKER_PIECE_WORDS];
    uint8_t message[CLAIM_TRACKER_TRANSFER_BYTES], claims[CLAIM_TRACKER_CLAIM_ROOM(11)];
    struct claim_tracker_book book = claim_tracker_open(calendar, 480, tables, 1824, balances, WORDS, 20230127).book;
    write_tagged(message, fail, "{98A:CNTR/20220601}");
    struct claim_tracker_done done = with_limits(fewest, 5, book, message, sizeof message, claims, sizeof claims);
    check("limits are not used on 20230127", done.number == 0 && done.claims == 11);
    for (size_t i = 0; i < 11; i++) {
        struct claim_tracker_claim_reading claim = claim_tracker_read_claim(claims + CLAIM_TRACKER_CLAIM_ROOM(i), 35);
        check("a claim within six months", claim.number == 0 && claim.claim.claim_type == CLAIM_TRACKER_CLAIM_TYPE_FAIL
                                               && claim.claim.outcome == 0 && claim.claim.payer == 1 && claim.claim.payee == 2
                                               && claim.claim.security == 0 && claim.claim.row == i + 1 && claim.claim.transfer == 1
                                               && claim.claim.interest == 100000 && claim.claim.principal == 0
                                               && claim.claim.release == 20230228 && claim.claim.slot == 3);
    }
    done = with_limits(fewest, 4, book, message, sizeof message, claims, sizeof claims);
    check("but they are judged", done.number == 12 && done.claims == 0);
    done = by_form(0, book, ones, 16, message, claims, sizeof claims - 1);
    check("eleven claims one byte short", done.number == 10 && done.claims == 0 && done.book.count == 0);
    for (size_t i = 0; i < 16; i++) thousands[i] = 1000;
    write_tagged(message, start, "");
    check("a loan on its piece", by_form(0, book, thousands, 16, message, claims, 0).number == CLAIM_TRACKER_LENDING_TOO_EARLY);
    thousands[0] = 999;
    check("a loan off its piece", by_form(0, book, thousands, 16, message, claims, 0).number == CLAIM_TRACKER_OFF_PIECE);
}

/* A saved book with a loan and a repo on a day before 20230130: the close into 20230127 crosses that day's Record Date. */
static void check_held_loan(void) {
    static const uint8_t close[CLAIM_TRACKER_CLOSE_BYTES] = {2, 0, 2, 0};
    struct claim_tracker_book book = {20230126, 7};
    uint8_t claims[CLAIM_TRACKER_CLAIM_ROOM(2)];
    memset(balances, 0, sizeof balances);
    balances[16 * 1 + 2] = 15000;
    balances[REPO + 16 * 1 + 2] = 30000;
    struct claim_tracker_done done =
        claim_tracker_close(calendar, 480, tables, 1824, book, balances, WORDS, close, sizeof close, claims, sizeof claims);
    check("the close of 20230126", done.number == 0 && done.book.day == 20230127 && done.book.count == 7 && done.claims == 2
                                       && balances[16 * 1 + 2] == 15000);
    for (uint8_t k = 0; k < 2; k++) {
        struct claim_tracker_claim_reading claim = claim_tracker_read_claim(claims + CLAIM_TRACKER_CLAIM_ROOM(k), 35);
        check("what is held is claimed", claim.number == 0 && claim.claim.claim_type == CLAIM_TRACKER_CLAIM_TYPE_LENDING + k
                                             && claim.claim.outcome == 0 && claim.claim.payer == 2 && claim.claim.payee == 1
                                             && claim.claim.security == 0 && claim.claim.row == 11 && claim.claim.transfer == 0
                                             && claim.claim.interest == (k == 0 ? 7500 : 15000) && claim.claim.release == 20230228
                                             && claim.claim.slot == 3);
    }
}

/* A book saved on 20230331 with 3 transfers and 15,000 on loan from account 1 to account 2, with a change: to the lengths, to the book, to
   a word of the calendar whose bits are turned, and to a saved word. */
static const struct {
    const char *name;
    size_t calendar_words, saved_words, balance_words;
    struct claim_tracker_book book;
    size_t month;
    uint32_t bits;
    size_t place;
    uint64_t word;
    uint16_t number;
} saved_books[] = {
    {"a saved book", 480, REPO, WORDS, {20230331, 3}, 0, 0, 18, 15000, 0},
    {"nothing on loan", 480, REPO, WORDS, {20230331, 3}, 0, 0, 18, 0, 0},
    {"a second loan", 480, REPO, WORDS, {20230331, 3}, 0, 0, 33, 1, 0},
    {"9,000,000,000 on loan in front", 480, REPO, WORDS, {20230331, 3}, 0, 0, 1, 9000000000, 0},
    {"9,000,000,000 on loan at the end", 480, REPO, WORDS, {20230331, 3}, 0, 0, REPO - 2, 9000000000, 0},
    {"an old day and a full count", 480, REPO, WORDS, {20030404, UINT32_MAX}, 0, 0, 18, 15000, 0},
    {"the day before the memo's, count 0", 480, REPO, WORDS, {20230127, 0}, 0, 0, 18, 15000, 0},
    {"the first open day", 480, REPO, WORDS, {20000103, 3}, 0, 0, 18, 15000, 0},
    {"the last but one", 480, REPO, WORDS, {20391229, 3}, 0, 0, 18, 15000, 0},
    {"a Saturday that is open", 480, REPO, WORDS, {20230401, 3}, 279, 1, 18, 15000, 0},
    {"no calendar", 0, REPO, WORDS, {20230331, 3}, 0, 0, 18, 15000, 1},
    {"479 words of the calendar", 479, REPO, WORDS, {20230331, 3}, 0, 0, 18, 15000, 1},
    {"481 words of the calendar", 481, REPO, WORDS, {20230331, 3}, 0, 0, 18, 15000, 1},
    {"no saved words", 480, 0, WORDS, {20230331, 3}, 0, 0, 18, 15000, 1},
    {"4,095 saved words", 480, REPO - 1, WORDS, {20230331, 3}, 0, 0, 18, 15000, 1},
    {"4,097 saved words", 480, REPO + 1, WORDS, {20230331, 3}, 0, 0, 18, 15000, 1},
    {"8,192 saved words", 480, WORDS, WORDS, {20230331, 3}, 0, 0, 18, 15000, 1},
    {"no balances", 480, REPO, 0, {20230331, 3}, 0, 0, 18, 15000, 1},
    {"4,096 balances", 480, REPO, REPO, {20230331, 3}, 0, 0, 18, 15000, 1},
    {"8,191 balances", 480, REPO, WORDS - 1, {20230331, 3}, 0, 0, 18, 15000, 1},
    {"8,193 balances", 480, REPO, WORDS + 1, {20230331, 3}, 0, 0, 18, 15000, 1},
    {"a bit for 31 April", 480, REPO, WORDS, {20230331, 3}, 279, UINT32_C(1) << 30, 18, 15000, 2},
    {"bit 31 of the first month", 480, REPO, WORDS, {20230331, 3}, 0, UINT32_C(1) << 31, 18, 15000, 2},
    {"bit 31 of the last month", 480, REPO, WORDS, {20230331, 3}, 479, UINT32_C(1) << 31, 18, 15000, 2},
    {"a closed day", 480, REPO, WORDS, {20230401, 3}, 0, 0, 18, 15000, 4},
    {"a Friday that is closed", 480, REPO, WORDS, {20230331, 3}, 278, UINT32_C(1) << 30, 18, 15000, 4},
    {"the last open day", 480, REPO, WORDS, {20391230, 3}, 0, 0, 18, 15000, 4},
    {"no date", 480, REPO, WORDS, {20230431, 3}, 0, 0, 18, 15000, 4},
    {"day 0", 480, REPO, WORDS, {0, 3}, 0, 0, 18, 15000, 4},
    {"the largest day", 480, REPO, WORDS, {UINT32_MAX, 3}, 0, 0, 18, 15000, 4},
    {"an account's loan to itself", 480, REPO, WORDS, {20230331, 3}, 0, 0, 17, 1, 4},
    {"one in the first word", 480, REPO, WORDS, {20230331, 3}, 0, 0, 0, 1, 4},
    {"one in the last word", 480, REPO, WORDS, {20230331, 3}, 0, 0, REPO - 1, 1, 4},
    {"9,000,000,001 on loan", 480, REPO, WORDS, {20230331, 3}, 0, 0, 19, 9000000001, 4},
    {"9,000,000,001 at the end", 480, REPO, WORDS, {20230331, 3}, 0, 0, REPO - 2, 9000000001, 4},
    {"2 to the 34th on loan", 480, REPO, WORDS, {20230331, 3}, 0, 0, 19, UINT64_C(1) << 34, 4},
    {"the largest word on loan", 480, REPO, WORDS, {20230331, 3}, 0, 0, 1, UINT64_MAX, 4},
    {"a bad calendar of 479 words", 479, REPO, WORDS, {20230331, 3}, 0, UINT32_C(1) << 31, 18, 15000, 1},
    {"4,095 saved words and a bad calendar", 480, REPO - 1, WORDS, {20230331, 3}, 0, UINT32_C(1) << 31, 18, 15000, 1},
    {"8,191 balances and a bad calendar", 480, REPO, WORDS - 1, {20230331, 3}, 0, UINT32_C(1) << 31, 18, 15000, 1},
    {"479 words of the calendar and a closed day", 479, REPO, WORDS, {20230401, 3}, 0, 0, 18, 15000, 1},
    {"8,191 balances and a bad word", 480, REPO, WORDS - 1, {20230331, 3}, 0, 0, 17, 1, 1},
    {"4,095 saved words and a bad one", 480, REPO - 1, WORDS, {20230331, 3}, 0, 0, 17, 1, 1},
    {"a bad calendar and a closed day", 480, REPO, WORDS, {20230401, 3}, 0, UINT32_C(1) << 31, 18, 15000, 2},
    {"a bad calendar and a bad word", 480, REPO, WORDS, {20230331, 3}, 479, UINT32_C(1) << 31, 17, 1, 2},
    {"a closed day and a bad word", 480, REPO, WORDS, {20230401, 3}, 0, 0, 17, 1, 4},
};

/* Carries each saved book over to balances that hold this word everywhere. Accepted, they are the saved words and zeros; refused, they are
   as they were. The book comes back as given, and the saved words stay. */
static void check_saved_books(uint64_t held) {
    static uint32_t months[CLAIM_TRACKER_CALENDAR_WORDS + 1];
    static uint64_t saved[WORDS], lent[WORDS], found[WORDS + 1], wanted[WORDS + 1];
    for (size_t i = 0; i < sizeof saved_books / sizeof *saved_books; i++) {
        memcpy(months, calendar, sizeof calendar);
        months[saved_books[i].month] ^= saved_books[i].bits;
        memset(lent, 0, sizeof lent);
        lent[18] = 15000;
        lent[saved_books[i].place] = saved_books[i].word;
        memcpy(saved, lent, sizeof saved);
        for (size_t at = 0; at <= WORDS; at++) found[at] = wanted[at] = held;
        struct claim_tracker_book book = saved_books[i].book;
        struct claim_tracker_done done =
            claim_tracker_carry_over(months, saved_books[i].calendar_words, book, lent, saved_books[i].saved_words, found,
                                     saved_books[i].balance_words);
        if (saved_books[i].number == 0) {
            memset(wanted, 0, sizeof *wanted * WORDS);
            memcpy(wanted, saved, sizeof *wanted * REPO);
        }
        check(saved_books[i].name, done.number == saved_books[i].number && done.claims == 0);
        check(saved_books[i].name, done.book.day == book.day && done.book.count == book.count);
        check(saved_books[i].name, memcmp(found, wanted, sizeof found) == 0);
        check(saved_books[i].name, memcmp(lent, saved, sizeof lent) == 0);
    }
}

/* Work on the carried book, by both forms: what was lent before the move goes on, and a repo begins at zero. */
static void check_carried_book(void) {
    static const uint8_t close[CLAIM_TRACKER_CLOSE_BYTES] = {2, 0, 2, 0};
    static const struct claim_tracker_transfer_fields back = {2, 1, 0, 0, CLAIM_TRACKER_CODE_CLSL, 5000},
                                                      too_much = {2, 1, 0, 0, CLAIM_TRACKER_CODE_CLSL, 10001},
                                                      repo_back = {2, 1, 0, 0, CLAIM_TRACKER_CODE_CLRP, 1},
                                                      repo = {1, 2, 0, 0, CLAIM_TRACKER_CODE_RPST, 30000};
    static uint64_t saved[CLAIM_TRACKER_LENDING_WORDS];
    uint8_t message[CLAIM_TRACKER_TRANSFER_BYTES], claims[CLAIM_TRACKER_CLAIM_ROOM(2)];
    saved[16 * 1 + 2] = 15000;
    for (int form = 0; form < 3; form++) {
        memset(balances, 7, sizeof balances);
        struct claim_tracker_done done =
            claim_tracker_carry_over(calendar, 480, (struct claim_tracker_book){20230331, 3}, saved, REPO, balances, WORDS);
        check("a book carried over", done.number == 0 && done.book.day == 20230331 && done.book.count == 3 && done.claims == 0);
        write_tagged(message, back, "");
        done = by_form(form, done.book, ones, 16, message, claims, 0);
        check("a return on it", done.number == 0 && done.book.count == 4 && done.claims == 0 && balances[16 * 1 + 2] == 10000);
        write_tagged(message, too_much, "");
        check("one above the rest", by_form(form, done.book, ones, 16, message, claims, 0).number == 7);
        write_tagged(message, repo_back, "");
        check("a repo's close of nothing", by_form(form, done.book, ones, 16, message, claims, 0).number == 7);
        memset(claims, 0xaa, sizeof claims);
        struct claim_tracker_done closed =
            claim_tracker_close(calendar, 480, tables, 1824, done.book, balances, WORDS, close, sizeof close, claims, sizeof claims);
        struct claim_tracker_claim_reading claim = claim_tracker_read_claim(claims, sizeof claims);
        check("its close of 20230331", closed.number == 0 && closed.book.day == 20230403 && closed.book.count == 4 && closed.claims == 1);
        check("April's claim on 10,000", claim.number == 0 && claim.claim.claim_type == CLAIM_TRACKER_CLAIM_TYPE_LENDING
                                             && claim.claim.outcome == 0 && claim.claim.payer == 2 && claim.claim.payee == 1
                                             && claim.claim.security == 0 && claim.claim.row == 0 && claim.claim.transfer == 0
                                             && claim.claim.interest == 5000 && claim.claim.principal == 0
                                             && claim.claim.release == 20230417 && claim.claim.slot == 3 && claims[35] == 0xaa);
        write_tagged(message, repo, "");
        done = by_form(form, done.book, ones, 16, message, claims, 0);
        check("a repo's start on it", done.number == 0 && done.book.count == 5 && balances[16 * 1 + 2] == 10000
                                          && balances[REPO + 16 * 1 + 2] == 30000);
        closed = claim_tracker_close(calendar, 480, tables, 1824, done.book, balances, WORDS, close, sizeof close, claims, sizeof claims);
        check("the loan's claim and the repo's", closed.number == 0 && closed.claims == 2
                                                     && claim_tracker_read_claim(claims, 35).claim.interest == 5000
                                                     && claim_tracker_read_claim(claims + 35, 35).claim.interest == 15000);
    }
}

enum { STORE = CLAIM_TRACKER_STORE_WORDS, GUARD = 8 }; /* GUARD: words before and behind what a call is lent */

/* A book on 20230404 with 9 transfers, and 1,000 on loan from account 3 to account 5. Mark 2 of its store holds 20230331, 5 transfers,
   15,000 on loan from account 1 to account 2 and 7 on repo. With a change: to the lengths, to the book, to a word of the calendar whose
   bits are turned, to a word of the balances, to a word of mark 2 (0 the flag, 1 the day, 2 the count, 3 the first balance), and to the mark
   asked for. The two numbers are those of setting it and of returning to it. */
static const struct {
    const char *name;
    size_t calendar_words, balance_words, store_words;
    struct claim_tracker_book book;
    size_t month;
    uint32_t bits;
    size_t place;
    uint64_t word;
    size_t marked_place;
    uint64_t marked_word;
    uint32_t mark;
    uint16_t set_number, return_number;
} marked_books[] = {
    {"mark 2", 480, WORDS, STORE, {20230404, 9}, 0, 0, 53, 1000, 0, 1, 2, 0, 0},
    {"mark 1, which is unset", 480, WORDS, STORE, {20230404, 9}, 0, 0, 53, 1000, 0, 1, 1, 0, 17},
    {"mark 3, which is unset", 480, WORDS, STORE, {20230404, 9}, 0, 0, 53, 1000, 0, 1, 3, 0, 17},
    {"mark 4, which is unset", 480, WORDS, STORE, {20230404, 9}, 0, 0, 53, 1000, 0, 1, 4, 0, 17},
    {"a full count", 480, WORDS, STORE, {20230404, UINT32_MAX}, 0, 0, 53, 1000, 0, 1, 2, 0, 0},
    {"count 0", 480, WORDS, STORE, {20230404, 0}, 0, 0, 53, 1000, 0, 1, 2, 0, 0},
    {"the first open day", 480, WORDS, STORE, {20000103, 9}, 0, 0, 53, 1000, 0, 1, 2, 0, 0},
    {"the last but one", 480, WORDS, STORE, {20391229, 9}, 0, 0, 53, 1000, 0, 1, 2, 0, 0},
    {"a Saturday that is open", 480, WORDS, STORE, {20230401, 9}, 279, 1, 53, 1000, 1, 20230401, 2, 0, 0},
    {"nothing on loan", 480, WORDS, STORE, {20230404, 9}, 0, 0, 53, 0, 0, 1, 2, 0, 0},
    {"9,000,000,000 on loan in front", 480, WORDS, STORE, {20230404, 9}, 0, 0, 1, 9000000000, 0, 1, 2, 0, 0},
    {"9,000,000,000 on repo at the end", 480, WORDS, STORE, {20230404, 9}, 0, 0, WORDS - 2, 9000000000, 0, 1, 2, 0, 0},
    {"9,000,000,000 in front of the mark", 480, WORDS, STORE, {20230404, 9}, 0, 0, 53, 1000, 4, 9000000000, 2, 0, 0},
    {"9,000,000,000 at the mark's end", 480, WORDS, STORE, {20230404, 9}, 0, 0, 53, 1000, WORDS + 1, 9000000000, 2, 0, 0},
    {"the mark's count full", 480, WORDS, STORE, {20230404, 9}, 0, 0, 53, 1000, 2, UINT32_MAX, 2, 0, 0},
    {"the mark's count 0", 480, WORDS, STORE, {20230404, 9}, 0, 0, 53, 1000, 2, 0, 2, 0, 0},
    {"the mark's day the first", 480, WORDS, STORE, {20230404, 9}, 0, 0, 53, 1000, 1, 20000103, 2, 0, 0},
    {"the mark's day the last but one", 480, WORDS, STORE, {20230404, 9}, 0, 0, 53, 1000, 1, 20391229, 2, 0, 0},
    {"the mark's day after the book's", 480, WORDS, STORE, {20230404, 9}, 0, 0, 53, 1000, 1, 20230405, 2, 0, 0},

    {"no calendar", 0, WORDS, STORE, {20230404, 9}, 0, 0, 53, 1000, 0, 1, 2, 1, 1},
    {"479 words of the calendar", 479, WORDS, STORE, {20230404, 9}, 0, 0, 53, 1000, 0, 1, 2, 1, 1},
    {"481 words of the calendar", 481, WORDS, STORE, {20230404, 9}, 0, 0, 53, 1000, 0, 1, 2, 1, 1},
    {"no balances", 480, 0, STORE, {20230404, 9}, 0, 0, 53, 1000, 0, 1, 2, 1, 1},
    {"4,096 balances", 480, REPO, STORE, {20230404, 9}, 0, 0, 53, 1000, 0, 1, 2, 1, 1},
    {"8,191 balances", 480, WORDS - 1, STORE, {20230404, 9}, 0, 0, 53, 1000, 0, 1, 2, 1, 1},
    {"8,193 balances", 480, WORDS + 1, STORE, {20230404, 9}, 0, 0, 53, 1000, 0, 1, 2, 1, 1},
    {"a bit for 31 April", 480, WORDS, STORE, {20230404, 9}, 279, UINT32_C(1) << 30, 53, 1000, 0, 1, 2, 2, 2},
    {"bit 31 of the last month", 480, WORDS, STORE, {20230404, 9}, 479, UINT32_C(1) << 31, 53, 1000, 0, 1, 2, 2, 2},
    {"a closed day", 480, WORDS, STORE, {20230401, 9}, 0, 0, 53, 1000, 0, 1, 2, 4, 4},
    {"the last open day", 480, WORDS, STORE, {20391230, 9}, 0, 0, 53, 1000, 0, 1, 2, 4, 4},
    {"no date", 480, WORDS, STORE, {20230431, 9}, 0, 0, 53, 1000, 0, 1, 2, 4, 4},
    {"day 0", 480, WORDS, STORE, {0, 9}, 0, 0, 53, 1000, 0, 1, 2, 4, 4},
    {"an account's loan to itself", 480, WORDS, STORE, {20230404, 9}, 0, 0, 17, 1, 0, 1, 2, 4, 4},
    {"one in the first word", 480, WORDS, STORE, {20230404, 9}, 0, 0, 0, 1, 0, 1, 2, 4, 4},
    {"one in the last word", 480, WORDS, STORE, {20230404, 9}, 0, 0, WORDS - 1, 1, 0, 1, 2, 4, 4},
    {"9,000,000,001 on loan", 480, WORDS, STORE, {20230404, 9}, 0, 0, 53, 9000000001, 0, 1, 2, 4, 4},
    {"9,000,000,001 on repo", 480, WORDS, STORE, {20230404, 9}, 0, 0, WORDS - 2, 9000000001, 0, 1, 2, 4, 4},

    {"mark 0", 480, WORDS, STORE, {20230404, 9}, 0, 0, 53, 1000, 0, 1, 0, 16, 16},
    {"mark 5", 480, WORDS, STORE, {20230404, 9}, 0, 0, 53, 1000, 0, 1, 5, 16, 16},
    {"mark 256 + 2", 480, WORDS, STORE, {20230404, 9}, 0, 0, 53, 1000, 0, 1, 258, 16, 16},
    {"mark 65,536 + 2", 480, WORDS, STORE, {20230404, 9}, 0, 0, 53, 1000, 0, 1, 65538, 16, 16},
    {"the largest mark", 480, WORDS, STORE, {20230404, 9}, 0, 0, 53, 1000, 0, 1, UINT32_MAX, 16, 16},
    {"no store", 480, WORDS, 0, {20230404, 9}, 0, 0, 53, 1000, 0, 1, 2, 16, 16},
    {"a store of two marks", 480, WORDS, 16390, {20230404, 9}, 0, 0, 53, 1000, 0, 1, 2, 16, 16},
    {"a store of 32,779 words", 480, WORDS, STORE - 1, {20230404, 9}, 0, 0, 53, 1000, 0, 1, 2, 16, 16},
    {"a store of 32,781 words", 480, WORDS, STORE + 1, {20230404, 9}, 0, 0, 53, 1000, 0, 1, 2, 16, 16},

    {"flag 0", 480, WORDS, STORE, {20230404, 9}, 0, 0, 53, 1000, 0, 0, 2, 0, 17},
    {"flag 2", 480, WORDS, STORE, {20230404, 9}, 0, 0, 53, 1000, 0, 2, 2, 0, 17},
    {"flag 257", 480, WORDS, STORE, {20230404, 9}, 0, 0, 53, 1000, 0, 257, 2, 0, 17},
    {"flag 2 to the 32nd + 1", 480, WORDS, STORE, {20230404, 9}, 0, 0, 53, 1000, 0, UINT64_C(0x100000001), 2, 0, 17},
    {"the largest flag", 480, WORDS, STORE, {20230404, 9}, 0, 0, 53, 1000, 0, UINT64_MAX, 2, 0, 17},
    {"the mark's day a Saturday", 480, WORDS, STORE, {20230404, 9}, 0, 0, 53, 1000, 1, 20230401, 2, 0, 17},
    {"the mark's day the last open one", 480, WORDS, STORE, {20230404, 9}, 0, 0, 53, 1000, 1, 20391230, 2, 0, 17},
    {"the mark's day no date", 480, WORDS, STORE, {20230404, 9}, 0, 0, 53, 1000, 1, 20230431, 2, 0, 17},
    {"the mark's day 0", 480, WORDS, STORE, {20230404, 9}, 0, 0, 53, 1000, 1, 0, 2, 0, 17},
    {"the mark's day past 32 bits", 480, WORDS, STORE, {20230404, 9}, 0, 0, 53, 1000, 1, UINT64_C(4315197627), 2, 0, 17},
    {"the mark's count 2 to the 32nd", 480, WORDS, STORE, {20230404, 9}, 0, 0, 53, 1000, 2, UINT64_C(4294967296), 2, 0, 17},
    {"the mark's count 2 to the 32nd + 5", 480, WORDS, STORE, {20230404, 9}, 0, 0, 53, 1000, 2, UINT64_C(4294967301), 2, 0, 17},
    {"the mark's count the largest word", 480, WORDS, STORE, {20230404, 9}, 0, 0, 53, 1000, 2, UINT64_MAX, 2, 0, 17},
    {"an account's loan to itself in the mark", 480, WORDS, STORE, {20230404, 9}, 0, 0, 53, 1000, 3 + 17, 1, 2, 0, 17},
    {"one in the mark's first balance", 480, WORDS, STORE, {20230404, 9}, 0, 0, 53, 1000, 3, 1, 2, 0, 17},
    {"one in the mark's last balance", 480, WORDS, STORE, {20230404, 9}, 0, 0, 53, 1000, WORDS + 2, 1, 2, 0, 17},
    {"9,000,000,001 in the mark", 480, WORDS, STORE, {20230404, 9}, 0, 0, 53, 1000, 3 + 18, 9000000001, 2, 0, 17},
    {"9,000,000,001 at the mark's end", 480, WORDS, STORE, {20230404, 9}, 0, 0, 53, 1000, WORDS + 1, 9000000001, 2, 0, 17},
    {"the largest word in the mark", 480, WORDS, STORE, {20230404, 9}, 0, 0, 53, 1000, 4, UINT64_MAX, 2, 0, 17},

    {"479 words of a bad calendar", 479, WORDS, STORE, {20230404, 9}, 0, UINT32_C(1) << 31, 53, 1000, 0, 1, 2, 1, 1},
    {"8,191 balances and a bad calendar", 480, WORDS - 1, STORE, {20230404, 9}, 0, UINT32_C(1) << 31, 53, 1000, 0, 1, 2, 1, 1},
    {"8,191 balances and a closed day", 480, WORDS - 1, STORE, {20230401, 9}, 0, 0, 53, 1000, 0, 1, 2, 1, 1},
    {"479 words of the calendar and mark 5", 479, WORDS, STORE, {20230404, 9}, 0, 0, 53, 1000, 0, 1, 5, 1, 1},
    {"8,193 balances and 32,779 words of store", 480, WORDS + 1, STORE - 1, {20230404, 9}, 0, 0, 53, 1000, 0, 1, 2, 1, 1},
    {"8,191 balances and flag 2", 480, WORDS - 1, STORE, {20230404, 9}, 0, 0, 53, 1000, 0, 2, 2, 1, 1},
    {"a bad calendar and a closed day", 480, WORDS, STORE, {20230401, 9}, 0, UINT32_C(1) << 31, 53, 1000, 0, 1, 2, 2, 2},
    {"a bad calendar and a bad word", 480, WORDS, STORE, {20230404, 9}, 0, UINT32_C(1) << 31, 17, 1, 0, 1, 2, 2, 2},
    {"a bad calendar and mark 0", 480, WORDS, STORE, {20230404, 9}, 0, UINT32_C(1) << 31, 53, 1000, 0, 1, 0, 2, 2},
    {"a bad calendar and 32,781 words of store", 480, WORDS, STORE + 1, {20230404, 9}, 0, UINT32_C(1) << 31, 53, 1000, 0, 1, 2, 2, 2},
    {"a bad calendar and flag 2", 480, WORDS, STORE, {20230404, 9}, 0, UINT32_C(1) << 31, 53, 1000, 0, 2, 2, 2, 2},
    {"a closed day and mark 9", 480, WORDS, STORE, {20230401, 9}, 0, 0, 53, 1000, 0, 1, 9, 4, 4},
    {"a closed day and 32,779 words of store", 480, WORDS, STORE - 1, {20230401, 9}, 0, 0, 53, 1000, 0, 1, 2, 4, 4},
    {"a bad word and mark 0", 480, WORDS, STORE, {20230404, 9}, 0, 0, 17, 1, 0, 1, 0, 4, 4},
    {"a bad word and no store", 480, WORDS, 0, {20230404, 9}, 0, 0, 17, 1, 0, 1, 2, 4, 4},
    {"a closed day and flag 2", 480, WORDS, STORE, {20230401, 9}, 0, 0, 53, 1000, 0, 2, 2, 4, 4},
    {"a bad word and one in the mark", 480, WORDS, STORE, {20230404, 9}, 0, 0, 17, 1, 3 + 17, 1, 2, 4, 4},
    {"32,779 words of store and flag 2", 480, WORDS, STORE - 1, {20230404, 9}, 0, 0, 53, 1000, 0, 2, 2, 16, 16},
    {"32,781 words of store and a mark's Saturday", 480, WORDS, STORE + 1, {20230404, 9}, 0, 0, 53, 1000, 1, 20230401, 2, 16, 16},
};

/* The words of a mark, as a set one is to hold them. */
static void write_mark(uint64_t *store, uint32_t mark, struct claim_tracker_book book, const uint64_t *words) {
    uint64_t *at = store + (size_t)8195 * (mark - 1);
    at[0] = 1;
    at[1] = book.day;
    at[2] = book.count;
    memcpy(at + 3, words, sizeof *words * WORDS);
}

/* Sets the mark of each marked book and returns to it. The store has this word wherever it is not said otherwise, and guards are around it
   and the balances. What is refused leaves every word; a setting leaves the balances and all words of the store but the mark's, and a
   return leaves the store. */
static void check_marked_books(uint64_t held) {
    static uint32_t months[CLAIM_TRACKER_CALENDAR_WORDS + 1];
    static uint64_t marked[WORDS], lent[GUARD + WORDS + GUARD], left[GUARD + WORDS + GUARD];
    static uint64_t store[GUARD + STORE + GUARD], wanted[GUARD + STORE + GUARD];
    for (size_t i = 0; i < sizeof marked_books / sizeof *marked_books; i++) {
        const char *name = marked_books[i].name;
        struct claim_tracker_book book = marked_books[i].book;
        uint32_t mark = marked_books[i].mark;
        memcpy(months, calendar, sizeof calendar);
        months[marked_books[i].month] ^= marked_books[i].bits;
        for (size_t at = 0; at < sizeof lent / sizeof *lent; at++) lent[at] = 0xdddd;
        memset(lent + GUARD, 0, sizeof *lent * WORDS);
        lent[GUARD + 53] = 1000;
        lent[GUARD + marked_books[i].place] = marked_books[i].word;
        memcpy(left, lent, sizeof left);
        for (size_t at = 0; at < sizeof store / sizeof *store; at++) store[at] = held;
        memset(marked, 0, sizeof marked);
        marked[18] = 15000;
        marked[REPO + 18] = 7;
        write_mark(store + GUARD, 2, (struct claim_tracker_book){20230331, 5}, marked);
        store[GUARD + 8195 + marked_books[i].marked_place] = marked_books[i].marked_word;
        memcpy(wanted, store, sizeof wanted);

        struct claim_tracker_done done =
            claim_tracker_return_to_mark(months, marked_books[i].calendar_words, book, lent + GUARD, marked_books[i].balance_words,
                                         store + GUARD, marked_books[i].store_words, mark);
        check(name, done.number == marked_books[i].return_number && done.claims == 0);
        if (marked_books[i].return_number == 0) {
            memcpy(left + GUARD, store + GUARD + 8195 + 3, sizeof *left * WORDS);
            check(name, done.book.day == store[GUARD + 8195 + 1] && done.book.count == store[GUARD + 8195 + 2]);
        } else {
            check(name, done.book.day == book.day && done.book.count == book.count);
        }
        check(name, memcmp(lent, left, sizeof lent) == 0);
        check(name, memcmp(store, wanted, sizeof store) == 0);

        memset(lent + GUARD, 0, sizeof *lent * WORDS);
        lent[GUARD + 53] = 1000;
        lent[GUARD + marked_books[i].place] = marked_books[i].word;
        memcpy(left, lent, sizeof left);
        uint16_t number = claim_tracker_set_mark(months, marked_books[i].calendar_words, book, lent + GUARD, marked_books[i].balance_words,
                                                 store + GUARD, marked_books[i].store_words, mark);
        check(name, number == marked_books[i].set_number);
        if (marked_books[i].set_number == 0) write_mark(wanted + GUARD, mark, book, lent + GUARD);
        check(name, memcmp(store, wanted, sizeof store) == 0);
        check(name, memcmp(lent, left, sizeof lent) == 0);
    }
}

/* Each mark of a store in turn, the first and the last at its ends: set on a book of its own, overwritten, and returned to, also twice. */
static void check_each_mark(void) {
    static uint64_t store[GUARD + STORE + GUARD], wanted[GUARD + STORE + GUARD], lent[WORDS], words[4][WORDS];
    static const struct claim_tracker_book books[4] = {{20230331, 5}, {20230403, 0}, {20230127, UINT32_MAX}, {20391229, 1}};
    static const struct claim_tracker_book present = {20230404, 9};
    static const uint32_t order[] = {4, 1, 3, 1, 2, 2, 4};
    for (size_t at = 0; at < sizeof store / sizeof *store; at++) store[at] = wanted[at] = 0x1111 * (at + 1);
    for (uint32_t mark = 1; mark <= 4; mark++) {
        for (size_t at = 0; at < WORDS; at++) words[mark - 1][at] = at / 16 % 16 == at % 16 ? 0 : 9000000000 - 4 * at - mark;
        check("another mark", claim_tracker_set_mark(calendar, 480, present, lent, WORDS, store + GUARD, STORE, mark) == 0);
        check("overwritten", claim_tracker_set_mark(calendar, 480, books[mark - 1], words[mark - 1], WORDS, store + GUARD, STORE, mark) == 0);
        write_mark(wanted + GUARD, mark, books[mark - 1], words[mark - 1]);
        check("the marks set so far", memcmp(store, wanted, sizeof store) == 0);
    }
    for (size_t i = 0; i < sizeof order / sizeof *order; i++) {
        const struct claim_tracker_book *book = books + order[i] - 1;
        memset(lent, 0, sizeof lent);
        struct claim_tracker_done done = claim_tracker_return_to_mark(calendar, 480, present, lent, WORDS, store + GUARD, STORE, order[i]);
        check("a return to one of four", done.number == 0 && done.claims == 0 && done.book.day == book->day
                                             && done.book.count == book->count);
        check("and its balances", memcmp(lent, words[order[i] - 1], sizeof lent) == 0);
        check("the marks stay", memcmp(store, wanted, sizeof store) == 0);
    }
}

/* April's claim on 15,000 on loan, 7,500 cents, released on 20230417. */
static const uint8_t april[35] = {0x21, 0x00, 0x03, 0x00, 0x03, 0x00, 0x02, 0x01, 0x00, 0x00, 0x00, 0x00, 0x00, 0x00, 0x4C, 0x1D, 0x00, 0x00,
                                  0x00, 0x00, 0x00, 0x00, 0x00, 0x00, 0x00, 0x00, 0x00, 0x00, 0x00, 0x00, 0x11, 0xB1, 0x34, 0x01, 0x03};

/* The close of 20230331 with this loan: it writes April's claim and nothing behind it. */
static struct claim_tracker_book close_of_march(struct claim_tracker_book book, uint32_t count) {
    static const uint8_t close[CLAIM_TRACKER_CLOSE_BYTES] = {2, 0, 2, 0};
    uint8_t claims[CLAIM_TRACKER_CLAIM_ROOM(2)];
    memset(claims, 0xaa, sizeof claims);
    struct claim_tracker_done done =
        claim_tracker_close(calendar, 480, tables, 1824, book, balances, WORDS, close, sizeof close, claims, sizeof claims);
    check("the close of the marked day", done.number == 0 && done.book.day == 20230403 && done.book.count == count && done.claims == 1);
    check("April's claim in bytes", memcmp(claims, april, sizeof april) == 0 && claims[35] == 0xaa);
    return done.book;
}

/* A trial in each form of the transfer: a loan, mark 3, the close, the loan's return and a fail, then back to 3 and on another way. */
static void check_trial(void) {
    static const struct claim_tracker_transfer_fields start = {1, 2, 0, 0, CLAIM_TRACKER_CODE_SLST, 15000},
                                                      back = {2, 1, 0, 0, CLAIM_TRACKER_CODE_CLSL, 15000},
                                                      repo = {1, 2, 0, 0, CLAIM_TRACKER_CODE_RPST, 30000},
                                                      fail = {1, 2, 0, 0, CLAIM_TRACKER_CODE_NONE, 200000};
    static uint64_t store[STORE], kept[STORE], at_mark[WORDS];
    uint8_t message[CLAIM_TRACKER_TRANSFER_BYTES], claims[CLAIM_TRACKER_CLAIM_ROOM(1)];
    memset(at_mark, 0, sizeof at_mark);
    at_mark[18] = 15000;
    for (int form = 0; form < 3; form++) {
        memset(store, 0, sizeof store);
        struct claim_tracker_book book = claim_tracker_open(calendar, 480, tables, 1824, balances, WORDS, 20230331).book;
        write_tagged(message, start, "");
        book = by_form(form, book, ones, 16, message, claims, 0).book;
        check("mark 3 after the loan", claim_tracker_set_mark(calendar, 480, book, balances, WORDS, store, STORE, 3) == 0);
        memcpy(kept, store, sizeof kept);
        for (int trial = 0; trial < 2; trial++) {
            book = close_of_march(book, 1);
            write_tagged(message, back, "");
            struct claim_tracker_done done = by_form(form, book, ones, 16, message, claims, 0);
            check("the loan's return", done.number == 0 && done.book.count == 2 && balances[18] == 0);
            write_tagged(message, repo, "");
            done = by_form(form, done.book, ones, 16, message, claims, 0);
            check("a repo behind it", done.number == 0 && done.book.count == 3 && balances[REPO + 18] == 30000);
            write_tagged(message, fail, "{98A:CNTR/20230315}");
            done = by_form(form, done.book, ones, 16, message, claims, sizeof claims);
            check("a fail behind it", done.number == 0 && done.claims == 1 && done.book.count == 4
                                          && claim_tracker_read_claim(claims, sizeof claims).claim.transfer == 4);
            done = claim_tracker_return_to_mark(calendar, 480, done.book, balances, WORDS, store, STORE, 3);
            book = done.book;
            check("back at mark 3", done.number == 0 && done.claims == 0 && book.day == 20230331 && book.count == 1);
            check("the balances of the mark", memcmp(balances, at_mark, sizeof balances) == 0);
            check("the store after the return", memcmp(store, kept, sizeof store) == 0);
            check("a mark that was not set",
                  claim_tracker_return_to_mark(calendar, 480, book, balances, WORDS, store, STORE, 4).number == CLAIM_TRACKER_BAD_MARK);
        }
        write_tagged(message, fail, "{98A:CNTR/20230315}");
        struct claim_tracker_done done = by_form(form, book, ones, 16, message, claims, sizeof claims);
        check("a fail on the marked day owes nothing", done.number == 0 && done.claims == 0 && done.book.count == 2);
        close_of_march(done.book, 2);
    }
}

static const uint8_t expected[41] = {0x21, 0x00, 0x03, 0x00, 0x01, 0x00, 0x01, 0x02, 0x00, 0x00, 0x01, 0x00, 0x00, 0x00,
                                     0xA0, 0x86, 0x01, 0x00, 0x00, 0x00, 0x00, 0x00, 0x00, 0x00, 0x00, 0x00, 0x00, 0x00,
                                     0x00, 0x00, 0x11, 0xB1, 0x34, 0x01, 0x03, 0x04, 0x00, 0x04, 0x00, 0x00, 0x00};

int main(void) {
    struct claim_tracker_done done;
    struct claim_tracker_book book;
    uint8_t message[CLAIM_TRACKER_TRANSFER_BYTES + 3];
    uint8_t out[64];
    uint8_t first[CLAIM_TRACKER_LINE_BYTES], second[CLAIM_TRACKER_LINE_BYTES];
    struct claim_tracker_transfer_fields fields = {1, 2, 0, 0, 0, 200000};

    weekdays();
    case_tables();
    memset(balances, 0xff, sizeof balances);
    done = claim_tracker_open(calendar, 480, tables, 1824, balances, WORDS, 20230402);
    check("an opening on a Sunday is refused", done.number == 4 && done.book.day == 20000101 && done.book.count == 0 && done.claims == 0);
    check("a refused opening leaves the balances", balances[0] == UINT64_MAX && balances[WORDS - 1] == UINT64_MAX);
    done = claim_tracker_open(calendar, 480, tables, 1824, balances, WORDS, 20230404);
    check("opening", done.number == 0 && done.book.day == 20230404 && done.book.count == 0 && done.claims == 0);
    check("opening clears the balances", balances[0] == 0 && balances[WORDS - 1] == 0);
    book = done.book;

    memset(first, ' ', sizeof first);
    memset(second, ' ', sizeof second);
    memcpy(first, "{98A:CNTR/20230315}", 19);
    memset(message, 0xee, sizeof message);
    check("a transfer does not fit 140 bytes", claim_tracker_write_transfer(message, 140, fields, first, second) == 10 && message[0] == 0xee);
    check("a transfer is written", claim_tracker_write_transfer(message, sizeof message, fields, first, second) == 0);
    check("the bytes behind it stay", message[141] == 0xee && message[143] == 0xee);

    memset(out, 0xaa, sizeof out);
    done = claim_tracker_transfer(calendar, 480, tables, 1824, ones, 16, book, balances, WORDS, message, sizeof message, out, 34);
    check("one byte short", done.number == 10 && done.book.day == 20230404 && done.book.count == 0 && done.claims == 0 && out[0] == 0xaa);
    done = claim_tracker_transfer(calendar, 480, tables, 1824, ones, 16, book, balances, WORDS, message, sizeof message, out, sizeof out);
    check("the transfer", done.number == 0 && done.book.day == 20230404 && done.book.count == 1 && done.claims == 1);
    check("the byte behind the claim stays", out[35] == 0xaa);
    check("the answer", claim_tracker_write_answer(out + 35, sizeof out - 35, (struct claim_tracker_answer){done.number}) == 0);
    check("document 01's hex example", memcmp(out, expected, sizeof expected) == 0 && out[41] == 0xaa);
    book = done.book;

    struct claim_tracker_transfer_reading transfer = claim_tracker_read_transfer(message, sizeof message);
    check("a transfer read back", transfer.number == 0 && transfer.transfer.sender == 1 && transfer.transfer.receiver == 2
                                      && transfer.transfer.security == 0 && transfer.transfer.class_ == 0 && transfer.transfer.code == 0
                                      && transfer.transfer.par == 200000);
    check("its lines", memcmp(transfer.first_line, first, 64) == 0 && memcmp(transfer.second_line, second, 64) == 0);
    transfer = claim_tracker_read_transfer(message, 140);
    check("a transfer cut short", transfer.number == 5 && transfer.transfer.par == 0 && transfer.first_line[0] == 0
                                      && transfer.second_line[63] == 0);

    struct claim_tracker_claim_reading claim = claim_tracker_read_claim(out, sizeof out);
    check("the claim read back", claim.number == 0 && claim.claim.claim_type == 1 && claim.claim.outcome == 0 && claim.claim.payer == 1
                                     && claim.claim.payee == 2 && claim.claim.security == 0 && claim.claim.row == 0
                                     && claim.claim.transfer == 1 && claim.claim.interest == 100000 && claim.claim.principal == 0
                                     && claim.claim.release == 20230417 && claim.claim.slot == 3);
    uint8_t again[36];
    memset(again, 0xbb, sizeof again);
    check("the claim written again", claim_tracker_write_claim(again, sizeof again, claim.claim) == 0 && memcmp(again, out, 35) == 0
                                         && again[35] == 0xbb);
    check("a claim does not fit 34 bytes", claim_tracker_write_claim(again, 34, claim.claim) == 10);
    claim = claim_tracker_read_claim(out + 35, 6);
    check("an answer is no claim", claim.number == 5 && claim.claim.interest == 0 && claim.claim.slot == 0);
    struct claim_tracker_answer_reading answer = claim_tracker_read_answer(out + 35, 6);
    check("the answer read back", answer.number == 0 && answer.answer.number == 0);
    check("an answer cut short", claim_tracker_read_answer(out + 35, 5).number == 5);

    static uint8_t output[CLAIM_TRACKER_RECORD_ROOM + 41];
    static uint8_t records[2 * CLAIM_TRACKER_TRANSFER_BYTES];
    memcpy(records, message, CLAIM_TRACKER_TRANSFER_BYTES);
    memcpy(records + CLAIM_TRACKER_TRANSFER_BYTES, message, CLAIM_TRACKER_TRANSFER_BYTES);
    book = claim_tracker_open(calendar, 480, tables, 1824, balances, WORDS, 20230404).book;
    struct claim_tracker_served served =
        claim_tracker_serve(calendar, 480, tables, 1824, book, balances, WORDS, records, sizeof records - 1, false, output, sizeof output);
    check("a run stops at a cut record", served.number == 0 && served.book.count == 1 && served.consumed == 141 && served.written == 41
                                             && !served.over && !served.full && memcmp(output, expected, sizeof expected) == 0);
    served = claim_tracker_serve(calendar, 480, tables, 1824, served.book, balances, WORDS, records + 141, 141, true, output,
                                 sizeof output);
    check("and goes on with it", served.number == 0 && served.book.count == 2 && served.consumed == 141 && served.written == 41
                                     && !served.over && !served.full);
    served = claim_tracker_serve(calendar, 480, tables, 1824, served.book, balances, WORDS, records, 140, true, output, sizeof output);
    check("a record cut by the end gets 5", served.consumed == 0 && served.written == 6 && served.over && !served.full && output[4] == 5);
    served = claim_tracker_serve(calendar, 480, tables, 1823, served.book, balances, WORDS, records, 141, true, output, sizeof output);
    check("a short table stops a run", served.number == 1 && served.consumed == 0 && served.written == 0 && !served.over && !served.full);
    served = claim_tracker_serve(calendar, 480, tables, 1824, served.book, balances, WORDS, records, sizeof records, true, output,
                                 CLAIM_TRACKER_RECORD_ROOM);
    check("a full output is told", served.consumed == 141 && served.written == 41 && !served.over && served.full);
    served = claim_tracker_serve(calendar, 480, tables, 1824, served.book, balances, WORDS, records, sizeof records, true, output,
                                 CLAIM_TRACKER_RECORD_ROOM - 1);
    check("and one that has no room at all", served.consumed == 0 && served.written == 0 && !served.over && served.full);

    tables[4] = 20230515;
    book = claim_tracker_open(calendar, 480, tables, 1824, balances, WORDS, 20230502).book;
    done = claim_tracker_transfer(calendar, 480, tables, 1824, ones, 16, book, balances, WORDS, message, sizeof message, out, 35);
    claim = claim_tracker_read_claim(out, sizeof out);
    check("April's payment alone where May's waits too", done.number == 0 && done.claims == 1 && claim.number == 0
                                                             && claim.claim.claim_type == CLAIM_TRACKER_CLAIM_TYPE_FAIL
                                                             && claim.claim.row == 0 && claim.claim.release == 20230515
                                                             && claim.claim.slot == 3);
    case_tables();

    memset(first, ' ', sizeof first);
    tables[9] = 20230403;
    book = claim_tracker_open(calendar, 480, tables, 1824, balances, WORDS, 20230404).book;
    check("a transfer without a tag is written", claim_tracker_write_transfer(message, sizeof message, fields, first, second) == 0);
    done = claim_tracker_transfer(calendar, 480, tables, 1824, ones, 16, book, balances, WORDS, message, sizeof message, out, sizeof out);
    claim = claim_tracker_read_claim(out, sizeof out);
    check("May's payment behind its Record Date", done.number == 0 && done.claims == 1 && claim.number == 0
                                                      && claim.claim.claim_type == CLAIM_TRACKER_CLAIM_TYPE_INTERIM
                                                      && claim.claim.outcome == 0 && claim.claim.payer == 1 && claim.claim.payee == 2
                                                      && claim.claim.row == 1 && claim.claim.transfer == 1
                                                      && claim.claim.interest == 100000 && claim.claim.release == 20230515
                                                      && claim.claim.slot == 3);
    case_tables();

    fields.code = 1;
    fields.par = 15000;
    check("a loan is written", claim_tracker_write_transfer(message, sizeof message, fields, first, second) == 0);
    done = claim_tracker_open(calendar, 480, tables, 1824, balances, WORDS, 20230331);
    done = claim_tracker_transfer(calendar, 480, tables, 1824, ones, 16, done.book, balances, WORDS, message, sizeof message, out, 0);
    check("a loan's start", done.number == 0 && done.claims == 0 && done.book.count == 1 && balances[16 * 1 + 2] == 15000);
    uint8_t close[4];
    check("a close is written", claim_tracker_write_close(close, 4) == 0 && claim_tracker_read_close(close, 4) == 0);
    check("a close does not fit 3 bytes", claim_tracker_write_close(close, 3) == 10);
    check("a transfer is no close", claim_tracker_read_close(message, sizeof message) == 5);
    done = claim_tracker_close(calendar, 480, tables, 1824, done.book, balances, WORDS, close, 4, out, sizeof out);
    claim = claim_tracker_read_claim(out, 35);
    check("the close of 20230331", done.number == 0 && done.book.day == 20230403 && done.book.count == 1 && done.claims == 1);
    check("April's claim on 15,000", claim.number == 0 && claim.claim.claim_type == 3 && claim.claim.payer == 2 && claim.claim.payee == 1
                                         && claim.claim.transfer == 0 && claim.claim.interest == 7500);
    done = claim_tracker_close(calendar, 479, tables, 1824, done.book, balances, WORDS, close, 4, out, sizeof out);
    check("a short calendar", done.number == 1 && done.book.day == 20230403 && done.claims == 0);

    struct claim_tracker_reply reply;
    book = claim_tracker_open(calendar, 480, tables, 1824, balances, WORDS, 20230331).book;
    reply = claim_tracker_transfer_in(calendar, 480, tables, 1824, ones, 16, &book, balances, WORDS, message, sizeof message, out, 0);
    check("a loan's start on the caller's book", reply.number == 0 && reply.claims == 0 && book.day == 20230331 && book.count == 1
                                                     && balances[16 * 1 + 2] == 15000);
    reply = claim_tracker_transfer_in(calendar, 480, tables, 1824, ones, 16, &book, balances, WORDS, close, 4, out, sizeof out);
    check("a close is refused as a transfer there", reply.number == 5 && reply.claims == 0 && book.day == 20230331 && book.count == 1);
    memset(out, 0xaa, sizeof out);
    reply = claim_tracker_close_in(calendar, 480, tables, 1824, &book, balances, WORDS, close, 4, out, 34);
    check("a close one byte short there", reply.number == 10 && reply.claims == 0 && book.day == 20230331 && out[0] == 0xaa);
    reply = claim_tracker_close_in(calendar, 480, tables, 1824, &book, balances, WORDS, close, 4, out, sizeof out);
    claim = claim_tracker_read_claim(out, 35);
    check("the close of 20230331 there", reply.number == 0 && reply.claims == 1 && book.day == 20230403 && book.count == 1
                                             && claim.claim.interest == 7500 && out[35] == 0xaa);

    uint8_t repo[CLAIM_TRACKER_TRANSFER_BYTES], two[CLAIM_TRACKER_CLAIM_ROOM(2) + 1];
    fields.code = CLAIM_TRACKER_CODE_RPST;
    fields.par = 30000;
    check("a repo is written", claim_tracker_write_transfer(repo, sizeof repo, fields, first, second) == 0);
    book = claim_tracker_open(calendar, 480, tables, 1824, balances, WORDS, 20230331).book;
    done = claim_tracker_transfer(calendar, 480, tables, 1824, ones, 16, book, balances, WORDS, message, sizeof message, two, 0);
    done = claim_tracker_transfer(calendar, 480, tables, 1824, ones, 16, done.book, balances, WORDS, repo, sizeof repo, two, 0);
    check("a repo's start beside the loan", done.number == 0 && done.claims == 0 && done.book.count == 2 && balances[16 * 1 + 2] == 15000
                                                && balances[REPO + 16 * 1 + 2] == 30000);
    memset(two, 0xaa, sizeof two);
    book = done.book;
    done = claim_tracker_close(calendar, 480, tables, 1824, book, balances, WORDS, close, 4, two, sizeof two - 2);
    check("no room for the repo's claim", done.number == 10 && done.book.day == 20230331 && done.claims == 0 && two[0] == 0xaa);
    done = claim_tracker_close(calendar, 480, tables, 1824, book, balances, WORDS, close, 4, two, sizeof two);
    claim = claim_tracker_read_claim(two, 35);
    check("the loan's claim first", done.number == 0 && done.book.day == 20230403 && done.book.count == 2 && done.claims == 2
                                        && claim.claim.claim_type == CLAIM_TRACKER_CLAIM_TYPE_LENDING && claim.claim.interest == 7500);
    claim = claim_tracker_read_claim(two + 35, 35);
    check("then the repo's", claim.number == 0 && claim.claim.claim_type == CLAIM_TRACKER_CLAIM_TYPE_REPO && claim.claim.outcome == 0
                                 && claim.claim.payer == 2 && claim.claim.payee == 1 && claim.claim.security == 0 && claim.claim.row == 0
                                 && claim.claim.transfer == 0 && claim.claim.interest == 15000 && claim.claim.principal == 0
                                 && claim.claim.release == 20230417 && claim.claim.slot == 3 && two[70] == 0xaa);

    static const uint32_t fewer[CLAIM_TRACKER_LIMIT_WORDS] = {1, 16, 16, 16, 16};
    static uint64_t before[WORDS];
    uint8_t fail[CLAIM_TRACKER_TRANSFER_BYTES], lent[sizeof two], untouched[sizeof two];
    fields.code = CLAIM_TRACKER_CODE_NONE;
    fields.par = 400000;
    memcpy(first, "{98A:CNTR/20230315}", 19);
    check("a fail is written", claim_tracker_write_transfer(fail, sizeof fail, fields, first, second) == 0);
    book = claim_tracker_open(calendar, 480, tables, 1824, balances, WORDS, 20230509).book;
    balances[16 * 1 + 2] = 15000;
    memcpy(before, balances, sizeof before);
    memset(untouched, 0xaa, sizeof untouched);
    memcpy(two, untouched, sizeof two);
    memcpy(lent, untouched, sizeof lent);
    done = claim_tracker_transfer(calendar, 480, tables, 1824, ones, 16, book, balances, WORDS, fail, sizeof fail, two, sizeof two);
    check("April and May by the published limits", done.number == 0 && done.book.count == 1 && done.claims == 2);
    done = with_limits(published, 5, book, fail, sizeof fail, lent, sizeof lent);
    check("the same where they are lent", done.number == 0 && done.book.day == 20230509 && done.book.count == 1 && done.claims == 2
                                              && memcmp(lent, two, sizeof two) == 0);
    memcpy(lent, untouched, sizeof lent);
    done = with_limits(fewer, 5, done.book, fail, sizeof fail, lent, 35);
    claim = claim_tracker_read_claim(lent, sizeof lent);
    check("May alone by an MBS limit of 1", done.number == 0 && done.book.count == 2 && done.claims == 1 && claim.number == 0
                                                && claim.claim.claim_type == CLAIM_TRACKER_CLAIM_TYPE_FAIL && claim.claim.row == 1
                                                && claim.claim.transfer == 2 && claim.claim.interest == 200000
                                                && claim.claim.release == 20230515 && claim.claim.slot == 3 && lent[35] == 0xaa);
    memcpy(lent, untouched, sizeof lent);
    for (size_t i = 0; i < sizeof broken / sizeof *broken; i++) {
        done = with_limits(broken[i].limits, broken[i].words, book, fail, sizeof fail, lent, sizeof lent);
        check(broken[i].name, done.number == CLAIM_TRACKER_BAD_LIMITS && done.book.day == 20230509 && done.book.count == 0
                                  && done.claims == 0 && memcmp(lent, untouched, sizeof lent) == 0
                                  && memcmp(balances, before, sizeof before) == 0);
    }
    done = with_limits(published, 0, book, message, sizeof message, lent, 0);
    check("a loan with no limits", done.number == 12 && done.book.count == 0 && memcmp(balances, before, sizeof before) == 0);
    done = with_limits(fewer, 5, book, message, sizeof message, lent, 0);
    check("a loan with limits", done.number == 0 && done.book.count == 1 && done.claims == 0 && balances[16 * 1 + 2] == 30000);
    book.day = 20230506;
    done = with_limits(published, 5, book, fail, sizeof fail, lent, sizeof lent);
    check("a closed day with limits", done.number == 4 && done.book.day == 20230506 && done.claims == 0);
    done = with_limits(published, 4, book, fail, sizeof fail, lent, sizeof lent);
    check("four limits before a closed day", done.number == 12 && done.book.day == 20230506 && done.claims == 0);
    tables[0] = 5;
    done = with_limits(published, 4, book, fail, sizeof fail, lent, sizeof lent);
    check("bad tables before four limits", done.number == 3 && memcmp(lent, untouched, sizeof lent) == 0);
    case_tables();

    book = claim_tracker_open(calendar, 480, tables, 1824, balances, WORDS, 20230331).book;
    check("half a book is not opened", claim_tracker_open(calendar, 480, tables, 1824, balances, REPO, 20230331).number == 1);
    check("nor takes it a transfer",
          claim_tracker_transfer(calendar, 480, tables, 1824, ones, 16, book, balances, REPO, message, sizeof message, two,
                                 sizeof two).number == 1);
    check("nor one with limits",
          claim_tracker_transfer_with_limits(calendar, 480, tables, 1824, published, 5, ones, 16, book, balances, REPO, message,
                                             sizeof message, two, sizeof two).number == 1);
    check("nor a close", claim_tracker_close(calendar, 480, tables, 1824, book, balances, REPO, close, 4, two, sizeof two).number == 1);
    reply = claim_tracker_transfer_in(calendar, 480, tables, 1824, ones, 16, &book, balances, REPO, message, sizeof message, two,
                                      sizeof two);
    check("nor a transfer on the caller's book", reply.number == 1 && book.day == 20230331 && book.count == 0);
    reply = claim_tracker_close_in(calendar, 480, tables, 1824, &book, balances, REPO, close, 4, two, sizeof two);
    check("nor a close there", reply.number == 1 && book.day == 20230331 && book.count == 0);
    served = claim_tracker_serve(calendar, 480, tables, 1824, book, balances, REPO, records, 141, true, output, sizeof output);
    check("nor a run", served.number == 1 && served.consumed == 0 && served.written == 0);

    minimum_pieces();
    book.day = 20230402;
    done = claim_tracker_transfer_with_limits(calendar, 480, tables, 1824, published, 4, ones, 15, book, balances, WORDS, message,
                                              sizeof message, two, sizeof two);
    check("four limits before fifteen pieces", done.number == 12 && done.claims == 0);
    done = claim_tracker_transfer(calendar, 480, tables, 1824, ones, 15, book, balances, WORDS, message, sizeof message, two, sizeof two);
    check("fifteen pieces before a closed day", done.number == 13 && done.book.day == 20230402 && done.claims == 0);

    check_saved_books(7);
    check_saved_books(UINT64_MAX);
    check_saved_books(0);
    check_carried_book();

    check_marked_books(0);
    check_marked_books(1);
    check_marked_books(UINT64_MAX);
    check_each_mark();
    check_trial();

    half_year_tables();
    check_days();
    check_half_year();
    check_held_loan();

    return told();
}
