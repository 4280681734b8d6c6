/* The claim tracker: fails, interim claims, loaned securities and repos of one book of 16 accounts and 16 securities, each numbered from 0
   to 15.

   Link with -lclaim_tracker (x86-64 Linux). FORMATS.md among the documents says the same at more length.

   Dates are the number yyyymmdd, 20000101 to 20391231. Par is in whole dollars, an amount in cents, a factor in billionths of a dollar
   for each dollar of par. Words are the machine's own; numbers in records and in book.dat have their lowest byte first.

   Calendar: 480 words, one a month from January 2000; the word of a month is 12 * (year - 2000) + month - 1. Bit d - 1 (the lowest is
   bit 0) is on where day d is open. A bit for a day that the month lacks is refused with 2.

   Tables: 1,824 words, 114 a security: type, frequency, then 16 rows of 7 words. A row is a payment: Record Date, Beneficiary Date,
   Payment Date, interest factor, principal factor (each at most 2,000,000,000), final (1 where the payment redeems the security, else
   0), restricted (bit a is on where account a's payment went to a non-interest-bearing account; 16 bits). Word 0 of row r of security s is
   114 * s + 2 + 7 * r. Filled rows come first, and a row that is not filled is seven zeros; an unused security is 114 zeros. Record Dates
   rise from row to row, and so do Beneficiary Dates. Neither is after its row's Payment Date, and that is not after the calendar's last
   open day. Tables that break this are refused with 3. An agency MBS with the coupons of April and May 2023, half a cent on the dollar:
       3, 1,  20230401, 20230401, 20230415, 5000000, 0, 0, 0,  20230501, 20230501, 20230515, 5000000, 0, 0, 0,  then zeros

   Limits: 5 words, lent to claim_tracker_transfer_with_limits alone: the maximum numbers of Beneficiary Dates that a fail looks at, the
   most recent ones. The first is for types 3 and 4, the others are for types 1 and 2 by frequency: monthly, quarterly, semiannual, annual.
   Each is 1 to 16, and from monthly to annual none is larger than the one before. Limits of another length, or that break this, are
   refused with 12. On a book's day before 20230130 they are judged and not used. All other calls keep the published numbers:
       7, 6, 3, 2, 1

   Pieces: 16 words, lent with every transfer: word s is the piece of security s, the par that it is delivered in multiples of, 1 to
   1,000,000. Pieces of another length, or with a number outside this range, that of an unused security too, are refused with 13. A par
   that is no multiple of its security's piece is refused with 14, whatever the tracking code is, unless the code takes from a balance
   (2, 3, 6 on loan, 8, 9, 12 on repo) and the par is exactly the whole of it. The pieces may be others from call to call, and balances that
   are no multiple stay. Ones refuse no par; claim_tracker_serve, and with it the program claimrun, lends sixteen ones.

   A book: its day, the number of its accepted transfers, and 8,192 words of balances: word 4096 * k + 256 * s + 16 * l + b is the par of
   security s that account l has lent to account b, k 0 on loan, 1 on repo, at most 9,000,000,000, and zero where l is b. Its day is open
   and an open day follows it. All of it is the caller's, who may store it and go on later. A book saved before repos were tracked has 4,096
   words, those on loan: claim_tracker_carry_over makes the 8,192 of them, with nothing on repo, and every other call refuses them with 1.

   Marks: a store of 32,780 words of 64 bits holds four marks, 1 to 4, of 8,195 words each, for claim_tracker_set_mark and
   claim_tracker_return_to_mark. Mark k begins at word 8195 * (k - 1): 1 where it is set (any other number is unset), the day, the count,
   then the 8,192 balances. The store is the caller's, and zeros are a store without a set mark. It can be kept, and its old marks returned
   to later. After a return to a mark that these calls set and nobody else wrote, day, count, balances and what later calls answer, write and
   owe are those of the history that ended at the mark. The claims handed out between the mark and the return are the caller's to drop. A
   mark does not say whose it is: a return to one of another book brings that book's history back, so a store serves one book.

   Cash forecast: claim_tracker_forecast takes a run of claim records, one behind the other and nothing else, and gives for one account and
   one release date the cents to pay, the cents to receive, and receive less pay, as doubles. Claims that settle (outcome 0) on that date
   count, interest and principal together; notices do not. Up to 9,007,199,254,740,992, 2 to the power of 53, each whole number is exact as
   a double, so the three are exact, and zero is positive zero; a sum past it is refused with 19. Every record of the run is judged, also one
   that does not count: it is bad, and refused with 18, where it is cut, where its length or kind is wrong, where payer and payee are the
   same account, or where one of them is above 15. No other field is judged. What claim_tracker_serve or claimrun writes has answers between
   the claims: they are to be taken out.

   book.dat, 9,220 bytes: the calendar, the tables and the opening day, in this order, each word of 4 bytes.

   Records: two bytes that count those behind them, two of the kind, then the fields, one behind the other:
     kind 1, transfer, 141 bytes: 8B 00 01 00, sender, receiver, security, class, tracking code (1 byte each), par (4 bytes), two lines
       of free text (64 bytes each)
     kind 2, close, 4 bytes: 02 00 02 00
     kind 3, claim, 35 bytes: 21 00 03 00, claim type, outcome, payer, payee, security, row (1 byte each), transfer number (4 bytes, 0 in
       a lending or repo claim), interest and principal in cents (8 bytes each), release date (4 bytes, 0 in a notice), slot (1 byte)
     kind 4, answer, 6 bytes: 04 00 04 00, number (2 bytes)

   The Contract Date of a transfer stands in one of its two lines, anywhere, wholly within the line: {98A:CNTR/20230315} for 15 March 2023.

   Days before 20230130 have the rules from before Clearing Memo 278. The book's day when a call comes chooses, and nothing else does:
     - An empty tag, {98A:CNTR/}, stands for the book's day, whatever the tracking code is. From 20230130 on it is refused with 135.
     - Fails are claimed for types 3 and 4 alone: each row whose Beneficiary Date is after the Contract Date, not after the book's day, and
       not before the same day six months earlier, or the last day of that month where it is shorter (20220228 for 20220831). There is no
       maximum number, and rows whose Payment Date is after the book's day are all claimed.
     - The tracking codes of lending, 1 to 6, are refused with 15. What a book has on loan is claimed at its closes all the same.
   Repos, interim claims, amounts, outcomes, release and all other numbers are those of later days.

   Buffers of claims: a transfer gives at most 16 claims, one for each row of its security, a close at most 122,880;
   CLAIM_TRACKER_CLAIM_ROOM(n) is the size for n. A call whose claims do not fit is refused with 10 and has changed nothing: call again with
   a larger buffer. claim_tracker_serve, and with it the program claimrun, has 64 KiB for the claims of each record: a close with more than
   1,872 is answered with 10, the day stays, and claim_tracker_close with a larger buffer can work it.

   Pointers: a count that follows a pointer is that of its elements. No pointer may be null (with a count of 0 it may point anywhere
   else), each is aligned for its type, and what a function writes to may not overlap anything else that it is given. Within this, every
   function takes any values whatever and returns, reads nothing beyond the elements that it is given, and writes nothing but what its
   comment names.

   Threads: the library has no state of its own. Calls may run at the same time where none of them writes what another is given;
   calendar, tables, limits and pieces are only read and can be shared. */
#ifndef CLAIM_TRACKER_H
#define CLAIM_TRACKER_H

#include <stdbool.h>
#include <stddef.h>
#include <stdint.h>

#define CLAIM_TRACKER_VERSION_MAJOR 2
#define CLAIM_TRACKER_VERSION_MINOR 3
#define CLAIM_TRACKER_VERSION_PATCH 0
#define CLAIM_TRACKER_VERSION "2.3.0"

/* Every function answers a number that a caller has to look at, and takes no null pointer; compilers that can, watch over both. */
#if defined(__GNUC__)
#define CLAIM_TRACKER_CALL __attribute__((warn_unused_result))
#define CLAIM_TRACKER_NONNULL __attribute__((nonnull))
#elif defined(__has_attribute)
#if __has_attribute(warn_unused_result)
#define CLAIM_TRACKER_CALL __attribute__((warn_unused_result))
#endif
#if __has_attribute(nonnull)
#define CLAIM_TRACKER_NONNULL __attribute__((nonnull))
#endif
#endif
#ifndef CLAIM_TRACKER_CALL
#define CLAIM_TRACKER_CALL
#endif
#ifndef CLAIM_TRACKER_NONNULL
#define CLAIM_TRACKER_NONNULL
#endif

#ifdef __cplusplus
extern "C" {
#endif

/* How many there are: accounts, securities, rows of a security, words, and marks of a store. The words on loan are the first half of the
   balances. */
enum {
    CLAIM_TRACKER_ACCOUNTS = 16,
    CLAIM_TRACKER_SECURITIES = 16,
    CLAIM_TRACKER_ROWS = 16,
    CLAIM_TRACKER_ROW_WORDS = 7,
    CLAIM_TRACKER_SECURITY_WORDS = 114,
    CLAIM_TRACKER_CALENDAR_WORDS = 480,
    CLAIM_TRACKER_TABLE_WORDS = 1824,
    CLAIM_TRACKER_LIMIT_WORDS = 5,
    CLAIM_TRACKER_PIECE_WORDS = 16,
    CLAIM_TRACKER_LENDING_WORDS = 4096,
    CLAIM_TRACKER_BALANCE_WORDS = 8192,
    CLAIM_TRACKER_MARKS = 4,
    CLAIM_TRACKER_MARK_WORDS = 8195,
    CLAIM_TRACKER_STORE_WORDS = 32780
};

/* Bytes of the records, of a line of free text and of book.dat, and the output that claim_tracker_serve needs for a record. */
enum {
    CLAIM_TRACKER_TRANSFER_BYTES = 141,
    CLAIM_TRACKER_CLOSE_BYTES = 4,
    CLAIM_TRACKER_CLAIM_BYTES = 35,
    CLAIM_TRACKER_ANSWER_BYTES = 6,
    CLAIM_TRACKER_LINE_BYTES = 64,
    CLAIM_TRACKER_BOOK_FILE_BYTES = 9220,
    CLAIM_TRACKER_RECORD_ROOM = 65542
};

/* The most claims of one call, and the bytes for n claims. */
enum {
    CLAIM_TRACKER_MOST_TRANSFER_CLAIMS = 16,
    CLAIM_TRACKER_MOST_CLOSE_CLAIMS = 122880
};
#define CLAIM_TRACKER_CLAIM_ROOM(n) ((size_t)CLAIM_TRACKER_CLAIM_BYTES * (size_t)(n))

/* The most cents of a sum in a forecast. */
#define CLAIM_TRACKER_MOST_FORECAST_CENTS UINT64_C(9007199254740992)

/* The number of a call. 0 is accepted. With any other the call is refused and leaves book, balances, store and buffers as they were. Where
   several apply, the one that stands first here is answered. An opening meets 1 to 4 alone, carrying a book over 1, 2 and 4, setting a mark
   1, 2, 4 and 16, a return to one 1, 2, 4, 16 and 17, a reader 5, a writer 10, a forecast 18 and 19; 12 is met only where limits are lent,
   13 to 15 only by a transfer, 16 and 17 only with marks, and 12 to 14 by no record of a stream. */
enum claim_tracker_number {
    CLAIM_TRACKER_ACCEPTED = 0,
    CLAIM_TRACKER_WRONG_LENGTH = 1,             /* calendar, tables, balances or saved balances have another number of words */
    CLAIM_TRACKER_BAD_CALENDAR = 2,             /* the calendar has a bit for a day that the month lacks */
    CLAIM_TRACKER_BAD_TABLES = 3,               /* the tables break a rule */
    CLAIM_TRACKER_BAD_LIMITS = 12,              /* the limits lent are not five, or break a rule */
    CLAIM_TRACKER_BAD_PIECES = 13,              /* the pieces lent are not sixteen, or one is not 1 to 1,000,000 */
    CLAIM_TRACKER_BAD_BOOK = 4,                 /* the day is not open or no open day follows it; a balance is above 9,000,000,000, or an
                                                   account's with itself is not 0 */
    CLAIM_TRACKER_NO_SUCH_MARK = 16,            /* the mark is not 1 to 4, or the store has another number of words */
    CLAIM_TRACKER_BAD_MARK = 17,                /* a return, and the mark is unset, its count is above 4,294,967,295, or its day or a
                                                   balance of it is one that 4 refuses */
    CLAIM_TRACKER_BAD_RECORD = 5,               /* the record is cut short, or its length or kind is not the call's */
    CLAIM_TRACKER_BAD_FIELD = 6,                /* an account or a security above 15, an unused security, a class above 1, a code above 12,
                                                   a par of 0 or above 100,000,000, or the sender is the receiver */
    CLAIM_TRACKER_SEVERAL_TAGS = 132,           /* more than one {98A:CNTR/ in the two lines */
    CLAIM_TRACKER_UNENDED_TAG = 133,            /* no } behind it in its line */
    CLAIM_TRACKER_TAG_WITHOUT_DATE = 135,       /* not eight digits that are a date; nor empty, where the book's day is before 20230130 */
    CLAIM_TRACKER_CONTRACT_DATE_AFTER_DAY = 138, /* the Contract Date is after the book's day */
    CLAIM_TRACKER_CONTRACT_DATE_NOT_DAY = 139,  /* class 1, and the Contract Date is not the book's day */
    CLAIM_TRACKER_COUNT_FULL = 11,              /* 4,294,967,295 transfers are accepted already */
    CLAIM_TRACKER_OFF_PIECE = 14,               /* the par is no multiple of the security's piece, and not exactly the whole balance on
                                                   loan, or on repo, that its code takes from */
    CLAIM_TRACKER_LENDING_TOO_EARLY = 15,       /* a tracking code of lending, 1 to 6, and the book's day is before 20230130 */
    CLAIM_TRACKER_ABOVE_BALANCE = 7,            /* a decrease above what is on loan, or on repo, by its code */
    CLAIM_TRACKER_PAST_LIMIT = 8,               /* an increase past 9,000,000,000 on loan, or on repo, by its code */
    CLAIM_TRACKER_LAST_DAY = 9,                 /* a close, and no open day follows the day that it would go to */
    CLAIM_TRACKER_NO_ROOM = 10,                 /* the claims, or the record written, do not fit the buffer */
    CLAIM_TRACKER_BAD_FORECAST = 18,            /* a forecast, and its account is above 15, its date is none, or a record of its run is cut,
                                                   has a wrong length or kind, the same payer and payee, or one of them above 15 */
    CLAIM_TRACKER_SUM_TOO_LARGE = 19            /* a forecast, and the cents to pay or to receive are above 9,007,199,254,740,992 */
};

/* The kind of a record. */
enum claim_tracker_kind {
    CLAIM_TRACKER_KIND_TRANSFER = 1,
    CLAIM_TRACKER_KIND_CLOSE = 2,
    CLAIM_TRACKER_KIND_CLAIM = 3,
    CLAIM_TRACKER_KIND_ANSWER = 4
};

/* The class of a transfer. */
enum claim_tracker_class {
    CLAIM_TRACKER_CLASS_SECONDARY_MARKET = 0,
    CLAIM_TRACKER_CLASS_OTHER = 1
};

/* The tracking code of a transfer. A transfer without one may give interim claims and, where it has a Contract Date, fail claims. SLST,
   CLSR and ADSL add par to what the sender has lent the receiver; SLRV, CLSL and ADSR take par from what the receiver has lent the
   sender. These six are taken from 20230130 on. Codes 7 to 12 do the same on repo, on every day. Par on loan and par on repo stand
   apart. */
enum claim_tracker_code {
    CLAIM_TRACKER_CODE_NONE = 0,
    CLAIM_TRACKER_CODE_SLST = 1,                /* a loan's start */
    CLAIM_TRACKER_CODE_SLRV = 2,                /* reversal of a start */
    CLAIM_TRACKER_CODE_CLSL = 3,                /* a loan's return */
    CLAIM_TRACKER_CODE_CLSR = 4,                /* reversal of a return */
    CLAIM_TRACKER_CODE_ADSL = 5,                /* the balance alone, up */
    CLAIM_TRACKER_CODE_ADSR = 6,                /* the balance alone, down */
    CLAIM_TRACKER_CODE_RPST = 7,                /* a repo's start */
    CLAIM_TRACKER_CODE_RPRV = 8,                /* reversal of a start */
    CLAIM_TRACKER_CODE_CLRP = 9,                /* a repo's close */
    CLAIM_TRACKER_CODE_CLRV = 10,               /* reversal of a close */
    CLAIM_TRACKER_CODE_ADRP = 11,               /* the balance alone, up */
    CLAIM_TRACKER_CODE_ADRV = 12                /* the balance alone, down */
};

/* The type of a claim. In an MBS (types 3 and 4) a fail claims, of its rows whose Payment Date is after the book's day, the first alone;
   those whose Payment Date is not after it are all claimed. On days before 20230130 a fail claims by the older rules above. A transfer
   without a tracking code in an MBS, with a Contract Date or without, gives an interim claim for each row whose Record Date is not after
   the book's day and whose Beneficiary Date is; amounts and release are those of a fail. */
enum claim_tracker_claim_type {
    CLAIM_TRACKER_CLAIM_TYPE_FAIL = 1,
    CLAIM_TRACKER_CLAIM_TYPE_INTERIM = 2,
    CLAIM_TRACKER_CLAIM_TYPE_LENDING = 3,
    CLAIM_TRACKER_CLAIM_TYPE_REPO = 4
};

/* What becomes of a claim: it settles, or it is a notice for the first reason that applies. A notice keeps its amounts and has release date
   0 and slot 0. */
enum claim_tracker_outcome {
    CLAIM_TRACKER_OUTCOME_SETTLES = 0,
    CLAIM_TRACKER_OUTCOME_ZERO = 1,             /* both amounts are zero */
    CLAIM_TRACKER_OUTCOME_FINAL = 2,            /* a lending or repo claim on a payment that redeems the security */
    CLAIM_TRACKER_OUTCOME_RESTRICTED = 3        /* the payer's payment went to a non-interest-bearing account */
};

/* When on its release date a claim settles. */
enum claim_tracker_slot {
    CLAIM_TRACKER_SLOT_NONE = 0,                /* a notice */
    CLAIM_TRACKER_SLOT_AT_0805 = 1,             /* 8:05, with the payment: Treasuries and MBS guaranteed by the United States */
    CLAIM_TRACKER_SLOT_AT_0845 = 2,             /* 8:45: a fail whose Payment Date is not after the book's day */
    CLAIM_TRACKER_SLOT_DURING_DAY = 3           /* with the payment, during the day: all others */
};

/* The type of a security, word 0 of its tables. */
enum claim_tracker_security_type {
    CLAIM_TRACKER_SECURITY_UNUSED = 0,
    CLAIM_TRACKER_SECURITY_TREASURY = 1,
    CLAIM_TRACKER_SECURITY_NON_TREASURY_DEBT = 2,
    CLAIM_TRACKER_SECURITY_AGENCY_MBS = 3,
    CLAIM_TRACKER_SECURITY_US_GUARANTEED_MBS = 4
};

/* How often a security pays, word 1 of its tables. */
enum claim_tracker_frequency {
    CLAIM_TRACKER_FREQUENCY_MONTHLY = 1,
    CLAIM_TRACKER_FREQUENCY_QUARTERLY = 2,
    CLAIM_TRACKER_FREQUENCY_SEMIANNUAL = 3,
    CLAIM_TRACKER_FREQUENCY_ANNUAL = 4
};

/* A number in words. */
static inline const char *claim_tracker_text(unsigned int number) {
    switch (number) {
    case CLAIM_TRACKER_ACCEPTED:
        return "accepted";
    case CLAIM_TRACKER_WRONG_LENGTH:
        return "the calendar, the tables or the balances have a wrong length";
    case CLAIM_TRACKER_BAD_CALENDAR:
        return "the calendar has a bit for a day that the month lacks";
    case CLAIM_TRACKER_BAD_TABLES:
        return "the tables break a rule";
    case CLAIM_TRACKER_BAD_BOOK:
        return "the day is not open or no open day follows it, or a balance is wrong";
    case CLAIM_TRACKER_BAD_RECORD:
        return "the record is cut short, or its length or kind is wrong";
    case CLAIM_TRACKER_BAD_FIELD:
        return "account, security (or an unused one), class, code or par out of range, or sender and receiver the same";
    case CLAIM_TRACKER_ABOVE_BALANCE:
        return "the decrease is above the balance";
    case CLAIM_TRACKER_PAST_LIMIT:
        return "the increase goes past 9,000,000,000";
    case CLAIM_TRACKER_LAST_DAY:
        return "a close with no open day after the next";
    case CLAIM_TRACKER_NO_ROOM:
        return "the buffer is too short for the claims or the record";
    case CLAIM_TRACKER_COUNT_FULL:
        return "the transfer count is already 4,294,967,295";
    case CLAIM_TRACKER_BAD_LIMITS:
        return "the date limits have a wrong length or break a rule";
    case CLAIM_TRACKER_BAD_PIECES:
        return "the pieces have a wrong length or a number outside 1 to 1,000,000";
    case CLAIM_TRACKER_OFF_PIECE:
        return "the par is no multiple of the security's piece and does not clear the whole balance";
    case CLAIM_TRACKER_LENDING_TOO_EARLY:
        return "a tracking code of lending on a day before 20230130";
    case CLAIM_TRACKER_NO_SUCH_MARK:
        return "the mark is not 1 to 4, or the store has a wrong length";
    case CLAIM_TRACKER_BAD_MARK:
        return "the mark is unset, or its count, its day or a balance of it is wrong";
    case CLAIM_TRACKER_BAD_FORECAST:
        return "the account or the date of a forecast is wrong, or a claim record of its run is cut or bad";
    case CLAIM_TRACKER_SUM_TOO_LARGE:
        return "the cents to pay or to receive go past 9,007,199,254,740,992";
    case CLAIM_TRACKER_SEVERAL_TAGS:
        return "more than one Contract Date tag opens";
    case CLAIM_TRACKER_UNENDED_TAG:
        return "a Contract Date tag without } in its line";
    case CLAIM_TRACKER_TAG_WITHOUT_DATE:
        return "the Contract Date tag holds no date";
    case CLAIM_TRACKER_CONTRACT_DATE_AFTER_DAY:
        return "the Contract Date is after the day";
    case CLAIM_TRACKER_CONTRACT_DATE_NOT_DAY:
        return "not a secondary market transfer, and the Contract Date is not the day";
    default:
        return "unknown number";
    }
}

/* A book's day and the number of its accepted transfers; its balances are the caller's 8,192 words. */
struct claim_tracker_book {
    uint32_t day;
    uint32_t count;
};

/* What a call answers: its number, the book after it, and how many claims stand from the claim buffer's start. */
struct claim_tracker_done {
    uint16_t number;
    struct claim_tracker_book book;
    size_t claims;
};

/* What a call on the caller's own book replies: its number, and how many claims stand from the claim buffer's start. */
struct claim_tracker_reply {
    uint16_t number;
    size_t claims;
};

/* What a run of a stream answers: the number 1 to 4 that calendar, tables, book or balances meet, or 0; the book after it, how many bytes
   of the input were worked, how many of the output were written, whether a 5 has ended the stream, and whether the output is full: it has
   no room for another record behind what was written. Not over and not full, all whole records of the input are worked. */
struct claim_tracker_served {
    uint16_t number;
    struct claim_tracker_book book;
    size_t consumed;
    size_t written;
    bool over;
    bool full;
};

/* Cents to pay, cents to receive, and receive less pay, each a whole number. */
struct claim_tracker_cash {
    double pay;
    double receive;
    double difference;
};

/* What a forecast answers: its number, and three zeros where that is not 0. */
struct claim_tracker_cash_forecast {
    uint16_t number;
    struct claim_tracker_cash cash;
};

/* The fields of a transfer, kind 1; its two lines of free text are apart. */
struct claim_tracker_transfer_fields {
    uint8_t sender;
    uint8_t receiver;
    uint8_t security;
    uint8_t class_;
    uint8_t code;
    uint32_t par;
};

/* The fields of a claim, kind 3. Interest and principal are in cents. */
struct claim_tracker_claim {
    uint8_t claim_type;
    uint8_t outcome;
    uint8_t payer;
    uint8_t payee;
    uint8_t security;
    uint8_t row;
    uint32_t transfer;
    uint64_t interest;
    uint64_t principal;
    uint32_t release;
    uint8_t slot;
};

/* The field of an answer, kind 4. */
struct claim_tracker_answer {
    uint16_t number;
};

/* What the readers answer: number 0 and the fields, or number 5 and zeros. */
struct claim_tracker_transfer_reading {
    uint16_t number;
    struct claim_tracker_transfer_fields transfer;
    uint8_t first_line[CLAIM_TRACKER_LINE_BYTES];
    uint8_t second_line[CLAIM_TRACKER_LINE_BYTES];
};

struct claim_tracker_claim_reading {
    uint16_t number;
    struct claim_tracker_claim claim;
};

struct claim_tracker_answer_reading {
    uint16_t number;
    struct claim_tracker_answer answer;
};

/* Opens a book on a day: number 0, this day, count 0, and all balances zero. Refused, with 1 to 4: day 20000101, count 0, and the
   balances as they were. The claims are always 0. Of the balances only their number is judged. */
CLAIM_TRACKER_CALL CLAIM_TRACKER_NONNULL
struct claim_tracker_done claim_tracker_open(const uint32_t *calendar, size_t calendar_words, const uint32_t *tables, size_t table_words,
                                             uint64_t *balances, size_t balance_words, uint32_t day);

/* Carries a book over that was saved with the 4,096 words on loan: number 0, the book given, and the balances become the saved words on
   loan and zeros on repo. Loans go on: what was lent before counts with what is lent and returned later. The day is any that a book may
   have, before 20230130 too, and the count is any. Refused, with 1, 2 or 4: the number, the book given, and the balances as they were. The
   saved words are only read; they may not stand in the balances. The claims are always 0. Of the balances only their number is judged. */
CLAIM_TRACKER_CALL CLAIM_TRACKER_NONNULL
struct claim_tracker_done claim_tracker_carry_over(const uint32_t *calendar, size_t calendar_words, struct claim_tracker_book book,
                                                   const uint64_t *saved, size_t saved_words, uint64_t *balances, size_t balance_words);

/* Sets a mark of the store, 1 to 4: writes 1, the book's day, its count and the balances over the mark's 8,195 words, whatever they held,
   and answers 0. All other words of the store stay; book and balances are only read. Refused, with 1, 2, 4 or 16: the number, and the store
   as it was. */
CLAIM_TRACKER_CALL CLAIM_TRACKER_NONNULL
uint16_t claim_tracker_set_mark(const uint32_t *calendar, size_t calendar_words, struct claim_tracker_book book, const uint64_t *balances,
                                size_t balance_words, uint64_t *store, size_t store_words, uint32_t mark);

/* Returns to a mark of the store: number 0, the mark's day and count as the book, and the balances become the mark's. The store is only
   read: its marks stay, and can be returned to again. The book and the balances given are judged first, with 4, and then what the mark
   holds, with 17. Refused, with 1, 2, 4, 16 or 17: the number, the book given, and the balances as they were. The claims are always 0. */
CLAIM_TRACKER_CALL CLAIM_TRACKER_NONNULL
struct claim_tracker_done claim_tracker_return_to_mark(const uint32_t *calendar, size_t calendar_words, struct claim_tracker_book book,
                                                       uint64_t *balances, size_t balance_words, const uint64_t *store, size_t store_words,
                                                       uint32_t mark);

/* Works the transfer at the message's start: posts its par, counts it and writes its fail claims and then its interim claims from the claim
   buffer's start; the bytes behind them stay. The pieces are judged whatever the tracking code is. Refused: the number, the book given, no
   claims, and balances and claim buffer as they were. */
CLAIM_TRACKER_CALL CLAIM_TRACKER_NONNULL
struct claim_tracker_done claim_tracker_transfer(const uint32_t *calendar, size_t calendar_words, const uint32_t *tables,
                                                 size_t table_words, const uint32_t *pieces, size_t piece_words,
                                                 struct claim_tracker_book book, uint64_t *balances, size_t balance_words,
                                                 const uint8_t *message, size_t message_bytes, uint8_t *claims, size_t claim_bytes);

/* Works a transfer as claim_tracker_transfer does, with limits of the caller's in place of the published numbers. They are judged whatever
   the tracking code and the day are. Refused: the number, the book given, no claims, and balances and claim buffer as they were. On 7, 6,
   3, 2, 1, and on a day before 20230130 with any good limits, both forms give and leave the same. */
CLAIM_TRACKER_CALL CLAIM_TRACKER_NONNULL
struct claim_tracker_done claim_tracker_transfer_with_limits(const uint32_t *calendar, size_t calendar_words, const uint32_t *tables,
                                                             size_t table_words, const uint32_t *limits, size_t limit_words,
                                                             const uint32_t *pieces, size_t piece_words,
                                                             struct claim_tracker_book book, uint64_t *balances, size_t balance_words,
                                                             const uint8_t *message, size_t message_bytes, uint8_t *claims,
                                                             size_t claim_bytes);

/* Works the close at the message's start: moves the day to the next open day and writes the claims of the Record Dates crossed, of each
   first those of lending and then those of repo, from the claim buffer's start; the bytes behind them stay. Refused: the number, the book
   given, no claims, and balances and claim buffer as they were. */
CLAIM_TRACKER_CALL CLAIM_TRACKER_NONNULL
struct claim_tracker_done claim_tracker_close(const uint32_t *calendar, size_t calendar_words, const uint32_t *tables, size_t table_words,
                                              struct claim_tracker_book book, uint64_t *balances, size_t balance_words,
                                              const uint8_t *message, size_t message_bytes, uint8_t *claims, size_t claim_bytes);

/* Works a transfer as claim_tracker_transfer does, on the caller's own book: accepted, it counts there. Refused: the number, no claims,
   and book, balances and claim buffer as they were. On the same values both forms give and leave the same. */
CLAIM_TRACKER_CALL CLAIM_TRACKER_NONNULL
struct claim_tracker_reply claim_tracker_transfer_in(const uint32_t *calendar, size_t calendar_words, const uint32_t *tables,
                                                     size_t table_words, const uint32_t *pieces, size_t piece_words,
                                                     struct claim_tracker_book *book, uint64_t *balances, size_t balance_words,
                                                     const uint8_t *message, size_t message_bytes, uint8_t *claims, size_t claim_bytes);

/* Works a close as claim_tracker_close does, on the caller's own book: accepted, its day moves to the next open day. Refused: the number,
   no claims, and book, balances and claim buffer as they were. On the same values both forms give and leave the same. */
CLAIM_TRACKER_CALL CLAIM_TRACKER_NONNULL
struct claim_tracker_reply claim_tracker_close_in(const uint32_t *calendar, size_t calendar_words, const uint32_t *tables,
                                                  size_t table_words, struct claim_tracker_book *book, uint64_t *balances,
                                                  size_t balance_words, const uint8_t *message, size_t message_bytes, uint8_t *claims,
                                                  size_t claim_bytes);

/* Serves a run of input: works its records one after the other, each with a claim buffer of 64 KiB, and writes for each its claims and then
   its answer. It stops at a record that is not whole yet, when the output has no room for another record (CLAIM_TRACKER_RECORD_ROOM bytes),
   or after a 5, which is the answer to what is no record, and, with ended, to the beginning of one. The caller writes out what was
   written and keeps the bytes that were not worked. Once over is true it ends. Where full is true it calls again with these bytes and
   an empty output; where nothing was written either, the output is smaller than CLAIM_TRACKER_RECORD_ROOM and needs to grow. Else it
   ends if ended was true, or calls again with these bytes and those that have arrived since. However the input is cut, all that is
   written is the same. Its transfers have the published limits and sixteen ones as pieces: no record is answered with 12, 13 or 14.
   Numbers 1 to 4: nothing is worked or written, and the book given is returned. */
CLAIM_TRACKER_CALL CLAIM_TRACKER_NONNULL
struct claim_tracker_served claim_tracker_serve(const uint32_t *calendar, size_t calendar_words, const uint32_t *tables, size_t table_words,
                                                struct claim_tracker_book book, uint64_t *balances, size_t balance_words,
                                                const uint8_t *input, size_t input_bytes, bool ended, uint8_t *output,
                                                size_t output_bytes);

/* Forecasts an account's cash on a release date from a run of claim records, which is only read: number 0, and the cents to pay, the cents to
   receive, and receive less pay, each exact. The date is any date, open or not; an empty run gives three zeros. Refused, with 18 or 19: the
   number and three positive zeros. */
CLAIM_TRACKER_CALL CLAIM_TRACKER_NONNULL
struct claim_tracker_cash_forecast claim_tracker_forecast(const uint8_t *claims, size_t claim_bytes, uint32_t account, uint32_t date);

/* Reads the record of a kind at the message's start; the bytes behind it are not looked at, and no field is judged. */
CLAIM_TRACKER_CALL CLAIM_TRACKER_NONNULL
struct claim_tracker_transfer_reading claim_tracker_read_transfer(const uint8_t *message, size_t message_bytes);

/* 0 where the message begins with a close, else 5. */
CLAIM_TRACKER_CALL CLAIM_TRACKER_NONNULL
uint16_t claim_tracker_read_close(const uint8_t *message, size_t message_bytes);

/* Reads a claim. */
CLAIM_TRACKER_CALL CLAIM_TRACKER_NONNULL
struct claim_tracker_claim_reading claim_tracker_read_claim(const uint8_t *message, size_t message_bytes);

/* Reads an answer. */
CLAIM_TRACKER_CALL CLAIM_TRACKER_NONNULL
struct claim_tracker_answer_reading claim_tracker_read_answer(const uint8_t *message, size_t message_bytes);

/* Writes a transfer with its two lines to the buffer's start and answers 0; the bytes behind it stay. For too short a buffer, which is
   not touched, 10. Each line is 64 bytes. */
CLAIM_TRACKER_CALL CLAIM_TRACKER_NONNULL
uint16_t claim_tracker_write_transfer(uint8_t *buffer, size_t buffer_bytes, struct claim_tracker_transfer_fields transfer,
                                      const uint8_t first_line[CLAIM_TRACKER_LINE_BYTES],
                                      const uint8_t second_line[CLAIM_TRACKER_LINE_BYTES]);

/* Writes a close, likewise. */
CLAIM_TRACKER_CALL CLAIM_TRACKER_NONNULL
uint16_t claim_tracker_write_close(uint8_t *buffer, size_t buffer_bytes);

/* Writes a claim, likewise. */
CLAIM_TRACKER_CALL CLAIM_TRACKER_NONNULL
uint16_t claim_tracker_write_claim(uint8_t *buffer, size_t buffer_bytes, struct claim_tracker_claim claim);

/* Writes an answer, likewise. */
CLAIM_TRACKER_CALL CLAIM_TRACKER_NONNULL
uint16_t claim_tracker_write_answer(uint8_t *buffer, size_t buffer_bytes, struct claim_tracker_answer answer);

#ifdef __cplusplus
}
#endif

#endif
