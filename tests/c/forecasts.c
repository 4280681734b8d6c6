/* Forecasts the cash of accounts through the exported function. Runs stand between two pages that cannot be touched, on a page that cannot be
   written, so that a byte read behind or before a run, or written to it, ends the program. Doubles are compared by their bits: a zero with
   a sign is another double. */
#define _DEFAULT_SOURCE
#include <string.h>
#include <sys/mman.h>
#include <unistd.h>

#include "checking.h"
#include "claim_tracker.h"

enum { RECORD = CLAIM_TRACKER_CLAIM_BYTES, DAY = 20230417, MOST_RECORDS = 100 };
#define MOST CLAIM_TRACKER_MOST_FORECAST_CENTS

static uint8_t *page;
static size_t page_bytes;

/* A forecast of a run that ends, or with front begins, where its page does. */
static struct claim_tracker_cash_forecast forecast(const uint8_t *run, size_t bytes, int front, uint32_t account, uint32_t date) {
    uint8_t *lent = front ? page : page + page_bytes - bytes;
    if (bytes > page_bytes || mprotect(page, page_bytes, PROT_READ | PROT_WRITE) != 0) _exit(2);
    if (bytes > 0) memcpy(lent, run, bytes);
    if (mprotect(page, page_bytes, PROT_READ) != 0) _exit(2);
    return claim_tracker_forecast(lent, bytes, account, date);
}

static int same_bits(double found, double wanted) { return memcmp(&found, &wanted, sizeof found) == 0; }

static int is_answer(struct claim_tracker_cash_forecast f, uint16_t number, double pay, double receive, double difference) {
    return f.number == number && same_bits(f.cash.pay, pay) && same_bits(f.cash.receive, receive)
           && same_bits(f.cash.difference, difference);
}

/* A run is answered so wherever it stands. */
static void check_run(const char *name, const uint8_t *run, size_t bytes, uint32_t account, uint32_t date, uint16_t number, double pay,
                      double receive, double difference) {
    for (int front = 0; front < 2; front++)
        check(name, is_answer(forecast(run, bytes, front, account, date), number, pay, receive, difference));
}

static size_t write_claim(uint8_t *run, uint8_t payer, uint8_t payee, uint64_t interest, uint64_t principal, uint32_t release,
                          uint8_t outcome) {
    struct claim_tracker_claim claim = {CLAIM_TRACKER_CLAIM_TYPE_FAIL, outcome, payer, payee, 0, 0, 1, interest, principal, release, 3};
    check("a claim is written", claim_tracker_write_claim(run, RECORD, claim) == 0);
    return RECORD;
}

struct part {
    uint8_t payer, payee;
    uint64_t interest, principal;
    uint32_t release;
    uint8_t outcome;
};

/* Runs of up to three claims, and what they give. A payer equal to the payee ends the run. */
static const struct {
    const char *name;
    uint32_t account, date;
    struct part parts[3];
    uint16_t number;
    double pay, receive, difference;
} cases[] = {
    {"both ways, account 1", 1, DAY, {{1, 2, 100000, 5, DAY, 0}, {2, 1, 40000, 0, DAY, 0}}, 0, 100005, 40000, -60005},
    {"both ways, account 2", 2, DAY, {{1, 2, 100000, 5, DAY, 0}, {2, 1, 40000, 0, DAY, 0}}, 0, 40000, 100005, 60005},
    {"another account", 3, DAY, {{1, 2, 100000, 5, DAY, 0}, {2, 1, 40000, 0, DAY, 0}}, 0, 0, 0, 0},
    {"another date", 1, 20230418, {{1, 2, 100000, 5, DAY, 0}, {2, 1, 40000, 0, DAY, 0}}, 0, 0, 0, 0},
    {"a closed date", 1, 20230415, {{1, 2, 7, 0, 20230415, 0}}, 0, 7, 0, -7},
    {"equal sums", 1, DAY, {{1, 2, 10, 0, DAY, 0}, {2, 1, 0, 10, DAY, 0}}, 0, 10, 10, 0},
    {"accounts 0 and 15", 15, DAY, {{15, 0, 5, 0, DAY, 0}}, 0, 5, 0, -5},
    {"a notice of 1", 1, DAY, {{1, 2, 7, 0, DAY, 1}}, 0, 0, 0, 0},
    {"a notice of 2", 1, DAY, {{1, 2, 7, 0, DAY, 2}}, 0, 0, 0, 0},
    {"a notice of 3", 1, DAY, {{1, 2, 7, 0, DAY, 3}}, 0, 0, 0, 0},
    {"an outcome of 255", 1, DAY, {{1, 2, 7, 0, DAY, 255}}, 0, 0, 0, 0},
    {"the largest sum to pay", 1, DAY, {{1, 2, MOST, 0, DAY, 0}}, 0, 9007199254740992.0, 0, -9007199254740992.0},
    {"one cent less", 1, DAY, {{1, 2, MOST - 1, 0, DAY, 0}}, 0, 9007199254740991.0, 0, -9007199254740991.0},
    {"the largest sum to receive", 2, DAY, {{1, 2, MOST - 1, 1, DAY, 0}}, 0, 0, 9007199254740992.0, 9007199254740992.0},
    {"both sums the largest", 1, DAY, {{1, 2, MOST, 0, DAY, 0}, {2, 1, 0, MOST, DAY, 0}}, 0, 9007199254740992.0, 9007199254740992.0, 0},
    {"one cent of interest past it", 1, DAY, {{1, 2, MOST + 1, 0, DAY, 0}}, 19, 0, 0, 0},
    {"one cent of principal past it", 1, DAY, {{1, 2, MOST, 1, DAY, 0}}, 19, 0, 0, 0},
    {"one cent of another claim past it", 1, DAY, {{1, 2, MOST, 0, DAY, 0}, {1, 3, 0, 1, DAY, 0}}, 19, 0, 0, 0},
    {"past it to receive", 2, DAY, {{1, 2, MOST, 0, DAY, 0}, {3, 2, 1, 0, DAY, 0}}, 19, 0, 0, 0},
    {"a sum of 2 to the power of 64", 1, DAY, {{1, 2, UINT64_C(1) << 63, UINT64_C(1) << 63, DAY, 0}}, 19, 0, 0, 0},
    {"the largest amounts", 1, DAY, {{1, 2, UINT64_MAX, UINT64_MAX, DAY, 0}, {1, 2, UINT64_MAX, 2, DAY, 0}}, 19, 0, 0, 0},
    {"the largest amounts of others", 1, DAY, {{3, 4, UINT64_MAX, UINT64_MAX, DAY, 0}, {1, 2, 3, 0, DAY, 0}}, 0, 3, 0, -3},
    {"past it on another date", 1, DAY, {{1, 2, UINT64_MAX, 0, 20230418, 0}, {1, 2, 3, 0, DAY, 0}}, 0, 3, 0, -3},
    {"payer 16", 1, DAY, {{1, 2, 3, 0, DAY, 0}, {16, 2, 3, 0, DAY, 0}}, 18, 0, 0, 0},
    {"payee 16", 1, DAY, {{2, 16, 3, 0, DAY, 0}, {1, 2, 3, 0, DAY, 0}}, 18, 0, 0, 0},
    {"payee 255 in the middle", 1, DAY, {{1, 2, 3, 0, DAY, 0}, {2, 255, 3, 0, DAY, 0}, {1, 2, 3, 0, DAY, 0}}, 18, 0, 0, 0},
    {"payer 16 in a notice of another date", 1, DAY, {{1, 2, 3, 0, DAY, 0}, {16, 2, 0, 0, 0, 1}}, 18, 0, 0, 0},
    {"past the limit, then payer 16", 1, DAY, {{1, 2, UINT64_MAX, 0, DAY, 0}, {16, 2, 0, 0, 0, 1}}, 18, 0, 0, 0},
    {"account 16", 16, DAY, {{1, 2, 3, 0, DAY, 0}}, 18, 0, 0, 0},
    {"account 257", 257, DAY, {{1, 2, 3, 0, DAY, 0}}, 18, 0, 0, 0},
    {"the largest account", UINT32_MAX, DAY, {{1, 2, 3, 0, DAY, 0}}, 18, 0, 0, 0},
    {"30 February", 1, 20230230, {{1, 2, 3, 0, DAY, 0}}, 18, 0, 0, 0},
    {"date 0", 1, 0, {{1, 2, 3, 0, 0, 0}}, 18, 0, 0, 0},
    {"a date before the first", 1, 19991231, {{1, 2, 3, 0, DAY, 0}}, 18, 0, 0, 0},
    {"a date behind the last", 1, 20400101, {{1, 2, 3, 0, DAY, 0}}, 18, 0, 0, 0},
    {"the first date", 1, 20000101, {{1, 2, 3, 0, 20000101, 0}}, 0, 3, 0, -3},
    {"the last date", 1, 20391231, {{1, 2, 3, 0, 20391231, 0}}, 0, 3, 0, -3},
};

static void check_cases(void) {
    uint8_t run[3 * RECORD];
    for (size_t i = 0; i < sizeof cases / sizeof *cases; i++) {
        size_t bytes = 0;
        for (const struct part *p = cases[i].parts; p < cases[i].parts + 3 && p->payer != p->payee; p++)
            bytes += write_claim(run + bytes, p->payer, p->payee, p->interest, p->principal, p->release, p->outcome);
        check_run(cases[i].name, run, bytes, cases[i].account, cases[i].date, cases[i].number, cases[i].pay, cases[i].receive,
                  cases[i].difference);
    }
}

/* A run cut at each byte, one with each wrong byte of a header, and equal parties, in each of three records. */
static void check_bad_records(void) {
    uint8_t run[3 * RECORD], changed[3 * RECORD];
    for (size_t at = 0; at < sizeof run; at += RECORD) write_claim(run + at, 1, 2, 4, 1, DAY, 0);
    for (size_t bytes = 0; bytes <= sizeof run; bytes++) {
        double pay = bytes % RECORD == 0 ? 5.0 * (double)(bytes / RECORD) : 0.0;
        check_run("a cut run", run, bytes, 1, DAY, bytes % RECORD == 0 ? 0 : 18, pay, 0.0, pay == 0.0 ? 0.0 : -pay);
    }
    for (size_t at = 0; at < sizeof run; at += RECORD) {
        for (size_t byte = 0; byte < 4; byte++)
            for (int value = 0; value < 256; value++) {
                memcpy(changed, run, sizeof run);
                changed[at + byte] = (uint8_t)value;
                int is_good = changed[at + byte] == run[at + byte];
                check_run("a byte of a header", changed, sizeof changed, 1, DAY, is_good ? 0 : 18, is_good ? 15.0 : 0.0, 0.0,
                          is_good ? -15.0 : 0.0);
            }
        for (int party = 0; party < 256; party++) {
            memcpy(changed, run, sizeof run);
            changed[at + 6] = changed[at + 7] = (uint8_t)party;
            check_run("equal parties", changed, sizeof changed, 1, DAY, 18, 0.0, 0.0, 0.0);
        }
    }
}

/* As many records as the page holds, one for each pair of accounts in turn: the sums of each account. */
static void check_every_account(void) {
    static uint8_t run[MOST_RECORDS * RECORD];
    uint64_t pay[16] = {0}, receive[16] = {0};
    for (int k = 0; k < MOST_RECORDS; k++) {
        uint8_t payer = (uint8_t)(k % 16), payee = (uint8_t)((k % 16 + 1 + k / 16) % 16);
        uint64_t cents = (uint64_t)k * k * 1000003 + 1;
        write_claim(run + (size_t)k * RECORD, payer, payee, cents, (uint64_t)k, k % 3 == 0 ? 20230418 : DAY, k % 7 == 0);
        if (k % 3 == 0 || k % 7 == 0) continue;
        pay[payer] += cents + (uint64_t)k;
        receive[payee] += cents + (uint64_t)k;
    }
    for (uint32_t account = 0; account < 16; account++)
        check_run("many records", run, sizeof run, account, DAY, 0, (double)pay[account], (double)receive[account],
                  (double)((int64_t)receive[account] - (int64_t)pay[account]));
}

int main(void) {
    page_bytes = (size_t)sysconf(_SC_PAGESIZE);
    uint8_t *pages = mmap(NULL, 3 * page_bytes, PROT_NONE, MAP_PRIVATE | MAP_ANONYMOUS, -1, 0);
    if (pages == MAP_FAILED) return 2;
    page = pages + page_bytes;
    check_cases();
    check_bad_records();
    check_every_account();
    struct claim_tracker_cash_forecast empty = forecast(NULL, 0, 0, 1, 20230415);
    static const uint8_t zeros[sizeof empty.cash];
    check("an empty run", empty.number == 0 && memcmp(&empty.cash, zeros, sizeof zeros) == 0);
    return told();
}
