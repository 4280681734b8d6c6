/* Makes the calls that standard input lists, one a line, and prints what each answers and leaves. tests/python makes the same calls through
   the Python module and compares. Bytes are hex, limits and pieces have commas between them, and - is none of these; transfers are lent
   ones until a line gives other pieces. A buffer begins as bytes AA, and a line ends with checksums of it and of the balances. */
#define _POSIX_C_SOURCE 200809L
#include <inttypes.h>
#include <stdio.h>
#include <stdlib.h>
#include <string.h>

#include "claim_tracker.h"

static uint32_t calendar[2 * CLAIM_TRACKER_CALENDAR_WORDS];
static uint32_t tables[2 * CLAIM_TRACKER_TABLE_WORDS];
static uint64_t balances[2 * CLAIM_TRACKER_BALANCE_WORDS];
static uint64_t saved[2 * CLAIM_TRACKER_LENDING_WORDS];
static uint64_t store[CLAIM_TRACKER_STORE_WORDS + 20];
static uint32_t *pieces;
static size_t calendar_words = CLAIM_TRACKER_CALENDAR_WORDS, table_words = CLAIM_TRACKER_TABLE_WORDS;
static size_t balance_words = CLAIM_TRACKER_BALANCE_WORDS, piece_words;
static struct claim_tracker_book book;
static uint8_t *buffer;
static size_t room;

static char *next(void) {
    char *word = strtok(NULL, " \n");
    if (word == NULL) exit(2);
    return word;
}

static uint64_t number(void) { return strtoull(next(), NULL, 10); }

/* The bytes of a word of hex, which the caller frees. */
static uint8_t *bytes(size_t *count) {
    const char *word = next();
    *count = strcmp(word, "-") == 0 ? 0 : strlen(word) / 2;
    uint8_t *made = malloc(*count + 1);
    for (size_t i = 0; i < *count; i++) {
        unsigned byte;
        if (sscanf(word + 2 * i, "%2x", &byte) != 1) exit(2);
        made[i] = (uint8_t)byte;
    }
    return made;
}

/* The limits or pieces of a word, which the caller frees. */
static uint32_t *words_of(char *word, size_t *count) {
    uint32_t *made = malloc(sizeof *made * (strlen(word) + 1));
    *count = 0;
    if (strcmp(word, "-") == 0) return made;
    for (;; word++) {
        made[(*count)++] = (uint32_t)strtoull(word, &word, 10);
        if (*word == '\0') return made;
    }
}

static void line(uint8_t *made) {
    size_t count;
    uint8_t *given = bytes(&count);
    if (count != CLAIM_TRACKER_LINE_BYTES) exit(2);
    memcpy(made, given, count);
    free(given);
}

static void new_buffer(void) {
    room = number();
    buffer = malloc(room + 1);
    memset(buffer, 0xaa, room);
}

static uint32_t checksum(const void *data, size_t count) {
    uint32_t sum = UINT32_MAX;
    for (size_t i = 0; i < count; i++) {
        sum ^= ((const uint8_t *)data)[i];
        for (int bit = 0; bit < 8; bit++) sum = sum >> 1 ^ (sum & 1 ? UINT32_C(0xedb88320) : 0);
    }
    return ~sum;
}

static void print_hex(const uint8_t *data, size_t count) {
    printf(" ");
    if (count == 0) printf("-");
    for (size_t i = 0; i < count; i++) printf("%02x", data[i]);
}

/* What a call leaves: the book, the buffer's first bytes and the checksums. */
static void print_left(size_t written) {
    printf(" book %" PRIu32 " %" PRIu32, book.day, book.count);
    print_hex(buffer, written);
    printf(" %08" PRIx32 " %08" PRIx32 "\n", checksum(buffer, room), checksum(balances, sizeof balances));
    free(buffer);
}

/* A transfer by value, with limits where they are given. */
static struct claim_tracker_done transfer(const uint32_t *limits, size_t limit_words, const uint8_t *message, size_t count) {
    if (limits == NULL)
        return claim_tracker_transfer(calendar, calendar_words, tables, table_words, pieces, piece_words, book, balances, balance_words,
                                      message, count, buffer, room);
    return claim_tracker_transfer_with_limits(calendar, calendar_words, tables, table_words, limits, limit_words, pieces, piece_words, book,
                                              balances, balance_words, message, count, buffer, room);
}

/* A transfer or a close on the own book. */
static struct claim_tracker_reply on_own_book(const char *name, const uint8_t *message, size_t count) {
    if (strcmp(name, "transfer_in") == 0)
        return claim_tracker_transfer_in(calendar, calendar_words, tables, table_words, pieces, piece_words, &book, balances, balance_words,
                                         message, count, buffer, room);
    if (strcmp(name, "close_in") != 0) exit(2);
    return claim_tracker_close_in(calendar, calendar_words, tables, table_words, &book, balances, balance_words, message, count, buffer,
                                  room);
}

/* A transfer or a close, by value or on the own book, or a transfer with limits. */
static void call(const char *name) {
    struct claim_tracker_done done;
    size_t count, limit_words = 0;
    uint32_t *limits = strcmp(name, "transfer_with_limits") == 0 ? words_of(next(), &limit_words) : NULL;
    new_buffer();
    uint8_t *message = bytes(&count);
    if (limits != NULL || strcmp(name, "transfer") == 0) {
        done = transfer(limits, limit_words, message, count);
    } else if (strcmp(name, "close") == 0) {
        done = claim_tracker_close(calendar, calendar_words, tables, table_words, book, balances, balance_words, message, count, buffer,
                                   room);
    } else {
        struct claim_tracker_reply reply = on_own_book(name, message, count);
        done = (struct claim_tracker_done){reply.number, book, reply.claims};
    }
    book = done.book;
    free(limits);
    free(message);
    printf("%s %u claims %zu", name, done.number, done.claims);
    print_left(CLAIM_TRACKER_CLAIM_ROOM(done.claims));
}

/* Carries over as many of the saved words as the line says. */
static void carry_over(void) {
    size_t saved_words = number();
    struct claim_tracker_done done =
        claim_tracker_carry_over(calendar, calendar_words, book, saved, saved_words, balances, balance_words);
    book = done.book;
    printf("carry_over %u claims %zu book %" PRIu32 " %" PRIu32 " %08" PRIx32 " %08" PRIx32 "\n", done.number, done.claims, book.day,
           book.count, checksum(saved, sizeof saved), checksum(balances, sizeof balances));
}

/* Sets a mark in as many words of the store as the line says, or returns to it. */
static void mark(const char *name) {
    size_t store_words = number();
    uint32_t which = (uint32_t)number();
    if (strcmp(name, "set_mark") == 0) {
        printf("%s %u", name,
               claim_tracker_set_mark(calendar, calendar_words, book, balances, balance_words, store, store_words, which));
    } else {
        struct claim_tracker_done done =
            claim_tracker_return_to_mark(calendar, calendar_words, book, balances, balance_words, store, store_words, which);
        book = done.book;
        printf("%s %u claims %zu book %" PRIu32 " %" PRIu32, name, done.number, done.claims, book.day, book.count);
    }
    printf(" %08" PRIx32 " %08" PRIx32 "\n", checksum(store, sizeof store), checksum(balances, sizeof balances));
}

static void serve(void) {
    size_t count;
    bool ended = number() != 0;
    new_buffer();
    uint8_t *input = bytes(&count);
    struct claim_tracker_served served = claim_tracker_serve(
        calendar, calendar_words, tables, table_words, book, balances, balance_words, input, count, ended, buffer, room);
    free(input);
    book = served.book;
    printf("serve %u consumed %zu written %zu over %d", served.number, served.consumed, served.written, served.over);
    printf(" full %d", served.full);
    print_left(served.written);
}

static void print_double(double value) {
    uint64_t bits;
    memcpy(&bits, &value, sizeof bits);
    printf(" %016" PRIx64, bits);
}

/* Forecasts an account's cash on a date; doubles are printed as their bits. */
static void forecast(void) {
    size_t count;
    uint32_t account = (uint32_t)number(), date = (uint32_t)number();
    uint8_t *claims = bytes(&count);
    struct claim_tracker_cash_forecast found = claim_tracker_forecast(claims, count, account, date);
    free(claims);
    printf("forecast %u", found.number);
    print_double(found.cash.pay);
    print_double(found.cash.receive);
    print_double(found.cash.difference);
    printf("\n");
}

static void print_claim(struct claim_tracker_claim c) {
    printf(" %u %u %u %u %u %u %" PRIu32 " %" PRIu64 " %" PRIu64 " %" PRIu32 " %u\n", c.claim_type, c.outcome, c.payer, c.payee,
           c.security, c.row, c.transfer, c.interest, c.principal, c.release, c.slot);
}

static void read_record(const char *name) {
    size_t count;
    uint8_t *message = bytes(&count);
    if (strcmp(name, "read_transfer") == 0) {
        struct claim_tracker_transfer_reading found = claim_tracker_read_transfer(message, count);
        printf("%s %u %u %u %u %u %u %" PRIu32, name, found.number, found.transfer.sender, found.transfer.receiver, found.transfer.security,
               found.transfer.class_, found.transfer.code, found.transfer.par);
        print_hex(found.first_line, CLAIM_TRACKER_LINE_BYTES);
        print_hex(found.second_line, CLAIM_TRACKER_LINE_BYTES);
        printf("\n");
    } else if (strcmp(name, "read_close") == 0) {
        printf("%s %u\n", name, claim_tracker_read_close(message, count));
    } else if (strcmp(name, "read_claim") == 0) {
        struct claim_tracker_claim_reading found = claim_tracker_read_claim(message, count);
        printf("%s %u", name, found.number);
        print_claim(found.claim);
    } else if (strcmp(name, "read_answer") == 0) {
        struct claim_tracker_answer_reading found = claim_tracker_read_answer(message, count);
        printf("%s %u %u\n", name, found.number, found.answer.number);
    }
    free(message);
}

static void write_record(const char *name) {
    uint16_t answer = UINT16_MAX;
    new_buffer();
    if (strcmp(name, "write_transfer") == 0) {
        struct claim_tracker_transfer_fields t;
        uint8_t lines[2][CLAIM_TRACKER_LINE_BYTES];
        t.sender = (uint8_t)number();
        t.receiver = (uint8_t)number();
        t.security = (uint8_t)number();
        t.class_ = (uint8_t)number();
        t.code = (uint8_t)number();
        t.par = (uint32_t)number();
        line(lines[0]);
        line(lines[1]);
        answer = claim_tracker_write_transfer(buffer, room, t, lines[0], lines[1]);
    } else if (strcmp(name, "write_close") == 0) {
        answer = claim_tracker_write_close(buffer, room);
    } else if (strcmp(name, "write_claim") == 0) {
        struct claim_tracker_claim c;
        c.claim_type = (uint8_t)number();
        c.outcome = (uint8_t)number();
        c.payer = (uint8_t)number();
        c.payee = (uint8_t)number();
        c.security = (uint8_t)number();
        c.row = (uint8_t)number();
        c.transfer = (uint32_t)number();
        c.interest = number();
        c.principal = number();
        c.release = (uint32_t)number();
        c.slot = (uint8_t)number();
        answer = claim_tracker_write_claim(buffer, room, c);
    } else if (strcmp(name, "write_answer") == 0) {
        struct claim_tracker_answer a = {(uint16_t)number()};
        answer = claim_tracker_write_answer(buffer, room, a);
    }
    printf("%s %u", name, answer);
    print_hex(buffer, room);
    printf("\n");
    free(buffer);
}

/* Puts a word at its place. */
static void put(const char *name) {
    uint64_t place = number(), word = number();
    if (strcmp(name, "calendar") == 0) calendar[place] = (uint32_t)word;
    if (strcmp(name, "tables") == 0) tables[place] = (uint32_t)word;
    if (strcmp(name, "balances") == 0) balances[place] = word;
    if (strcmp(name, "saved") == 0) saved[place] = word;
    if (strcmp(name, "store") == 0) store[place] = word;
}

static void work(const char *name) {
    if (strcmp(name, "calendar") == 0 || strcmp(name, "tables") == 0 || strcmp(name, "balances") == 0 || strcmp(name, "saved") == 0
        || strcmp(name, "store") == 0) {
        put(name);
    } else if (strcmp(name, "pieces") == 0) {
        free(pieces);
        pieces = words_of(next(), &piece_words);
    } else if (strcmp(name, "lengths") == 0) {
        calendar_words = number();
        table_words = number();
        balance_words = number();
    } else if (strcmp(name, "book") == 0) {
        book.day = (uint32_t)number();
        book.count = (uint32_t)number();
    } else if (strcmp(name, "open") == 0) {
        uint32_t day = (uint32_t)number();
        struct claim_tracker_done done = claim_tracker_open(calendar, calendar_words, tables, table_words, balances, balance_words, day);
        book = done.book;
        printf("open %u claims %zu book %" PRIu32 " %" PRIu32 " %08" PRIx32 "\n", done.number, done.claims, book.day, book.count,
               checksum(balances, sizeof balances));
    } else if (strcmp(name, "carry_over") == 0) {
        carry_over();
    } else if (strcmp(name, "set_mark") == 0 || strcmp(name, "return_to_mark") == 0) {
        mark(name);
    } else if (strcmp(name, "forecast") == 0) {
        forecast();
    } else if (strcmp(name, "serve") == 0) {
        serve();
    } else if (strncmp(name, "read_", 5) == 0) {
        read_record(name);
    } else if (strncmp(name, "write_", 6) == 0) {
        write_record(name);
    } else if (strcmp(name, "text") == 0) {
        printf("text %s\n", claim_tracker_text((unsigned)number()));
    } else {
        call(name);
    }
}

int main(void) {
    char ones[] = "1,1,1,1,1,1,1,1,1,1,1,1,1,1,1,1", *text = NULL;
    size_t size = 0;
    pieces = words_of(ones, &piece_words);
    while (getline(&text, &size, stdin) > 0) work(strtok(text, " \n"));
    free(text);
    free(pieces);
    return 0;
}
