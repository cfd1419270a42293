/*
 * hailtansy.h: an expiring recency cache, proved, for C.
 *
 * A book keeps up to `capacity` keys with a value each and pushes out the least
 * recent; up to `deadlines` keys hold a deadline. Keys, values and ticks are
 * 64-bit numbers. A tick is a millisecond of the caller's own clock: every call
 * is told what the clock reads (`now`), and the clock may go back.
 *
 * A book is twelve numbers and HAILTANSY_WORDS(capacity, deadlines) words, both
 * the caller's: nothing is allocated, there is no state elsewhere, and books in
 * memory of their own may be used by several threads. Moving a book is copying
 * its numbers and words.
 *
 *     #include "hailtansy.h"
 *
 *     static uint64_t memory[HAILTANSY_WORDS(4, 8)];
 *
 *     hailtansy_book book = hailtansy_book_in(memory, HAILTANSY_WORDS(4, 8));
 *     hailtansy_answer a = hailtansy_book_open(&book, 4, 8);
 *     if (a.code != HAILTANSY_DONE) ...                 // refused: a.first
 *     hailtansy_book_insert_with_ttl(&book, now, 7, 70, 2, 0);        // 2 s
 *     a = hailtansy_book_get(&book, now + 1000, 7);
 *     if (a.code == HAILTANSY_NUMBER) use(a.first);                   // 70
 *     else if (a.code == HAILTANSY_REFUSED) ...
 *     else ...                                          // HAILTANSY_NOTHING
 *
 *     cc -Iinclude program.c target/staticlib/libhailtansy.a
 *
 * `bindings/library hailtansy` proves and writes that library, for x86-64.
 *
 * What is proved: on every list of calls after an accepted opening each answer
 * is that of a plain model of the book, and the book then reads as the model
 * stands. On any numbers and words at all, a book or not, every call ends and
 * touches nothing but what it is handed. What the caller owes is only what C
 * cannot say: pointers to as many words as their lengths tell, aligned, never
 * null, even where a length is 0, and no two of one call's areas overlapping.
 */
#ifndef HAILTANSY_H
#define HAILTANSY_H

#include <stddef.h>
#include <stdint.h>

#ifdef __cplusplus
extern "C" {
#endif

/* ---- sizes and limits */

#define HAILTANSY_MAX_CAPACITY 4096 /* a capacity is 0 to this */
#define HAILTANSY_MAX_DEADLINES 4096 /* a limit of deadlines is 1 to this */
#define HAILTANSY_NUMBERS 12 /* numbers of a book */
#define HAILTANSY_ANSWER 4 /* words of an answer */
#define HAILTANSY_CALL 6 /* words of a call in a list */

/* The words of a book. A book may be lent more: they stay as they are. */
#define HAILTANSY_WORDS(capacity, deadlines) \
    (128 + 8 * (size_t)(capacity) + 32 * (size_t)(deadlines))

/* ---- answers: a code, two numbers that depend on it, and how many entries of
 * the heap of deadlines the call discarded */

enum hailtansy_code {
    HAILTANSY_NO = 0,
    HAILTANSY_YES = 1,
    HAILTANSY_NOTHING = 2, /* no such key, value or item */
    HAILTANSY_NUMBER = 3, /* first: a value, a count or a rank */
    HAILTANSY_PAIR = 4, /* first: key; second: its deadline or value */
    HAILTANSY_DONE = 9,
    HAILTANSY_REFUSED = 10, /* first: a hailtansy_refusal; nothing changed */
    HAILTANSY_MISSING = 12, /* of ttl_status, as the three below */
    HAILTANSY_IMMORTAL = 13,
    HAILTANSY_EXPIRED = 14,
    HAILTANSY_LIVE = 15 /* first: ticks that remain; second: the deadline */
};

/* Looked for in the order 1, 2, 3, 4. */
enum hailtansy_refusal {
    /* A capacity above 4096, or a limit of deadlines outside 1 to 4096: at an
     * opening, and at every call on numbers of no book, as those that a refused
     * opening leaves. */
    HAILTANSY_LIMIT_OUT_OF_RANGE = 1,
    /* Fewer words than HAILTANSY_WORDS of the book. */
    HAILTANSY_TOO_FEW_WORDS = 2,
    /* 1,000,000,000 nanoseconds or more. */
    HAILTANSY_INVALID_NANOS = 3,
    /* A deadline for a key that holds none, with as many held as may be. */
    HAILTANSY_KEY_LIMIT_REACHED = 4
};

/* ---- the functions of the library
 *
 * Each says 1, or 0 where it did nothing: where there are fewer than 12 numbers
 * or 4 words for the answer. What the calls mean is said below, at the inline
 * functions that spare their caller the lengths. Those with const areas change
 * nothing. */

/* Opens a book, whatever numbers and words held before. `seq` is the first
 * sequence number of the deadlines, usually 0. Where `given` is not 0, `secs`
 * and `nanos` are the lifetime of what `insert` stores. The answer is DONE or
 * REFUSED; a refused opening leaves numbers that are all 0. */
uint64_t hailtansy_open(uint64_t *numbers, size_t numbers_len, uint64_t *words,
    size_t words_len, uint64_t capacity, uint64_t deadlines, uint64_t seq,
    uint64_t given, uint64_t secs, uint64_t nanos, uint64_t *answer,
    size_t answer_len);

/* 1 exactly where numbers and words form a book, otherwise 0: for a book that
 * was kept where it could be damaged. It walks the whole book. */
uint64_t hailtansy_check(const uint64_t *numbers, size_t numbers_len,
    const uint64_t *words, size_t words_len);

/* Runs a list of calls of six words each: operation, now, key, value, seconds,
 * nanoseconds (0 where a call has none), and writes four words for each. Says
 * how many it ran: as many as have room for an answer and come before the first
 * whose operation is none. */
uint64_t hailtansy_replay(uint64_t *numbers, size_t numbers_len,
    uint64_t *words, size_t words_len, const uint64_t *calls,
    size_t calls_len, uint64_t *answers, size_t answers_len);

enum hailtansy_operation {
    HAILTANSY_OP_INSERT = 0,
    HAILTANSY_OP_INSERT_WITH_TTL = 1,
    HAILTANSY_OP_GET = 2,
    HAILTANSY_OP_REMOVE = 3,
    HAILTANSY_OP_CLEAR = 4,
    HAILTANSY_OP_SET_TTL = 5,
    HAILTANSY_OP_PURGE_EXPIRED = 6,
    HAILTANSY_OP_NEXT_DEADLINE = 7,
    HAILTANSY_OP_TOUCH = 8,
    HAILTANSY_OP_POP_LRU = 9,
    HAILTANSY_OP_CONTAINS = 10,
    HAILTANSY_OP_PEEK = 11,
    HAILTANSY_OP_TTL_STATUS = 12,
    HAILTANSY_OP_RECENCY_RANK = 13,
    HAILTANSY_OP_LIVE_LEN = 14,
    HAILTANSY_OP_EXPIRATIONS = 15,
    HAILTANSY_OP_PEEK_LRU = 16
};

uint64_t hailtansy_get(uint64_t *numbers, size_t numbers_len, uint64_t *words,
    size_t words_len, uint64_t now, uint64_t key, uint64_t *answer,
    size_t answer_len);
uint64_t hailtansy_insert(uint64_t *numbers, size_t numbers_len,
    uint64_t *words, size_t words_len, uint64_t now, uint64_t key,
    uint64_t value, uint64_t *answer, size_t answer_len);
uint64_t hailtansy_insert_with_ttl(uint64_t *numbers, size_t numbers_len,
    uint64_t *words, size_t words_len, uint64_t now, uint64_t key,
    uint64_t value, uint64_t secs, uint64_t nanos, uint64_t *answer,
    size_t answer_len);
uint64_t hailtansy_remove(uint64_t *numbers, size_t numbers_len,
    uint64_t *words, size_t words_len, uint64_t now, uint64_t key,
    uint64_t *answer, size_t answer_len);
uint64_t hailtansy_clear(uint64_t *numbers, size_t numbers_len,
    uint64_t *words, size_t words_len, uint64_t now, uint64_t *answer,
    size_t answer_len);
uint64_t hailtansy_set_ttl(uint64_t *numbers, size_t numbers_len,
    uint64_t *words, size_t words_len, uint64_t now, uint64_t key,
    uint64_t secs, uint64_t nanos, uint64_t *answer, size_t answer_len);
uint64_t hailtansy_purge_expired(uint64_t *numbers, size_t numbers_len,
    uint64_t *words, size_t words_len, uint64_t now, uint64_t *answer,
    size_t answer_len);
uint64_t hailtansy_next_deadline(uint64_t *numbers, size_t numbers_len,
    uint64_t *words, size_t words_len, uint64_t now, uint64_t *answer,
    size_t answer_len);
uint64_t hailtansy_touch(uint64_t *numbers, size_t numbers_len,
    uint64_t *words, size_t words_len, uint64_t now, uint64_t key,
    uint64_t *answer, size_t answer_len);
uint64_t hailtansy_pop_lru(uint64_t *numbers, size_t numbers_len,
    uint64_t *words, size_t words_len, uint64_t now, uint64_t *answer,
    size_t answer_len);
uint64_t hailtansy_contains(const uint64_t *numbers, size_t numbers_len,
    const uint64_t *words, size_t words_len, uint64_t now, uint64_t key,
    uint64_t *answer, size_t answer_len);
uint64_t hailtansy_peek(const uint64_t *numbers, size_t numbers_len,
    const uint64_t *words, size_t words_len, uint64_t now, uint64_t key,
    uint64_t *answer, size_t answer_len);
uint64_t hailtansy_ttl_status(const uint64_t *numbers, size_t numbers_len,
    const uint64_t *words, size_t words_len, uint64_t now, uint64_t key,
    uint64_t *answer, size_t answer_len);
uint64_t hailtansy_recency_rank(const uint64_t *numbers, size_t numbers_len,
    const uint64_t *words, size_t words_len, uint64_t now, uint64_t key,
    uint64_t *answer, size_t answer_len);
uint64_t hailtansy_live_len(const uint64_t *numbers, size_t numbers_len,
    const uint64_t *words, size_t words_len, uint64_t now, uint64_t *answer,
    size_t answer_len);
uint64_t hailtansy_expirations(const uint64_t *numbers, size_t numbers_len,
    const uint64_t *words, size_t words_len, uint64_t now, uint64_t *answer,
    size_t answer_len);
uint64_t hailtansy_peek_lru(const uint64_t *numbers, size_t numbers_len,
    const uint64_t *words, size_t words_len, uint64_t now, uint64_t *answer,
    size_t answer_len);

/* ---- a book in one place */

typedef struct hailtansy_book {
    uint64_t numbers[HAILTANSY_NUMBERS];
    uint64_t *words;
    size_t words_len;
} hailtansy_book;

typedef struct hailtansy_answer {
    uint64_t code; /* a hailtansy_code */
    uint64_t first;
    uint64_t second;
    uint64_t discarded;
} hailtansy_answer;

static inline hailtansy_answer hailtansy_answer_of(
    const uint64_t said[HAILTANSY_ANSWER])
{
    hailtansy_answer answer = {said[0], said[1], said[2], said[3]};
    return answer;
}

/* Memory for a book, which is none before it is opened. */
static inline hailtansy_book hailtansy_book_in(uint64_t *words,
    size_t words_len)
{
    hailtansy_book book = {{0}, words, words_len};
    return book;
}

/* Opens a book without a default lifetime: DONE or REFUSED. */
static inline hailtansy_answer hailtansy_book_open(hailtansy_book *book,
    uint64_t capacity, uint64_t deadlines)
{
    uint64_t said[HAILTANSY_ANSWER];
    hailtansy_open(book->numbers, HAILTANSY_NUMBERS, book->words,
        book->words_len, capacity, deadlines, 0, 0, 0, 0, said,
        HAILTANSY_ANSWER);
    return hailtansy_answer_of(said);
}

/* Opens a book whose `insert` gives this lifetime: DONE or REFUSED. */
static inline hailtansy_answer hailtansy_book_open_with_ttl(
    hailtansy_book *book, uint64_t capacity, uint64_t deadlines, uint64_t secs,
    uint64_t nanos)
{
    uint64_t said[HAILTANSY_ANSWER];
    hailtansy_open(book->numbers, HAILTANSY_NUMBERS, book->words,
        book->words_len, capacity, deadlines, 0, 1, secs, nanos, said,
        HAILTANSY_ANSWER);
    return hailtansy_answer_of(said);
}

/* 1 exactly where this is a book, otherwise 0. */
static inline uint64_t hailtansy_book_check(const hailtansy_book *book)
{
    return hailtansy_check(book->numbers, HAILTANSY_NUMBERS, book->words,
        book->words_len);
}

/* Each call below may also be REFUSED; then nothing changed. `secs` and `nanos`
 * are a lifetime, of which whole milliseconds count. */

/* The value of a key, which becomes the most recent: NUMBER, or NOTHING.
 * An expired key is removed. */
static inline hailtansy_answer hailtansy_book_get(hailtansy_book *book,
    uint64_t now, uint64_t key)
{
    uint64_t said[HAILTANSY_ANSWER];
    hailtansy_get(book->numbers, HAILTANSY_NUMBERS, book->words,
        book->words_len, now, key, said, HAILTANSY_ANSWER);
    return hailtansy_answer_of(said);
}

/* Stores a value, with the default lifetime if there is one: NUMBER, the
 * value that it replaced, or NOTHING. In a full book a new key pushes out
 * the least recent one, whose deadline stays until it is purged. */
static inline hailtansy_answer hailtansy_book_insert(hailtansy_book *book,
    uint64_t now, uint64_t key, uint64_t value)
{
    uint64_t said[HAILTANSY_ANSWER];
    hailtansy_insert(book->numbers, HAILTANSY_NUMBERS, book->words,
        book->words_len, now, key, value, said, HAILTANSY_ANSWER);
    return hailtansy_answer_of(said);
}

/* The same with a lifetime of its own. One of exactly zero removes the key. */
static inline hailtansy_answer hailtansy_book_insert_with_ttl(
    hailtansy_book *book, uint64_t now, uint64_t key, uint64_t value,
    uint64_t secs, uint64_t nanos)
{
    uint64_t said[HAILTANSY_ANSWER];
    hailtansy_insert_with_ttl(book->numbers, HAILTANSY_NUMBERS, book->words,
        book->words_len, now, key, value, secs, nanos, said, HAILTANSY_ANSWER);
    return hailtansy_answer_of(said);
}

/* Removes a key: NUMBER, its value, or NOTHING. */
static inline hailtansy_answer hailtansy_book_remove(hailtansy_book *book,
    uint64_t now, uint64_t key)
{
    uint64_t said[HAILTANSY_ANSWER];
    hailtansy_remove(book->numbers, HAILTANSY_NUMBERS, book->words,
        book->words_len, now, key, said, HAILTANSY_ANSWER);
    return hailtansy_answer_of(said);
}

/* Removes all: DONE. Expirations stay counted. */
static inline hailtansy_answer hailtansy_book_clear(hailtansy_book *book,
    uint64_t now)
{
    uint64_t said[HAILTANSY_ANSWER];
    hailtansy_clear(book->numbers, HAILTANSY_NUMBERS, book->words,
        book->words_len, now, said, HAILTANSY_ANSWER);
    return hailtansy_answer_of(said);
}

/* Gives a stored key a lifetime: YES. NO where it is not stored; where it has
 * expired or is given less than a millisecond it is removed, and this is NO too. */
static inline hailtansy_answer hailtansy_book_set_ttl(hailtansy_book *book,
    uint64_t now, uint64_t key, uint64_t secs, uint64_t nanos)
{
    uint64_t said[HAILTANSY_ANSWER];
    hailtansy_set_ttl(book->numbers, HAILTANSY_NUMBERS, book->words,
        book->words_len, now, key, secs, nanos, said, HAILTANSY_ANSWER);
    return hailtansy_answer_of(said);
}

/* Removes all that has expired: NUMBER, how many deadlines that were. */
static inline hailtansy_answer hailtansy_book_purge_expired(
    hailtansy_book *book, uint64_t now)
{
    uint64_t said[HAILTANSY_ANSWER];
    hailtansy_purge_expired(book->numbers, HAILTANSY_NUMBERS, book->words,
        book->words_len, now, said, HAILTANSY_ANSWER);
    return hailtansy_answer_of(said);
}

/* What is due next: PAIR of key and deadline, or NOTHING. Keys that were
 * pushed out are among them. */
static inline hailtansy_answer hailtansy_book_next_deadline(
    hailtansy_book *book, uint64_t now)
{
    uint64_t said[HAILTANSY_ANSWER];
    hailtansy_next_deadline(book->numbers, HAILTANSY_NUMBERS, book->words,
        book->words_len, now, said, HAILTANSY_ANSWER);
    return hailtansy_answer_of(said);
}

/* Makes a key the most recent: YES, or NO where it is not stored. */
static inline hailtansy_answer hailtansy_book_touch(hailtansy_book *book,
    uint64_t now, uint64_t key)
{
    uint64_t said[HAILTANSY_ANSWER];
    hailtansy_touch(book->numbers, HAILTANSY_NUMBERS, book->words,
        book->words_len, now, key, said, HAILTANSY_ANSWER);
    return hailtansy_answer_of(said);
}

/* Removes the least recent key: PAIR of key and value, or NOTHING. */
static inline hailtansy_answer hailtansy_book_pop_lru(hailtansy_book *book,
    uint64_t now)
{
    uint64_t said[HAILTANSY_ANSWER];
    hailtansy_pop_lru(book->numbers, HAILTANSY_NUMBERS, book->words,
        book->words_len, now, said, HAILTANSY_ANSWER);
    return hailtansy_answer_of(said);
}

/* Whether a key is stored and has not expired: YES or NO. */
static inline hailtansy_answer hailtansy_book_contains(
    const hailtansy_book *book, uint64_t now, uint64_t key)
{
    uint64_t said[HAILTANSY_ANSWER];
    hailtansy_contains(book->numbers, HAILTANSY_NUMBERS, book->words,
        book->words_len, now, key, said, HAILTANSY_ANSWER);
    return hailtansy_answer_of(said);
}

/* The value of a key, which keeps its place: NUMBER or NOTHING. */
static inline hailtansy_answer hailtansy_book_peek(const hailtansy_book *book,
    uint64_t now, uint64_t key)
{
    uint64_t said[HAILTANSY_ANSWER];
    hailtansy_peek(book->numbers, HAILTANSY_NUMBERS, book->words,
        book->words_len, now, key, said, HAILTANSY_ANSWER);
    return hailtansy_answer_of(said);
}

/* MISSING, IMMORTAL, EXPIRED, or LIVE with the ticks that remain and the
 * deadline. */
static inline hailtansy_answer hailtansy_book_ttl_status(
    const hailtansy_book *book, uint64_t now, uint64_t key)
{
    uint64_t said[HAILTANSY_ANSWER];
    hailtansy_ttl_status(book->numbers, HAILTANSY_NUMBERS, book->words,
        book->words_len, now, key, said, HAILTANSY_ANSWER);
    return hailtansy_answer_of(said);
}

/* NUMBER of keys that are more recent, or NOTHING. */
static inline hailtansy_answer hailtansy_book_recency_rank(
    const hailtansy_book *book, uint64_t now, uint64_t key)
{
    uint64_t said[HAILTANSY_ANSWER];
    hailtansy_recency_rank(book->numbers, HAILTANSY_NUMBERS, book->words,
        book->words_len, now, key, said, HAILTANSY_ANSWER);
    return hailtansy_answer_of(said);
}

/* NUMBER of keys stored, less the expired deadlines held, not below 0. */
static inline hailtansy_answer hailtansy_book_live_len(
    const hailtansy_book *book, uint64_t now)
{
    uint64_t said[HAILTANSY_ANSWER];
    hailtansy_live_len(book->numbers, HAILTANSY_NUMBERS, book->words,
        book->words_len, now, said, HAILTANSY_ANSWER);
    return hailtansy_answer_of(said);
}

/* NUMBER of expirations so far. */
static inline hailtansy_answer hailtansy_book_expirations(
    const hailtansy_book *book, uint64_t now)
{
    uint64_t said[HAILTANSY_ANSWER];
    hailtansy_expirations(book->numbers, HAILTANSY_NUMBERS, book->words,
        book->words_len, now, said, HAILTANSY_ANSWER);
    return hailtansy_answer_of(said);
}

/* The least recent key: PAIR of key and value, or NOTHING. */
static inline hailtansy_answer hailtansy_book_peek_lru(
    const hailtansy_book *book, uint64_t now)
{
    uint64_t said[HAILTANSY_ANSWER];
    hailtansy_peek_lru(book->numbers, HAILTANSY_NUMBERS, book->words,
        book->words_len, now, said, HAILTANSY_ANSWER);
    return hailtansy_answer_of(said);
}

#ifdef __cplusplus
}
#endif

#endif
