/* A robot's shift: a deck of four places, room for four deadlines, ticks in
 * milliseconds since the shift began. Each answer is held to the one that the
 * cache is to give; a wrong one ends the program with 1. */
#include "hailtansy.h"

#include <inttypes.h>
#include <stdio.h>
#include <stdlib.h>
#include <string.h>

enum { PLACES = 4, DEADLINES = 4 };

/* Keys are tubes; a tube's value is its place on the deck. */
enum { WATER = 100, STANDARD = 111, DILUTED = 112, SPARE = 113, ENZYME = 201 };

#define MINUTES(n) (UINT64_C(60000) * (n))

static void expect(const char *what, hailtansy_answer got, uint64_t code,
    uint64_t first, uint64_t second)
{
    printf("%-44s %2" PRIu64 " %" PRIu64 " %" PRIu64 "\n", what, got.code,
        got.first, got.second);
    if (got.code != code || got.first != first || got.second != second) {
        fprintf(stderr, "%s: not %" PRIu64 " %" PRIu64 " %" PRIu64 "\n", what,
            code, first, second);
        exit(1);
    }
}

static void expect_that(const char *what, int holds)
{
    printf("%s\n", what);
    if (!holds) {
        fprintf(stderr, "no: %s\n", what);
        exit(1);
    }
}

static void fill(hailtansy_book *book)
{
    expect("water lasts for ever",
        hailtansy_book_insert(book, 0, WATER, 1), HAILTANSY_NOTHING, 0, 0);
    expect("a standard for 30 minutes",
        hailtansy_book_insert_with_ttl(book, MINUTES(1), STANDARD, 2, 1800, 0),
        HAILTANSY_NOTHING, 0, 0);
    expect("its dilution for an hour",
        hailtansy_book_insert_with_ttl(book, MINUTES(2), DILUTED, 3, 3600, 0),
        HAILTANSY_NOTHING, 0, 0);
    expect("an enzyme for 15 minutes",
        hailtansy_book_insert_with_ttl(book, MINUTES(3), ENZYME, 4, 900, 0),
        HAILTANSY_NOTHING, 0, 0);
    expect("four are live", hailtansy_book_live_len(book, MINUTES(3)),
        HAILTANSY_NUMBER, 4, 0);
    expect("the enzyme is due first",
        hailtansy_book_next_deadline(book, MINUTES(3)), HAILTANSY_PAIR, ENZYME,
        MINUTES(18));
}

static void draw(hailtansy_book *book)
{
    expect("draw from the standard",
        hailtansy_book_get(book, MINUTES(5), STANDARD), HAILTANSY_NUMBER, 2, 0);
    expect("it is the most recent",
        hailtansy_book_recency_rank(book, MINUTES(5), STANDARD),
        HAILTANSY_NUMBER, 0, 0);
    expect("water is the least recent",
        hailtansy_book_peek_lru(book, MINUTES(5)), HAILTANSY_PAIR, WATER, 1);
    expect("and has no deadline",
        hailtansy_book_ttl_status(book, MINUTES(10), WATER), HAILTANSY_IMMORTAL,
        0, 0);
    expect("the enzyme has 8 minutes left",
        hailtansy_book_ttl_status(book, MINUTES(10), ENZYME), HAILTANSY_LIVE,
        MINUTES(8), MINUTES(18));
    expect("a tick before its end it is there",
        hailtansy_book_contains(book, MINUTES(18) - 1, ENZYME), HAILTANSY_YES,
        0, 0);
    expect("at its end it is expired",
        hailtansy_book_ttl_status(book, MINUTES(18), ENZYME), HAILTANSY_EXPIRED,
        0, 0);
    expect("a draw gets nothing", hailtansy_book_get(book, MINUTES(18), ENZYME),
        HAILTANSY_NOTHING, 0, 0);
    expect("and the tube is gone",
        hailtansy_book_ttl_status(book, MINUTES(18), ENZYME), HAILTANSY_MISSING,
        0, 0);
    expect("one expiration", hailtansy_book_expirations(book, MINUTES(18)),
        HAILTANSY_NUMBER, 1, 0);
}

static void refill(hailtansy_book *book)
{
    expect("a fresh enzyme",
        hailtansy_book_insert_with_ttl(book, MINUTES(20), ENZYME, 4, 900, 0),
        HAILTANSY_NOTHING, 0, 0);
    expect("left open: five more minutes",
        hailtansy_book_set_ttl(book, MINUTES(21), ENZYME, 300, 0),
        HAILTANSY_YES, 0, 0);
    expect("water is looked at, and keeps its place",
        hailtansy_book_peek(book, MINUTES(22), WATER), HAILTANSY_NUMBER, 1, 0);
    expect("water is used", hailtansy_book_touch(book, MINUTES(22), WATER),
        HAILTANSY_YES, 0, 0);
    expect("a fifth tube pushes out the dilution",
        hailtansy_book_insert_with_ttl(book, MINUTES(23), SPARE, 3, 7200, 0),
        HAILTANSY_NOTHING, 0, 0);
    expect("which is off the deck",
        hailtansy_book_ttl_status(book, MINUTES(23), DILUTED),
        HAILTANSY_MISSING, 0, 0);
    expect("a fifth deadline is refused",
        hailtansy_book_insert_with_ttl(book, MINUTES(24), 202, 4, 600, 0),
        HAILTANSY_REFUSED, HAILTANSY_KEY_LIMIT_REACHED, 0);
    expect("a second of nanoseconds is no lifetime",
        hailtansy_book_set_ttl(book, MINUTES(24), ENZYME, 0, 1000000000),
        HAILTANSY_REFUSED, HAILTANSY_INVALID_NANOS, 0);
    expect("a purge drops the enzyme",
        hailtansy_book_purge_expired(book, MINUTES(26)), HAILTANSY_NUMBER, 1,
        0);
}

/* A book that is kept elsewhere is checked before it is trusted again. */
static void keep(hailtansy_book *book)
{
    static uint64_t kept[HAILTANSY_WORDS(PLACES, DEADLINES)];
    memcpy(kept, book->words, sizeof kept);
    hailtansy_book copy = *book;
    copy.words = kept;
    expect_that("the copy is a book", hailtansy_book_check(&copy) == 1);
    copy.numbers[1]++;
    expect_that("with a number off it is none",
        hailtansy_book_check(&copy) == 0);
}

static void end(hailtansy_book *book)
{
    expect("the standard goes to waste",
        hailtansy_book_remove(book, MINUTES(27), STANDARD), HAILTANSY_NUMBER, 2,
        0);
    expect("the least recent is taken off",
        hailtansy_book_pop_lru(book, MINUTES(28)), HAILTANSY_PAIR, WATER, 1);
    expect("the deck is cleared", hailtansy_book_clear(book, MINUTES(480)),
        HAILTANSY_DONE, 0, 0);
    expect("nothing is due", hailtansy_book_next_deadline(book, MINUTES(480)),
        HAILTANSY_NOTHING, 0, 0);
}

/* Two calls at a time, and areas that are too short. */
static void list(hailtansy_book *book)
{
    const uint64_t calls[2 * HAILTANSY_CALL] = {
        HAILTANSY_OP_INSERT, 0, WATER, 1, 0, 0, /* */
        HAILTANSY_OP_GET, 1, WATER, 0, 0, 0};
    uint64_t answers[2 * HAILTANSY_ANSWER];
    uint64_t ran = hailtansy_replay(book->numbers, HAILTANSY_NUMBERS,
        book->words, book->words_len, calls, 2 * HAILTANSY_CALL, answers,
        2 * HAILTANSY_ANSWER);
    expect_that("a list of two calls runs", ran == 2);
    expect("and the second finds the water",
        hailtansy_answer_of(answers + HAILTANSY_ANSWER), HAILTANSY_NUMBER, 1,
        0);
    ran = hailtansy_remove(book->numbers, HAILTANSY_NUMBERS - 1, book->words,
        book->words_len, 1, WATER, answers, HAILTANSY_ANSWER);
    expect_that("with eleven numbers nothing is done", ran == 0);
    expect("and the water is there", hailtansy_book_peek(book, 1, WATER),
        HAILTANSY_NUMBER, 1, 0);
}

int main(void)
{
    static uint64_t words[HAILTANSY_WORDS(PLACES, DEADLINES)];
    hailtansy_book small = hailtansy_book_in(words, sizeof words / 8 - 1);
    expect("a word too few",
        hailtansy_book_open(&small, PLACES, DEADLINES), HAILTANSY_REFUSED,
        HAILTANSY_TOO_FEW_WORDS, 0);
    expect("no book was opened", hailtansy_book_get(&small, 0, WATER),
        HAILTANSY_REFUSED, HAILTANSY_LIMIT_OUT_OF_RANGE, 0);

    hailtansy_book book = hailtansy_book_in(words, sizeof words / 8);
    expect("a book", hailtansy_book_open(&book, PLACES, DEADLINES),
        HAILTANSY_DONE, 0, 0);
    fill(&book);
    draw(&book);
    refill(&book);
    keep(&book);
    end(&book);
    list(&book);

    expect("a book with a default lifetime",
        hailtansy_book_open_with_ttl(&book, PLACES, DEADLINES, 0, 5000000),
        HAILTANSY_DONE, 0, 0);
    expect("water again", hailtansy_book_insert(&book, 0, WATER, 1),
        HAILTANSY_NOTHING, 0, 0);
    expect("for five milliseconds",
        hailtansy_book_ttl_status(&book, 0, WATER), HAILTANSY_LIVE, 5, 5);
    puts("all answers are as expected");
    return 0;
}
