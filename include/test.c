/*
 * Tests of the library from C: test HANDS ANSWERS, two files of records (examples/table.hands, examples/table.answers).
 * Ends with 1 if anything is not as it must be, and says where.
 */
#include <stdio.h>
#include <string.h>

#include "lastavon.h"

static int failures;

#define EXPECT(fact) expect((fact) != 0, #fact, __LINE__)

static void expect(int holds, const char *fact, int line)
{
    if (holds)
        return;
    fprintf(stderr, "include/test.c:%d: not so: %s\n", line, fact);
    failures++;
}

/* Room with a guard before and behind, so that a byte that is written outside shows. */
enum { GUARD = 8, MOST = 32, CANARY = 0xa5 };

struct bytes {
    uint8_t before[GUARD];
    uint8_t room[MOST];
    uint8_t behind[GUARD];
};

struct words {
    uint64_t before[GUARD];
    uint64_t room[LASTAVON_WORDS];
    uint64_t behind[GUARD];
};

struct goals {
    uint64_t before[GUARD];
    uint64_t room[LASTAVON_GOALS];
    uint64_t behind[GUARD];
};

/* Whether all bytes of a piece are as they were filled. */
static int untouched(const void *piece, size_t size)
{
    const uint8_t *bytes = (const uint8_t *)piece;
    size_t i;
    for (i = 0; i < size; i++)
        if (bytes[i] != CANARY)
            return 0;
    return 1;
}

static int all_zero(const uint8_t *bytes, size_t size)
{
    size_t i;
    for (i = 0; i < size; i++)
        if (bytes[i] != 0)
            return 0;
    return 1;
}

/* Asks a whole hand, from the table and by search, which must agree; the guards must stay. */
static unsigned ask(const uint8_t *counts, size_t length, unsigned k, unsigned game, uint64_t *words)
{
    struct words out, searched;
    unsigned code, again;
    memset(&out, CANARY, sizeof out);
    memset(&searched, CANARY, sizeof searched);
    code = lastavon_hand(counts, length, (uint8_t)k, (uint8_t)game, out.room, LASTAVON_WORDS);
    again = lastavon_hand_search(counts, length, (uint8_t)k, (uint8_t)game, searched.room, LASTAVON_WORDS);
    EXPECT(untouched(out.before, sizeof out.before));
    EXPECT(untouched(out.behind, sizeof out.behind));
    EXPECT(code == again);
    EXPECT(memcmp(&out, &searched, sizeof out) == 0);
    memcpy(words, out.room, sizeof out.room);
    return code;
}

/* One row of the table, by all entries. */
static void test_row(const uint8_t *hand, const uint8_t *answer)
{
    struct bytes out;
    uint64_t words[LASTAVON_WORDS];
    unsigned code;
    memset(&out, CANARY, sizeof out);
    code = lastavon_record(hand, LASTAVON_HAND_RECORD, out.room, LASTAVON_ANSWER_RECORD);
    EXPECT(code == answer[LASTAVON_AT_CODE]);
    EXPECT(memcmp(out.room, answer, LASTAVON_ANSWER_RECORD) == 0);
    EXPECT(untouched(out.before, sizeof out.before));
    EXPECT(untouched(out.room + LASTAVON_ANSWER_RECORD, MOST - LASTAVON_ANSWER_RECORD));
    EXPECT(untouched(out.behind, sizeof out.behind));

    code = ask(hand, LASTAVON_TILES, hand[34], hand[35], words);
    EXPECT(code == answer[LASTAVON_AT_CODE]);
    EXPECT(lastavon_number(words[0]) == answer[LASTAVON_AT_NUMBER]);
    EXPECT(lastavon_kinds(words[0]) == answer[LASTAVON_AT_KINDS]);
    EXPECT(lastavon_live(words[0]) == answer[LASTAVON_AT_LIVE]);
    EXPECT(words[1] == lastavon_set(answer + LASTAVON_AT_NECESSARY));
    EXPECT(words[2] == lastavon_set(answer + LASTAVON_AT_UNNECESSARY));
    EXPECT(code != LASTAVON_ANSWERED || words[0] >> 24 == 0);
}

/* All rows; the files end together. */
static void test_table(FILE *hands, FILE *answers)
{
    uint8_t hand[LASTAVON_HAND_RECORD], answer[LASTAVON_ANSWER_RECORD];
    int rows = 0;
    while (fread(hand, sizeof hand, 1, hands) == 1) {
        EXPECT(fread(answer, sizeof answer, 1, answers) == 1);
        test_row(hand, answer);
        rows++;
    }
    EXPECT(rows == 14);
    EXPECT(fgetc(answers) == EOF);
}

/* Refusals 1 to 6 of a whole hand, each with its index, and the first of several faults. */
static void test_hand_refusals(void)
{
    uint8_t none[LASTAVON_TILES + 1] = {0}, over[LASTAVON_TILES] = {0}, many[LASTAVON_TILES] = {0};
    uint8_t barred[LASTAVON_TILES] = {0};
    uint64_t words[LASTAVON_WORDS];
    over[30] = 5;
    over[33] = 255;
    many[0] = many[9] = many[18] = 4;
    many[27] = 3;
    barred[3] = barred[7] = barred[8] = 1;
    EXPECT(ask(none, 34, 0, 5, words) == LASTAVON_BAD_GAME && words[0] == 0);
    EXPECT(ask(none, 34, 5, 4, words) == LASTAVON_BAD_GOAL && words[0] == 0);
    EXPECT(ask(none, 33, 4, 4, words) == LASTAVON_BAD_LENGTH && words[0] == 0);
    EXPECT(ask(none, 35, 4, 4, words) == LASTAVON_BAD_LENGTH && words[0] == 0);
    EXPECT(ask(none, 0, 4, 4, words) == LASTAVON_BAD_LENGTH && words[0] == 0);
    EXPECT(ask(over, 34, 4, 4, words) == LASTAVON_BAD_COUNT && lastavon_index(words[0]) == 30);
    EXPECT(words[1] == 0 && words[2] == 0 && lastavon_number(words[0]) == 0);
    EXPECT(ask(many, 34, 4, 4, words) == LASTAVON_BAD_SUM && words[0] == 0);
    EXPECT(ask(barred, 34, 4, 3, words) == LASTAVON_BAD_TILE && lastavon_index(words[0]) == 3);
    EXPECT(ask(barred, 34, 4, 4, words) == LASTAVON_ANSWERED);
    EXPECT(ask(over, 34, 9, 5, words) == LASTAVON_BAD_GAME);
    EXPECT(ask(over, 34, 9, 3, words) == LASTAVON_BAD_GOAL);
}

/* 8 for room of any other number of words, which is left as it was. */
static void test_places(void)
{
    uint8_t counts[LASTAVON_TILES] = {0};
    struct words out;
    size_t places;
    for (places = 0; places <= 6; places++) {
        if (places == LASTAVON_WORDS)
            continue;
        memset(&out, CANARY, sizeof out);
        EXPECT(lastavon_hand(counts, 34, 4, 4, out.room, places) == LASTAVON_BAD_ROOM);
        EXPECT(lastavon_hand(counts, 33, 9, 9, out.room, places) == LASTAVON_BAD_ROOM);
        EXPECT(lastavon_hand_search(counts, 34, 4, 4, out.room, places) == LASTAVON_BAD_ROOM);
        EXPECT(lastavon_hand_search(counts, 33, 9, 9, out.room, places) == LASTAVON_BAD_ROOM);
        EXPECT(untouched(&out, sizeof out));
    }
}

/* 7 for a piece that is no hand record, whatever it holds. */
static void test_broken_records(void)
{
    uint8_t hand[MOST + GUARD] = {0};
    struct bytes out;
    size_t length;
    hand[35] = 4;
    for (length = 0; length <= sizeof hand; length++) {
        if (length == LASTAVON_HAND_RECORD)
            continue;
        memset(&out, CANARY, sizeof out);
        EXPECT(lastavon_record(hand, length, out.room, LASTAVON_ANSWER_RECORD) == LASTAVON_BAD_RECORD);
        EXPECT(out.room[LASTAVON_AT_CODE] == LASTAVON_BAD_RECORD && all_zero(out.room + 1, 15));
        EXPECT(untouched(out.before, sizeof out.before));
        EXPECT(untouched(out.room + LASTAVON_ANSWER_RECORD, MOST - LASTAVON_ANSWER_RECORD));
    }
}

/* 8 for room of any other size, which is left as it was; it comes before 7. */
static void test_record_room(void)
{
    uint8_t hand[LASTAVON_HAND_RECORD] = {0};
    struct bytes out;
    size_t room;
    hand[35] = 4;
    for (room = 0; room <= MOST; room++) {
        if (room == LASTAVON_ANSWER_RECORD)
            continue;
        memset(&out, CANARY, sizeof out);
        EXPECT(lastavon_record(hand, LASTAVON_HAND_RECORD, out.room, room) == LASTAVON_BAD_ROOM);
        EXPECT(lastavon_record(hand, 35, out.room, room) == LASTAVON_BAD_ROOM);
        EXPECT(untouched(&out, sizeof out));
    }
}

static void expect_suit(uint64_t word, unsigned number, uint64_t necessary, uint64_t unnecessary)
{
    EXPECT(lastavon_suit_code(word) == LASTAVON_ANSWERED && lastavon_suit_index(word) == 0);
    EXPECT(lastavon_suit_number(word) == number);
    EXPECT(lastavon_suit_necessary(word) == necessary);
    EXPECT(lastavon_suit_unnecessary(word) == unnecessary);
    EXPECT(word >> 56 == 0);
}

static void test_suits(void)
{
    uint8_t ranks[LASTAVON_RANKS] = {1, 1, 0, 0, 0, 0, 0, 0, 1};
    uint8_t ends[LASTAVON_RANKS] = {1, 0, 0, 0, 0, 0, 0, 0, 1};
    uint8_t honours[LASTAVON_HONOURS] = {2, 0, 0, 0, 0, 0, 1};
    expect_suit(lastavon_ranks(ranks, 9, 0, 1), 1, 1 << 2, 1 << 8);
    expect_suit(lastavon_ranks(ranks, 9, 0, 0), 0, 0, 1 << 0 | 1 << 1 | 1 << 8);
    expect_suit(lastavon_honours(honours, 7, 0, 1), 1, 1 << 0, 1 << 6);
    expect_suit(lastavon_honours(honours, 7, 1, 0), 0, 0, 1 << 6);
    expect_suit(lastavon_ends(ends, 9, 1, 0), 1, 1 << 0 | 1 << 8, 1 << 0 | 1 << 8);
    /* no target */
    expect_suit(lastavon_ends(ends, 9, 0, 3), 14, 0, 0);
}

/* The word of a refusal has its number and index, and nothing else. */
static void expect_refused(uint64_t word, unsigned code, unsigned index)
{
    EXPECT(lastavon_suit_code(word) == code);
    EXPECT(lastavon_suit_index(word) == index);
    EXPECT((word & 0xffffffffff) == 0 && word >> 56 == 0);
}

static void test_suit_refusals(void)
{
    uint8_t none[LASTAVON_RANKS] = {0};
    uint8_t over[LASTAVON_RANKS] = {0, 0, 0, 0, 0, 0, 5, 6, 0};
    uint8_t many[LASTAVON_RANKS] = {4, 4, 4, 3, 0, 0, 0, 0, 0};
    uint8_t barred[LASTAVON_RANKS] = {1, 0, 0, 0, 1, 0, 0, 1, 0};
    expect_refused(lastavon_ranks(none, 9, 2, 0), LASTAVON_BAD_GOAL, 0);
    expect_refused(lastavon_honours(none, 7, 0, 5), LASTAVON_BAD_GOAL, 0);
    expect_refused(lastavon_ranks(none, 7, 0, 1), LASTAVON_BAD_LENGTH, 0);
    expect_refused(lastavon_honours(none, 9, 0, 1), LASTAVON_BAD_LENGTH, 0);
    expect_refused(lastavon_ends(none, 0, 0, 1), LASTAVON_BAD_LENGTH, 0);
    expect_refused(lastavon_ranks(over, 9, 0, 1), LASTAVON_BAD_COUNT, 6);
    expect_refused(lastavon_honours(over, 7, 0, 1), LASTAVON_BAD_COUNT, 6);
    expect_refused(lastavon_ranks(many, 9, 0, 1), LASTAVON_BAD_SUM, 0);
    expect_refused(lastavon_ends(barred, 9, 0, 1), LASTAVON_BAD_TILE, 4);
}

/* A suit's entry for one goal, and that for all. */
struct suit {
    uint64_t (*one)(const uint8_t *counts, size_t length, uint8_t pairs, uint8_t melds);
    uint8_t (*all)(const uint8_t *counts, size_t length, uint64_t *words, size_t places);
};

static const struct suit suits[3] = {
    {lastavon_ranks, lastavon_ranks_goals},
    {lastavon_honours, lastavon_honours_goals},
    {lastavon_ends, lastavon_ends_goals}
};

/* The words of all goals are those of the goals one by one, refusals too; the guards must stay. */
static void expect_goals(const struct suit *suit, const uint8_t *counts, size_t length)
{
    struct goals out;
    unsigned code, goal;
    memset(&out, CANARY, sizeof out);
    code = suit->all(counts, length, out.room, LASTAVON_GOALS);
    EXPECT(untouched(out.before, sizeof out.before));
    EXPECT(untouched(out.behind, sizeof out.behind));
    for (goal = 0; goal < LASTAVON_GOALS; goal++) {
        unsigned pairs = goal / 5, melds = goal % 5;
        EXPECT(lastavon_goal(pairs, melds) == goal);
        EXPECT(out.room[goal] == suit->one(counts, length, (uint8_t)pairs, (uint8_t)melds));
        EXPECT(lastavon_suit_code(out.room[goal]) == code);
    }
}

/* Every suit on every row, with all its counts and with fewer: answers, and each refusal that a suit can have. */
static void test_goals(void)
{
    static const uint8_t rows[][LASTAVON_RANKS] = {
        {0}, {1, 1, 0, 0, 0, 0, 0, 0, 1}, {1, 0, 0, 0, 0, 0, 0, 0, 1}, {3, 1, 1, 1, 1, 1, 1, 1, 3}, {2, 0, 0, 0, 0, 0, 1},
        {0, 0, 0, 0, 0, 0, 5, 6, 0}, {4, 4, 4, 3, 0, 0, 0, 0, 0}, {1, 0, 0, 0, 1, 0, 0, 1, 0}
    };
    size_t suit, row, length;
    for (suit = 0; suit < 3; suit++)
        for (row = 0; row < sizeof rows / sizeof rows[0]; row++)
            for (length = 0; length <= LASTAVON_RANKS; length++)
                expect_goals(&suits[suit], rows[row], length);
}

/* 8 for room of any other number of words, which is left as it was; it comes before the others. */
static void test_goal_places(void)
{
    uint8_t counts[LASTAVON_RANKS] = {0};
    struct goals out;
    size_t suit, places;
    for (suit = 0; suit < 3; suit++)
        for (places = 0; places <= LASTAVON_GOALS + GUARD; places++) {
            if (places == LASTAVON_GOALS)
                continue;
            memset(&out, CANARY, sizeof out);
            EXPECT(suits[suit].all(counts, LASTAVON_RANKS, out.room, places) == LASTAVON_BAD_ROOM);
            EXPECT(suits[suit].all(counts, 0, out.room, places) == LASTAVON_BAD_ROOM);
            EXPECT(untouched(&out, sizeof out));
        }
}

/* With the length 0 a pointer may be anything. */
static void test_null(void)
{
    uint8_t counts[LASTAVON_TILES] = {0}, room[LASTAVON_ANSWER_RECORD];
    uint64_t words[LASTAVON_WORDS];
    size_t suit;
    EXPECT(ask(NULL, 0, 4, 4, words) == LASTAVON_BAD_LENGTH);
    EXPECT(lastavon_hand(counts, LASTAVON_TILES, 4, 4, NULL, 0) == LASTAVON_BAD_ROOM);
    EXPECT(lastavon_hand_search(counts, LASTAVON_TILES, 4, 4, NULL, 0) == LASTAVON_BAD_ROOM);
    EXPECT(lastavon_record(NULL, 0, room, LASTAVON_ANSWER_RECORD) == LASTAVON_BAD_RECORD);
    EXPECT(lastavon_record(NULL, 0, NULL, 0) == LASTAVON_BAD_ROOM);
    expect_refused(lastavon_ranks(NULL, 0, 0, 1), LASTAVON_BAD_LENGTH, 0);
    expect_refused(lastavon_honours(NULL, 0, 0, 1), LASTAVON_BAD_LENGTH, 0);
    expect_refused(lastavon_ends(NULL, 0, 0, 1), LASTAVON_BAD_LENGTH, 0);
    for (suit = 0; suit < 3; suit++) {
        expect_goals(&suits[suit], NULL, 0);
        EXPECT(suits[suit].all(counts, LASTAVON_RANKS, NULL, 0) == LASTAVON_BAD_ROOM);
    }
}

/* Where a set begins and ends, and that no bit is read past the tiles. */
static void test_readers(void)
{
    const uint8_t five[5] = {0x01, 0x80, 0, 0, 0x02};
    uint64_t set = lastavon_set(five);
    EXPECT(set == ((uint64_t)1 | (uint64_t)1 << 15 | (uint64_t)1 << 33));
    EXPECT(lastavon_has(set, 0) && lastavon_has(set, 15) && lastavon_has(set, 33));
    EXPECT(!lastavon_has(set, 1) && !lastavon_has(set, 32) && !lastavon_has(~set, 33));
    EXPECT(!lastavon_has(~(uint64_t)0, 34) && !lastavon_has(~(uint64_t)0, 64));
}

int main(int argc, char **argv)
{
    FILE *hands = argc == 3 ? fopen(argv[1], "rb") : NULL;
    FILE *answers = argc == 3 ? fopen(argv[2], "rb") : NULL;
    if (hands == NULL || answers == NULL) {
        fprintf(stderr, "usage: test HANDS ANSWERS, two files of records\n");
        return 2;
    }
    test_table(hands, answers);
    test_hand_refusals();
    test_places();
    test_broken_records();
    test_record_room();
    test_suits();
    test_suit_refusals();
    test_goals();
    test_goal_places();
    test_null();
    test_readers();
    fclose(hands);
    fclose(answers);
    if (failures == 0)
        printf("C: all tests passed\n");
    else
        printf("C: %d facts failed\n", failures);
    return failures == 0 ? 0 : 1;
}
