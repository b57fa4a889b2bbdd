/*
 * Lastavon: how many tiles a mahjong hand lacks, which tiles are necessary and which are unnecessary. For C and C++.
 * ./library proves the code behind these functions and writes target/library/liblastavon.a to link.
 *
 * Tiles have the indices 0 to 33: 1m to 9m are 0 to 8, 1p to 9p 9 to 17, 1s to 9s 18 to 26, 1z to 7z 27 to 33.
 * In a set, bit i stands for tile i, or in one suit for the suit's rank i, counted from 0.
 *
 * All functions take any input: any bytes, any lengths, any k, game, pairs and melds. What is no hand is refused, and
 * a refusal has a number (enum lastavon_code). They keep nothing, allocate nothing, and may be called from many threads
 * at once. What they ask of a caller is this:
 *   - a pointer is valid for the length that comes with it, and a pointer to words is aligned for uint64_t;
 *     with the length 0 it may be anything, NULL too, since nothing is read or written there;
 *   - what is read and what is written do not overlap.
 */
#ifndef LASTAVON_H
#define LASTAVON_H

#include <stddef.h>
#include <stdint.h>

#ifdef __cplusplus
extern "C" {
#endif

/* How many counts, words and bytes there are. */
enum {
    LASTAVON_TILES = 34,        /* counts of a hand */
    LASTAVON_RANKS = 9,         /* counts of nine ranks, and of 1m/9m */
    LASTAVON_HONOURS = 7,       /* counts of the honours */
    LASTAVON_WORDS = 3,         /* words of an answer */
    LASTAVON_GOALS = 10,        /* goals of a suit, a word each */
    LASTAVON_HAND_RECORD = 36,  /* bytes of a hand record */
    LASTAVON_ANSWER_RECORD = 16 /* bytes of an answer record */
};

/*
 * 0 for an answer, or why there is none. Of several faults the one with the smallest number is told; but 8 and then 7
 * come before the others.
 */
enum lastavon_code {
    LASTAVON_ANSWERED = 0,
    LASTAVON_BAD_GAME = 1,   /* the game is neither 3 nor 4 */
    LASTAVON_BAD_GOAL = 2,   /* k, or the melds of a suit, is over 4; or its pairs are over 1 */
    LASTAVON_BAD_LENGTH = 3, /* there are not 34 counts; or not as many as the suit has ranks */
    LASTAVON_BAD_COUNT = 4,  /* a count is over 4; the index is the lowest such tile or rank */
    LASTAVON_BAD_SUM = 5,    /* the counts sum to more than 14 */
    LASTAVON_BAD_TILE = 6,   /* 2m to 8m in game 3, or rank 2 to 8 in 1m/9m; the index is the lowest such */
    LASTAVON_BAD_RECORD = 7, /* a hand record has not 36 bytes */
    LASTAVON_BAD_ROOM = 8    /* the room is not 3 words, 10 words or 16 bytes; it is left as it was */
};

/* Where the parts of an answer record begin; bytes 14 and 15 are 0. */
enum {
    LASTAVON_AT_CODE = 0,
    LASTAVON_AT_NUMBER = 1,
    LASTAVON_AT_NECESSARY = 2,   /* five bytes: lastavon_set */
    LASTAVON_AT_UNNECESSARY = 7, /* five bytes: lastavon_set */
    LASTAVON_AT_KINDS = 12,
    LASTAVON_AT_LIVE = 13
};

/*
 * A whole hand. Returns 0, or the number of a refusal, 1 to 6 or 8.
 *   counts, length  how many of each tile are held; 34 counts
 *   k               how many melds are wanted beside a pair, 0 to 4
 *   game            4, or 3 for the three-player game, which has no 2m to 8m
 *   words, places   room for the answer; 3 words. For 0 the first word holds number, kinds, live (lastavon_number ..),
 *                   the second is the necessary set and the third the unnecessary set. For 1 to 6 the first word holds
 *                   the index (lastavon_index), 0 where none is told, and the rest is 0. For 8 nothing is written.
 */
uint8_t lastavon_hand(const uint8_t *counts, size_t length, uint8_t k, uint8_t game, uint64_t *words, size_t places);

/*
 * The same answers and refusals in another way: each suit's targets are tried one after the other, where lastavon_hand
 * fills in a table. It takes hundreds of times as long, and is here to be compared with.
 */
uint8_t lastavon_hand_search(const uint8_t *counts, size_t length, uint8_t k, uint8_t game, uint64_t *words,
                             size_t places);

/*
 * A hand record, answered by an answer record. Returns 0, or the number of a refusal, 1, 2 or 4 to 8.
 *   hand, length    36 bytes: 34 counts, k, the game
 *   answer, room    room for the answer; 16 bytes. For 0 it holds what LASTAVON_AT_.. name; for 1 to 7 the number of
 *                   the refusal and 15 zeros. For 8 nothing is written.
 */
uint8_t lastavon_record(const uint8_t *hand, size_t length, uint8_t *answer, size_t room);

/*
 * One suit: nine ranks, the seven honours, or 1m/9m (nine ranks, of which only the first and the last may be held).
 * Returns a word, read by lastavon_suit_code and the readers beside it. Refused with 2 to 6.
 *   counts, length  how many of each rank are held; 9, 7 and 9 counts
 *   pairs, melds    what is wanted, 0 or 1 and 0 to 4
 * More than two pairs and melds cannot be made of 1m/9m: that is no fault, and gives the number 14 and two empty sets.
 * These search; where many goals or many suits are wanted, the functions after them are far faster.
 */
uint64_t lastavon_ranks(const uint8_t *counts, size_t length, uint8_t pairs, uint8_t melds);
uint64_t lastavon_honours(const uint8_t *counts, size_t length, uint8_t pairs, uint8_t melds);
uint64_t lastavon_ends(const uint8_t *counts, size_t length, uint8_t pairs, uint8_t melds);

/*
 * The ten goals of a suit at once, from a table. Returns 0, or the number of a refusal, 3 to 6 or 8.
 *   counts, length  as for one goal
 *   words, places   room for the answers; 10 words. The word of each goal (lastavon_goal) is the one that is returned
 *                   for it alone, above; where the suit is refused, all ten are the word of the refusal. For 8 nothing
 *                   is written.
 */
uint8_t lastavon_ranks_goals(const uint8_t *counts, size_t length, uint64_t *words, size_t places);
uint8_t lastavon_honours_goals(const uint8_t *counts, size_t length, uint64_t *words, size_t places);
uint8_t lastavon_ends_goals(const uint8_t *counts, size_t length, uint64_t *words, size_t places);

#ifdef __cplusplus
}
#endif

/* Whether a set has a tile, or a rank. */
static inline int lastavon_has(uint64_t set, unsigned index)
{
    return index < LASTAVON_TILES && (set >> index & 1) != 0;
}

/* The parts of the first word of lastavon_hand: how many tiles are lacking, */
static inline unsigned lastavon_number(uint64_t first)
{
    return (unsigned)(first & 0xff);
}

/* how many tiles the necessary set has, */
static inline unsigned lastavon_kinds(uint64_t first)
{
    return (unsigned)(first >> 8 & 0xff);
}

/* how many tiles of these kinds the hand does not hold, four of each being in the game, */
static inline unsigned lastavon_live(uint64_t first)
{
    return (unsigned)(first >> 16 & 0xff);
}

/* and the tile that the refusals 4 and 6 tell. */
static inline unsigned lastavon_index(uint64_t first)
{
    return (unsigned)(first >> 24 & 0xff);
}

/* Which of the ten words is that of 0 or 1 pairs and 0 to 4 melds. */
static inline unsigned lastavon_goal(unsigned pairs, unsigned melds)
{
    return 5 * pairs + melds;
}

/* The parts of a suit's word: 0 or the number of a refusal, */
static inline unsigned lastavon_suit_code(uint64_t word)
{
    return (unsigned)(word >> 48 & 0xff);
}

/* how many tiles are lacking, */
static inline unsigned lastavon_suit_number(uint64_t word)
{
    return (unsigned)(word & 0xff);
}

/* the two sets, */
static inline uint64_t lastavon_suit_necessary(uint64_t word)
{
    return word >> 8 & 0xffff;
}

static inline uint64_t lastavon_suit_unnecessary(uint64_t word)
{
    return word >> 24 & 0xffff;
}

/* and the rank that the refusals 4 and 6 tell, counted from 0. */
static inline unsigned lastavon_suit_index(uint64_t word)
{
    return (unsigned)(word >> 40 & 0xff);
}

/* A set of an answer record, from its five bytes: lastavon_set(answer + LASTAVON_AT_NECESSARY). */
static inline uint64_t lastavon_set(const uint8_t *bytes)
{
    uint64_t low = bytes[0] | (uint64_t)bytes[1] << 8 | (uint64_t)bytes[2] << 16 | (uint64_t)bytes[3] << 24;
    return low | (uint64_t)bytes[4] << 32;
}

#endif
