/* Whether the two instructions that tools/systems/pairs.ll writes out for other machines do what the processor's own do: on
 * neighbours at all ends of their ranges, as four numbers of -32768, whose sum passes 32 bits, and on random lanes. Status 1
 * where they don't. */
#include <stdint.h>
#include <stdio.h>
#include <string.h>
#include <tmmintrin.h>

__m128i pairs_of_bytes(__m128i a, __m128i b);
__m128i pairs_of_words(__m128i a, __m128i b);

/* the ends of the ranges, with a sign and without */
static const uint8_t of_bytes[] = {0x00, 0x7F, 0x80, 0xFF};
static const uint16_t of_words[] = {0x0000, 0x7FFF, 0x8000, 0xFFFF};

static uint64_t seed = 1;

static uint64_t number(void) {
    seed ^= seed << 13, seed ^= seed >> 7, seed ^= seed << 17;
    return seed;
}

/* lanes at random, one in four at an end of its range */
static __m128i bytes(void) {
    uint8_t made[16];
    for (int n = 0; n < 16; n++) made[n] = (uint8_t)(number() % 4 ? number() : of_bytes[number() % 4]);
    return _mm_loadu_si128((const __m128i *)made);
}

static __m128i words(void) {
    uint16_t made[8];
    for (int n = 0; n < 8; n++) made[n] = (uint16_t)(number() % 4 ? number() : of_words[number() % 4]);
    return _mm_loadu_si128((const __m128i *)made);
}

/* two neighbours in all lanes, by the number of an end for each */
static __m128i pair_of_bytes(int one, int two) { return _mm_set1_epi16((short)(of_bytes[one] | of_bytes[two] << 8)); }
static __m128i pair_of_words(int one, int two) { return _mm_set1_epi32((int)(of_words[one] | (uint32_t)of_words[two] << 16)); }

static int differ(__m128i a, __m128i b) { return memcmp(&a, &b, sizeof a); }
static int differ_bytes(__m128i a, __m128i b) { return differ(pairs_of_bytes(a, b), _mm_maddubs_epi16(a, b)); }
static int differ_words(__m128i a, __m128i b) { return differ(pairs_of_words(a, b), _mm_madd_epi16(a, b)); }

int main(void) {
    int all_at_least = 0;
    for (int n = 0; n < 256; n++) {
        int a = n % 4, b = n / 4 % 4, c = n / 16 % 4, d = n / 64;
        if (differ_bytes(pair_of_bytes(a, b), pair_of_bytes(c, d))) return puts("bytes: other sums at the ends"), 1;
        if (differ_words(pair_of_words(a, b), pair_of_words(c, d))) return puts("words: other sums at the ends"), 1;
        /* (the one sum that 32 bits don't hold) */
        all_at_least += _mm_cvtsi128_si32(pairs_of_words(pair_of_words(a, b), pair_of_words(c, d))) == INT32_MIN;
    }
    if (all_at_least != 1) return puts("words: four of -32768 were not tried"), 1;
    for (int n = 0; n < 1000000; n++) {
        if (differ_bytes(bytes(), bytes())) return puts("bytes: other sums"), 1;
        if (differ_words(words(), words())) return puts("words: other sums"), 1;
    }
    puts("pairs of numbers: ok");
    return 0;
}
