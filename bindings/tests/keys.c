/* Keys for a search by bounds, and those of doubles and of numbers with a sign. */
#include "check.h"
#include <float.h>
#include <math.h>
#include <string.h>

enum { PAIRS = 1000000 };

static void order(void) {
    const uint64_t bounds[] = {0, 1, 2, 1 << 20, KLSM_MAX_BOUND - 1, KLSM_MAX_BOUND};
    const uint32_t depths[] = {65535, 65534, 1000, 1, 0};
    uint64_t last = 0;
    int ascends = 1, has_bound = 1;
    for (int i = 0; i < 6; i++)
        for (int j = 0; j < 5; j++) {
            uint64_t key = klsm_key_of_bound(bounds[i], depths[j]);
            ascends = ascends && (i + j == 0 || key > last);
            has_bound = has_bound && klsm_bound_of_key(key) == bounds[i];
            last = key;
        }
    check("keys ascend by the bound, and then by falling depth", ascends);
    check("each gives its bound back", has_bound);
    check("the greatest key of all is one", last == UINT64_MAX);
}

static void beyond(void) {
    check("a bound that is too great counts as the greatest",
          klsm_key_of_bound(UINT64_MAX, 5) == klsm_key_of_bound(KLSM_MAX_BOUND, 5));
    check("and so does a depth", klsm_key_of_bound(9, UINT32_MAX) == klsm_key_of_bound(9, KLSM_MAX_DEPTH));
    check("which is the least key of its bound", klsm_key_of_bound(9, UINT32_MAX) == UINT64_C(9) << 16);
}

/* Of a bound, a depth and a turn. */
static void nodes(void) {
    const uint64_t bounds[] = {0, 1, 2, 1 << 20, KLSM_MAX_NODE_BOUND - 1, KLSM_MAX_NODE_BOUND};
    const uint32_t depths[] = {4095, 4094, 1000, 1, 0};
    const uint64_t turns[] = {65535, 65534, 1000, 1, 0};
    uint64_t last = 0;
    int ascends = 1, has_bound = 1;
    for (int i = 0; i < 6 * 5 * 5; i++) {
        uint64_t bound = bounds[i / 25], key = klsm_key_of_node(bound, depths[i / 5 % 5], turns[i % 5]);
        ascends = ascends && (i == 0 ? key == 0 : key > last);
        has_bound = has_bound && klsm_bound_of_node(key) == bound;
        last = key;
    }
    check("keys of nodes ascend by the bound, by falling depth, and by falling turn", ascends);
    check("each gives its bound back", has_bound);
    check("the greatest key of all is one", last == UINT64_MAX);
    check("the bound of a node that is too great counts as the greatest",
          klsm_key_of_node(UINT64_MAX, 5, 6) == klsm_key_of_node(KLSM_MAX_NODE_BOUND, 5, 6));
    check("and so does a depth",
          klsm_key_of_node(9, UINT32_MAX, 6) == klsm_key_of_node(9, KLSM_MAX_NODE_DEPTH, 6));
    check("a turn counts modulo 2^16",
          klsm_key_of_node(9, 5, 65536) == klsm_key_of_node(9, 5, 0) &&
              klsm_key_of_node(9, 5, UINT64_MAX) == klsm_key_of_node(9, 5, 65535));
}

/* Doubles, ascending. */
static const double doubles[] = {-INFINITY, -DBL_MAX, -1e300, -1.5, -1, -DBL_MIN, -DBL_TRUE_MIN, 0,
                                 DBL_TRUE_MIN, DBL_MIN, 1, 1.5, 1e300, DBL_MAX, INFINITY};

static void doubles_in_order(void) {
    int ascends = 1, comes_back = 1;
    for (size_t i = 0; i < sizeof doubles / sizeof *doubles; i++) {
        uint64_t key = klsm_key_of_double(doubles[i]);
        ascends = ascends && (i == 0 || klsm_key_of_double(doubles[i - 1]) < key);
        comes_back = comes_back && !(klsm_double_of_key(key) < doubles[i]) && !(klsm_double_of_key(key) > doubles[i]);
    }
    check("keys of doubles ascend", ascends);
    check("each gives its double back", comes_back);
    check("both zeros have one key", klsm_key_of_double(-0.0) == klsm_key_of_double(0.0));
    check("which gives the one without a sign", !signbit(klsm_double_of_key(klsm_key_of_double(-0.0))));
    uint64_t none = klsm_key_of_double(NAN);
    check("all that is no number has one key", none == klsm_key_of_double(-NAN) && isnan(klsm_double_of_key(none)));
    check("behind infinity", none > klsm_key_of_double(INFINITY));
    check("the greatest first", ~klsm_key_of_double(2.5) < ~klsm_key_of_double(-2.5));
}

/* The double of these bits. */
static double double_of(uint64_t bits) {
    double number;
    memcpy(&number, &bits, sizeof number);
    return number;
}

/* Whether the keys of two doubles are as the doubles are, of which none may be no number. */
static int agree(double one, double other) {
    uint64_t a = klsm_key_of_double(one), b = klsm_key_of_double(other);
    if (isnan(one) || isnan(other))
        return (isnan(one) != 0) == (a == klsm_key_of_double(NAN));
    return (one < other) == (a < b) && (one > other) == (a > b);
}

/* Of random bits, and of numbers that are near each other. */
static void random_doubles(void) {
    uint64_t state = 1;
    int same = 1;
    for (int i = 0; i < PAIRS; i++) {
        uint64_t bits = check_random(&state), near = bits + check_random(&state) % 3 - 1;
        same = same && agree(double_of(bits), double_of(check_random(&state))) && agree(double_of(bits), double_of(near));
    }
    check("a million random pairs of doubles have keys in their order", same);
}

static void signed_numbers(void) {
    const int64_t numbers[] = {INT64_MIN, INT64_MIN + 1, -1000, -1, 0, 1, 1000, INT64_MAX - 1, INT64_MAX};
    int same = 1;
    for (int i = 0; i < 9; i++)
        for (int j = 0; j < 9; j++)
            same = same && (numbers[i] < numbers[j]) == (klsm_key_of_int64(numbers[i]) < klsm_key_of_int64(numbers[j]));
    check("keys of numbers with a sign are in their order", same);
    check("from the least key to the greatest",
          klsm_key_of_int64(INT64_MIN) == 0 && klsm_key_of_int64(INT64_MAX) == UINT64_MAX);
    uint64_t state = 2;
    for (int i = 0; i < PAIRS; i++) {
        int64_t one = (int64_t)check_random(&state), other = (int64_t)check_random(&state);
        uint64_t key = klsm_key_of_int64(one);
        same = same && (one < other) == (key < klsm_key_of_int64(other)) && klsm_int64_of_key(key) == one;
    }
    check("a million random pairs too, and each gives its number back", same);
}

int main(void) {
    order();
    beyond();
    nodes();
    doubles_in_order();
    random_doubles();
    signed_numbers();
    return check_status();
}
