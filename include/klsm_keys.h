/* klsm_keys.h: keys for a search by bounds, and of doubles and numbers with a sign. klsm.h includes it. C11 and C++. */
#ifndef KLSM_KEYS_H
#define KLSM_KEYS_H

/* Keys for a search by bounds, of which the smallest is the most promising. Where items share a key, a
 * deletion takes the shared lock only to find that its member's own item goes first after all, since an own
 * item goes without it only where its key is less than that of each shared item; so it pays to tell items of
 * one bound apart.
 *
 * This key orders items by the bound; those of one bound by the depth, the deepest first, which are the
 * nearest to a solution; and those of one depth too by the turn, the newest first. The turn is a count of the
 * thread's own, as klsm_inserted of its member is: so the items of one thread have different keys, and those
 * of two as a rule. A bound above KLSM_MAX_NODE_BOUND counts as that number, and a depth above
 * KLSM_MAX_NODE_DEPTH as that one; the turn counts modulo 2^16. */
#define KLSM_MAX_NODE_BOUND ((UINT64_C(1) << 36) - 1)
#define KLSM_MAX_NODE_DEPTH UINT32_C(4095)

KLSM_INLINE uint64_t klsm_key_of_node(uint64_t bound, uint32_t depth, uint64_t turn) {
    uint64_t first = bound < KLSM_MAX_NODE_BOUND ? bound : KLSM_MAX_NODE_BOUND;
    uint64_t then = KLSM_MAX_NODE_DEPTH - (depth < KLSM_MAX_NODE_DEPTH ? depth : KLSM_MAX_NODE_DEPTH);
    return first << 28 | then << 16 | (~turn & 0xffff);
}

/* The bound of such a key. */
KLSM_INLINE uint64_t klsm_bound_of_node(uint64_t key) { return key >> 28; }

/* The same for greater bounds and depths, with no turn: for a search where few items share both. */
#define KLSM_MAX_BOUND ((UINT64_C(1) << 48) - 1)
#define KLSM_MAX_DEPTH UINT32_C(65535)

KLSM_INLINE uint64_t klsm_key_of_bound(uint64_t bound, uint32_t depth) {
    uint64_t first = bound < KLSM_MAX_BOUND ? bound : KLSM_MAX_BOUND;
    uint32_t then = KLSM_MAX_DEPTH - (depth < KLSM_MAX_DEPTH ? depth : KLSM_MAX_DEPTH);
    return first << 16 | then;
}

/* The bound of such a key. */
KLSM_INLINE uint64_t klsm_bound_of_key(uint64_t key) { return key >> 16; }

/* Keys of other numbers, in the order of these. The greatest comes first by ~klsm_key_of_double(number), and so
 * on. Both zeros have one key, and every NaN maps to one key above that of +infinity. */
KLSM_INLINE uint64_t klsm_key_of_double(double number) {
    const uint64_t sign = UINT64_C(1) << 63, infinity = UINT64_C(0x7ff) << 52;
    uint64_t bits;
    memcpy(&bits, &number, sizeof bits);
    if ((bits & ~sign) > infinity)
        return sign | infinity | UINT64_C(1) << 51;
    if ((bits & ~sign) == 0)
        return sign;
    return bits & sign ? ~bits : bits | sign;
}

KLSM_INLINE double klsm_double_of_key(uint64_t key) {
    const uint64_t sign = UINT64_C(1) << 63, bits = key & sign ? key & ~sign : ~key;
    double number;
    memcpy(&number, &bits, sizeof number);
    return number;
}

KLSM_INLINE uint64_t klsm_key_of_int64(int64_t number) { return KLSM_CAST(uint64_t, number) ^ UINT64_C(1) << 63; }

KLSM_INLINE int64_t klsm_int64_of_key(uint64_t key) {
    int64_t number;
    key ^= UINT64_C(1) << 63;
    memcpy(&number, &key, sizeof number);
    return number;
}

#endif
