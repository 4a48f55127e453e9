/* The part of parts.c that writes and inserts. */
#include "klsm.h"

int32_t write_and_insert(klsm_member *member, uint64_t *message);

int32_t write_and_insert(klsm_member *member, uint64_t *message) {
    *message = 7;
    return klsm_try_insert(member, 101, 102);
}
