/* The numbers of klsm.h are those of the library: its codes, picks, limits and versions, as they stand in its
 * sources. Runs in the root of the repository. */
#include "check.h"
#include <string.h>

enum { MOST = 1 << 16 };

/* A source's text. A file that is missing or too long ends the program. */
static const char *text_of(const char *path) {
    static char text[MOST];
    FILE *file = fopen(path, "r");
    check_or_stop(path, file != NULL);
    size_t length = fread(text, 1, MOST - 1, file);
    fclose(file);
    check_or_stop(path, length > 0 && length < MOST - 1);
    text[length] = 0;
    return text;
}

/* What stands behind the first place of these words. */
static const char *behind(const char *path, const char *words) {
    const char *place = strstr(text_of(path), words);
    check_or_stop(words, place != NULL);
    return place + strlen(words);
}

/* Whether that is this number, of which digits may be kept apart by underscores. */
static void is_number(const char *path, const char *words, uint64_t number) {
    uint64_t found = 0;
    for (const char *at = behind(path, words); (*at >= '0' && *at <= '9') || *at == '_'; at++)
        if (*at != '_')
            found = 10 * found + (uint64_t)(*at - '0');
    check(words, found == number);
}

static void says(const char *path, const char *words) { check(words, strstr(text_of(path), words) != NULL); }

static const struct {
    const char *words;
    int32_t code;
} codes[] = {
    {"const OK: i32 = ", KLSM_OK},
    {"const NOTHING: i32 = ", KLSM_NOTHING},
    {"const BUSY: i32 = ", KLSM_BUSY},
    {"const FULL: i32 = ", KLSM_FULL},
    {"const NO_MEMORY: i32 = ", KLSM_NO_MEMORY},
    {"const SPENT: i32 = ", KLSM_SPENT},
    {"const NOT_OPEN: i32 = ", KLSM_NOT_OPEN},
    {"const OPEN: i32 = ", KLSM_OPEN},
    {"const BAD_COUNT: i32 = ", KLSM_BAD_COUNT},
    {"const BAD_K: i32 = ", KLSM_BAD_K},
    {"const BAD_PICK: i32 = ", KLSM_BAD_PICK},
    {"const SHARED: i32 = ", KLSM_SHARED},
    {"const BAD_REFILL: i32 = ", KLSM_BAD_REFILL},
};

enum { CODES = sizeof codes / sizeof codes[0] };

static int count_of(const char *path, const char *words) {
    int count = 0;
    for (const char *at = text_of(path); (at = strstr(at, words)) != NULL; at += strlen(words))
        count++;
    return count;
}

static void library_codes(void) {
    const char *path = "crates/klsm_c/src/codes.rt";
    for (int i = 0; i < CODES; i++)
        is_number(path, codes[i].words, (uint64_t)codes[i].code);
    check("klsm.h has all codes", count_of(path, ": i32 = ") == CODES);
}

static void picks(void) {
    const char *path = "crates/klsm_c/src/opening.rt";
    const char *names[] = {"Some(Pick::First)", "Some(Pick::Last)", "Some(Pick::Random)"};
    const int numbers[] = {KLSM_FIRST, KLSM_LAST, KLSM_RANDOM};
    for (int i = 0; i < 3; i++) {
        char line[64];
        snprintf(line, sizeof line, "%d => %s", numbers[i], names[i]);
        says(path, line);
    }
    check("klsm.h has all picks", count_of(path, "=> Some(Pick::") == 3);
}

/* A board of K and L has at most 2^(L - 1) shared items. */
static void limits(void) {
    const char *path = "crates/klsm_run/src/limits.rt";
    is_number(path, "const MOST_THREADS: usize = ", KLSM_MAX_THREADS);
    is_number(path, "const MOST_K: usize = ", KLSM_MAX_K);
    is_number(path, "const MOST_LEVELS: usize = ", 26 + 1);
    says("crates/klsm_c/src/queue.rt", "slots: [Slot; MOST_THREADS]");
    says("crates/klsm_owned/src/owned.rt", "board: Arc<WideBoard, Global>,");
    says("crates/klsm_board/src/board.rt", "WideBoard = Board<MOST_K, MOST_LEVELS>;");
    is_number("crates/klsm_board/src/making.rt", "const MOST_INSERTIONS: u64 = ", KLSM_MAX_INSERTIONS);
    says("include/klsm.h", "the shared part, of 2^26 items, has no room");
    says("include/klsm.h", "the member has made 2^48 insertions");
    says("bindings/rust/src/errors.rs", "it has room for 2^26 items");
    says("bindings/rust/src/errors.rs", "made all its insertions, which are 2^48");
    check("the greatest bound is 2^48 - 1", KLSM_MAX_BOUND == UINT64_C(281474976710655));
    check("the greatest depth is 2^16 - 1", KLSM_MAX_DEPTH == 65535);
    check("the greatest bound of a node is 2^36 - 1", KLSM_MAX_NODE_BOUND == UINT64_C(68719476735));
    check("the greatest depth of a node is 2^12 - 1", KLSM_MAX_NODE_DEPTH == 4095);
}

/* What an opening takes that names no numbers. */
static void defaults(void) {
    const char *path = "bindings/rust/src/builder.rs";
    is_number(path, "const DEFAULT_K: usize = ", KLSM_DEFAULT_K);
    is_number(path, "const DEFAULT_REFILL: usize = ", KLSM_DEFAULT_REFILL);
    is_number(path, "const DEFAULT_BALANCE: u32 = ", KLSM_DEFAULT_BALANCE);
}

static void versions(void) {
    is_number("crates/klsm_c/src/codes.rt", "fn klsm_abi() -> u32\n    ensures { result ≡ ", KLSM_ABI);
    is_number("crates/klsm_c/src/codes.rt", "fn klsm_version() -> u32\n    ensures { result ≡ ", KLSM_VERSION_NUMBER);
    is_number("bindings/rust/src/sys.rs", "const ABI: u32 = ", KLSM_ABI);
    const char *program = behind("crates/klsm_words/src/version.rt", "VERSION: &str = \"\\\n");
    check("the version is that of klsm --version", strncmp(program, KLSM_VERSION ",", sizeof KLSM_VERSION) == 0);
    char numbers[32];
    snprintf(numbers, sizeof numbers, "%d.%d.%d", KLSM_VERSION_MAJOR, KLSM_VERSION_MINOR, KLSM_VERSION_PATCH);
    check("its three numbers are the same", strcmp(numbers, KLSM_VERSION) == 0);
}

int main(void) {
    library_codes();
    picks();
    limits();
    defaults();
    versions();
    return check_status();
}
