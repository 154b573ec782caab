// Cases of a grammar for the library: bytes choose a configuration, a request, a profile and tests, and each call is
// checked. A check that fails ends the process.
//
// With libFuzzer it is a target. With -DCASES it has a main of its own:
//
//   fuzz FIRST COUNT     runs the cases of the numbers FIRST, FIRST + 1 .. and prints how each kind of status ended
#include "cases.h"
#include "rinqebo.h"
#include <inttypes.h>
#include <stdio.h>
#include <stdlib.h>
#include <string.h>

#define CHECK(HOLDS) \
    do { \
        if (!(HOLDS)) { \
            fprintf(stderr, "line %d: %s\n", __LINE__, #HOLDS); \
            abort(); \
        } \
    } while (0)

static uint64_t ended[16], compared[16];

// The output of a run by one call, and by pieces: they are the same.
static void check_run(const uint8_t *request, size_t length) {
    struct rinqebo_run *run = malloc(rinqebo_run_size());
    CHECK(run != NULL);
    rinqebo_run_new(request, length, run);
    uint32_t status = rinqebo_run_status(run);
    size_t told = rinqebo_run_length(run);
    ended[status % 16]++;
    CHECK(status != RINQEBO_SMALL && status <= RINQEBO_NO_PROFILE && status != RINQEBO_MEMORY);
    uint8_t *pieces = malloc(told + 1), *whole = malloc(told + 1);
    CHECK(pieces != NULL && whole != NULL);
    size_t size = 1 + choose(64), at = 0, needed = 0;
    pieces[told] = whole[told] = 'x';
    for (size_t piece; at < told; at += piece) {
        size_t room = told - at < size ? told - at : size;
        piece = rinqebo_run_text(run, at, pieces + at, room);
        CHECK(piece == room);
        size *= 2;
    }
    CHECK(rinqebo_run_text(run, told, pieces, told) == 0);
    if (told > 0) {
        memset(whole, 7, told);
        CHECK(rinqebo_resolve(request, length, whole, told - 1, &needed) == RINQEBO_SMALL && needed == told);
        for (size_t i = 0; i < told; i++) CHECK(whole[i] == 7);
    }
    CHECK(rinqebo_resolve(request, length, whole, told, &needed) == status && needed == told);
    CHECK(memcmp(pieces, whole, told + 1) == 0 && whole[told] == 'x');
    free(pieces);
    free(whole);
    rinqebo_run_free(run);
    free(run);
}

// The status and the text of a run of one request.
static uint32_t resolved(const uint8_t *request, size_t length, uint8_t *out, size_t out_len, size_t *needed) {
    uint32_t status = rinqebo_resolve(request, length, out, out_len, needed);
    CHECK(status != RINQEBO_SMALL);
    return status;
}

// What changes between two runs, kept and by one call: they are the same. Without a result it is what a run of the side
// returns that has none. Between a run and itself no test changes.
static void check_diff(const uint8_t *from, size_t from_len, const uint8_t *to, size_t to_len) {
    struct rinqebo_run *run = malloc(rinqebo_run_size());
    CHECK(run != NULL);
    uint32_t origins = choose(2), side = 7, again = 7;
    rinqebo_diff_new(from, from_len, to, to_len, origins, run, &side);
    uint32_t status = rinqebo_run_status(run);
    size_t told = rinqebo_run_length(run), needed = 7;
    compared[status % 16]++;
    CHECK(status != RINQEBO_SMALL && status <= RINQEBO_NO_PROFILE && status != RINQEBO_MEMORY);
    CHECK(side <= RINQEBO_TO && (side == RINQEBO_NO_SIDE) == (status == RINQEBO_DONE));
    uint8_t *kept = malloc(told + 1), *whole = malloc(told + 1);
    CHECK(kept != NULL && whole != NULL);
    kept[told] = whole[told] = 'x';
    CHECK(rinqebo_run_text(run, 0, kept, told) == told);
    if (told > 0) {
        memset(whole, 7, told);
        CHECK(rinqebo_diff(from, from_len, to, to_len, origins, whole, told - 1, &needed, &again) == RINQEBO_SMALL);
        CHECK(needed == told && again == side);
        for (size_t i = 0; i < told; i++) CHECK(whole[i] == 7);
    }
    CHECK(rinqebo_diff(from, from_len, to, to_len, origins, whole, told, &needed, &again) == status);
    CHECK(needed == told && again == side && memcmp(kept, whole, told + 1) == 0 && whole[told] == 'x');
    if (side == RINQEBO_FROM) CHECK(resolved(from, from_len, whole, told, &needed) == status);
    if (side == RINQEBO_TO) CHECK(resolved(to, to_len, whole, told, &needed) == status);
    CHECK(needed == told && memcmp(kept, whole, told + 1) == 0 && whole[told] == 'x');
    if (from == to && status == RINQEBO_DONE) {
        kept[told] = 0;
        CHECK(strstr((char *)kept, "\"changes\":[]") != NULL && strstr((char *)kept, "\"run\":[]") != NULL);
    }
    free(kept);
    free(whole);
    rinqebo_run_free(run);
    free(run);
}

// A text of a profile, in a buffer that is too small and in one that is just large enough.
static void check_text(const struct rinqebo_profile *profile, uint32_t kind, size_t index) {
    uint8_t none[1] = {'x'};
    size_t needed = 7, again = 7;
    uint32_t status = rinqebo_profile_text(profile, kind, index, none, 0, &needed);
    if (status == RINQEBO_UNKNOWN_NUMBER) {
        CHECK(needed == 0 && none[0] == 'x');
        return;
    }
    CHECK(status == (needed == 0 ? RINQEBO_DONE : RINQEBO_SMALL));
    uint8_t *out = malloc(needed + 1);
    CHECK(out != NULL);
    out[needed] = 'x';
    CHECK(rinqebo_profile_text(profile, kind, index, out, needed, &again) == RINQEBO_DONE);
    CHECK(again == needed && out[needed] == 'x');
    if (kind == RINQEBO_OBJECTS) CHECK(needed > 2 && out[0] == '{' && out[needed - 1] == '}');
    free(out);
}

// A part of a test: mostly that of a test of the list, or none.
static struct rinqebo_bytes part(const char *usual, const char *other) {
    const char *text = is_faulty() ? "\xff" : choose(8) == 0 ? "" : choose(4) == 0 ? other : usual;
    struct rinqebo_bytes made = {(const uint8_t *)text, strlen(text)};
    return made;
}

// The settings of a test, and its arguments: as many as the settings say.
static void check_test(const struct rinqebo_profile *profile, uint32_t opened) {
    struct rinqebo_test test = {.size = sizeof test};
    test.package = part("api 1", "core 1");
    test.binary = part("api", "api::smoke");
    test.kind = part("lib", "test");
    test.target = part("api", "smoke");
    test.name = part("db::reads", "\xc3\xa9");
    test.platform = is_faulty() ? 2 : choose(2);
    test.mode = is_faulty() ? 2 : choose(2);
    if (is_faulty()) test.size += 1;
    struct rinqebo_settings settings, before;
    memset(&settings, 7, sizeof settings);
    settings.size = sizeof settings - (is_faulty() ? 8 : 0);
    memcpy(&before, &settings, sizeof before);
    int is_sized = test.size == sizeof test && settings.size == sizeof settings;
    uint32_t status = rinqebo_profile_ask(profile, &test, &settings);
    ended[status % 16]++;
    CHECK((status == RINQEBO_BAD_SIZE) == !is_sized);
    if (status != RINQEBO_DONE) {
        CHECK(memcmp(&before, &settings, sizeof before) == 0);
        CHECK(status == RINQEBO_BAD_SIZE || status == RINQEBO_NOT_TEXT || status == RINQEBO_UNKNOWN_NUMBER ||
              status == RINQEBO_NOT_KNOWN || status == opened);
    } else {
        CHECK(opened == RINQEBO_DONE && settings.size == sizeof settings && settings.in_default_filter <= 1);
        if (settings.test_group != RINQEBO_NO_NAME) check_text(profile, RINQEBO_GROUP, settings.test_group);
        if (settings.run_wrapper != RINQEBO_NO_NAME) check_text(profile, RINQEBO_WRAPPER, settings.run_wrapper);
    }
    for (size_t index = 0; index < 4; index++) {
        uint8_t out[64] = {'x'};
        size_t needed = 7;
        uint32_t got = rinqebo_profile_argument(profile, &test, index, out, sizeof out, &needed);
        if (status == RINQEBO_DONE) {
            CHECK(got == (index < settings.run_extra_args ? RINQEBO_DONE : RINQEBO_UNKNOWN_NUMBER));
        } else if (test.size == sizeof test && status != RINQEBO_BAD_SIZE) {
            CHECK(got == status);
        }
        if (got != RINQEBO_DONE && got != RINQEBO_SMALL) CHECK(needed == 0 && out[0] == 'x');
    }
}

static void check_profile(const struct rinqebo_session *session, const char *wanted) {
    struct rinqebo_profile *profile = malloc(rinqebo_profile_size());
    CHECK(profile != NULL);
    rinqebo_profile_open(session, (const uint8_t *)wanted, strlen(wanted), profile);
    uint32_t status = rinqebo_profile_status(profile);
    ended[status % 16]++;
    CHECK(status != RINQEBO_MEMORY);
    for (uint32_t kind = 0; kind < 5; kind++) {
        for (size_t index = 0; index < 3; index++) check_text(profile, kind, index);
    }
    for (uint32_t count = 1 + choose(4); count > 0; count--) check_test(profile, status);
    rinqebo_profile_free(profile);
    free(profile);
}

static void check_session(const uint8_t *request, size_t length) {
    struct rinqebo_session *session = malloc(rinqebo_session_size());
    CHECK(session != NULL);
    rinqebo_session_load(request, length, session);
    uint32_t status = rinqebo_session_status(session);
    ended[status % 16]++;
    CHECK(status != RINQEBO_MEMORY && status != RINQEBO_SMALL && status < RINQEBO_NO_PROFILE);
    uint8_t reason[4096];
    size_t needed = 0;
    uint32_t told = rinqebo_session_reason(session, reason, sizeof reason, &needed);
    CHECK(told == (needed <= sizeof reason ? RINQEBO_DONE : RINQEBO_SMALL));
    CHECK((needed == 0) == (status == RINQEBO_DONE));
    check_profile(session, "default");
    check_profile(session, is_faulty() ? "\xff" : profile_name());
    rinqebo_session_free(session);
    free(session);
}

int LLVMFuzzerTestOneInput(const uint8_t *data, size_t size);

int LLVMFuzzerTestOneInput(const uint8_t *data, size_t size) {
    static struct text request, other;
    bytes = data;
    left = size;
    request.length = other.length = 0;
    may_fail = choose(2);
    add_request(&request);
    const uint8_t *from = (const uint8_t *)request.at, *to = (const uint8_t *)other.at;
    check_session(from, request.length);
    if (choose(4) == 0) check_run(from, request.length);
    switch (choose(8)) {
    case 0: check_diff(from, request.length, from, request.length); break;
    case 1: add_request(&other); check_diff(from, request.length, to, other.length); break;
    case 2: add_request(&other); check_diff(to, other.length, from, request.length); break;
    default: break;
    }
    return 0;
}

#ifdef CASES
// The bytes of a case, by its number.
static void fill(uint8_t *data, size_t size, uint64_t number) {
    uint64_t state = number * UINT64_C(0x9e3779b97f4a7c15) + 1;
    for (size_t i = 0; i < size; i++) {
        state ^= state << 13;
        state ^= state >> 7;
        state ^= state << 17;
        data[i] = (uint8_t)(state >> 32);
    }
}

static void print_counts(const uint64_t *counts) {
    for (int status = 0; status < 16; status++) {
        if (counts[status] != 0) printf(" %d: %" PRIu64, status, counts[status]);
    }
}

int main(int count, char **words) {
    if (count != 3) return 2;
    uint64_t first = strtoull(words[1], NULL, 10), cases = strtoull(words[2], NULL, 10);
    static uint8_t data[1024];
    for (uint64_t number = first; number < first + cases; number++) {
        fill(data, sizeof data, number);
        LLVMFuzzerTestOneInput(data, 64 + number % 960);
    }
    printf("%" PRIu64 " cases; statuses", cases);
    print_counts(ended);
    printf("; of diffs");
    print_counts(compared);
    puts("");
    return 0;
}
#endif
