// Runs the request of a file, prints the settings of some tests, or checks the calls by themselves.
//
//   example                          checks each call, and exits with the number of the first that fails
//   example REQUEST                  prints the output of a whole run, and exits with its status
//   example REQUEST PROFILE PACKAGE BINARY TEST..
//                                    prints the settings of tests of a library, by the ids of its package and its
//                                    binary, and exits with the first status that is not 0
#include "rinqebo.h"
#include <inttypes.h>
#include <stdio.h>
#include <stdlib.h>
#include <string.h>

static struct rinqebo_bytes bytes_of(const char *text) {
    struct rinqebo_bytes bytes = {(const uint8_t *)text, strlen(text)};
    return bytes;
}

static struct rinqebo_test test_of(const char *binary, const char *name) {
    struct rinqebo_test test = {sizeof test, bytes_of(""), bytes_of(binary), bytes_of("lib"), bytes_of(binary), bytes_of(name), 1, 0};
    return test;
}

// Queries the settings of a test, and returns the status. With any status but DONE the settings are unchanged.
static uint32_t ask(const struct rinqebo_profile *profile, struct rinqebo_test test, struct rinqebo_settings *settings) {
    struct rinqebo_settings before;
    memset(settings, 7, sizeof *settings);
    settings->size = sizeof *settings;
    memcpy(&before, settings, sizeof before);
    uint32_t status = rinqebo_profile_ask(profile, &test, settings);
    int kept = memcmp(&before, settings, sizeof before) == 0;
    return kept == (status != RINQEBO_DONE) ? status : 99;
}

// The session of a request, or NULL if there is no memory for it.
static struct rinqebo_session *load(const char *request) {
    struct rinqebo_session *session = malloc(rinqebo_session_size());
    if (session != NULL) {
        rinqebo_session_load((const uint8_t *)request, strlen(request), session);
    }
    return session;
}

static void end(struct rinqebo_session *session) {
    rinqebo_session_free(session);
    free(session);
}

static struct rinqebo_profile *open_profile(const struct rinqebo_session *session, const char *name) {
    struct rinqebo_profile *profile = malloc(rinqebo_profile_size());
    if (profile != NULL) {
        rinqebo_profile_open(session, (const uint8_t *)name, strlen(name), profile);
    }
    return profile;
}

static void end_profile(struct rinqebo_profile *profile) {
    rinqebo_profile_free(profile);
    free(profile);
}

static int has_text(const struct rinqebo_profile *profile, uint32_t kind, size_t index, const char *text) {
    uint8_t out[64];
    size_t needed = 0;
    return rinqebo_profile_text(profile, kind, index, out, sizeof out, &needed) == RINQEBO_DONE &&
           needed == strlen(text) && memcmp(out, text, needed) == 0;
}

static const char *REQUEST =
    "{\"root\": \"/w\", \"file\": {\"path\": \"/w/.config/nextest.toml\", \"outcome\": \"text\", \"text\":"
    " \"[profile.ci]\\nretries = 1\\n[test-groups.db]\\nmax-threads = 2\\n[[profile.ci.overrides]]\\n"
    "filter = 'test(/^db::/)'\\ntest-group = 'db'\\nthreads-required = 4\\nslow-timeout = '20s'\\npriority = 50\\n"
    "run-extra-args = ['-q', '']\\n\"},"
    " \"config-file\": null, \"organisation-config-file\": null, \"tools\": [],"
    " \"features\": {\"setup-scripts\": false, \"wrapper-scripts\": false}, \"metadata\": null,"
    " \"host\": {\"triple\": \"x86_64-unknown-linux-gnu\", \"cfg\": null}, \"target\": null}";

// Settings of one profile. 0, or the number of the first check that fails.
static int check_settings(const struct rinqebo_profile *profile) {
    struct rinqebo_settings settings;
    if (ask(profile, test_of("api", "db::reads"), &settings) != RINQEBO_DONE || settings.size != sizeof settings) return 10;
    if (settings.priority != 50 || settings.threads_required.kind != 0 || settings.threads_required.count != 4) return 11;
    if (settings.retries.backoff != 0 || settings.retries.count != 1) return 12;
    if (settings.slow_timeout.period.low != UINT64_C(20000000000) || settings.slow_timeout.period.high != 0) return 13;
    if (settings.test_group != 0 || settings.group_threads.kind != 0 || settings.group_threads.count != 2) return 14;
    if (settings.run_wrapper != RINQEBO_NO_NAME || settings.run_extra_args != 2) return 15;
    if (settings.in_default_filter != 1) return 16;
    if (!has_text(profile, RINQEBO_GROUP, settings.test_group, "db")) return 17;
    if (!has_text(profile, RINQEBO_REASON, 0, "")) return 18;
    if (ask(profile, test_of("api", "quick"), &settings) != RINQEBO_DONE) return 19;
    if (settings.test_group != RINQEBO_NO_NAME || settings.group_threads.kind != 2 || settings.priority != 0) return 19;
    if (ask(profile, test_of("api", "\xff"), &settings) != RINQEBO_NOT_TEXT) return 20;
    struct rinqebo_test test = test_of("", "");
    if (ask(profile, test, &settings) != RINQEBO_NOT_KNOWN) return 21;
    test.mode = 2;
    if (ask(profile, test, &settings) != RINQEBO_UNKNOWN_NUMBER) return 22;
    return 0;
}

// Sizes that are not those of this version. 0, or the number of the first check that fails.
static int check_sizes(const struct rinqebo_profile *profile, uint32_t otherwise) {
    struct rinqebo_test test = test_of("api", "quick");
    struct rinqebo_settings settings, before;
    for (int by = -1; by <= 1; by++) {
        memset(&settings, 7, sizeof settings);
        settings.size = sizeof settings + by;
        memcpy(&before, &settings, sizeof before);
        if (rinqebo_profile_ask(profile, &test, &settings) != (by == 0 ? otherwise : RINQEBO_BAD_SIZE)) return 23;
        if (by != 0 && memcmp(&before, &settings, sizeof before) != 0) return 24;
        test.size = sizeof test + by;
        if (ask(profile, test, &settings) != (by == 0 ? otherwise : RINQEBO_BAD_SIZE)) return 25;
        test.size = sizeof test;
    }
    return 0;
}

// The version of this header. 0, or the number of the first check that fails.
static int check_version(void) {
    uint8_t out[64];
    size_t needed = 0;
    if (rinqebo_version_number() != RINQEBO_VERSION_NUMBER) return 26;
    if (rinqebo_version(out, sizeof out, &needed) != RINQEBO_DONE || needed != strlen(RINQEBO_VERSION)) return 27;
    if (memcmp(out, RINQEBO_VERSION, needed) != 0) return 28;
    if (rinqebo_version(out, needed - 1, &needed) != RINQEBO_SMALL || needed != strlen(RINQEBO_VERSION)) return 29;
    return 0;
}

// The buffer of a text. 0, or the number of the first check that fails.
static int check_buffer(const struct rinqebo_profile *profile) {
    uint8_t out[2] = {'x', 'y'};
    size_t needed = 0;
    if (rinqebo_profile_text(profile, RINQEBO_GROUP, 0, out, 1, &needed) != RINQEBO_SMALL) return 30;
    if (needed != 2 || out[0] != 'x') return 31;
    if (rinqebo_profile_text(profile, RINQEBO_GROUP, 0, out, 0, &needed) != RINQEBO_SMALL || needed != 2) return 32;
    if (rinqebo_profile_text(profile, RINQEBO_GROUP, 0, out, needed, &needed) != RINQEBO_DONE || out[0] != 'd') return 33;
    if (rinqebo_profile_text(profile, RINQEBO_GROUP, 1, out, 2, &needed) != RINQEBO_UNKNOWN_NUMBER) return 34;
    if (rinqebo_profile_text(profile, 4, 0, out, 2, &needed) != RINQEBO_UNKNOWN_NUMBER || needed != 0) return 35;
    return 0;
}

// Whether an argument of a test ends so, with this text.
static int argument_is(const struct rinqebo_profile *profile, struct rinqebo_test test, size_t index, uint32_t wanted,
                       const char *text) {
    uint8_t out[8];
    size_t needed = 7;
    uint32_t status = rinqebo_profile_argument(profile, &test, index, out, sizeof out, &needed);
    return status == wanted && needed == strlen(text) && memcmp(out, text, needed) == 0;
}

// The arguments of tests, and the objects of the profile. 0, or the number of the first check that fails.
static int check_objects(const struct rinqebo_profile *profile) {
    struct rinqebo_test test = test_of("api", "db::reads"), quick = test_of("api", "quick");
    if (!argument_is(profile, test, 0, RINQEBO_DONE, "-q") || !argument_is(profile, test, 1, RINQEBO_DONE, "")) return 36;
    if (!argument_is(profile, test, 2, RINQEBO_UNKNOWN_NUMBER, "")) return 37;
    if (!argument_is(profile, quick, 0, RINQEBO_UNKNOWN_NUMBER, "")) return 37;
    if (!argument_is(profile, test_of("", ""), 0, RINQEBO_NOT_KNOWN, "")) return 38;
    test.size -= 1;
    if (!argument_is(profile, test, 0, RINQEBO_BAD_SIZE, "")) return 38;
    static const char *groups = "\"groups\":[{\"max-threads\":2,\"name\":\"db\"}],\"origins\":{\"groups\":{\"db\":"
                                "[{\"index\":null,\"kind\":\"file\",\"lines\":[4,4],\"profile\":null,";
    uint8_t out[8192];
    size_t needed = 0, length = strlen(groups);
    if (rinqebo_profile_text(profile, RINQEBO_OBJECTS, 0, out, sizeof out, &needed) != RINQEBO_DONE) return 39;
    static const char *findings = "{\"findings\":[],";
    if (needed <= strlen(findings) + length || memcmp(out, findings, strlen(findings)) != 0) return 39;
    return memcmp(out + strlen(findings), groups, length) == 0 && out[needed - 1] == '}' ? 0 : 39;
}

// A request that is refused, and the calls that may still follow. 0, or the number of the check that fails.
static int check_refused(const char *request, uint32_t status) {
    struct rinqebo_session *session = load(request);
    if (session == NULL) return 40;
    if (rinqebo_session_status(session) != status) return 41;
    uint8_t reason[256];
    size_t needed = 0;
    if (rinqebo_session_reason(session, reason, sizeof reason, &needed) != RINQEBO_DONE || needed == 0) return 42;
    struct rinqebo_profile *profile = open_profile(session, "ci");
    if (profile == NULL || rinqebo_profile_status(profile) != RINQEBO_NOT_LOADED) return 43;
    struct rinqebo_settings settings;
    if (ask(profile, test_of("a", "b"), &settings) != RINQEBO_NOT_LOADED) return 44;
    int sizes = check_sizes(profile, RINQEBO_NOT_LOADED);
    if (sizes != 0) return sizes;
    end_profile(profile);
    end(session);
    return 0;
}

// The output of a run, in a buffer that is made large enough; NULL if there is no memory for it.
static uint8_t *run(const char *request, size_t length, uint32_t *status, size_t *needed) {
    size_t room = length + 1;
    uint8_t *answer = malloc(room);
    while (answer != NULL) {
        *status = rinqebo_resolve((const uint8_t *)request, length, answer, room, needed);
        if (*status != RINQEBO_SMALL) return answer;
        room = *needed;
        free(answer);
        answer = malloc(room);
    }
    return answer;
}

// The outcome of reading a file: OUTCOME, with TEXT, which is JSON.
#define READ(PATH, OUTCOME, TEXT) "{\"path\": \"" PATH "\", \"outcome\": \"" OUTCOME "\", \"text\": " TEXT "}"

// A request for a run over files, each with the outcome READ, for PROFILE and the tests of LIST.
#define RUN_OVER(FILE, CONFIG_FILE, PROFILE, LIST) \
    "{\"root\": \"/w\", \"file\": " FILE ", \"config-file\": " CONFIG_FILE "," \
    " \"organisation-config-file\": null, \"tools\": []," \
    " \"features\": {\"setup-scripts\": false, \"wrapper-scripts\": false}, \"metadata\": null," \
    " \"host\": {\"triple\": \"x86_64-unknown-linux-gnu\", \"cfg\": null}, \"target\": null," \
    " \"profile\": \"" PROFILE "\", \"mode\": \"test\", \"list\": \"" LIST "\"}"

// The same over the repository's own file, with this text.
#define RUN_REQUEST(TEXT, PROFILE, LIST) \
    RUN_OVER(READ("/w/.config/nextest.toml", "text", "\"" TEXT "\""), "null", PROFILE, LIST)

#define LIST \
    "{\\\"rust-suites\\\": {\\\"api\\\": {\\\"package-name\\\": \\\"api\\\", \\\"package-id\\\": \\\"api 1\\\", \\\"binary-id\\\": \\\"api\\\"," \
    " \\\"binary-name\\\": \\\"api\\\", \\\"kind\\\": \\\"lib\\\", \\\"build-platform\\\": \\\"target\\\"," \
    " \\\"testcases\\\": {\\\"db::reads\\\": {}}}}}"

// Whether the run of a request, read by pieces of this size, has a status and this text.
static int is_in_pieces(const char *request, size_t size, uint32_t status, const uint8_t *text, size_t length) {
    struct rinqebo_run *kept = malloc(rinqebo_run_size());
    uint8_t *read = malloc(length + size + 1);
    if (kept == NULL || read == NULL) return 0;
    rinqebo_run_new((const uint8_t *)request, strlen(request), kept);
    int is = rinqebo_run_status(kept) == status && rinqebo_run_length(kept) == length;
    size_t at = 0;
    for (size_t piece = 1; is && piece != 0; at += piece) {
        read[at + size] = 'x';
        piece = rinqebo_run_text(kept, at, read + at, size);
        is = piece <= size && at + piece <= length && (piece == size || at + piece == length) && read[at + size] == 'x';
    }
    is = is && at == length && memcmp(read, text, length) == 0;
    is = is && rinqebo_run_text(kept, length + 1, read, size) == 0 && rinqebo_run_text(kept, SIZE_MAX, read, size) == 0;
    is = is && rinqebo_run_text(kept, 0, read, 0) == 0;
    rinqebo_run_free(kept);
    free(kept);
    free(read);
    return is;
}

// Whether a run ends with a status, and its output has this text; and by pieces the output is the same.
static int ends_with(const char *request, uint32_t wanted, const char *text) {
    size_t needed = 0, length = strlen(text);
    uint32_t status = 0;
    uint8_t *told = run(request, strlen(request), &status, &needed);
    if (told == NULL || !is_in_pieces(request, 7, status, told, needed)) return 0;
    if (!is_in_pieces(request, 4096, status, told, needed)) return 0;
    int found = length == 0;
    for (size_t i = 0; told != NULL && i + length <= needed; i++) found = found || memcmp(told + i, text, length) == 0;
    free(told);
    return status == wanted && found;
}

// A whole run, with each status but MEMORY. 0, or the number of the first check that fails.
static int check_run(void) {
    static const char *asked = RUN_REQUEST("[profile.ci]\\nretries = 1\\n", "ci", LIST);
    if (!ends_with(asked, RINQEBO_DONE, "\"retries\":{\"origins\":[{\"index\":null,\"kind\":\"profile\",\"lines\":[2,2]")) return 50;
    if (!ends_with(RUN_REQUEST("[profile.ci", "ci", LIST), RINQEBO_REFUSED, "\"level\":\"error\"")) return 51;
    if (!ends_with(RUN_REQUEST("", "cj", LIST), RINQEBO_NO_PROFILE, "cj")) return 52;
    if (!ends_with(RUN_REQUEST("", "ci", "{}"), RINQEBO_NO_ENGINES, "rust-suites")) return 53;
    if (!ends_with("{}", RINQEBO_NOT_UNDERSTOOD, "`profile`")) return 54;
    if (!ends_with("", RINQEBO_NOT_UNDERSTOOD, "not valid JSON")) return 55;
    if (!ends_with("\xff", RINQEBO_NOT_TEXT, "")) return 56;
    uint8_t answer[4] = {'w', 'x', 'y', 'z'};
    size_t needed = 0;
    if (rinqebo_resolve((const uint8_t *)asked, strlen(asked), answer, 4, &needed) != RINQEBO_SMALL) return 57;
    if (needed <= 4 || memcmp(answer, "wxyz", 4) != 0) return 58;
    if (rinqebo_resolve((const uint8_t *)asked, strlen(asked), answer, 0, &needed) != RINQEBO_SMALL) return 59;
    if (rinqebo_resolve((const uint8_t *)"\xff", 1, answer, 4, &needed) != RINQEBO_NOT_TEXT || needed != 0) return 60;
    if (memcmp(answer, "wxyz", 4) != 0) return 61;
    return 0;
}

// Whether the comparison of two requests ends with a status and a side, and its output has this text; and whether the
// output is the same if it is kept.
static int compares(const char *from, const char *to, uint32_t origins, uint32_t wanted, uint32_t wanted_side,
                    const char *text) {
    static uint8_t answer[16384], kept_answer[16384];
    const uint8_t *left = (const uint8_t *)from, *right = (const uint8_t *)to;
    size_t needed = 0, length = strlen(text);
    uint32_t side = 9, kept_side = 9;
    uint32_t status =
        rinqebo_diff(left, strlen(from), right, strlen(to), origins, answer, sizeof answer, &needed, &side);
    if (status != wanted || side != wanted_side) return 0;
    int found = length == 0;
    for (size_t i = 0; i + length <= needed; i++) found = found || memcmp(answer + i, text, length) == 0;
    struct rinqebo_run *kept = malloc(rinqebo_run_size());
    if (kept == NULL) return 0;
    rinqebo_diff_new(left, strlen(from), right, strlen(to), origins, kept, &kept_side);
    int same = rinqebo_run_status(kept) == status && kept_side == side && rinqebo_run_length(kept) == needed;
    same = same && rinqebo_run_text(kept, 0, kept_answer, sizeof kept_answer) == needed;
    same = same && memcmp(kept_answer, answer, needed) == 0;
    rinqebo_run_free(kept);
    free(kept);
    return found && same;
}

// What changes between two runs, with each status but MEMORY. 0, or the number of the first check that fails.
static int check_diff(void) {
    static const char *older = RUN_REQUEST("[profile.ci]\\nretries = 1\\n", "ci", LIST);
    static const char *newer = RUN_REQUEST("[profile.ci]\\nretries = 2\\n", "ci", LIST);
    static const char *elsewhere = RUN_REQUEST("[profile.ci]\\n[profile.default]\\nretries = 1\\n", "ci", LIST);
    static const char *none = "\"changed\":0,\"changes\":[]";
    static const char *one = "\"changed\":1,\"changes\":[{\"from\":{\"key\":\"retries\"";
    if (!compares(older, newer, 0, RINQEBO_DONE, RINQEBO_NO_SIDE, one)) return 80;
    if (!compares(older, older, 1, RINQEBO_DONE, RINQEBO_NO_SIDE, none)) return 81;
    if (!compares(older, elsewhere, 0, RINQEBO_DONE, RINQEBO_NO_SIDE, none)) return 82;
    if (!compares(older, elsewhere, 1, RINQEBO_DONE, RINQEBO_NO_SIDE, one)) return 83;
    static const char *refused = RUN_REQUEST("[profile.ci", "ci", LIST), *lacking = RUN_REQUEST("", "cj", LIST);
    if (!compares(refused, newer, 0, RINQEBO_REFUSED, RINQEBO_FROM, "\"level\":\"error\"")) return 84;
    if (!compares(older, refused, 0, RINQEBO_REFUSED, RINQEBO_TO, "\"level\":\"error\"")) return 85;
    if (!compares(older, lacking, 0, RINQEBO_NO_PROFILE, RINQEBO_TO, "cj")) return 86;
    if (!compares(RUN_REQUEST("", "ci", "{}"), newer, 0, RINQEBO_NO_ENGINES, RINQEBO_FROM, "rust-suites")) return 87;
    if (!compares(refused, "{}", 0, RINQEBO_NOT_UNDERSTOOD, RINQEBO_TO, "`profile`")) return 88;
    if (!compares("\xff", "{}", 0, RINQEBO_NOT_TEXT, RINQEBO_FROM, "")) return 89;
    uint8_t answer[4] = {'w', 'x', 'y', 'z'};
    const uint8_t *left = (const uint8_t *)older, *right = (const uint8_t *)newer;
    size_t needed = 0;
    uint32_t side = 9;
    if (rinqebo_diff(left, strlen(older), right, strlen(newer), 0, answer, 4, &needed, &side) != RINQEBO_SMALL) return 90;
    return needed > 4 && side == RINQEBO_NO_SIDE && memcmp(answer, "wxyz", 4) == 0 ? 0 : 91;
}

// The outcomes of reading files, in a session and in a run. 0, or the number of the first check that fails.
static int check_outcomes(void) {
    static const char *missing = RUN_OVER(READ("/f", "not-found", "null"), "null", "default", LIST);
    static const char *failed = RUN_OVER(READ("/f", "failed", "\"no UTF-8\""), "null", "default", LIST);
    static const char *named = RUN_OVER(READ("/f", "failed", "\"no UTF-8\""), READ("/g", "text", "\"\""), "default", LIST);
    static const char *lost = RUN_OVER(READ("/f", "text", "\"\""), READ("/g", "not-a-directory", "null"), "default", LIST);
    static const char *unknown = RUN_OVER(READ("/f", "found", "null"), "null", "default", LIST);
    if (!ends_with(missing, RINQEBO_DONE, "\"priority\"")) return 70;
    if (!ends_with(failed, RINQEBO_REFUSED, "no UTF-8")) return 71;
    if (!ends_with(named, RINQEBO_DONE, "\"kind\":\"explicit\",\"path\":\"/g\"")) return 72;
    if (!ends_with(lost, RINQEBO_REFUSED, "no directory")) return 73;
    if (!ends_with(unknown, RINQEBO_NOT_UNDERSTOOD, "`file.outcome`")) return 74;
    int refused = check_refused(failed, RINQEBO_REFUSED);
    if (refused == 0) refused = check_refused(lost, RINQEBO_REFUSED);
    if (refused == 0) refused = check_refused(unknown, RINQEBO_NOT_UNDERSTOOD);
    return refused;
}

static int check(void) {
    int failed = check_version();
    if (failed != 0) return failed;
    struct rinqebo_session *session = load(REQUEST);
    if (session == NULL) return 1;
    if (rinqebo_session_status(session) != RINQEBO_DONE) return 2;
    struct rinqebo_profile *profile = open_profile(session, "ci");
    if (profile == NULL || rinqebo_profile_status(profile) != RINQEBO_DONE) return 3;
    failed = check_settings(profile);
    if (failed == 0) failed = check_sizes(profile, RINQEBO_DONE);
    if (failed == 0) failed = check_buffer(profile);
    if (failed == 0) failed = check_objects(profile);
    end_profile(profile);
    if (failed != 0) return failed;
    profile = open_profile(session, "cj");
    if (profile == NULL || rinqebo_profile_status(profile) != RINQEBO_NO_PROFILE) return 4;
    end_profile(profile);
    profile = open_profile(session, "\xff");
    if (profile == NULL || rinqebo_profile_status(profile) != RINQEBO_NOT_TEXT) return 5;
    end_profile(profile);
    end(session);
    failed = check_refused("", RINQEBO_NOT_UNDERSTOOD);
    if (failed == 0) failed = check_refused("{}", RINQEBO_NOT_UNDERSTOOD);
    if (failed == 0) failed = check_refused("\xff", RINQEBO_NOT_TEXT);
    if (failed == 0) failed = check_run();
    if (failed == 0) failed = check_diff();
    return failed == 0 ? check_outcomes() : failed;
}

// The text of a file, ended by a zero, or NULL.
static char *text_of(const char *path) {
    FILE *file = fopen(path, "rb");
    if (file == NULL) return NULL;
    char *text = NULL;
    if (fseek(file, 0, SEEK_END) == 0) {
        long length = ftell(file);
        rewind(file);
        text = length < 0 ? NULL : malloc((size_t)length + 1);
        if (text != NULL) text[fread(text, 1, (size_t)length, file)] = 0;
    }
    fclose(file);
    return text;
}

static uint32_t print_settings(const struct rinqebo_profile *profile, const char *package, const char *binary,
                               const char *name) {
    struct rinqebo_settings settings;
    struct rinqebo_test test = test_of(binary, name);
    test.package = bytes_of(package);
    uint32_t status = ask(profile, test, &settings);
    if (status != RINQEBO_DONE) return status;
    uint8_t group[256] = "@global";
    size_t length = 7;
    if (settings.test_group != RINQEBO_NO_NAME) {
        rinqebo_profile_text(profile, RINQEBO_GROUP, settings.test_group, group, sizeof group, &length);
    }
    printf("%s %s: priority %" PRId32 ", retries %" PRIu32 ", group %.*s\n", binary, name, settings.priority,
           settings.retries.count, (int)length, (const char *)group);
    return RINQEBO_DONE;
}

// Prints the output of a run, and returns its status, or 99 if there is no memory for it.
static int print_run(const char *request) {
    size_t needed = 0;
    uint32_t status = 0;
    uint8_t *told = run(request, strlen(request), &status, &needed);
    if (told == NULL) return 99;
    fwrite(told, 1, needed, stdout);
    free(told);
    return (int)status;
}

int main(int count, char **words) {
    if (count < 2) {
        int failed = check();
        puts(failed == 0 ? "ok" : "failed");
        return failed;
    }
    char *request = text_of(words[1]);
    if (request == NULL) return 1;
    if (count < 6) {
        int status = print_run(request);
        free(request);
        return status;
    }
    struct rinqebo_session *session = load(request);
    free(request);
    if (session == NULL || rinqebo_session_status(session) != RINQEBO_DONE) return 2;
    struct rinqebo_profile *profile = open_profile(session, words[2]);
    if (profile == NULL || rinqebo_profile_status(profile) != RINQEBO_DONE) return 3;
    uint32_t status = RINQEBO_DONE;
    for (int i = 5; i < count && status == RINQEBO_DONE; i++) {
        status = print_settings(profile, words[3], words[4], words[i]);
    }
    end_profile(profile);
    end(session);
    return (int)status;
}
