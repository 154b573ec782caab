// The grammar of cases for bindings/c/fuzz.c: bytes choose a configuration, a request, and what is asked of them.
//
// A case of one kind has no faults of the grammar's own making, so that most of its configurations are accepted. One of
// the other kind has a fault in some of the places where the grammar chooses.
#ifndef CASES_H
#define CASES_H
#include <stdint.h>
#include <stdio.h>
#include <string.h>

// ---- choices

static const uint8_t *bytes;
static size_t left;

// A number below a limit. At the end of the bytes it is 0.
static uint32_t choose(uint32_t limit) {
    if (left == 0) return 0;
    left--;
    return *bytes++ % limit;
}

static int is_rare(void) {
    return choose(16) == 15;
}

// Whether the case may have faults.
static int may_fail;

static int is_faulty(void) {
    return may_fail && is_rare();
}

#define WORDS(...) (const char *const[]){__VA_ARGS__}, sizeof((const char *const[]){__VA_ARGS__}) / sizeof(char *)

static const char *one_of(const char *const *words, size_t count) {
    return words[choose((uint32_t)count)];
}

// One of the first words, or a fault: one of the others.
static const char *mostly(const char *const *right, size_t rights, const char *const *wrong, size_t wrongs) {
    return is_faulty() ? one_of(wrong, wrongs) : one_of(right, rights);
}

// ---- texts

struct text {
    char at[1 << 16];
    size_t length;
};

static void add(struct text *text, const char *more) {
    size_t length = strlen(more);
    if (text->length + length >= sizeof text->at) return;
    memcpy(text->at + text->length, more, length);
    text->length += length;
}

static void add_all(struct text *text, const char *one, const char *two, const char *three) {
    add(text, one);
    add(text, two);
    add(text, three);
}

// ---- configurations

// The profiles that a file may define, in an order in which each inherits from an earlier one.
static const char *const PROFILES[] = {"quick", "ci", "\xc3\x84rger", "a.b", "default-x", "default-miri", "default"};

#define PROFILE_COUNT (sizeof PROFILES / sizeof *PROFILES)

// The profiles of this index and behind it inherit from none.
#define RESERVED 4

static const char *profile_name(void) {
    return mostly(WORDS("default", "ci", "quick", "a.b", "default-miri"), WORDS("no-such", "default-x", ""));
}

// What the file that is written defines, and how the names of its owner begin.
struct file_names {
    const char *owner;
    uint32_t groups;   // 1: db, 2: net
    uint32_t scripts;  // 1: the setup script seed, 2: the wrapper box
    uint32_t profiles; // a bit for each of PROFILES
};

static struct file_names names;
static int has_metadata;

static void add_name(struct text *text, const char *name) {
    add_all(text, "'", names.owner, name);
    add(text, "'");
}

// Where a filter is written: default() is a fault in a default filter, and test(..) in one of a list wrapper.
enum place { IN_RULE, IN_DEFAULT, IN_LISTING };

static const char *leaf(enum place place) {
    if (is_faulty()) {
        return one_of(WORDS(
            "kind(", "test(/(/)", "nothing", "test(\\u{e9})", "group(@global)", "default()", "deps(api)", "test(a)"));
    }
    if (place == IN_LISTING)
        return one_of(WORDS("all()", "package(api)", "kind(lib)", "binary(api)", "binary_id(api::smoke)"));
    if (has_metadata && choose(4) == 0) return one_of(WORDS("deps(api)", "rdeps(=core)", "deps(c*)"));
    if (place == IN_RULE && is_rare()) return "default()";
    return one_of(
        WORDS("all()", "none()", "test(reads)", "test(=db::reads)", "test(~db)", "test(/^db::.*[0-9]*$/)", "test(#db*)",
            "package(api)", "kind(lib)", "kind(=test)", "binary(api)", "binary_id(api::smoke)", "platform(host)"));
}

static void add_filter(struct text *text, int depth, enum place place) {
    switch (depth == 0 ? 0 : choose(6)) {
    case 0:
    case 1: add(text, leaf(place)); break;
    case 2:
        add(text, "not ");
        add_filter(text, depth - 1, place);
        break;
    case 3:
        add_filter(text, depth - 1, place);
        add(text, " and ");
        add_filter(text, depth - 1, place);
        break;
    case 4:
        add_filter(text, depth - 1, place);
        add(text, " | ");
        add_filter(text, depth - 1, place);
        break;
    default:
        add(text, "(");
        add_filter(text, depth - 1, place);
        add(text, ")");
    }
}

static const char *duration(void) {
    return mostly(
        WORDS("'30s'", "'1m'", "'1500ms'", "'0s'", "'30y'", "'1h 30m'", "'7ns'"), WORDS("'7'", "7", "''", "'-1s'"));
}

static const char *test_threads(void) {
    return mostly(
        WORDS("1", "4", "-2", "'num-cpus'", "9223372036854775807"), WORDS("0", "'num-test-threads'", "'x'", "1.5"));
}

static void add_group(struct text *text) {
    uint32_t wanted = 1 + choose(2);
    add(text, "test-group = ");
    if (is_faulty() || (names.groups & wanted) == 0)
        add(text, mostly(WORDS("'@global'"), WORDS("'no-such'", "7", "''")));
    else add_name(text, wanted == 1 ? "db" : "net");
}

// A setting of a test. Of each kind a table has one.
static void add_setting(struct text *text, uint32_t *used) {
    uint32_t kind = choose(12);
    if ((*used & 1u << kind) != 0 && !is_faulty()) return;
    *used |= 1u << kind;
    switch (kind) {
    case 0:
        add_all(text, "retries = ",
            mostly(WORDS("0", "3", "4294967295", "{ backoff = 'fixed', count = 2, delay = '1s' }",
                       "{ backoff = 'exponential', count = 2, delay = '1s', jitter = true, max-delay = '9s' }"),
                WORDS("-1", "4294967296", "'x'", "{ backoff = 'exponential', count = 2 }",
                    "{ backoff = 'exponential', count = 2, delay = '9s', max-delay = '1s' }")),
            "");
        break;
    case 1:
        add_all(text,
            "threads-required = ", mostly(WORDS("1", "4", "'num-cpus'", "'num-test-threads'"), WORDS("0", "-2", "'x'")),
            "");
        break;
    case 2: add_all(text, "slow-timeout = ", duration(), ""); break;
    case 3:
        add_all(text, "bench.slow-timeout = { period = ", duration(),
            mostly(WORDS(" }", ", terminate-after = 2 }", ", grace-period = '1s', on-timeout = 'pass' }"),
                WORDS(", terminate-after = 0 }", ", x = 1")));
        break;
    case 4: add_all(text, "leak-timeout = ", duration(), ""); break;
    case 5: add_all(text, "success-output = ", one_of(WORDS("'final'", "'never'")), ""); break;
    case 6:
        add_all(text, "failure-output = ",
            mostly(WORDS("'immediate'", "'immediate-final'", "'final'", "'never'"), WORDS("'x'", "1")), "");
        break;
    case 7: add_group(text); break;
    case 8: add_all(text, "priority = ", mostly(WORDS("0", "100", "-100"), WORDS("101", "'x'")), ""); break;
    case 9:
        add_all(text, "run-extra-args = ",
            mostly(WORDS("[]", "['--nocapture']", "['a', '', 'b c', '\xc3\xa9']"), WORDS("[7]", "'a'")), "");
        break;
    case 10: add_all(text, "flaky-result = ", mostly(WORDS("'pass'", "'fail'"), WORDS("'x'")), ""); break;
    default:
        add(text, mostly(WORDS("no-such-key = 1", "junit.store-success-output = true"), WORDS("= 1", "retries = [")));
    }
    add(text, "\n");
}

static void add_platform(struct text *text) {
    add(text, "platform = ");
    add(text, mostly(WORDS("'cfg(unix)'", "'cfg(windows)'", "'x86_64-unknown-linux-gnu'",
                         "{ host = 'cfg(unix)', target = 'cfg(windows)' }", "{ host = 'cfg(not(unix))' }"),
                  WORDS("'cfg(any('", "'no-such-triple'", "7")));
    add(text, "\n");
}

// What a rule holds for: platforms, a filter or both.
static void add_condition(struct text *text, int depth, enum place place) {
    int has_filter = choose(8) != 0;
    if (has_filter) {
        add(text, "filter = '''");
        add_filter(text, depth, place);
        add(text, "'''\n");
    }
    if (choose(4) == 0 || (!has_filter && !is_faulty())) add_platform(text);
}

static void add_override(struct text *text, const char *profile) {
    add_all(text, "[[profile.'", profile, "'.overrides]]\n");
    if (is_rare()) {
        add_platform(text);
        add(text, "default-filter = '''");
        add_filter(text, 2, IN_DEFAULT);
        add(text, "'''\n");
    } else {
        add_condition(text, 3, IN_RULE);
    }
    uint32_t used = 0;
    for (uint32_t settings = choose(4); settings > 0; settings--) add_setting(text, &used);
}

static void add_script_rule(struct text *text, const char *profile) {
    uint32_t role = choose(3);
    if ((names.scripts & (role == 0 ? 1 : 2)) == 0 && !is_faulty()) return;
    add_all(text, "[[profile.'", profile, "'.scripts]]\n");
    add_condition(text, 2, role == 2 ? IN_LISTING : IN_RULE);
    static const char *const roles[] = {"setup = ", "run-wrapper = ", "list-wrapper = "};
    add(text, roles[role]);
    add_name(text, is_faulty() ? "no-such" : role == 0 ? "seed" : "box");
    add(text, "\n");
}

static void add_profile(struct text *text, size_t index) {
    const char *profile = PROFILES[index];
    add_all(text, "[profile.'", profile, "']\n");
    size_t parent = index == 0 ? 0 : choose((uint32_t)index);
    int is_known = index != 0 && index < RESERVED && (names.profiles & 1u << parent) != 0;
    if (is_faulty()) add_all(text, "inherits = '", profile_name(), "'\n");
    else if (is_known) add_all(text, "inherits = '", PROFILES[parent], "'\n");
    if (choose(3) == 0) {
        add(text, "default-filter = '''");
        add_filter(text, 2, IN_DEFAULT);
        add(text, "'''\n");
    }
    if (choose(3) == 0) add_all(text, "test-threads = ", test_threads(), "\n");
    if (choose(4) == 0)
        add(text, mostly(WORDS("fail-fast = false\n", "fail-fast = { max-fail = 3 }\n",
                             "fail-fast = { max-fail = 'all' }\n", "max-fail = 3\n"),
                      WORDS("fail-fast = 7\n", "fail-fast = { max-fail = 0 }\n")));
    if (choose(4) == 0) add_all(text, "global-timeout = ", duration(), "\n");
    if (choose(4) == 0)
        add(text,
            mostly(WORDS("status-level = 'all'\n", "final-status-level = 'flaky'\n"), WORDS("status-level = 'x'\n")));
    // A report has its own table below.
    uint32_t used = 1u << 11;
    for (uint32_t count = choose(3); count > 0; count--) add_setting(text, &used);
    if (choose(4) == 0) {
        add_all(text, "[profile.'", profile, "'.junit]\npath = 'junit.xml'\n");
        add(text,
            one_of(WORDS("", "report-name = 'all'\n", "store-failure-output = false\n", "report-skipped = 'all'\n")));
    }
    for (uint32_t count = choose(4); count > 0; count--) add_override(text, profile);
    for (uint32_t count = choose(3); count > 0; count--) add_script_rule(text, profile);
}

static void add_command(struct text *text) {
    add_all(text, "command = ",
        mostly(WORDS("'seed'", "'bin/seed --fast \"two words\"'", "['box', '-v', '']",
                   "{ command-line = 'seed', relative-to = 'target' }",
                   "{ command-line = ['seed'], env = { A = '1', B = '' }, relative-to = 'workspace-root' }"),
            WORDS("{ command-line = 'seed', env = { NEXTEST = '1' } }", "{ command-line = 'a', x = 1 }", "''", "7",
                "'\"'")),
        "\n");
}

static void add_setup_script(struct text *text) {
    add(text, "[scripts.setup.");
    add_name(text, is_faulty() ? "a b" : "seed");
    add(text, "]\n");
    if (!is_faulty()) add_command(text);
    if (choose(3) == 0) add_all(text, "slow-timeout = ", duration(), "\n");
    if (choose(3) == 0) add_all(text, "leak-timeout = ", duration(), "\n");
    if (choose(3) == 0)
        add(text, one_of(WORDS("capture-stdout = true\n", "capture-stderr = true\n",
                      "junit = { store-success-output = false }\n")));
}

static void add_wrapper_script(struct text *text) {
    add(text, "[scripts.wrapper.");
    add_name(text, is_faulty() ? "seed" : "box");
    add(text, "]\n");
    if (!is_faulty()) add_command(text);
    if (choose(3) == 0)
        add(text, mostly(WORDS("target-runner = 'ignore'\n", "target-runner = 'within-wrapper'\n"),
                      WORDS("target-runner = 'x'\n")));
}

static void add_config(struct text *text, const char *owner) {
    names = (struct file_names){owner, choose(4), choose(4), choose(1u << PROFILE_COUNT)};
    if (names.scripts != 0 || choose(4) == 0) {
        add(text, mostly(WORDS("experimental = ['setup-scripts', 'wrapper-scripts']\n",
                             "experimental = { wrapper-scripts = true, setup-scripts = true }\n"),
                      WORDS("experimental = ['x']\n", "experimental = 7\n", "")));
    }
    if (is_rare())
        add(text, one_of(WORDS("nextest-version = '0.9.50'\n", "no-such-key = 1\n", "[store]\ndir = 'x'\n")));
    for (uint32_t group = 1; group <= 2; group++) {
        if ((names.groups & group) == 0) continue;
        add(text, "[test-groups.");
        add_name(text, group == 1 ? "db" : "net");
        add_all(text, "]\nmax-threads = ", test_threads(), "\n");
    }
    if (is_faulty())
        add(text, one_of(WORDS(
                      "[test-groups.'@global']\nmax-threads = 1\n", "[test-groups.'@tool:t:g']\nmax-threads = 1\n")));
    if ((names.scripts & 1) != 0) add_setup_script(text);
    if ((names.scripts & 2) != 0) add_wrapper_script(text);
    for (size_t index = 0; index < PROFILE_COUNT; index++) {
        if ((names.profiles & 1u << index) != 0) add_profile(text, index);
    }
    if (is_faulty())
        add(text,
            one_of(WORDS("[profile", "\"", "a = 1\na = 2\n", "\t\r\n# x\n", "x = '\\u0000'\n", "[profile.ci]\n")));
}

// ---- requests

static void add_json(struct text *text, const char *more, size_t length) {
    add(text, "\"");
    for (size_t i = 0; i < length; i++) {
        char escaped[8];
        unsigned char byte = (unsigned char)more[i];
        if (byte == '"' || byte == '\\' || byte < 32) snprintf(escaped, sizeof escaped, "\\u%04x", byte);
        else snprintf(escaped, sizeof escaped, "%c", byte);
        add(text, escaped);
    }
    add(text, "\"");
}

static void add_word(struct text *text, const char *word) {
    add_json(text, word, strlen(word));
}

static void add_file(struct text *text, const char *path, const char *tool, const struct text *config) {
    add(text, "{\"path\": ");
    add_word(text, path);
    if (tool != NULL) {
        add(text, ", \"tool\": ");
        add_word(text, tool);
    }
    add(text, ", \"outcome\": ");
    switch (is_faulty() ? choose(4) : 0) {
    case 0:
        add(text, "\"text\", \"text\": ");
        add_json(text, config->at, config->length);
        break;
    case 1: add(text, "\"not-found\", \"text\": null"); break;
    case 2: add(text, "\"failed\", \"text\": \"no\""); break;
    default: add(text, "\"found\", \"text\": 7");
    }
    add(text, "}");
}

static const char *METADATA =
    "{\"packages\":[{\"id\":\"api 1\",\"name\":\"api\"},{\"id\":\"core 1\",\"name\":\"core\"}],"
    "\"workspace_members\":[\"api 1\",\"core 1\"],\"resolve\":{\"nodes\":["
    "{\"id\":\"api 1\",\"deps\":[{\"pkg\":\"core 1\"}]},{\"id\":\"core 1\",\"deps\":[]}]}}";

#define LIST_OF(TESTS) \
    "{\"rust-build-meta\":{\"target-directory\":\"/t\"},\"test-count\":3,\"rust-suites\":{\"api\":{" \
    "\"package-name\":\"api\",\"package-id\":\"api 1\",\"binary-id\":\"api\",\"binary-name\":\"api\"," \
    "\"kind\":\"lib\",\"build-platform\":\"target\",\"testcases\":{" TESTS "}},\"api::smoke\":{" \
    "\"package-name\":\"api\",\"package-id\":\"api 1\",\"binary-id\":\"api::smoke\",\"binary-name\":\"smoke\"," \
    "\"kind\":\"test\",\"build-platform\":\"host\",\"testcases\":{\"whole\":{}}}}}"

static const char *LIST = LIST_OF("\"db::reads\":{},\"quick\":{\"ignored\":true}");

// The same with a test more and one less.
static const char *OTHER_LIST = LIST_OF("\"db::reads\":{\"ignored\":true},\"db::writes\":{}");

static void add_features(struct text *text) {
    static const char *const words[] = {"false", "true"};
    add_all(text, ", \"features\": {\"setup-scripts\": ", words[choose(2)], ", \"wrapper-scripts\": ");
    add(text, words[choose(2)]);
    add(text, "}");
}

static void add_request(struct text *text) {
    static struct text config, other;
    config.length = other.length = 0;
    has_metadata = choose(2);
    // What the second file is: one of a tool, that of an organisation, or one that a user named.
    uint32_t role = choose(12);
    static const char *const owners[] = {"@tool:my-tool:", "@org:", ""};
    if (role < 3) add_config(&other, is_faulty() ? "@tool:x:" : owners[role]);
    add_config(&config, "");
    add(text, "{\"root\": ");
    add_word(text, one_of(WORDS("/w", "", "/w/\xc3\xa9")));
    add(text, ", \"file\": ");
    add_file(text, "/w/.config/nextest.toml", NULL, &config);
    add(text, ", \"config-file\": ");
    if (role == 2) add_file(text, "/c.toml", NULL, &other);
    else add(text, "null");
    add(text, ", \"organisation-config-file\": ");
    if (role == 1) add_file(text, "/o.toml", NULL, &other);
    else add(text, "null");
    add(text, ", \"tools\": [");
    if (role == 0) add_file(text, "/t.toml", mostly(WORDS("my-tool"), WORDS("no tool", "")), &other);
    add(text, "]");
    add_features(text);
    add(text, ", \"metadata\": ");
    if (has_metadata) add_word(text, is_faulty() ? "{" : METADATA);
    else add(text, "null");
    add(text, ", \"host\": {\"triple\": ");
    add_word(text, is_faulty() ? "no-such" : "x86_64-unknown-linux-gnu");
    add_all(text, ", \"cfg\": ", is_faulty() ? "\"unix\\n\"" : "null", "}, \"target\": ");
    add(text, one_of(WORDS("null", "null", "{\"triple\": \"x86_64-pc-windows-msvc\", \"cfg\": null}")));
    add(text, mostly(WORDS("", ", \"target-directory\": null", ", \"target-directory\": \"/t\""),
                  WORDS(", \"target-directory\": 7")));
    add(text, ", \"profile\": ");
    add_word(text, profile_name());
    add_all(text, ", \"mode\": ", mostly(WORDS("\"test\"", "\"benchmark\""), WORDS("\"tests\"")), ", \"list\": ");
    add_word(text, is_faulty() ? "{}" : choose(4) == 0 ? OTHER_LIST : LIST);
    add(text, "}");
    if (is_faulty()) text->length -= text->length < 9 ? 0 : choose(9);
}

#endif
