// Rinqebo as a library: it resolves whole runs, compares two of them, and loads configurations once to query them
// often.
//
// docs/LIBRARY.md has examples, how to link the library, and what is proved of each call. scripts/compare-layouts
// compares the names, the types and the order of parameters with those of crates/rinqebo_c.
//
// What a caller has to ensure, which no call checks:
// - No pointer is null, even at length 0, and none is past its block. A length is below 2^63.
// - An output overlaps no other argument. The library reads its arguments during the call alone.
// - A run is in memory of rinqebo_run_size() bytes, a session in memory of rinqebo_session_size() bytes,
//   and a profile in memory of rinqebo_profile_size() bytes, each aligned to 16 bytes. The caller never reads or
//   writes it, and does not move it between the call that fills it and the one that frees it.
// - A struct that is passed by a pointer is the one of this header, even if its size says otherwise.
// - Each run, session and profile is filled once before it is freed once. A profile is freed before its session.
// - One call at a time uses a run, and one a session or a profile of it. A run, or a session with its profiles, may
//   move to another thread by a lock, or by that thread's start or join.
// - malloc, realloc and free are of one allocator. No call is made from a signal handler, or in the
//   forked child of a process with threads.
#ifndef RINQEBO_H
#define RINQEBO_H
#include <stddef.h>
#include <stdint.h>
#ifdef __cplusplus
extern "C" {
#endif

enum rinqebo_status {
    RINQEBO_DONE = 0,           // success
    RINQEBO_REFUSED = 1,        // the configuration is refused
    RINQEBO_SMALL = 2,          // the buffer is too small: it is unchanged, and *needed is the size that it must have
    RINQEBO_NOT_TEXT = 3,       // bytes are not valid UTF-8
    RINQEBO_MEMORY = 4,         // malloc returned null
    RINQEBO_NOT_UNDERSTOOD = 5, // the request is not valid JSON, or not of its form
    RINQEBO_NO_ENGINES = 6,     // the metadata, a machine or the list of tests of the request is not understood
    RINQEBO_NO_PROFILE = 7,     // there is no such profile
    RINQEBO_NOT_LOADED = 8,     // the session has no configuration
    RINQEBO_UNKNOWN_NUMBER = 9, // a number is out of range: a platform, a mode, a kind of text, an index
    RINQEBO_BAD_SIZE = 10,      // the size in a struct is not that of the library's version
    RINQEBO_NOT_KNOWN = 11      // a filter of the profile uses a part of the test that is empty
};

// ---- the version

// The version of this header, as a text and as a number: 1,000,000 times the first of its numbers, plus 1,000 times the
// second, plus the third.
#define RINQEBO_VERSION "0.2.0"
#define RINQEBO_VERSION_NUMBER 2000

// Writes the version of the library as a text. Returns DONE or SMALL.
uint32_t rinqebo_version(uint8_t *out, size_t out_len, size_t *needed);

// Returns the version of the library as a number.
uint32_t rinqebo_version_number(void);

// ---- a whole run

// Writes the settings that a profile gives to each test of a list. The request is that of rinqebo_session_load with
// three more members:
//   "profile": TEXT, "mode": "test" or "benchmark",
//   "list": the output of `cargo nextest list --message-format json`, a TEXT
// The output is written at the start of the buffer. With each status it is
//   DONE             the document of `rinqebo list --all --format json`, on a line
//   REFUSED          the document of what is wrong with the files
//   NO_PROFILE       the document of the finding that there is no such profile
//   NOT_UNDERSTOOD   why the request is not understood: a text that says where
//   NO_ENGINES       why the metadata, a machine or the list is not understood: a text that says where
//   NOT_TEXT, MEMORY nothing
//   SMALL            nothing: the buffer has less than *needed bytes, and is left as it was
// *needed is the length of the output: 0 if there is none, and with SMALL the length that it would have. The rest of
// the buffer is unchanged. The features are those of the request and those that the repository's file enables. Without
// a target, that of the list is used, if it names one. Nothing is kept: the same call has the same output.
uint32_t rinqebo_resolve(const uint8_t *request, size_t request_len, uint8_t *answer, size_t answer_len, size_t *needed);

// The same, kept: a run is computed once, and its output can be read in pieces and repeatedly.
struct rinqebo_run;
size_t rinqebo_run_size(void);

// Always fills the memory: rinqebo_run_status returns the status. The request may be freed as soon as it returns.
void rinqebo_run_new(const uint8_t *request, size_t request_len, struct rinqebo_run *room);
void rinqebo_run_free(struct rinqebo_run *run);

// Returns a status of rinqebo_resolve other than SMALL.
uint32_t rinqebo_run_status(const struct rinqebo_run *run);

// Returns the length of the output.
size_t rinqebo_run_length(const struct rinqebo_run *run);

// Writes the output from an offset on, as much as fits in the buffer, and returns the number of bytes written: 0 at the
// end of the output and behind it. The rest of the buffer is unchanged. Consecutive pieces make up the output.
size_t rinqebo_run_text(const struct rinqebo_run *run, size_t offset, uint8_t *out, size_t out_len);

// ---- what changes between two runs

// A side of a comparison.
enum rinqebo_side {
    RINQEBO_NO_SIDE = 0,
    RINQEBO_FROM = 1, // the left side, from which something changes
    RINQEBO_TO = 2    // the right side, to which something changes
};

// Writes what changes from one run to another, for the tests that both lists have and for the whole run. Each request
// is one of rinqebo_resolve: the two may differ in anything. The output is written as by rinqebo_resolve. With each
// status it is
//   DONE             the document of `rinqebo diff --format json`, on a line, even if nothing changes
//   another one      that of rinqebo_resolve with this status, for the request of one side
// *side is that side: RINQEBO_FROM or RINQEBO_TO, and RINQEBO_NO_SIDE with DONE and MEMORY. With SMALL it is already
// that of a call with a buffer that is large enough. Both requests are read first, then the left side is loaded, then
// the right one: the first failure is reported. Unless `origins` is 0, a value that is the same and comes from
// elsewhere is a change too.
uint32_t rinqebo_diff(const uint8_t *from, size_t from_len, const uint8_t *to, size_t to_len, uint32_t origins,
                      uint8_t *answer, size_t answer_len, size_t *needed, uint32_t *side);

// The same, kept as a run, in memory for a run, which rinqebo_run_status, _length, _text and _free take. It always
// fills the memory. The requests may be freed as soon as it returns.
void rinqebo_diff_new(const uint8_t *from, size_t from_len, const uint8_t *to, size_t to_len, uint32_t origins,
                      struct rinqebo_run *room, uint32_t *side);

// The index of the global group, and of no wrapper.
#define RINQEBO_NO_NAME SIZE_MAX

// ---- sessions

// A session owns all that it was loaded from: the request may be freed as soon as it is loaded.
struct rinqebo_session;
size_t rinqebo_session_size(void);

// Always fills the memory: rinqebo_session_status returns the status. The request is JSON:
//   {"root": TEXT, "file": FILE, "config-file": FILE or null, "organisation-config-file": FILE or null,
//    "tools": [FILE with "tool": TEXT, ..],
//    "features": {"setup-scripts": BOOL, "wrapper-scripts": BOOL}, "metadata": TEXT or null,
//    "host": {"triple": TEXT, "cfg": TEXT or null}, "target": the same or null,
//    "target-directory": TEXT or null}
// A FILE is {"path": TEXT, "outcome": WORD, "text": TEXT or null}: the outcome of reading it, and its text
//   "text"                           its text
//   "not-found", "not-a-directory"   null: it does not exist, or a parent in its path is not a directory
//   "failed"                         a message: any other failure, such as invalid UTF-8
// The repository's file is "config-file", which a user named, and else "file", which alone may be missing. The file of
// an organisation, "organisation-config-file", overrides those of tools, and the repository's overrides it. The
// features are those of the request and those that the repository's file enables. "target-directory" may be left out:
// it is the directory to which programs of scripts may be relative. The status is DONE, REFUSED, NOT_TEXT, MEMORY,
// NOT_UNDERSTOOD or NO_ENGINES.
void rinqebo_session_load(const uint8_t *request, size_t request_len, struct rinqebo_session *room);
void rinqebo_session_free(struct rinqebo_session *session);
uint32_t rinqebo_session_status(const struct rinqebo_session *session);

// Writes the reason why the session has no configuration, or nothing if it has one. Returns DONE or SMALL.
uint32_t rinqebo_session_reason(const struct rinqebo_session *session, uint8_t *out, size_t out_len, size_t *needed);

// ---- profiles

// A profile reads its session, which stays loaded, at its address, until the profile is freed.
struct rinqebo_profile;
size_t rinqebo_profile_size(void);

// Opens the profile with this name, and always fills the memory: rinqebo_profile_status returns the status.
// It is DONE, NOT_TEXT, MEMORY, NO_PROFILE or NOT_LOADED.
void rinqebo_profile_open(const struct rinqebo_session *session, const uint8_t *name, size_t name_len,
                          struct rinqebo_profile *room);
void rinqebo_profile_free(struct rinqebo_profile *profile);
uint32_t rinqebo_profile_status(const struct rinqebo_profile *profile);

// Kinds of text.
enum rinqebo_text {
    RINQEBO_REASON = 0, // why the profile is not open; for any index
    RINQEBO_GROUP = 1,  // the name of the test group with this index
    RINQEBO_WRAPPER = 2, // the id of the wrapper script with this index
    RINQEBO_OBJECTS = 3  // what a runner needs beside the settings of tests, in JSON; for any index
};

// Writes a text. Returns DONE, SMALL, or UNKNOWN_NUMBER if there is none of this kind and index. RINQEBO_OBJECTS is an
// object with the members "run", "groups", "setup-scripts", "wrappers", "findings" and "origins": the values of the
// profile for a whole run, the test groups in the order of RINQEBO_GROUP, the setup scripts in the order in which they
// run, the wrapper scripts in the order of RINQEBO_WRAPPER, the warnings of the load, and where the values of the run
// and the groups come from. docs/LIBRARY.md lists their members. The document of a whole run has such an object as its
// member "objects", with programs joined by the target directory of the list, with the tests of the list that enable
// each setup script, and with only the wrapper scripts that the list uses.
uint32_t rinqebo_profile_text(const struct rinqebo_profile *profile, uint32_t kind, size_t index, uint8_t *out,
                              size_t out_len, size_t *needed);

// ---- tests

struct rinqebo_bytes {
    const uint8_t *at;
    size_t length;
};

// A test, and what is known of its binary, each as nextest lists it. An empty part is not known: if a filter of the
// profile uses it, a query returns NOT_KNOWN. The filters are those of the rules whose platforms match the test's
// platform, and the default filter.
struct rinqebo_test {
    size_t size;                  // sizeof(struct rinqebo_test)
    struct rinqebo_bytes package; // the id of the binary's package
    struct rinqebo_bytes binary;  // the id of the binary, such as `db` or `db::integration`
    struct rinqebo_bytes kind;    // the kind of its target, such as `lib` or `test`
    struct rinqebo_bytes target;  // the name of its target
    struct rinqebo_bytes name;    // the name of the test
    uint32_t platform;            // 0 if the binary is built for the host, 1 for the target
    uint32_t mode;                // 0 for tests, 1 for benchmarks
};

// Nanoseconds: high times 2^64, plus low.
struct rinqebo_duration {
    uint64_t low, high;
};

struct rinqebo_retries {
    uint32_t backoff; // 0: every delay is the same; 1: each is longer than the one before
    uint32_t count;   // how often the test is retried
    struct rinqebo_duration delay;
    uint32_t jitter;        // 1 if a delay is cut short at random
    uint32_t has_max_delay; // 1 if there is a max_delay
    struct rinqebo_duration max_delay;
};

struct rinqebo_threads {
    uint32_t kind;  // 0: count; 1: as many as there are processors; 2: as many as test threads
    uint64_t count; // or 0
};

struct rinqebo_slow_timeout {
    struct rinqebo_duration period;
    uint64_t terminate_after; // after how many periods the test is terminated, or 0 if it never is
    struct rinqebo_duration grace_period;
    uint32_t on_timeout; // 0: a test that is terminated fails; 1: it passes
};

struct rinqebo_leak_timeout {
    struct rinqebo_duration period;
    uint32_t result; // 0: a leaky test passes; 1: it fails
};

struct rinqebo_group_threads {
    uint32_t kind; // 0: count; 1: as many as there are processors; 2: no group but the global one
    int64_t count; // if it is negative, so many fewer than there are processors; 0 for the other kinds
};

// The fifteen settings of a test.
struct rinqebo_settings {
    size_t size;                // sizeof(struct rinqebo_settings), which the caller writes
    int32_t priority;           // tests of a higher priority start earlier
    uint32_t in_default_filter; // 1 if the profile's default filter matches the test
    uint32_t flaky_result;      // 0: a test that passes only when it is retried passes; 1: it fails
    uint32_t success_output;    // 0: as soon as it ends; 1: then and at the end; 2: at the end; 3: never
    uint32_t failure_output;    // the same
    uint32_t junit_store_success_output; // 1 or 0
    uint32_t junit_store_failure_output; // 1 or 0
    uint32_t junit_report_skipped;       // 0: none; 1: all
    uint32_t junit_flaky_fail_status;    // 0: failure; 1: success
    struct rinqebo_threads threads_required;
    struct rinqebo_retries retries;
    struct rinqebo_slow_timeout slow_timeout;
    struct rinqebo_leak_timeout leak_timeout;
    size_t test_group; // an index of RINQEBO_GROUP, or RINQEBO_NO_NAME
    struct rinqebo_group_threads group_threads;
    size_t run_wrapper;    // an index of RINQEBO_WRAPPER, or RINQEBO_NO_NAME
    size_t run_extra_args; // how many extra arguments the test has
};

// Writes the settings that a profile gives to a test. It takes no memory. Returns BAD_SIZE if the size in one of the
// two structs is not that of the library's version; else DONE, NOT_TEXT, UNKNOWN_NUMBER, NOT_KNOWN, or the status of a
// profile that is not open. With any status but DONE the settings are unchanged.
uint32_t rinqebo_profile_ask(const struct rinqebo_profile *profile, const struct rinqebo_test *test,
                             struct rinqebo_settings *settings);

// Writes the extra argument with this index that a profile gives to a test; settings.run_extra_args is their number. It
// takes no memory. Returns DONE, SMALL, UNKNOWN_NUMBER if there is none with this index, or a status of
// rinqebo_profile_ask.
uint32_t rinqebo_profile_argument(const struct rinqebo_profile *profile, const struct rinqebo_test *test, size_t index,
                                  uint8_t *out, size_t out_len, size_t *needed);

#ifdef __cplusplus
}
#endif
#endif
