// Threads, each with sessions of its own: loads a request again and again, queries the settings of a test and reads the
// objects of a profile, and compares them with those of the first load.
//
//   threads THREADS LOADS REQUEST      exits with 0 if each load has the same result
#include "rinqebo.h"
#include <pthread.h>
#include <stdio.h>
#include <stdlib.h>
#include <string.h>

#define ROOM (1 << 16)

// The result of a load: the settings of a test, its arguments and the objects of the profile.
struct given {
    struct rinqebo_settings settings;
    size_t length;
    uint8_t text[ROOM];
};

static char *request;
static size_t request_length, loads;

static struct rinqebo_bytes bytes_of(const char *text) {
    struct rinqebo_bytes bytes = {(const uint8_t *)text, strlen(text)};
    return bytes;
}

static int ask(const struct rinqebo_profile *profile, struct given *given) {
    struct rinqebo_test test = {sizeof test, bytes_of("api 1"), bytes_of("api"), bytes_of("lib"), bytes_of("api"),
                                bytes_of("db::reads"), 1, 0};
    given->settings.size = sizeof given->settings;
    if (rinqebo_profile_ask(profile, &test, &given->settings) != RINQEBO_DONE) return 0;
    size_t needed = 0;
    if (rinqebo_profile_text(profile, RINQEBO_OBJECTS, 0, given->text, ROOM, &needed) != RINQEBO_DONE) return 0;
    given->length = needed;
    for (size_t index = 0; index < given->settings.run_extra_args; index++) {
        uint8_t *out = given->text + given->length;
        if (rinqebo_profile_argument(profile, &test, index, out, ROOM - given->length, &needed) != RINQEBO_DONE) return 0;
        given->length += needed;
    }
    return 1;
}

// One load. 0 if a call fails.
static int load(void *session_room, void *profile_room, struct given *given) {
    struct rinqebo_session *session = session_room;
    struct rinqebo_profile *profile = profile_room;
    rinqebo_session_load((const uint8_t *)request, request_length, session);
    rinqebo_profile_open(session, (const uint8_t *)"ci", 2, profile);
    int is_given = rinqebo_session_status(session) == RINQEBO_DONE && ask(profile, given);
    rinqebo_profile_free(profile);
    rinqebo_session_free(session);
    return is_given;
}

static void *work(void *unused) {
    (void)unused;
    void *session = malloc(rinqebo_session_size()), *profile = malloc(rinqebo_profile_size());
    struct given *first = calloc(1, sizeof *first), *given = calloc(1, sizeof *given);
    int is_same = session != NULL && profile != NULL && first != NULL && given != NULL && load(session, profile, first);
    for (size_t count = 1; is_same && count < loads; count++) {
        is_same = load(session, profile, given) && given->length == first->length &&
                  memcmp(given->text, first->text, given->length) == 0 &&
                  memcmp(&given->settings, &first->settings, sizeof given->settings) == 0;
    }
    free(session);
    free(profile);
    free(first);
    free(given);
    return is_same ? &loads : NULL;
}

int main(int count, char **words) {
    if (count != 4) return 2;
    size_t threads = strtoul(words[1], NULL, 10);
    loads = strtoul(words[2], NULL, 10);
    FILE *file = fopen(words[3], "rb");
    request = malloc(ROOM);
    if (file == NULL || request == NULL || threads == 0 || threads > 64) return 3;
    request_length = fread(request, 1, ROOM, file);
    fclose(file);
    pthread_t started[64];
    size_t failed = 0;
    for (size_t i = 0; i < threads; i++) {
        if (pthread_create(&started[i], NULL, work, NULL) != 0) return 4;
    }
    for (size_t i = 0; i < threads; i++) {
        void *is_same = NULL;
        if (pthread_join(started[i], &is_same) != 0 || is_same == NULL) failed++;
    }
    free(request);
    printf("%zu threads, %zu loads each: %zu failed\n", threads, loads, failed);
    return failed != 0;
}
