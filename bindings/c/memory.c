// Lets each allocation of a whole run fail in turn: the run then returns MEMORY, and leaves the buffer unchanged. It is
// linked with `-Wl,--wrap=malloc,--wrap=realloc`, so that the library's allocations come here.
//
//   memory REQUEST       prints how many allocations a run makes, and exits with 0 if each check holds
//   memory REQUEST TO    the same of the comparison of two requests
#include "rinqebo.h"
#include <stdio.h>
#include <stdlib.h>
#include <string.h>

void *__real_malloc(size_t size);
void *__real_realloc(void *block, size_t size);

// How many more allocations are made until one fails, and 0 if none does.
static size_t left;

static int fails(void) {
    return left != 0 && --left == 0;
}

void *__wrap_malloc(size_t size) {
    return fails() ? NULL : __real_malloc(size);
}

void *__wrap_realloc(void *block, size_t size) {
    return fails() ? NULL : __real_realloc(block, size);
}

#define ROOM (1 << 20)
static uint8_t request[ROOM], to[ROOM], answer[ROOM];

// The length of a file, which is read into room.
static size_t read_file(const char *path, uint8_t *room) {
    FILE *file = fopen(path, "rb");
    if (file == NULL) exit(3);
    size_t length = fread(room, 1, ROOM, file);
    fclose(file);
    return length;
}

int main(int count, char **words) {
    if (count != 2 && count != 3) return 2;
    size_t length = read_file(words[1], request), to_length = count == 3 ? read_file(words[2], to) : 0;
    uint32_t side = RINQEBO_NO_SIDE;
    size_t failing = 1, needed = 0, refused = 0;
    for (;; failing++) {
        answer[0] = 0;
        left = failing;
        uint32_t status = count == 2
            ? rinqebo_resolve(request, length, answer, ROOM, &needed)
            : rinqebo_diff(request, length, to, to_length, 0, answer, ROOM, &needed, &side);
        int reached = left == 0;
        left = 0;
        if (!reached) {
            if (status != RINQEBO_DONE || needed == 0 || side != RINQEBO_NO_SIDE) return 4;
            break;
        }
        if (status == RINQEBO_DONE) continue; // the run did without this allocation
        if (status != RINQEBO_MEMORY || needed != 0 || answer[0] != 0 || side != RINQEBO_NO_SIDE) return 5;
        refused++;
    }
    printf("%zu allocations, %zu of them needed\n", failing - 1, refused);
    return refused == 0;
}
