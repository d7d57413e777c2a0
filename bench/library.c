/* Makes one call of the library for C many times, in a process that does nothing else.
 * usage: library WORK COUNT PACKET SECRET POLICY DICTIONARY..
 * WORK is dictionary (it is opened), policy (it is opened by the dictionary), reply, run or pairs. */
#include "radpolicy.h"

#include <stdio.h>
#include <stdlib.h>
#include <string.h>

enum { FILES = 1024, ROOM = 1 << 16, PAIRS = 256 };

static struct radpolicy_file files[FILES];
static uint8_t packet[4096], text[ROOM];
static struct radpolicy_pair pairs[PAIRS];
static struct radpolicy_dictionary dictionary = RADPOLICY_CLOSED;
static struct radpolicy_policy policy = RADPOLICY_CLOSED;
static size_t length;

static struct radpolicy_slice whole(const char *path) {
    FILE *file = fopen(path, "rb");
    size_t room = 1 << 20, held = 0;
    uint8_t *octets = malloc(room);
    while (file && octets && (held += fread(octets + held, 1, room - held, file)) == room)
        octets = realloc(octets, room *= 2);
    if (!file || !octets) {
        fprintf(stderr, "%s is not read\n", path);
        exit(2);
    }
    fclose(file);
    return (struct radpolicy_slice){octets, held};
}

static uint8_t open_dictionary(size_t count) {
    return radpolicy_dictionary_open(&dictionary, files, count, text, ROOM, &length);
}

static uint8_t open_policy(struct radpolicy_slice words) {
    return radpolicy_policy_open(&policy, &dictionary, words.at, words.length, text, ROOM, &length);
}

/* One work; what was opened before is closed first. */
static uint8_t once(const char *work, const struct radpolicy_request *request, struct radpolicy_slice words,
                    size_t file_count) {
    struct radpolicy_outcome outcome;
    struct radpolicy_lists lists;
    switch (work[0]) {
    case 'd':
        radpolicy_dictionary_close(&dictionary);
        return open_dictionary(file_count);
    case 'p':
        if (!strcmp(work, "pairs"))
            return radpolicy_run_pairs(&policy, request, &lists, packet, sizeof packet, pairs, PAIRS, text, ROOM);
        radpolicy_close(&policy);
        return open_policy(words);
    default:
        return !strcmp(work, "reply")
                   ? radpolicy_reply(&policy, request, &outcome, packet, sizeof packet, text, ROOM)
                   : radpolicy_run(&policy, request, &outcome, packet, sizeof packet, text, ROOM);
    }
}

int main(int count, char **words) {
    if (count < 7 || count - 6 > FILES)
        return 2;
    const struct radpolicy_slice none = {(const uint8_t *)"", 0}, given = whole(words[5]);
    const struct radpolicy_request request = {
        .octets = whole(words[3]), .secret = {(const uint8_t *)words[4], strlen(words[4])}, .reply = none,
        .control = none, .has_secret = true};
    size_t file_count = (size_t)count - 6;
    for (size_t i = 0; i < file_count; i++) {
        const char *name = strrchr(words[i + 6], '/');
        name = name ? name + 1 : words[i + 6];
        files[i] = (struct radpolicy_file){{(const uint8_t *)name, strlen(name)}, whole(words[i + 6])};
    }
    uint8_t status = open_dictionary(file_count);
    if (status == RADPOLICY_DONE)
        status = open_policy(given);
    for (long left = atol(words[2]); left > 0 && status == RADPOLICY_DONE; left--)
        status = once(words[1], &request, given, file_count);
    if (status != RADPOLICY_DONE)
        fprintf(stderr, "status %u: %.*s\n", (unsigned)status, (int)(length < ROOM ? length : ROOM), (const char *)text);
    return status;
}
