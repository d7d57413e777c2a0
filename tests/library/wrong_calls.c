/* Calls the library with rooms of every length, closed and open handles, and changed packets, and says what is not as
 * the header has it.
 * usage: wrong_calls SECRET POLICY DICTIONARY CHANGED <PACKET (its octets)
 * CHANGED is how many changed packets it tries. */
#include "radpolicy.h"

#include <stdio.h>
#include <stdlib.h>
#include <string.h>

enum { ROOM = 1 << 16, PAIRS = 1 << 8 };

static int faults;

static void wanted(bool holds, const char *what, size_t at) {
    if (!holds && faults++ < 10)
        printf("%s, at %zu\n", what, at);
}

static struct radpolicy_slice whole(FILE *file) {
    uint8_t *octets = malloc(ROOM);
    size_t length = octets && file ? fread(octets, 1, ROOM, file) : 0;
    if (file && file != stdin)
        fclose(file);
    return (struct radpolicy_slice){octets, length};
}

/* A run into rooms of their exact length, so that memcheck sees an octet that is written past them. */
static uint8_t run(struct radpolicy_policy *policy, struct radpolicy_request *request,
                   struct radpolicy_outcome *outcome, size_t packet_room, size_t report_room, uint8_t **packet,
                   uint8_t **report) {
    *packet = malloc(packet_room + !packet_room);
    *report = malloc(report_room + !report_room);
    memset(*packet, 0xa5, packet_room);
    memset(*report, 0xa5, report_room);
    return radpolicy_run(policy, request, outcome, *packet, packet_room, *report, report_room);
}

/* The same by radpolicy_run_pairs. The packet has all the room that it wants. */
static uint8_t run_pairs(struct radpolicy_policy *policy, struct radpolicy_request *request,
                         struct radpolicy_lists *lists, size_t pair_room, size_t octet_room,
                         struct radpolicy_pair **pairs, uint8_t **octets) {
    static uint8_t packet[4096];
    *pairs = malloc((pair_room + !pair_room) * sizeof **pairs);
    *octets = malloc(octet_room + !octet_room);
    memset(*pairs, 0xa5, pair_room * sizeof **pairs);
    memset(*octets, 0xa5, octet_room);
    return radpolicy_run_pairs(policy, request, lists, packet, sizeof packet, *pairs, pair_room, *octets, octet_room);
}

static bool is_untouched(const void *at, size_t length) {
    const uint8_t *room = at;
    for (size_t i = 0; i < length; i++)
        if (room[i] != 0xa5)
            return false;
    return true;
}

static void try_rooms(struct radpolicy_policy *policy, struct radpolicy_request *request,
                      struct radpolicy_outcome full, const uint8_t *packet, const uint8_t *report) {
    for (size_t i = 0; i <= full.packet_length + full.report_length + 1; i++) {
        size_t for_packet = i <= full.packet_length ? i : full.packet_length;
        size_t for_report = i <= full.packet_length ? full.report_length : i - full.packet_length - 1;
        bool fits = for_packet >= full.packet_length && for_report >= full.report_length;
        struct radpolicy_outcome outcome;
        uint8_t *a, *b, status = run(policy, request, &outcome, for_packet, for_report, &a, &b);
        wanted(status == (fits ? RADPOLICY_DONE : RADPOLICY_TOO_SHORT), "another status", i);
        wanted(outcome.packet_length == full.packet_length, "another length of the packet", i);
        wanted(outcome.report_length == full.report_length, "another length of the report", i);
        wanted(fits ? !memcmp(a, packet, full.packet_length) && !memcmp(b, report, full.report_length)
                    : is_untouched(a, for_packet) && is_untouched(b, for_report), "octets", i);
        free(a);
        free(b);
    }
}

static bool are_same(const struct radpolicy_pair *some, const struct radpolicy_pair *others, size_t count) {
    for (size_t i = 0; i < count; i++) {
        struct radpolicy_pair a = some[i], b = others[i];
        if (a.value != b.value || a.value_length != b.value_length || a.line != b.line ||
            a.line_length != b.line_length || a.name_length != b.name_length || a.within != b.within ||
            a.number != b.number || a.kind != b.kind)
            return false;
    }
    return true;
}

static size_t count_of(const struct radpolicy_lists *lists) {
    return lists->request_count + lists->reply_count + lists->control_count;
}

/* Goes over the report's lines of a list: they are the lines of its pairs. */
static const char *lines_of(const char *report, const struct radpolicy_pair *pairs, size_t count, const uint8_t *octets) {
    report = strchr(report, '\n') + 1;
    for (const struct radpolicy_pair *pair = pairs; pair < pairs + count; pair++) {
        size_t end = pair->line + pair->line_length, value = pair->line + pair->name_length;
        wanted(!memcmp(report, "  ", 2) && !memcmp(report + 2, octets + pair->line, pair->line_length) &&
                   report[2 + pair->line_length] == '\n', "a pair's line", end);
        wanted(pair->value + pair->value_length == pair->line, "a pair's value", end);
        wanted(!memcmp(octets + value, " = ", 3), "a pair's name", end);
        report += pair->line_length + 3;
    }
    return report;
}

static void try_pairs(struct radpolicy_policy *policy, struct radpolicy_request *request, const char *report) {
    struct radpolicy_lists full, lists;
    struct radpolicy_pair *all, *pairs;
    uint8_t *whole, *octets;
    wanted(run_pairs(policy, request, &full, PAIRS, ROOM, &all, &whole) == RADPOLICY_DONE, "no pairs", 0);
    const char *reply = lines_of(report, all, full.request_count, whole);
    const char *control = lines_of(reply, all + full.request_count, full.reply_count, whole);
    const char *result = lines_of(control, all + full.request_count + full.reply_count, full.control_count, whole);
    wanted(!strncmp(result, "result ", 7), "other pairs", 0);
    size_t count = count_of(&full);
    for (size_t i = 0; i <= count + full.octets_length + 1; i++) {
        size_t for_pairs = i <= count ? i : count, for_octets = i <= count ? full.octets_length : i - count - 1;
        bool fits = for_pairs >= count && for_octets >= full.octets_length;
        uint8_t status = run_pairs(policy, request, &lists, for_pairs, for_octets, &pairs, &octets);
        wanted(status == (fits ? RADPOLICY_DONE : RADPOLICY_TOO_SHORT), "another status with pairs", i);
        wanted(count_of(&lists) == count && lists.octets_length == full.octets_length, "other lengths of pairs", i);
        wanted(fits ? are_same(pairs, all, count) && !memcmp(octets, whole, full.octets_length)
                    : is_untouched(pairs, for_pairs * sizeof *pairs) && is_untouched(octets, for_octets), "pairs", i);
        free(pairs);
        free(octets);
    }
    free(all);
    free(whole);
}

static void try_changed(struct radpolicy_policy *policy, struct radpolicy_request *request,
                        struct radpolicy_outcome full, const uint8_t *report, size_t turns) {
    struct radpolicy_slice first = request->octets;
    uint32_t chance = 12345;
    for (size_t i = 0; i < turns; i++) {
        uint8_t changed[4096];
        memcpy(changed, first.at, first.length);
        for (int turn = 0; turn < 3; turn++) {
            chance = chance * 1664525 + 1013904223;
            changed[(chance >> 8) % first.length] = (uint8_t)(chance >> 24);
        }
        chance = chance * 1664525 + 1013904223;
        request->octets = (struct radpolicy_slice){changed, i % 2 ? first.length : (chance >> 8) % first.length};
        struct radpolicy_outcome outcome;
        uint8_t *a, *b, status = run(policy, request, &outcome, 4096, ROOM, &a, &b);
        wanted(status == RADPOLICY_DONE || status == RADPOLICY_REFUSED, "a changed packet", i);
        bool is_told = outcome.packet_length == 0 && !memcmp(b, "radpolicy: E4", 13);
        wanted(status == RADPOLICY_DONE || is_told, "its line", i);
        free(a);
        free(b);
    }
    request->octets = first;
    struct radpolicy_outcome outcome;
    uint8_t *a, *b, status = run(policy, request, &outcome, 4096, ROOM, &a, &b);
    wanted(status == RADPOLICY_DONE && outcome.report_length == full.report_length &&
               !memcmp(b, report, full.report_length), "a run after them", 0);
    free(a);
    free(b);
}

static void try_closed(struct radpolicy_policy *policy, struct radpolicy_request *request) {
    struct radpolicy_outcome outcome;
    uint8_t *a, *b;
    wanted(run(policy, request, &outcome, 0, 0, &a, &b) == RADPOLICY_IS_CLOSED, "a closed handle is run", 0);
    wanted(outcome.report_length == 0 && outcome.packet_length == 0, "its lengths", 0);
    uint8_t status = radpolicy_reply(policy, request, &outcome, a, 0, b, 0);
    wanted(status == RADPOLICY_IS_CLOSED && outcome.report_length == 0, "for its reply", 0);
    struct radpolicy_lists lists;
    struct radpolicy_pair pair;
    status = radpolicy_run_pairs(policy, request, &lists, a, 0, &pair, 0, b, 0);
    wanted(status == RADPOLICY_IS_CLOSED && lists.octets_length == 0 && count_of(&lists) == 0, "with pairs", 0);
    wanted(radpolicy_close(policy) == RADPOLICY_IS_CLOSED, "a closed handle is closed", 0);
    free(a);
    free(b);
}

/* A policy that is shared is held by both handles. Afterwards the handle is the other one. */
static void try_shared(struct radpolicy_policy *policy) {
    struct radpolicy_policy none = RADPOLICY_CLOSED, other = RADPOLICY_CLOSED;
    wanted(radpolicy_share(&none, &other) == RADPOLICY_IS_CLOSED, "a closed handle is shared", 0);
    wanted(radpolicy_share(policy, &other) == RADPOLICY_DONE, "it is not shared", 0);
    wanted(radpolicy_share(policy, &other) == RADPOLICY_IS_OPEN, "it is shared with an open handle", 0);
    wanted(radpolicy_share(&none, &other) == RADPOLICY_IS_CLOSED, "an open handle is lost", 0);
    wanted(radpolicy_close(policy) == RADPOLICY_DONE, "a shared handle is not closed", 0);
    *policy = other;
}

/* A whole job, into rooms of every length: a check of the dictionary, and one of a policy that is refused. */
static void try_answers(struct radpolicy_file *file, struct radpolicy_slice none) {
    struct radpolicy_slice refused = {(const uint8_t *)"reject", 5};
    struct radpolicy_job job = {.files = file, .file_count = 1, .request = none, .secret = none, .policy = refused,
                                .script = none, .command = RADPOLICY_CHECK};
    for (int turn = 0; turn < 2; turn++, job.has_policy = true) {
        size_t length = 0, told;
        uint8_t empty, ending = turn ? RADPOLICY_REFUSED : RADPOLICY_DONE;
        wanted(radpolicy_answer(&job, &empty, 0, &length) == RADPOLICY_TOO_SHORT && length > 0, "no answer", turn);
        for (size_t i = 0; i <= length + 1; i++) {
            uint8_t *room = malloc(i + !i);
            memset(room, 0xa5, i);
            uint8_t status = radpolicy_answer(&job, room, i, &told);
            wanted(status == (i < length ? RADPOLICY_TOO_SHORT : ending), "another answer", i);
            wanted(told == length && (i < length ? is_untouched(room, i) : room[length - 1] == '\n'), "its text", i);
            free(room);
        }
    }
}

int main(int count, char **words) {
    if (count != 5)
        return 2;
    struct radpolicy_policy policy = RADPOLICY_CLOSED;
    struct radpolicy_slice none = {(const uint8_t *)"", 0}, text = whole(fopen(words[2], "rb"));
    struct radpolicy_file file = {{(const uint8_t *)"dictionary", 10}, whole(fopen(words[3], "rb"))};
    struct radpolicy_file twice[2] = {file, file};
    struct radpolicy_request request = {.octets = whole(stdin), .secret = {(const uint8_t *)words[1], strlen(words[1])},
                                        .reply = none, .control = none, .has_secret = true};
    static uint8_t line[ROOM];
    size_t told;
    try_closed(&policy, &request);
    const char *refused = "radpolicy: E02: option value\n";
    for (size_t i = 0; i <= strlen(refused); i++) {
        uint8_t *room = malloc(i + !i);
        uint8_t status = radpolicy_open(&policy, twice, i % 2 ? 0 : 2, text.at, text.length, room, i, &told);
        wanted(status == (i < strlen(refused) ? RADPOLICY_TOO_SHORT : RADPOLICY_REFUSED), "no set of files", i);
        wanted(told == strlen(refused) && (i < told || !memcmp(room, refused, told)), "its line", i);
        free(room);
    }
    uint8_t opened = radpolicy_open(&policy, &file, 1, text.at, text.length, line, 0, &told);
    wanted(opened == RADPOLICY_DONE && told == 0, "it is not opened", 0);
    opened = radpolicy_open(&policy, &file, 1, text.at, text.length, line, ROOM, &told);
    wanted(opened == RADPOLICY_IS_OPEN && told == 0, "it is opened twice", 0);
    free((void *)text.at);
    try_answers(&file, none);
    free((void *)file.text.at);
    try_shared(&policy);
    struct radpolicy_outcome full;
    uint8_t *packet, *report;
    wanted(run(&policy, &request, &full, 4096, ROOM, &packet, &report) == RADPOLICY_DONE, "it does not run", 0);
    try_rooms(&policy, &request, full, packet, report);
    try_pairs(&policy, &request, (const char *)report);
    try_changed(&policy, &request, full, report, strtoul(words[4], NULL, 10));
    wanted(radpolicy_close(&policy) == RADPOLICY_DONE, "it is not closed", 0);
    try_closed(&policy, &request);
    free(packet);
    free(report);
    free((void *)request.octets.at);
    printf("%d faults\n", faults);
    return faults != 0;
}
