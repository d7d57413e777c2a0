/* Lets each allocation of each call fail in turn, and says what is not as the header has it. It is linked with
 * --wrap=malloc and --wrap=realloc.
 * usage: no_memory SECRET POLICY DICTIONARY <PACKET (its octets) */
#include "radpolicy.h"

#include <stdio.h>
#include <stdlib.h>
#include <string.h>

enum { ROOM = 1 << 16, PAIRS = 1 << 8 };

void *__real_malloc(size_t length);
void *__real_realloc(void *at, size_t length);

static size_t left; /* how many allocations there are until one fails; 0 where none does */
static bool has_failed;

static bool fails(void) {
    if (left == 0 || --left > 0)
        return false;
    return has_failed = true;
}

void *__wrap_malloc(size_t length) { return fails() ? NULL : __real_malloc(length); }

void *__wrap_realloc(void *at, size_t length) { return fails() ? NULL : __real_realloc(at, length); }

static int faults;

static void wanted(bool holds, const char *what, size_t at) {
    if (!holds && faults++ < 10)
        printf("%s, at %zu\n", what, at);
}

static struct radpolicy_slice whole(FILE *file) {
    uint8_t *octets = malloc(ROOM);
    size_t length = octets && file ? fread(octets, 1, ROOM, file) : 0;
    if (file && file != stdin)
        fclose(file);
    return (struct radpolicy_slice){octets, length};
}

static struct radpolicy_policy policy = RADPOLICY_CLOSED, other = RADPOLICY_CLOSED, by_one = RADPOLICY_CLOSED;
static struct radpolicy_dictionary dictionary = RADPOLICY_CLOSED, shared = RADPOLICY_CLOSED;
static struct radpolicy_store store = RADPOLICY_CLOSED;
static struct radpolicy_slice text;
static struct radpolicy_file file;
static struct radpolicy_request request;
static struct radpolicy_job job;
static struct radpolicy_pair pairs[PAIRS];
static uint8_t packet[4096], room[ROOM], first[ROOM];
static size_t told;

static uint8_t open_it(void) {
    return radpolicy_open(&policy, &file, 1, text.at, text.length, room, ROOM, &told);
}

static uint8_t share_it(void) {
    told = 0;
    return radpolicy_share(&policy, &other);
}

static uint8_t open_dictionary(void) {
    return radpolicy_dictionary_open(&dictionary, &file, 1, room, ROOM, &told);
}

static uint8_t share_dictionary(void) {
    told = 0;
    return radpolicy_dictionary_share(&dictionary, &shared);
}

static uint8_t open_by_it(void) {
    return radpolicy_policy_open(&by_one, &dictionary, text.at, text.length, room, ROOM, &told);
}

static uint8_t open_store(void) {
    told = 0;
    return radpolicy_store_open(&store);
}

static uint8_t edit_store(void) {
    struct radpolicy_edit edit = {.value = text, .number = 18, .list = RADPOLICY_REPLY_LIST, .op = RADPOLICY_APPEND};
    told = 0;
    return radpolicy_store_edit(&store, &edit);
}

static uint8_t roll_back_store(void) {
    told = 0;
    return radpolicy_store_rollback(&store, 0);
}

static uint8_t run_it(void) {
    struct radpolicy_outcome outcome;
    uint8_t status = radpolicy_run(&policy, &request, &outcome, packet, sizeof packet, room, ROOM);
    told = outcome.report_length;
    return status;
}

static uint8_t run_for_reply(void) {
    struct radpolicy_outcome outcome;
    uint8_t status = radpolicy_reply(&policy, &request, &outcome, packet, sizeof packet, room, ROOM);
    told = outcome.report_length;
    return status;
}

static uint8_t run_with_pairs(void) {
    struct radpolicy_lists lists;
    uint8_t status =
        radpolicy_run_pairs(&policy, &request, &lists, packet, sizeof packet, pairs, PAIRS, room, ROOM);
    told = lists.octets_length;
    return status;
}

static uint8_t answer_it(void) { return radpolicy_answer(&job, room, ROOM, &told); }

/* Makes a call with each of its allocations failing, and at last with none. Gives how many fail. */
static size_t try_each(uint8_t (*call)(void), const char *what) {
    for (size_t i = 1;; i++) {
        left = i;
        has_failed = false;
        uint8_t status = call();
        left = 0;
        if (!has_failed) {
            wanted(status == RADPOLICY_DONE, what, i);
            return i - 1;
        }
        wanted(status == RADPOLICY_NO_MEMORY && told == 0, what, i);
    }
}

/* The same again tells what was told before. */
static void try_again(uint8_t (*call)(void), const char *what) {
    size_t length = told;
    memcpy(first, room, length);
    wanted(try_each(call, what) > 0, "no allocation", 0);
    wanted(told == length && !memcmp(first, room, length), what, 0);
}

int main(int count, char **words) {
    if (count != 4)
        return 2;
    struct radpolicy_slice none = {(const uint8_t *)"", 0}, secret = {(const uint8_t *)words[1], strlen(words[1])};
    text = whole(fopen(words[2], "rb"));
    file = (struct radpolicy_file){{(const uint8_t *)"dictionary", 10}, whole(fopen(words[3], "rb"))};
    request = (struct radpolicy_request){
        .octets = whole(stdin), .secret = secret, .reply = none, .control = none, .has_secret = true};
    job = (struct radpolicy_job){.files = &file, .file_count = 1, .request = none, .secret = none, .policy = text,
                                 .script = none, .command = RADPOLICY_CHECK, .has_policy = true};
    wanted(try_each(open_it, "it is opened") > 0, "no allocation", 0);
    wanted(try_each(share_it, "it is shared") > 0, "no allocation", 0);
    wanted(radpolicy_close(&other) == RADPOLICY_DONE, "the other one is not closed", 0);
    wanted(try_each(open_dictionary, "a dictionary is opened") > 0, "no allocation", 0);
    wanted(try_each(share_dictionary, "it is shared") > 0, "no allocation", 0);
    wanted(try_each(open_by_it, "a policy is opened by it") > 0, "no allocation", 0);
    wanted(radpolicy_dictionary_close(&dictionary) == RADPOLICY_DONE, "it is not closed", 0);
    wanted(radpolicy_close(&by_one) == RADPOLICY_DONE, "its policy is not closed", 0);
    wanted(radpolicy_dictionary_close(&shared) == RADPOLICY_DONE, "the shared one is not closed", 0);
    wanted(try_each(open_store, "a store is opened") > 0, "no allocation", 0);
    wanted(try_each(edit_store, "it is edited") > 0, "no allocation", 0);
    try_each(roll_back_store, "it is rolled back");
    size_t pairs_left = 1;
    uint8_t status = radpolicy_store_count(&store, RADPOLICY_REPLY_LIST, &pairs_left);
    wanted(status == RADPOLICY_DONE && pairs_left == 0, "the list is not back", 0);
    wanted(radpolicy_store_close(&store) == RADPOLICY_DONE, "it is not closed", 0);
    wanted(run_it() == RADPOLICY_DONE, "it does not run", 0);
    try_again(run_it, "it is run");
    wanted(run_for_reply() == RADPOLICY_DONE, "it does not run for its reply", 0);
    try_again(run_for_reply, "it is run for its reply");
    wanted(run_with_pairs() == RADPOLICY_DONE, "it does not run with pairs", 0);
    try_again(run_with_pairs, "it is run with pairs");
    wanted(answer_it() == RADPOLICY_DONE, "no answer", 0);
    try_again(answer_it, "it is answered");
    wanted(radpolicy_close(&policy) == RADPOLICY_DONE, "it is not closed", 0);
    free((void *)text.at);
    free((void *)file.text.at);
    free((void *)request.octets.at);
    printf("%d faults\n", faults);
    return faults != 0;
}
