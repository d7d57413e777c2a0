/* Opens policies by one dictionary, closes them and it in each order, and lets eight threads do so, each by handles of
 * its own; says what is not as the header has it.
 * usage: dictionaries SECONDS SECRET POLICY DICTIONARY <PACKET (its octets) */
#include "radpolicy.h"

#include <pthread.h>
#include <stdio.h>
#include <stdlib.h>
#include <string.h>
#include <time.h>

enum { ROOM = 1 << 16, THREADS = 8 };

struct job {
    pthread_t thread;
    struct radpolicy_dictionary dictionary;
    size_t runs, faults;
};

static struct radpolicy_slice text, other_text = {(const uint8_t *)"reject", 6};
static struct radpolicy_request request;
/* What runs of the two policies tell. */
static uint8_t reports[2][ROOM];
static size_t lengths[2];
static time_t end;

static struct radpolicy_slice whole(FILE *file) {
    uint8_t *octets = malloc(ROOM);
    size_t length = octets && file ? fread(octets, 1, ROOM, file) : 0;
    if (file && file != stdin)
        fclose(file);
    return (struct radpolicy_slice){octets, length};
}

static void wanted(struct job *job, bool holds, const char *what, size_t at) {
    if (!holds && job->faults++ < 10)
        printf("%s, at %zu\n", what, at);
}

static void run(struct job *job, struct radpolicy_policy *policy, int which) {
    struct radpolicy_outcome outcome;
    uint8_t packet[4096], *report = malloc(ROOM);
    uint8_t status = radpolicy_run(policy, &request, &outcome, packet, sizeof packet, report, ROOM);
    wanted(job, status == RADPOLICY_DONE && outcome.report_length == lengths[which] &&
                    !memcmp(report, reports[which], lengths[which]), "another report", which);
    job->runs++;
    free(report);
}

/* Two policies by one dictionary; the three are closed in an order, and what is still open goes on. */
static void try_order(struct job *job, int first, int second) {
    struct radpolicy_dictionary dictionary = RADPOLICY_CLOSED;
    struct radpolicy_policy policies[2] = {RADPOLICY_CLOSED, RADPOLICY_CLOSED};
    uint8_t line[1];
    size_t told;
    wanted(job, radpolicy_dictionary_share(&job->dictionary, &dictionary) == RADPOLICY_DONE, "not shared", 0);
    for (int i = 0; i < 2; i++) {
        struct radpolicy_slice given = i ? other_text : text;
        uint8_t status = radpolicy_policy_open(&policies[i], &dictionary, given.at, given.length, line, 0, &told);
        wanted(job, status == RADPOLICY_DONE && told == 0, "not opened", i);
    }
    int order[3] = {first, second, 3 - first - second};
    for (int turn = 0; turn < 3; turn++) {
        for (int i = 0; i < 2; i++)
            if (policies[i].is_open)
                run(job, &policies[i], i);
        int which = order[turn];
        uint8_t status = which == 2 ? radpolicy_dictionary_close(&dictionary) : radpolicy_close(&policies[which]);
        wanted(job, status == RADPOLICY_DONE, "not closed", which);
    }
}

static void try_orders(struct job *job) {
    for (int first = 0; first < 3; first++)
        for (int second = 0; second < 3; second++)
            if (first != second)
                try_order(job, first, second);
}

static void *run_all(void *argument) {
    struct job *job = argument;
    do
        try_orders(job);
    while (time(NULL) < end);
    wanted(job, radpolicy_dictionary_close(&job->dictionary) == RADPOLICY_DONE, "a thread's is not closed", 0);
    return NULL;
}

static void try_closed(struct job *job, struct radpolicy_dictionary *none) {
    struct radpolicy_dictionary other = RADPOLICY_CLOSED;
    struct radpolicy_policy policy = RADPOLICY_CLOSED;
    uint8_t line[1];
    size_t told = 1;
    wanted(job, radpolicy_dictionary_share(none, &other) == RADPOLICY_IS_CLOSED, "a closed one is shared", 0);
    uint8_t status = radpolicy_policy_open(&policy, none, text.at, text.length, line, 0, &told);
    wanted(job, status == RADPOLICY_IS_CLOSED && told == 0 && !policy.is_open, "a policy by none", 0);
    wanted(job, radpolicy_dictionary_close(none) == RADPOLICY_IS_CLOSED, "a closed one is closed", 0);
}

/* Refusals, into rooms of every length. */
static void try_refused(struct job *job, struct radpolicy_file *twice) {
    const char *no_set = "radpolicy: E02: option value\n", *no_policy = "radpolicy: E51 policy:1: token does not fit\n";
    struct radpolicy_dictionary none = RADPOLICY_CLOSED;
    struct radpolicy_policy policy = RADPOLICY_CLOSED;
    size_t told;
    for (size_t i = 0; i <= strlen(no_policy); i++) {
        uint8_t *room = malloc(i + !i);
        uint8_t status = radpolicy_dictionary_open(&none, twice, i % 2 ? 0 : 2, room, i, &told);
        wanted(job, status == (i < strlen(no_set) ? RADPOLICY_TOO_SHORT : RADPOLICY_REFUSED), "no set of files", i);
        wanted(job, told == strlen(no_set) && (i < told || !memcmp(room, no_set, told)), "its line", i);
        status = radpolicy_policy_open(&policy, &job->dictionary, (const uint8_t *)"fails", 5, room, i, &told);
        wanted(job, status == (i < strlen(no_policy) ? RADPOLICY_TOO_SHORT : RADPOLICY_REFUSED), "no policy", i);
        wanted(job, told == strlen(no_policy) && (i < told || !memcmp(room, no_policy, told)), "its line", i);
        free(room);
    }
    wanted(job, !none.is_open && !policy.is_open, "a refused one is open", 0);
}

/* What is open stays, and is not lost. */
static void try_open(struct job *job, struct radpolicy_file *file) {
    struct radpolicy_dictionary other = RADPOLICY_CLOSED;
    struct radpolicy_policy policy = RADPOLICY_CLOSED;
    uint8_t line[1];
    size_t told;
    uint8_t status = radpolicy_dictionary_open(&job->dictionary, file, 1, line, 0, &told);
    wanted(job, status == RADPOLICY_IS_OPEN && told == 0, "it is opened twice", 0);
    wanted(job, radpolicy_dictionary_share(&job->dictionary, &other) == RADPOLICY_DONE, "it is not shared", 0);
    wanted(job, radpolicy_dictionary_share(&job->dictionary, &other) == RADPOLICY_IS_OPEN, "it is shared twice", 0);
    status = radpolicy_policy_open(&policy, &other, text.at, text.length, line, 0, &told);
    wanted(job, status == RADPOLICY_DONE, "no policy by a shared one", 0);
    status = radpolicy_policy_open(&policy, &other, text.at, text.length, line, 0, &told);
    wanted(job, status == RADPOLICY_IS_OPEN && told == 0, "a policy is opened twice", 0);
    wanted(job, radpolicy_dictionary_close(&other) == RADPOLICY_DONE, "it is not closed", 0);
    run(job, &policy, 0);
    wanted(job, radpolicy_close(&policy) == RADPOLICY_DONE, "a policy is not closed", 0);
}

/* What the two policies tell, each opened with a dictionary of its own. */
static bool is_begun(struct radpolicy_file *file) {
    for (int i = 0; i < 2; i++) {
        struct radpolicy_policy policy = RADPOLICY_CLOSED;
        struct radpolicy_slice given = i ? other_text : text;
        struct radpolicy_outcome outcome;
        uint8_t packet[4096];
        size_t told;
        if (radpolicy_open(&policy, file, 1, given.at, given.length, reports[i], ROOM, &told) != RADPOLICY_DONE ||
            radpolicy_run(&policy, &request, &outcome, packet, sizeof packet, reports[i], ROOM) != RADPOLICY_DONE ||
            radpolicy_close(&policy) != RADPOLICY_DONE)
            return false;
        lengths[i] = outcome.report_length;
    }
    return true;
}

int main(int count, char **words) {
    if (count != 5)
        return 2;
    text = whole(fopen(words[3], "rb"));
    struct radpolicy_slice none = {(const uint8_t *)"", 0};
    struct radpolicy_file file = {{(const uint8_t *)"dictionary", 10}, whole(fopen(words[4], "rb"))};
    struct radpolicy_file twice[2] = {file, file};
    struct radpolicy_slice secret = {(const uint8_t *)words[2], strlen(words[2])};
    request = (struct radpolicy_request){
        .octets = whole(stdin), .secret = secret, .reply = none, .control = none, .has_secret = true};
    static struct job own, jobs[THREADS];
    uint8_t line[1];
    size_t told;
    if (!is_begun(&file))
        return 1;
    try_closed(&own, &own.dictionary);
    uint8_t status = radpolicy_dictionary_open(&own.dictionary, &file, 1, line, 0, &told);
    wanted(&own, status == RADPOLICY_DONE && told == 0, "it is not opened", 0);
    try_refused(&own, twice);
    try_open(&own, &file);
    free((void *)file.text.at);
    try_orders(&own);
    end = time(NULL) + atoi(words[1]);
    for (struct job *job = jobs; job < jobs + THREADS; job++) {
        wanted(&own, radpolicy_dictionary_share(&own.dictionary, &job->dictionary) == RADPOLICY_DONE, "no share", 0);
        wanted(&own, pthread_create(&job->thread, NULL, run_all, job) == 0, "no thread", 0);
    }
    wanted(&own, radpolicy_dictionary_close(&own.dictionary) == RADPOLICY_DONE, "it is not closed", 0);
    try_closed(&own, &own.dictionary);
    for (struct job *job = jobs; job < jobs + THREADS; job++) {
        pthread_join(job->thread, NULL);
        own.runs += job->runs;
        own.faults += job->faults;
    }
    free((void *)text.at);
    free((void *)request.octets.at);
    printf("%zu runs, %zu faults\n", own.runs, own.faults);
    return own.faults != 0;
}
