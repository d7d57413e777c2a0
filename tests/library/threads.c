/* Runs one policy in eight threads for some seconds, each by handles of its own that share it, and closes these in
 * whatever order the threads come to it.
 * usage: threads SECONDS SECRET POLICY DICTIONARY <PACKET (its octets) */
#include "radpolicy.h"

#include <pthread.h>
#include <stdio.h>
#include <stdlib.h>
#include <string.h>
#include <time.h>

enum { ROOM = 1 << 16, PAIRS = 1 << 8, THREADS = 8, EACH = 16 };

struct job {
    pthread_t thread;
    struct radpolicy_policy policy;
    size_t runs, faults;
};

static struct radpolicy_request request;
static struct radpolicy_outcome told;
static uint8_t report[ROOM];
static time_t end;

static struct radpolicy_slice whole(FILE *file) {
    uint8_t *octets = malloc(ROOM);
    size_t length = octets && file ? fread(octets, 1, ROOM, file) : 0;
    if (file && file != stdin)
        fclose(file);
    return (struct radpolicy_slice){octets, length};
}

/* The same report as the first run's, and as many octets of pairs each time. */
static void run(struct job *job, struct radpolicy_policy *policy, uint8_t *room, struct radpolicy_pair *pairs) {
    struct radpolicy_outcome outcome;
    struct radpolicy_lists lists;
    uint8_t packet[4096], status = radpolicy_run(policy, &request, &outcome, packet, sizeof packet, room, ROOM);
    job->faults += status != RADPOLICY_DONE || outcome.report_length != told.report_length ||
                   memcmp(room, report, told.report_length);
    status = radpolicy_run_pairs(policy, &request, &lists, packet, sizeof packet, pairs, PAIRS, room, ROOM);
    job->faults += status != RADPOLICY_DONE || lists.packet_length != told.packet_length;
    status = radpolicy_reply(policy, &request, &outcome, packet, sizeof packet, room, ROOM);
    job->faults += status != RADPOLICY_DONE || outcome.packet_length != told.packet_length || outcome.report_length;
    job->runs += 3;
}

static void *run_all(void *argument) {
    struct job *job = argument;
    uint8_t *room = malloc(ROOM);
    struct radpolicy_pair *pairs = malloc(PAIRS * sizeof *pairs);
    do {
        struct radpolicy_policy other = RADPOLICY_CLOSED;
        job->faults += radpolicy_share(&job->policy, &other) != RADPOLICY_DONE;
        for (int i = 0; i < EACH; i++)
            run(job, i % 2 ? &other : &job->policy, room, pairs);
        job->faults += radpolicy_close(&job->policy) != RADPOLICY_DONE;
        job->policy = other;
    } while (time(NULL) < end);
    job->faults += radpolicy_close(&job->policy) != RADPOLICY_DONE;
    free(room);
    free(pairs);
    return NULL;
}

int main(int count, char **words) {
    if (count != 5)
        return 2;
    struct radpolicy_policy policy = RADPOLICY_CLOSED;
    struct radpolicy_slice none = {(const uint8_t *)"", 0}, text = whole(fopen(words[3], "rb"));
    struct radpolicy_file file = {{(const uint8_t *)"dictionary", 10}, whole(fopen(words[4], "rb"))};
    static struct job jobs[THREADS];
    size_t line, runs = 0, faults = 0;
    request = (struct radpolicy_request){.octets = whole(stdin), .secret = {(const uint8_t *)words[2], strlen(words[2])},
                                         .reply = none, .control = none, .has_secret = true};
    uint8_t packet[4096], status = radpolicy_open(&policy, &file, 1, text.at, text.length, report, ROOM, &line);
    if (status == RADPOLICY_DONE)
        status = radpolicy_run(&policy, &request, &told, packet, sizeof packet, report, ROOM);
    if (status != RADPOLICY_DONE)
        return status;
    end = time(NULL) + atoi(words[1]);
    for (struct job *job = jobs; job < jobs + THREADS; job++) {
        faults += radpolicy_share(&policy, &job->policy) != RADPOLICY_DONE;
        faults += pthread_create(&job->thread, NULL, run_all, job) != 0;
    }
    faults += radpolicy_close(&policy) != RADPOLICY_DONE;
    for (struct job *job = jobs; job < jobs + THREADS; job++) {
        pthread_join(job->thread, NULL);
        runs += job->runs;
        faults += job->faults;
    }
    free((void *)text.at);
    free((void *)file.text.at);
    free((void *)request.octets.at);
    printf("%zu runs, %zu faults\n", runs, faults);
    return faults != 0;
}
