/* A RADIUS responder on loopback: each packet that comes is answered by a policy.
 * usage: responder PORT SECRET-FILE POLICY DICTIONARY..
 * PORT 0 takes a free port. The secret is the first line of its file: among the words of the command other users of the
 * machine could see it. The port is printed first, and then a line for each packet. */
#include "radpolicy.h"

#include <arpa/inet.h>
#include <netinet/in.h>
#include <stdio.h>
#include <stdlib.h>
#include <string.h>
#include <sys/socket.h>

enum { MAX_FILES = 1024, MAX_PACKET = 4096, MAX_REPORT = 1 << 20 };

static uint8_t report[MAX_REPORT];

static struct radpolicy_slice whole(const char *path) {
    FILE *file = fopen(path, "rb");
    if (!file) {
        perror(path);
        exit(3);
    }
    size_t room = 1 << 16, length = 0;
    uint8_t *octets = malloc(room);
    while (octets) {
        length += fread(octets + length, 1, room - length, file);
        if (length < room)
            break;
        room *= 2;
        uint8_t *longer = realloc(octets, room);
        if (!longer)
            free(octets);
        octets = longer;
    }
    if (!octets || ferror(file)) {
        fprintf(stderr, "%s: not readable\n", path);
        exit(3);
    }
    fclose(file);
    return (struct radpolicy_slice){octets, length};
}

/* Opens the policy, and gives back what was read: the library has copied what it keeps. */
static uint8_t open_policy(struct radpolicy_policy *policy, const char *path, char **paths, int count) {
    static struct radpolicy_file files[MAX_FILES];
    for (int i = 0; i < count; i++) {
        const char *slash = strrchr(paths[i], '/'), *name = slash ? slash + 1 : paths[i];
        files[i] = (struct radpolicy_file){{(const uint8_t *)name, strlen(name)}, whole(paths[i])};
    }
    struct radpolicy_slice text = whole(path);
    size_t told = 0;
    uint8_t status =
        radpolicy_open(policy, files, (size_t)count, text.at, text.length, report, MAX_REPORT, &told);
    if (status == RADPOLICY_REFUSED)
        fwrite(report, 1, told, stderr);
    for (int i = 0; i < count; i++)
        free((void *)files[i].text.at);
    free((void *)text.at);
    return status;
}

static int bound_socket(const char *port) {
    struct sockaddr_in here = {.sin_family = AF_INET, .sin_port = htons((uint16_t)atoi(port))};
    here.sin_addr.s_addr = htonl(INADDR_LOOPBACK);
    socklen_t length = sizeof here;
    int fd = socket(AF_INET, SOCK_DGRAM, 0);
    if (fd < 0 || bind(fd, (struct sockaddr *)&here, length) < 0 ||
        getsockname(fd, (struct sockaddr *)&here, &length) < 0) {
        perror("socket");
        exit(3);
    }
    printf("port %d\n", ntohs(here.sin_port));
    fflush(stdout);
    return fd;
}

static void answer(struct radpolicy_policy *policy, struct radpolicy_slice secret, int fd) {
    uint8_t received[MAX_PACKET], reply[MAX_PACKET];
    struct sockaddr_in from;
    socklen_t from_length = sizeof from;
    ssize_t count = recvfrom(fd, received, sizeof received, 0, (struct sockaddr *)&from, &from_length);
    if (count < 0)
        return;
    struct radpolicy_slice none = {(const uint8_t *)"", 0};
    struct radpolicy_request request = {.octets = {received, (size_t)count}, .secret = secret, .reply = none,
                                        .control = none, .form = RADPOLICY_PACKET, .has_secret = true};
    struct radpolicy_outcome outcome = {0};
    uint8_t status =
        radpolicy_run(policy, &request, &outcome, reply, sizeof reply, report, sizeof report);
    if (status == RADPOLICY_DONE && outcome.sends == RADPOLICY_REPLY)
        sendto(fd, reply, outcome.packet_length, 0, (struct sockaddr *)&from, from_length);
    if (status == RADPOLICY_REFUSED)
        fwrite(report, 1, outcome.report_length, stdout);
    else
        printf("status %d code %d\n", status, outcome.code);
    fflush(stdout);
}

static struct radpolicy_slice first_line(const char *path) {
    struct radpolicy_slice text = whole(path);
    const uint8_t *end = text.length ? memchr(text.at, '\n', text.length) : NULL;
    size_t length = end ? (size_t)(end - text.at) : text.length;
    if (length && text.at[length - 1] == '\r')
        length--;
    return (struct radpolicy_slice){text.at, length};
}

int main(int count, char **words) {
    if (count < 5 || count > 4 + MAX_FILES) {
        bool asked = count == 2 && strcmp(words[1], "--help") == 0;
        fprintf(asked ? stdout : stderr, "usage: responder PORT SECRET-FILE POLICY DICTIONARY..\n");
        return asked ? 0 : 2;
    }
    struct radpolicy_policy policy = RADPOLICY_CLOSED;
    uint8_t status = open_policy(&policy, words[3], words + 4, count - 4);
    if (status != RADPOLICY_DONE)
        return status;
    struct radpolicy_slice secret = first_line(words[2]);
    for (int fd = bound_socket(words[1]);;)
        answer(&policy, secret, fd);
}
