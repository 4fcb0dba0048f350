/* Sends lines to a UDP port of the loopback at a given rate: statsd_sender PORT FILE EACH RATE SECONDS.
 *
 * The lines of FILE go in turn, EACH of them a packet, so many a second for so many seconds. What is due by the clock
 * goes in batches; where the system can't send as fast, what is left when the time is over isn't sent. Whether a packet
 * had room at the receiver the system doesn't say. Prints how many packets and lines were sent, and in how many seconds. */

#define _GNU_SOURCE
#include <arpa/inet.h>
#include <errno.h>
#include <stdio.h>
#include <stdlib.h>
#include <string.h>
#include <sys/prctl.h>
#include <sys/socket.h>
#include <time.h>

#define BATCH 64
/* For so long it waits where nothing is due, and so long behind its time it goes on. */
#define WAIT_NANOSECONDS 50000
#define GRACE_SECONDS 0.05

struct packets {
    struct iovec *parts;
    size_t count;
};

static void give_up(const char *what) {
    perror(what);
    exit(1);
}

static double seconds(void) {
    struct timespec now;
    clock_gettime(CLOCK_MONOTONIC, &now);
    return now.tv_sec + now.tv_nsec * 1e-9;
}

/* The text of a file. */
static char *text_of(const char *path, size_t *length) {
    FILE *file = fopen(path, "rb");
    if (!file || fseek(file, 0, SEEK_END) != 0) give_up(path);
    *length = (size_t)ftell(file);
    char *text = malloc(*length + 1);
    rewind(file);
    if (!text || fread(text, 1, *length, file) != *length) give_up(path);
    fclose(file);
    return text;
}

/* The packets of a file's lines, so many lines each, with no newline at the end; lines that fill no packet are left out. */
static struct packets packets_of(const char *path, size_t each) {
    size_t length, lines = 0;
    char *text = text_of(path, &length);
    struct packets made = {calloc(length / each + 1, sizeof(struct iovec)), 0};
    if (!made.parts) give_up("memory");
    for (char *start = text, *at = text; at < text + length; at++) {
        if (*at != '\n' || ++lines % each) continue;
        made.parts[made.count].iov_base = start;
        made.parts[made.count++].iov_len = (size_t)(at - start);
        start = at + 1;
    }
    return made;
}

/* A socket that sends to a port of the loopback. */
static int socket_to(int port) {
    struct sockaddr_in to = {.sin_family = AF_INET, .sin_port = htons((unsigned short)port)};
    to.sin_addr.s_addr = htonl(INADDR_LOOPBACK);
    int made = socket(AF_INET, SOCK_DGRAM, 0);
    if (made < 0 || connect(made, (struct sockaddr *)&to, sizeof to) != 0) give_up("socket");
    return made;
}

/* Sends the next packets in turn, of which so many are due; how many were sent. */
static size_t send_batch(int to, const struct packets *packets, size_t sent, size_t due) {
    struct mmsghdr messages[BATCH];
    unsigned count = due < BATCH ? (unsigned)due : BATCH;
    memset(messages, 0, sizeof messages);
    for (unsigned at = 0; at < count; at++) {
        messages[at].msg_hdr.msg_iov = &packets->parts[(sent + at) % packets->count];
        messages[at].msg_hdr.msg_iovlen = 1;
    }
    int done = sendmmsg(to, messages, count, 0);
    if (done < 0 && errno != EINTR) give_up("send");
    return done < 0 ? 0 : (size_t)done;
}

int main(int count, char **words) {
    if (count != 6) {
        fprintf(stderr, "statsd_sender PORT FILE EACH RATE SECONDS\n");
        return 2;
    }
    size_t each = strtoul(words[3], NULL, 10), sent = 0;
    double rate = strtod(words[4], NULL), last = strtod(words[5], NULL), passed = 0;
    struct packets packets = packets_of(words[2], each ? each : 1);
    int to = socket_to(atoi(words[1]));
    size_t all = each && packets.count ? (size_t)(rate * last / (double)each + 0.5) : 0;
    prctl(PR_SET_TIMERSLACK, 1);
    double begun = seconds();
    while (sent < all && passed < last + GRACE_SECONDS) {
        passed = seconds() - begun;
        size_t due = passed < last ? (size_t)(passed * rate / (double)each) : all;
        if (due > sent) {
            sent += send_batch(to, &packets, sent, due - sent);
        } else {
            nanosleep(&(struct timespec){.tv_nsec = WAIT_NANOSECONDS}, NULL);
        }
    }
    printf("%zu %zu %.6f\n", sent, sent * each, seconds() - begun);
    return 0;
}
