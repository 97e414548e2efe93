// Sends lines to a server over several connections, each from a thread of its own, and tells how long that takes.
//
// Usage: load PORT WINDOW REFUSAL OPENING FILE...
//
// It opens a connection for each FILE. The lines of the file OPENING go over the first one, and are not timed. Then each connection
// is sent the lines of its own FILE. At most WINDOW lines are under way, sent and without a reply, on each connection.
// A reply must begin with `OK `, or be a refusal that ends with the name REFUSAL; with `-` none may be one. A reply is taken to be
// one line, so no line may be a STMT.
// Printed are the seconds from the first line after the opening to the last reply, the processor's seconds of all threads in that
// time, and how many of the replies were refusals.
#define _GNU_SOURCE
#include <arpa/inet.h>
#include <errno.h>
#include <netinet/tcp.h>
#include <poll.h>
#include <pthread.h>
#include <stdbool.h>
#include <stdio.h>
#include <stdlib.h>
#include <string.h>
#include <time.h>
#include <unistd.h>

enum { REPLIES = 1 << 18 };

struct lines {
    char *text;
    // Where each line ends, after its LF.
    size_t *ends;
    size_t count;
};

struct session {
    pthread_t thread;
    int connection;
    struct lines lines;
    size_t refused;
    double began, ended, worked;
};

static size_t window;
static const char *refusal;
static pthread_barrier_t start;

static void fail(const char *what, const char *which) {
    fprintf(stderr, "load: %s: %s\n", what, which);
    exit(1);
}

static void *room_for(size_t size) {
    void *room = malloc(size + 1);
    if (room == NULL) {
        fail("memory", strerror(errno));
    }
    return room;
}

static double now(clockid_t clock) {
    struct timespec time;
    clock_gettime(clock, &time);
    return (double)time.tv_sec + (double)time.tv_nsec / 1e9;
}

static struct lines lines_of(const char *name) {
    struct lines lines = {0};
    FILE *file = fopen(name, "rb");
    if (file == NULL || fseek(file, 0, SEEK_END) != 0) {
        fail(name, strerror(errno));
    }
    size_t size = (size_t)ftell(file), at = 0;
    rewind(file);
    lines.text = room_for(size);
    if (fread(lines.text, 1, size, file) != size || (size > 0 && lines.text[size - 1] != '\n')) {
        fail(name, "cannot be read, or its last line has no end");
    }
    fclose(file);
    for (size_t byte = 0; byte < size; byte++) {
        lines.count += lines.text[byte] == '\n';
    }
    lines.ends = room_for(lines.count * sizeof *lines.ends);
    for (size_t byte = 0; byte < size; byte++) {
        if (lines.text[byte] == '\n') {
            lines.ends[at++] = byte + 1;
        }
    }
    return lines;
}

static int connected(uint16_t port) {
    struct sockaddr_in server = {.sin_family = AF_INET, .sin_port = htons(port), .sin_addr.s_addr = htonl(INADDR_LOOPBACK)};
    int connection = socket(AF_INET, SOCK_STREAM, 0), on = 1;
    if (connection < 0 || connect(connection, (struct sockaddr *)&server, sizeof server) != 0) {
        fail("no connection", strerror(errno));
    }
    setsockopt(connection, IPPROTO_TCP, TCP_NODELAY, &on, sizeof on);
    return connection;
}

// Returns whether a reply, given without its LF, is a refusal.
static bool is_refused(const char *reply, size_t size) {
    size_t name = strlen(refusal);
    if (size > 3 && memcmp(reply, "OK ", 3) == 0) {
        return false;
    }
    if (size <= name || reply[size - name - 1] != ' ' || memcmp(reply + size - name, refusal, name) != 0) {
        fprintf(stderr, "load: a reply that may not come: %.*s\n", (int)size, reply);
        exit(1);
    }
    return true;
}

// Sends as much of the text as the connection takes now, and returns how much that was.
static size_t put(int connection, const char *text, size_t size) {
    ssize_t sent = send(connection, text, size, MSG_DONTWAIT | MSG_NOSIGNAL);
    if (sent < 0 && errno != EAGAIN && errno != EINTR) {
        fail("sending", strerror(errno));
    }
    return sent < 0 ? 0 : (size_t)sent;
}

// Takes what has come after the first `held` bytes, and returns how many there are then.
static size_t taken(int connection, char *replies, size_t held) {
    ssize_t came = recv(connection, replies + held, REPLIES - held, MSG_DONTWAIT);
    if (came < 0 && (errno == EAGAIN || errno == EINTR)) {
        return held;
    }
    if (came <= 0) {
        fail("receiving", came < 0 ? strerror(errno) : "the server ended the session, or a reply is too long");
    }
    return held + (size_t)came;
}

// Sends the lines and looks at their replies, and returns how many were refused. It never waits with a line that may be sent, nor
// with a reply that has come, so neither side can hold up the other for good.
static size_t converse(int connection, const struct lines *lines) {
    char *replies = room_for(REPLIES);
    size_t sent = 0, held = 0, answered = 0, refused = 0;
    while (answered < lines->count) {
        size_t last = lines->count - answered > window ? answered + window : lines->count;
        size_t until = lines->ends[last - 1];
        struct pollfd ready = {.fd = connection, .events = POLLIN};
        if (sent < until) {
            sent += put(connection, lines->text + sent, until - sent);
            ready.events = sent < until ? POLLIN | POLLOUT : POLLIN;
        }
        if (poll(&ready, 1, -1) < 0 && errno != EINTR) {
            fail("waiting", strerror(errno));
        }
        if ((ready.revents & ~POLLOUT) == 0) {
            continue;
        }
        held = taken(connection, replies, held);
        char *reply = replies, *end;
        while ((end = memchr(reply, '\n', held - (size_t)(reply - replies))) != NULL) {
            refused += is_refused(reply, (size_t)(end - reply));
            answered++;
            reply = end + 1;
        }
        held -= (size_t)(reply - replies);
        memmove(replies, reply, held);
    }
    free(replies);
    return refused;
}

static void *run(void *argument) {
    struct session *it = argument;
    pthread_barrier_wait(&start);
    it->began = now(CLOCK_MONOTONIC);
    it->worked = -now(CLOCK_THREAD_CPUTIME_ID);
    it->refused = converse(it->connection, &it->lines);
    it->worked += now(CLOCK_THREAD_CPUTIME_ID);
    it->ended = now(CLOCK_MONOTONIC);
    return NULL;
}

int main(int count, char **words) {
    if (count < 6 || (window = strtoul(words[2], NULL, 10)) == 0) {
        fail("usage", "load PORT WINDOW REFUSAL OPENING FILE...");
    }
    unsigned sessions = (unsigned)count - 5;
    struct lines opening = lines_of(words[4]);
    struct session *all = calloc(sessions, sizeof *all);
    refusal = words[3];
    if (all == NULL || pthread_barrier_init(&start, NULL, sessions) != 0) {
        fail("memory", strerror(errno));
    }
    for (unsigned at = 0; at < sessions; at++) {
        all[at].lines = lines_of(words[5 + at]);
        all[at].connection = connected((uint16_t)strtoul(words[1], NULL, 10));
    }
    converse(all[0].connection, &opening);
    for (unsigned at = 0; at < sessions; at++) {
        if (pthread_create(&all[at].thread, NULL, run, &all[at]) != 0) {
            fail("no thread", words[5 + at]);
        }
    }
    double began = 0, ended = 0, worked = 0;
    size_t refused = 0;
    for (unsigned at = 0; at < sessions; at++) {
        pthread_join(all[at].thread, NULL);
        began = at == 0 || all[at].began < began ? all[at].began : began;
        ended = all[at].ended > ended ? all[at].ended : ended;
        worked += all[at].worked;
        refused += all[at].refused;
    }
    for (unsigned at = 0; at < sessions; at++) {
        close(all[at].connection);
    }
    printf("%.6f %.6f %zu\n", ended - began, worked, refused);
    return 0;
}
