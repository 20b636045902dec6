/* Asks a DICT server over many connections, and tells how long the answers took.
 *
 *   client PORT CONNECTIONS AT_ONCE SECONDS ANSWERS FILE [quiet]
 *
 * FILE has a request in each line, without its end. Each connection sends AT_ONCE of them in one write, waits for all their
 * answers, and sends the next ones; connection k begins at the k-th part of the list, and goes round. After each read it asks
 * the system to acknowledge at once (TCP_QUICKACK): without it dictd, which sends an answer in several pieces, waits 40 ms for
 * each, unless the last word is `quiet`. It ends when both SECONDS have gone by and ANSWERS have come, or at a SIGINT.
 *
 * When all are connected and greeted it writes `ready`, and begins when a line comes; at the end it writes
 *   ANSWERS OCTETS SECONDS MEDIAN MOST FOUND
 * (microseconds of a turn: the median, the longest, and last the one that 99.9 % don't exceed; FOUND: what the 150 and 152 of all answers say was found), and waits for
 * a line before it closes the connections, so that a server's processes can be looked at.
 */
#include <arpa/inet.h>
#include <errno.h>
#include <netinet/tcp.h>
#include <poll.h>
#include <signal.h>
#include <stdio.h>
#include <stdlib.h>
#include <string.h>
#include <sys/socket.h>
#include <time.h>
#include <unistd.h>

enum { MOST = 64, TURNS = 1 << 22 };
struct reader {
    int fd, in_text, waits;
    size_t next, length;
    char last[24];  /* the first octets of the line that is being read, of which `length` were */
    double began;
};
static struct reader readers[MOST];
static char **requests;
static size_t count;
static double *turns;
static size_t turned;
static unsigned long answers, octets, found;
static int quick = 1;
static volatile sig_atomic_t stopped;

static void stop(int number) {
    (void)number;
    stopped = 1;
}

static double now(void) {
    struct timespec t;
    clock_gettime(CLOCK_MONOTONIC, &t);
    return t.tv_sec + t.tv_nsec / 1e9;
}

static void fail(const char *what) {
    fprintf(stderr, "client: %s: %s\n", what, strerror(errno));
    exit(1);
}

static void acknowledge(int fd) {
    int one = 1;
    if (quick) setsockopt(fd, IPPROTO_TCP, TCP_QUICKACK, &one, sizeof one);
}

/* A line has ended: whether it is the last of an answer. */
static int ends_answer(struct reader *r) {
    if (r->in_text) {
        if (r->length == 1 && r->last[0] == '.') r->in_text = 0;
        return 0;
    }
    int code = atoi(r->last);
    if (code == 150 || code == 152) found += strtoul(r->last + 4, NULL, 10);
    if (code == 151 || code == 152 || (code >= 110 && code < 115)) r->in_text = 1;
    return code >= 200;
}

/* Takes what was read; whether the answers that were waited for are all there. */
static void take(struct reader *r, const char *from, size_t size) {
    octets += size;
    for (const char *at = from, *end = from + size; at < end;) {
        const char *stop = memchr(at, '\n', end - at);
        size_t n = (stop ? stop : end) - at, room = r->length < sizeof r->last - 1 ? sizeof r->last - 1 - r->length : 0;
        memcpy(r->last + (room ? r->length : 0), at, room < n ? room : n);
        r->length += n;
        if (!stop) return;
        if (r->length && (n == 0 || at[n - 1] == '\r')) r->length--;   /* CR, maybe of an earlier piece */
        r->last[r->length < sizeof r->last ? r->length : sizeof r->last - 1] = 0;
        if (ends_answer(r)) r->waits--, answers++;
        r->length = 0;
        at = stop + 1;
    }
}

static void send_turn(struct reader *r, int at_once) {
    static char buffer[1 << 20];
    size_t size = 0;
    for (int k = 0; k < at_once; k++) {
        const char *line = requests[r->next++ % count];
        size += sprintf(buffer + size, "%s\r\n", line);
    }
    r->waits = at_once;
    r->began = now();
    for (size_t done = 0; done < size;) {
        ssize_t n = write(r->fd, buffer + done, size - done);
        if (n < 0) fail("write");
        done += n;
    }
}

static void connect_all(int port, int connections) {
    for (int k = 0; k < connections; k++) {
        struct reader *r = &readers[k];
        struct sockaddr_in to = {.sin_family = AF_INET, .sin_port = htons(port), .sin_addr.s_addr = htonl(INADDR_LOOPBACK)};
        char greeting[512];
        int one = 1;
        r->fd = socket(AF_INET, SOCK_STREAM, 0);
        r->next = count * k / connections;
        if (connect(r->fd, (struct sockaddr *)&to, sizeof to)) fail("connect");
        setsockopt(r->fd, IPPROTO_TCP, TCP_NODELAY, &one, sizeof one);
        do {
            ssize_t n = read(r->fd, greeting, sizeof greeting);
            if (n <= 0) fail("greeting");
            if (greeting[n - 1] == '\n') break;
        } while (1);
        acknowledge(r->fd);
    }
}

static void read_requests(const char *path) {
    FILE *file = fopen(path, "r");
    char *line = NULL;
    size_t room = 0, space = 0;
    ssize_t n;
    if (!file) fail(path);
    while ((n = getline(&line, &room, file)) > 0) {
        line[n - 1] = 0;
        if (count == space) requests = realloc(requests, (space = space ? 2 * space : 1024) * sizeof *requests);
        requests[count++] = strdup(line);
    }
    fclose(file);
}

static int by_size(const void *a, const void *b) {
    double x = *(const double *)a, y = *(const double *)b;
    return (x > y) - (x < y);
}

static void run(int connections, int at_once, double seconds, unsigned long least) {
    struct pollfd polled[MOST];
    static char buffer[1 << 16];
    double start = now();
    int under_way = connections;
    for (int k = 0; k < connections; k++) {
        polled[k] = (struct pollfd){.fd = readers[k].fd, .events = POLLIN};
        send_turn(&readers[k], at_once);
    }
    while (under_way) {
        if (poll(polled, connections, -1) < 0) {
            if (errno == EINTR) continue;
            fail("poll");
        }
        for (int k = 0; k < connections; k++) {
            struct reader *r = &readers[k];
            if (!polled[k].revents) continue;
            ssize_t n = read(r->fd, buffer, sizeof buffer);
            if (n <= 0) fail("the server has closed a connection");
            acknowledge(r->fd);
            take(r, buffer, n);
            if (r->waits > 0) continue;
            double t = now();
            if (turned < TURNS) turns[turned++] = t - r->began;
            if (!stopped && (t - start < seconds || answers < least)) send_turn(r, at_once);
            else under_way--, polled[k].fd = -1;
        }
    }
    double passed = now() - start;
    qsort(turns, turned, sizeof *turns, by_size);
    printf("%lu %lu %.6f %.1f %.1f %lu %.1f\n", answers, octets, passed, turns[turned / 2] * 1e6, turns[turned - 1] * 1e6, found, turns[(unsigned long)(turned * 0.999)] * 1e6);
    fflush(stdout);
}

int main(int n, char **words) {
    char line[16];
    if (n < 7) return fprintf(stderr, "client PORT CONNECTIONS AT_ONCE SECONDS ANSWERS FILE [quiet]\n"), 2;
    int connections = atoi(words[2]);
    signal(SIGINT, stop);
    if (connections < 1 || connections > MOST) return fprintf(stderr, "1 to %d connections\n", MOST), 2;
    quick = n < 8;
    turns = malloc(TURNS * sizeof *turns);
    read_requests(words[6]);
    connect_all(atoi(words[1]), connections);
    printf("ready\n");
    fflush(stdout);
    if (!fgets(line, sizeof line, stdin)) return 1;
    run(connections, atoi(words[3]), atof(words[4]), strtoul(words[5], NULL, 10));
    if (!fgets(line, sizeof line, stdin)) return 0;
    return 0;
}
