/* Persistent clients of a server on a Unix socket: sets and tests of random words.

   persistent PATH CLIENTS PROCESSES SECONDS INFLIGHT PID judyd|redis [LOGIN..]

   PROCESSES processes drive the CLIENTS, each its share by epoll. Each client has INFLIGHT calls in
   flight: it writes as many at once, and the next ones when all replies are there. Half of them store
   (J1S, SADD) and half of them test (J1T, SISMEMBER) one of a million words that are spread over 64
   bits. Client number i logs in with the LOGIN number i modulo their count, as "alice abc". A second
   passes before calls count. Then it prints, of SECONDS seconds: calls a second, the fewest and the
   most calls of a client, the median and the 99th percentile of the times from a write to its last
   reply, in microseconds, and the nanoseconds of processor time of the process PID for each call. */
#include <stdio.h>
#include <stdlib.h>
#include <string.h>
#include <sys/epoll.h>
#include <sys/mman.h>
#include <sys/socket.h>
#include <sys/un.h>
#include <sys/wait.h>
#include <time.h>
#include <unistd.h>

#define MOST_CLIENTS 1024
#define MOST_PROCESSES 16
#define MOST_TIMES 1000000 /* of one process */
#define MOST_BYTES (1 << 20)
#define WORDS 1000000
#define WARM 1.0 /* seconds before calls count */

/* What the processes share: the calls of each client and the times of each process. */
struct shared {
    long calls[MOST_CLIENTS];
    long count[MOST_PROCESSES];
    float times[MOST_PROCESSES][MOST_TIMES];
};

struct load {
    const char *path, *pid;
    int clients, processes, inflight, redis, log_ins;
    char **log_in;
    double seconds;
};

static struct shared *shared;
static int sockets[MOST_CLIENTS], due[MOST_CLIENTS];
static double sent[MOST_CLIENTS];
static unsigned long state;
static char out[MOST_BYTES], got[MOST_BYTES];

static double now(void) {
    struct timespec t;
    clock_gettime(CLOCK_MONOTONIC, &t);
    return t.tv_sec + t.tv_nsec / 1e9;
}

static void fail(const char *what) {
    perror(what);
    exit(1);
}

/* A random number of 64 bits (xorshift). */
static unsigned long draw(void) {
    state ^= state << 13;
    state ^= state >> 7;
    state ^= state << 17;
    return state;
}

/* The next calls of a client, written at once. */
static void call(const struct load *load, int client) {
    int length = 0;
    for (int k = 0; k < load->inflight; k++) {
        unsigned long drawn = draw();
        char word[24];
        int digits = sprintf(word, "%lu", drawn % WORDS * 0x9E3779B97F4A7C15UL), stores = drawn >> 63;
        const char *redis = stores ? "*3\r\n$4\r\nSADD\r\n$2\r\ns%d\r\n$%d\r\n%s\r\n" : "*3\r\n$9\r\nSISMEMBER\r\n$2\r\ns%d\r\n$%d\r\n%s\r\n";
        if (load->redis)
            length += sprintf(out + length, redis, client % 4, digits, word);
        else
            length += sprintf(out + length, "%s s %s\n", stores ? "J1S" : "J1T", word);
    }
    if (write(sockets[client], out, length) != length) fail("write");
    due[client] = load->inflight;
    sent[client] = now();
}

/* Connects a client and logs it in. */
static void begin(const struct load *load, int client) {
    struct sockaddr_un to = {.sun_family = AF_UNIX};
    strncpy(to.sun_path, load->path, sizeof to.sun_path - 1);
    sockets[client] = socket(AF_UNIX, SOCK_STREAM, 0);
    if (connect(sockets[client], (struct sockaddr *)&to, sizeof to)) fail("connect");
    if (!load->log_ins) return;
    int length = sprintf(out, "AUTH %s\n", load->log_in[client % load->log_ins]);
    if (write(sockets[client], out, length) != length) fail("write");
    if (read(sockets[client], got, sizeof got) != 3 || memcmp(got, "OK\n", 3)) fail("log-in");
}

/* Reads what came for a client, and makes its next calls once all replies are there. */
static void hear(const struct load *load, int process, int client) {
    long size = read(sockets[client], got, sizeof got);
    if (size <= 0 || got[0] == (load->redis ? '-' : 'E')) fail("reply");
    for (char *p = got; (p = memchr(p, '\n', got + size - p)); p++) due[client]--;
    if (due[client] > 0) return;
    if (shared->count[process] < MOST_TIMES) shared->times[process][shared->count[process]++] = (now() - sent[client]) * 1e6;
    shared->calls[client] += load->inflight;
    call(load, client);
}

/* One process: its share of the clients, from their first call to the end. */
static void drive(const struct load *load, int process) {
    int poll = epoll_create1(0), counts = 0;
    state = 88172645463325252UL + process * 7919;
    for (int i = process; i < load->clients; i += load->processes) {
        struct epoll_event event = {.events = EPOLLIN, .data.u32 = i};
        begin(load, i);
        epoll_ctl(poll, EPOLL_CTL_ADD, sockets[i], &event);
        call(load, i);
    }
    double until = now() + WARM;
    for (double t = now(); !counts || t < until; t = now()) {
        if (!counts && t >= until) {
            counts = 1;
            until = t + load->seconds;
            shared->count[process] = 0;
            for (int i = process; i < load->clients; i += load->processes) shared->calls[i] = 0;
        }
        struct epoll_event events[MOST_CLIENTS];
        int ready = epoll_wait(poll, events, MOST_CLIENTS, 1000);
        for (int k = 0; k < ready; k++) hear(load, process, events[k].data.u32);
    }
}

/* The processor time of a process in nanoseconds. */
static double cpu_of(const char *pid) {
    char path[64];
    double spent = 0;
    snprintf(path, sizeof path, "/proc/%s/schedstat", pid);
    FILE *file = fopen(path, "r");
    if (!file) return 0;
    if (fscanf(file, "%lf", &spent) != 1) spent = 0;
    fclose(file);
    return spent;
}

static int by_size(const void *a, const void *b) {
    float x = *(const float *)a, y = *(const float *)b;
    return (x > y) - (x < y);
}

/* Prints the figures of all processes together. */
static void tell(const struct load *load, double cpu) {
    long all = 0, least = shared->calls[0], most = shared->calls[0], count = 0;
    float *times = shared->times[0];
    for (int i = 0; i < load->clients; i++) {
        all += shared->calls[i];
        if (shared->calls[i] < least) least = shared->calls[i];
        if (shared->calls[i] > most) most = shared->calls[i];
    }
    for (int p = 0; p < load->processes; p++) {
        memmove(times + count, shared->times[p], shared->count[p] * sizeof times[0]);
        count += shared->count[p];
    }
    qsort(times, count, sizeof times[0], by_size);
    printf("%.0f %ld %ld %.0f %.0f %.0f\n", all / load->seconds, least, most, count ? times[count / 2] : 0.0,
        count ? times[count * 99 / 100] : 0.0, all ? cpu / all : 0.0);
}

int main(int words, char **word) {
    if (words < 8) {
        fprintf(stderr, "usage: persistent PATH CLIENTS PROCESSES SECONDS INFLIGHT PID judyd|redis [LOGIN..]\n");
        return 2;
    }
    struct load load = {
        .path = word[1], .pid = word[6], .clients = atoi(word[2]), .processes = atoi(word[3]), .inflight = atoi(word[5]),
        .redis = !strcmp(word[7], "redis"), .log_ins = words - 8, .log_in = word + 8, .seconds = atof(word[4]),
    };
    if (load.clients < 1 || load.clients > MOST_CLIENTS || load.processes < 1 || load.processes > MOST_PROCESSES) return 2;
    if (load.processes > load.clients || load.inflight < 1 || load.inflight * 80 > MOST_BYTES) return 2;
    shared = mmap(NULL, sizeof *shared, PROT_READ | PROT_WRITE, MAP_SHARED | MAP_ANONYMOUS, -1, 0);
    if (shared == MAP_FAILED) fail("mmap");
    for (int p = 0; p < load.processes; p++) {
        if (fork() == 0) {
            drive(&load, p);
            _exit(0);
        }
    }
    usleep(WARM * 1e6);
    double before = cpu_of(load.pid);
    usleep(load.seconds * 1e6);
    double cpu = cpu_of(load.pid) - before;
    for (int p = 0, status; p < load.processes; p++)
        if (wait(&status) < 0 || status) return 1;
    tell(&load, cpu);
    return 0;
}
