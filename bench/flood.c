// Floods a server by connections of one tenant: flood PATH CLIENTS LINES. Each connection keeps two batches of
// LINES lines on the way, and reads the replies as they come. Prints a line when all have logged in, and at
// SIGTERM how many replies came.
#include <fcntl.h>
#include <signal.h>
#include <stdio.h>
#include <stdlib.h>
#include <string.h>
#include <sys/epoll.h>
#include <sys/socket.h>
#include <sys/un.h>
#include <unistd.h>

enum { EVENTS = 256, BATCHES = 2, REPLY = 2 };

struct connection {
    int fd;
    size_t sent;  // how many bytes of the batch that is being sent
    long waiting; // how many replies have not come
};

static const char LINE[] = "J1T ids 4711\n";
static const char LOG_IN[] = "AUTH alice abc\n";
static volatile sig_atomic_t stops;
static long replies;
static char *batch;
static size_t batch_len;

static void stop(int number)
{
    (void)number;
    stops = 1;
}

static void fail(const char *what)
{
    perror(what);
    exit(1);
}

static void log_in(struct connection *c, const char *path, int events)
{
    char reply[16];
    struct sockaddr_un at = {.sun_family = AF_UNIX};
    strncpy(at.sun_path, path, sizeof at.sun_path - 1);
    c->fd = socket(AF_UNIX, SOCK_STREAM, 0);
    c->sent = batch_len;
    if (c->fd < 0 || connect(c->fd, (struct sockaddr *)&at, sizeof at)) fail("flood: connect");
    if (write(c->fd, LOG_IN, sizeof LOG_IN - 1) < 0 || read(c->fd, reply, sizeof reply) <= 0) fail("flood: log in");
    fcntl(c->fd, F_SETFL, O_NONBLOCK);
    struct epoll_event event = {.events = EPOLLIN | EPOLLOUT | EPOLLET, .data.ptr = c};
    epoll_ctl(events, EPOLL_CTL_ADD, c->fd, &event);
}

// Reads once and writes once. Whether either gave something.
static int turn(struct connection *c, long lines)
{
    static char room[65536];
    int moved = 0;
    ssize_t got = read(c->fd, room, sizeof room);
    if (got > 0) {
        c->waiting -= got / REPLY;
        replies += got / REPLY;
        moved = 1;
    }
    if (c->sent == batch_len && c->waiting <= (BATCHES - 1) * lines) {
        c->sent = 0;
        c->waiting += lines;
    }
    if (c->sent < batch_len) {
        ssize_t put = write(c->fd, batch + c->sent, batch_len - c->sent);
        if (put > 0) {
            c->sent += put;
            moved = 1;
        }
    }
    return moved;
}

int main(int count, char **words)
{
    if (count != 4) {
        fprintf(stderr, "usage: flood PATH CLIENTS LINES\n");
        return 2;
    }
    int clients = atoi(words[2]), lines = atoi(words[3]), events = epoll_create1(0);
    struct connection *all = calloc(clients + 1, sizeof *all);
    batch_len = lines * (sizeof LINE - 1);
    batch = malloc(batch_len + 1);
    if (!all || !batch || events < 0) fail("flood");
    for (int i = 0; i < lines; i++) memcpy(batch + i * (sizeof LINE - 1), LINE, sizeof LINE - 1);
    signal(SIGTERM, stop);
    signal(SIGPIPE, SIG_IGN);
    for (int i = 0; i < clients; i++) log_in(&all[i], words[1], events);
    printf("ready\n");
    fflush(stdout);
    while (!stops) {
        struct epoll_event told[EVENTS];
        int some = epoll_wait(events, told, EVENTS, 200);
        for (int i = 0; i < some; i++)
            while (turn(told[i].data.ptr, lines) && !stops) {}
    }
    printf("%ld\n", replies);
    return 0;
}
