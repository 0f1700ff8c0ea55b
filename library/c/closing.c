/* A server's connections, which a janitor ends while workers serve them. The key of a connection is in the data of its
   events, and its value names the descriptor. An event that is out of date finds its key Gone. A worker uses the
   descriptor under a hold, and whoever ends the key closes it: so it is closed once, and no worker uses it afterwards,
   when the system may have given its number to another connection. */
#include "shardheap.h"
#include <arpa/inet.h>
#include <errno.h>
#include <pthread.h>
#include <stdatomic.h>
#include <stdio.h>
#include <stdlib.h>
#include <sys/epoll.h>
#include <sys/socket.h>
#include <unistd.h>

enum { WORKERS = 3, CLIENTS = 2, CONNECTIONS = 150, MESSAGES = 5 };

/* The numbers of other events. No key of a heap of 64 chunks has bit 63. */
#define LISTENER UINT64_MAX
#define STOP (UINT64_MAX - 1)

static shardheap connections = SHARDHEAP_INIT;
static int poll_set, listener;
static struct sockaddr_in address = {.sin_family = AF_INET};
static atomic_uint opened, closed, ended_early, stale;
static atomic_bool over;

static void needs(bool is_so, const char *what) {
    if (is_so) return;
    perror(what);
    exit(1);
}

static bool is_done(uint32_t code) {
    needs(code == SHARDHEAP_OK || code == SHARDHEAP_GONE, shardheap_name(code));
    return code == SHARDHEAP_OK;
}

/* After each call that may end a key: nobody uses its descriptor any more. */
static void closes(const shardheap_ended *ended) {
    if (ended->key == 0) return;
    needs(close((int)ended->words[0]) == 0, "a descriptor is closed once");
    closed++;
}

static bool gets(shardheap_pass *pass, uint64_t key) {
    shardheap_ended ended;
    bool done = is_done(shardheap_get_ended(pass, key, &ended));
    closes(&ended);
    return done;
}

static bool removes(shardheap_pass *pass, uint64_t key) {
    shardheap_ended ended;
    bool done = is_done(shardheap_remove_ended(pass, key, &ended));
    closes(&ended);
    return done;
}

static void releases(shardheap_pass *pass, uint64_t key) {
    shardheap_ended ended;
    (void)is_done(shardheap_release_ended(pass, key, &ended));
    closes(&ended);
}

/* The hold keeps the descriptor open until it is in the set. */
static void begin(shardheap_pass *pass) {
    uint64_t words[1], key = 0;
    int descriptor = accept(listener, NULL, NULL);
    if (descriptor < 0) return; /* another worker was first */
    words[0] = (uint64_t)descriptor;
    needs(shardheap_insert(pass, words, 1, &key) == SHARDHEAP_OK, "room for a connection");
    opened++;
    if (!gets(pass, key)) return;
    struct epoll_event event = {EPOLLIN | EPOLLET, {.u64 = key}};
    needs(epoll_ctl(poll_set, EPOLL_CTL_ADD, descriptor, &event) == 0, "epoll_ctl");
    releases(pass, key);
}

/* Sends back what a connection received: false at its end. */
static bool answers(int descriptor) {
    char text[8];
    ssize_t count = recv(descriptor, text, sizeof text, MSG_DONTWAIT);
    if (count < 0) return errno == EAGAIN; /* another worker has it */
    return count == 8 && send(descriptor, text, sizeof text, MSG_NOSIGNAL) == 8;
}

static void serve(shardheap_pass *pass, uint64_t key) {
    uint64_t descriptor, length;
    if (!gets(pass, key)) {
        stale++;
        return;
    }
    needs(shardheap_read(pass, key, &descriptor, 1, &length) == SHARDHEAP_OK, "a value that is held");
    if (!answers((int)descriptor)) (void)removes(pass, key);
    releases(pass, key);
}

static void *works(void *of_thread) {
    struct epoll_event event;
    shardheap_pass *pass = of_thread;
    while (epoll_wait(poll_set, &event, 1, -1) == 1 && event.data.u64 != STOP) {
        if (event.data.u64 == LISTENER) begin(pass);
        else serve(pass, event.data.u64);
    }
    return NULL;
}

/* Ends connections, while they are served, and at last all of them. */
static void *cleans(void *of_thread) {
    shardheap_pass *pass = of_thread;
    shardheap_live_key met = {0, 0, 0, {0}};
    while (!over || closed != opened) {
        if (shardheap_next_live(pass, met.behind, UINT64_MAX, &met) == SHARDHEAP_OK) (void)removes(pass, met.key);
        else met.behind = 0;
        usleep(100);
    }
    return NULL;
}

/* A client has one connection after the other. It gets back what it sends, or finds that the server ended it. */
static void *talks(void *number) {
    char mine[8] = "client  ", back[8];
    mine[7] = *(const char *)number;
    for (int n = 0; n < CONNECTIONS; n++) {
        int descriptor = socket(AF_INET, SOCK_STREAM, 0), told = 0;
        needs(connect(descriptor, (struct sockaddr *)&address, sizeof address) == 0, "connect");
        while (told < MESSAGES && send(descriptor, mine, 8, MSG_NOSIGNAL) == 8 &&
               recv(descriptor, back, 8, MSG_WAITALL) == 8) {
            needs(memcmp(mine, back, 8) == 0, "no other client's message");
            told++;
        }
        ended_early += told < MESSAGES;
        close(descriptor);
    }
    return NULL;
}

int main(void) {
    socklen_t size = sizeof address;
    shardheap_pass passes[WORKERS + 1];
    pthread_t workers[WORKERS], janitor, clients[CLIENTS];
    int stop[2];
    address.sin_addr.s_addr = htonl(INADDR_LOOPBACK);
    needs(shardheap_open_growing(&connections, WORKERS, 100, 1, WORKERS + 1, 64) == SHARDHEAP_OK, "the heap");
    memset(passes, 0, sizeof passes);
    for (int n = 0; n <= WORKERS; n++) needs(shardheap_take(&connections, &passes[n]) == SHARDHEAP_OK, "a pass");
    listener = socket(AF_INET, SOCK_STREAM | SOCK_NONBLOCK, 0);
    needs(bind(listener, (struct sockaddr *)&address, size) == 0 && listen(listener, 64) == 0, "listen");
    needs(getsockname(listener, (struct sockaddr *)&address, &size) == 0, "getsockname");
    poll_set = epoll_create1(0);
    struct epoll_event event = {EPOLLIN, {.u64 = LISTENER}};
    needs(poll_set >= 0 && epoll_ctl(poll_set, EPOLL_CTL_ADD, listener, &event) == 0 && pipe(stop) == 0, "epoll");
    for (int n = 0; n < WORKERS; n++) needs(pthread_create(&workers[n], NULL, works, &passes[n]) == 0, "a thread");
    needs(pthread_create(&janitor, NULL, cleans, &passes[WORKERS]) == 0, "a thread");
    for (int n = 0; n < CLIENTS; n++) needs(pthread_create(&clients[n], NULL, talks, &"01"[n]) == 0, "a thread");
    for (int n = 0; n < CLIENTS; n++) pthread_join(clients[n], NULL);
    while (opened < CLIENTS * CONNECTIONS) usleep(100); /* (the last ones may still wait at the listener) */
    over = true;
    pthread_join(janitor, NULL);
    event.data.u64 = STOP;
    needs(epoll_ctl(poll_set, EPOLL_CTL_ADD, stop[0], &event) == 0 && close(stop[1]) == 0, "stop");
    for (int n = 0; n < WORKERS; n++) pthread_join(workers[n], NULL);
    printf("%u connections were closed, %u of them by the server; %u events were out of date\n", closed, ended_early,
           stale);
    for (int n = 0; n <= WORKERS; n++) (void)shardheap_pass_close(&passes[n]);
    shardheap_close(&connections);
    close(listener);
    close(poll_set);
    close(stop[0]);
    return closed != CLIENTS * CONNECTIONS;
}
