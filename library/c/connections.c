/* A server's table of connections, under epoll. An event has the key of its connection, and not its descriptor: the
   system uses a descriptor again as soon as it is closed, so that an event which is out of date would be taken for one
   of another connection. A key is never used again, and finds nothing. */
#include "shardheap_table.h"
#include <arpa/inet.h>
#include <pthread.h>
#include <stdio.h>
#include <stdlib.h>
#include <sys/epoll.h>
#include <sys/socket.h>
#include <unistd.h>

enum { WORKERS = 4, CLIENTS = 200, MESSAGES = 5 };

/* The numbers of other events. No key of a table of 64 chunks has bit 63. */
#define LISTENER UINT64_MAX
#define STOP (UINT64_MAX - 1)

static shardheap_table connections = SHARDHEAP_INIT;
static int poll_set, listener;

static void needs(int is_so, const char *what) {
    if (is_so) return;
    perror(what);
    exit(1);
}

/* Asks for one event of a connection, so that one worker at a time has it. */
static int watch(int how, int descriptor, uint64_t key) {
    struct epoll_event event = {EPOLLIN | EPOLLONESHOT, {.u64 = key}};
    return epoll_ctl(poll_set, how, descriptor, &event);
}

/* The caller that takes the key closes the connection. No other does. */
static void end(uint64_t key) {
    uint64_t descriptor, length;
    if (shardheap_table_take(&connections, key, &descriptor, 1, &length) == SHARDHEAP_OK) close((int)descriptor);
}

static void begin(void) {
    int descriptor = accept(listener, NULL, NULL);
    (void)watch(EPOLL_CTL_MOD, listener, LISTENER);
    if (descriptor < 0) return;
    uint64_t words[1] = {(uint64_t)descriptor}, key = 0;
    uint32_t code = shardheap_table_insert(&connections, words, 1, &key);
    if (code != SHARDHEAP_OK) {
        fprintf(stderr, "a connection is refused: %s\n", shardheap_name(code));
        close(descriptor);
    } else if (watch(EPOLL_CTL_ADD, descriptor, key) != 0) {
        end(key);
    }
}

/* Sends back what a connection received. */
static void serve(uint64_t key) {
    uint64_t descriptor, length;
    char text[64];
    if (shardheap_table_get(&connections, key, &descriptor, 1, &length) != SHARDHEAP_OK) return; /* it has ended */
    ssize_t count = read((int)descriptor, text, sizeof text);
    if (count <= 0 || write((int)descriptor, text, (size_t)count) != count ||
        watch(EPOLL_CTL_MOD, (int)descriptor, key) != 0)
        end(key);
}

static void *works(void *none) {
    struct epoll_event event;
    while (epoll_wait(poll_set, &event, 1, -1) == 1) {
        if (event.data.u64 == STOP) return none;
        if (event.data.u64 == LISTENER) begin();
        else serve(event.data.u64);
    }
    return none;
}

/* A client sends messages, and counts those that come back. */
static int talks(struct sockaddr_in address) {
    int count = 0, descriptor = socket(AF_INET, SOCK_STREAM, 0);
    char back[8];
    needs(connect(descriptor, (struct sockaddr *)&address, sizeof address) == 0, "connect");
    for (int n = 0; n < MESSAGES; n++)
        count += write(descriptor, "message", 8) == 8 && recv(descriptor, back, 8, MSG_WAITALL) == 8;
    close(descriptor);
    return count;
}

int main(void) {
    struct sockaddr_in address = {.sin_family = AF_INET, .sin_addr = {htonl(INADDR_LOOPBACK)}};
    socklen_t size = sizeof address;
    pthread_t workers[WORKERS];
    int stop[2], count = 0;
    needs(shardheap_table_open(&connections) == SHARDHEAP_OK, "the table");
    listener = socket(AF_INET, SOCK_STREAM, 0);
    needs(bind(listener, (struct sockaddr *)&address, size) == 0 && listen(listener, 64) == 0, "listen");
    needs(getsockname(listener, (struct sockaddr *)&address, &size) == 0, "getsockname");
    poll_set = epoll_create1(0);
    needs(poll_set >= 0 && watch(EPOLL_CTL_ADD, listener, LISTENER) == 0 && pipe(stop) == 0, "epoll");
    for (int n = 0; n < WORKERS; n++) needs(pthread_create(&workers[n], NULL, works, NULL) == 0, "a thread");
    for (int n = 0; n < CLIENTS; n++) count += talks(address);
    while (shardheap_table_length(&connections) != 0) usleep(1000); /* the last ones end */
    struct epoll_event event = {EPOLLIN, {.u64 = STOP}};
    needs(epoll_ctl(poll_set, EPOLL_CTL_ADD, stop[0], &event) == 0 && close(stop[1]) == 0, "stop");
    for (int n = 0; n < WORKERS; n++) pthread_join(workers[n], NULL);
    printf("%d messages came back, and %llu connections are open\n", count,
           (unsigned long long)shardheap_table_length(&connections));
    shardheap_table_close(&connections);
    close(listener);
    close(poll_set);
    close(stop[0]);
    return count != CLIENTS * MESSAGES;
}
