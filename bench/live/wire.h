// One end of a link that a node makes to a hub: plain sockets, WebSocket frames (RFC 6455) and BACnet/SC messages by
// hand. It keeps what a driver costs small beside what a hub costs. docs/FORMAT.md draws the messages.
#ifndef WIRE_H
#define WIRE_H

#include <arpa/inet.h>
#include <errno.h>
#include <netinet/in.h>
#include <netinet/tcp.h>
#include <poll.h>
#include <stdarg.h>
#include <stdbool.h>
#include <stdint.h>
#include <stdio.h>
#include <stdlib.h>
#include <string.h>
#include <sys/socket.h>
#include <time.h>
#include <unistd.h>

enum { BINARY = 2, CLOSE = 8, PING = 9, PONG = 10 };
enum { ENCAPSULATED_NPDU = 0x01, CONNECT_REQUEST = 0x06, CONNECT_ACCEPT = 0x07, DISCONNECT_REQUEST = 0x08,
       DISCONNECT_ACK = 0x09, HEARTBEAT_REQUEST = 0x0A, HEARTBEAT_ACK = 0x0B };
enum { LONGEST = 1600, LONGEST_NPDU = 1497 };

_Noreturn static void fail(const char *form, ...) {
    va_list words;
    va_start(words, form);
    fflush(stdout);
    fputs("live: ", stderr);
    vfprintf(stderr, form, words);
    fputc('\n', stderr);
    va_end(words);
    exit(1);
}

// Nanoseconds of a clock that only goes forward.
static inline uint64_t now(void) {
    struct timespec t;
    clock_gettime(CLOCK_MONOTONIC, &t);
    return (uint64_t)t.tv_sec * 1000000000u + (uint64_t)t.tv_nsec;
}

static inline void write_number(uint8_t *to, uint64_t number, int octets) {
    for (int i = octets - 1; i >= 0; i--, number >>= 8) to[i] = (uint8_t)number;
}

static inline uint64_t read_number(const uint8_t *from, int octets) {
    uint64_t number = 0;
    for (int i = 0; i < octets; i++) number = number << 8 | from[i];
    return number;
}

// Octets between two places; what stands before `from` is done with.
struct octets {
    uint8_t *at;
    size_t from, to, room;
};

static inline uint8_t *make_room(struct octets *o, size_t more) {
    if (o->from == o->to) o->from = o->to = 0;
    if (o->to + more > o->room) {
        if (o->from > 0) {
            memmove(o->at, o->at + o->from, o->to - o->from);
            o->to -= o->from;
            o->from = 0;
        }
        if (o->to + more > o->room) {
            o->room = 2 * (o->to + more);
            o->at = realloc(o->at, o->room);
            if (!o->at) fail("no memory");
        }
    }
    return o->at + o->to;
}

// A link with what has come and isn't read yet, and what is to be sent.
struct link {
    int socket;
    struct octets in, out;
    uint32_t mask;
};

struct frame {
    int operation;
    const uint8_t *payload;  // until the next octets come
    size_t length;
};

// Puts a masked frame behind what is to be sent.
static inline void put_frame(struct link *l, int operation, const uint8_t *payload, size_t length) {
    uint8_t *to = make_room(&l->out, length + 14);
    size_t head;
    to[0] = (uint8_t)(0x80 | operation);
    if (length < 126) {
        to[1] = (uint8_t)(0x80 | length);
        head = 2;
    } else if (length < 65536) {
        to[1] = 0x80 | 126;
        write_number(to + 2, length, 2);
        head = 4;
    } else {
        to[1] = 0x80 | 127;
        write_number(to + 2, length, 8);
        head = 10;
    }
    l->mask = l->mask * 1664525u + 1013904223u;
    uint8_t key[8];
    write_number(key, l->mask, 4);
    memcpy(key + 4, key, 4);
    memcpy(to + head, key, 4);
    to += head + 4;
    uint64_t wide, word;
    memcpy(&wide, key, 8);
    size_t i = 0;
    for (; i + 8 <= length; i += 8) {
        memcpy(&word, payload + i, 8);
        word ^= wide;
        memcpy(to + i, &word, 8);
    }
    for (; i < length; i++) to[i] = payload[i] ^ key[i % 4];
    l->out.to += head + 4 + length;
}

// Sends what the socket takes. False where the connection has failed.
static inline bool send_some(struct link *l) {
    while (l->out.from < l->out.to) {
        ssize_t n = send(l->socket, l->out.at + l->out.from, l->out.to - l->out.from, MSG_NOSIGNAL);
        if (n < 0 && errno == EINTR) continue;
        if (n < 0) return errno == EAGAIN || errno == EWOULDBLOCK;
        l->out.from += (size_t)n;
    }
    return true;
}

// Takes the next whole frame of what has come. Hubs send messages in one frame each, unmasked.
static inline bool take_frame(struct link *l, struct frame *f) {
    const uint8_t *at = l->in.at + l->in.from;
    size_t there = l->in.to - l->in.from, head = 2;
    if (there < 2) return false;
    if (!(at[0] & 0x80) || (at[0] & 0x70) || (at[1] & 0x80)) fail("a frame that is no whole message begins %02X%02X", at[0], at[1]);
    uint64_t length = at[1];
    if (length >= 126) {
        int octets = length == 126 ? 2 : 8;
        head += (size_t)octets;
        if (there < head) return false;
        length = read_number(at + 2, octets);
    }
    if (there < head + length) return false;
    *f = (struct frame){at[0] & 0x0F, at + head, (size_t)length};
    l->in.from += head + length;
    return true;
}

// Receives once what has come: how many octets, 0 where there are none now, -1 where the stream has ended.
static inline ssize_t receive_some(struct link *l) {
    uint8_t *to = make_room(&l->in, 65536);
    for (;;) {
        ssize_t n = recv(l->socket, to, l->in.room - l->in.to, 0);
        if (n > 0) l->in.to += (size_t)n;
        if (n > 0) return n;
        if (n < 0 && errno == EINTR) continue;
        return n < 0 && (errno == EAGAIN || errno == EWOULDBLOCK) ? 0 : -1;
    }
}

enum next { FRAME, NOTHING, ENDED };

// Waits for the next frame, at most as long as told; the socket may be one that blocks or not.
static inline enum next next_frame(struct link *l, struct frame *f, int milliseconds) {
    uint64_t until = now() + (uint64_t)milliseconds * 1000000u;
    while (!take_frame(l, f)) {
        uint64_t at = now();
        struct pollfd waits = {l->socket, POLLIN, 0};
        int n = poll(&waits, 1, at < until ? (int)((until - at + 999999) / 1000000) : 0);
        if (n < 0 && errno == EINTR) continue;
        if (n == 0) {
            if (now() >= until) return NOTHING;
            continue;
        }
        if (receive_some(l) < 0) return ENDED;
    }
    return FRAME;
}

// Begins a link to a hub on this machine, with a buffer for what comes of as many octets as told, or the usual one: its
// connection is made, and its upgrade asked for. The key and its answer are those of RFC 6455, section 1.3. False where
// the hub took no connection.
static inline bool begin_link(struct link *l, int port, int receive_buffer) {
    static const char asked[] =
        "GET / HTTP/1.1\r\nHost: 127.0.0.1\r\nUpgrade: websocket\r\nConnection: Upgrade\r\n"
        "Sec-WebSocket-Key: dGhlIHNhbXBsZSBub25jZQ==\r\nSec-WebSocket-Version: 13\r\n"
        "Sec-WebSocket-Protocol: hub.bsc.bacnet.org\r\n\r\n";
    struct sockaddr_in to = {.sin_family = AF_INET, .sin_port = htons((uint16_t)port)};
    to.sin_addr.s_addr = htonl(INADDR_LOOPBACK);
    int yes = 1;
    *l = (struct link){.socket = socket(AF_INET, SOCK_STREAM | SOCK_CLOEXEC, 0), .mask = 0x9E3779B9u};
    if (l->socket < 0) fail("no socket: %s", strerror(errno));
    if (receive_buffer) setsockopt(l->socket, SOL_SOCKET, SO_RCVBUF, &receive_buffer, sizeof receive_buffer);
    setsockopt(l->socket, IPPROTO_TCP, TCP_NODELAY, &yes, sizeof yes);
    if (connect(l->socket, (struct sockaddr *)&to, sizeof to) < 0) return false;
    return send(l->socket, asked, sizeof asked - 1, MSG_NOSIGNAL) == (ssize_t)sizeof asked - 1;
}

enum upgrade { UPGRADED, PENDING, REFUSED };

// Reads the answer to an upgrade of what has come.
static inline enum upgrade take_upgrade(struct link *l) {
    make_room(&l->in, 1)[0] = 0;
    if (l->in.from == l->in.to) return PENDING;
    char *head = (char *)l->in.at, *end = strstr(head, "\r\n\r\n");
    if (!end) return PENDING;
    if (strncmp(head, "HTTP/1.1 101", 12)) return REFUSED;
    if (!strstr(head, "s3pPLMBiTxaQ9kYGzzhZRbK+xOo=")) fail("another Sec-WebSocket-Accept");
    if (!strstr(head, "hub.bsc.bacnet.org")) fail("another sub-protocol");
    l->in.from += (size_t)(end + 4 - head);
    return UPGRADED;
}

// Opens a link, as begin_link and take_upgrade do. False where the hub took no link.
static inline bool open_link(struct link *l, int port, int receive_buffer) {
    if (!begin_link(l, port, receive_buffer)) return false;
    for (;;) {
        struct pollfd waits = {l->socket, POLLIN, 0};
        if (poll(&waits, 1, 20000) == 0) return false;
        if (receive_some(l) < 0) return false;
        enum upgrade answer = take_upgrade(l);
        if (answer != PENDING) return answer == UPGRADED;
    }
}

static inline void close_link(struct link *l) {
    close(l->socket);
    free(l->in.at);
    free(l->out.at);
    *l = (struct link){.socket = -1};
}

// Ends a connection by a reset, as one sees of a machine that lost its power and came back.
static inline void reset_link(struct link *l) {
    struct linger none = {1, 0};
    setsockopt(l->socket, SOL_SOCKET, SO_LINGER, &none, sizeof none);
    close_link(l);
}

// Who connects: a VMAC and a device that no other number has.
struct identity {
    uint8_t vmac[6], device[16];
};

static inline struct identity identity_of(uint32_t number, uint32_t device) {
    struct identity who = {.vmac = {0x02, 0x11}, .device = {0xB5, 0xC0, 0, 0, 0, 0, 0x40, 0, 0x80}};
    write_number(who.vmac + 2, number, 4);
    write_number(who.device + 12, device, 4);
    return who;
}

static inline void put_message(struct link *l, const uint8_t *message, size_t length) {
    put_frame(l, BINARY, message, length);
}

// A message of four octets: a heartbeat, a disconnect, or the answer to one.
static inline void put_short(struct link *l, int function, uint16_t id) {
    uint8_t message[4] = {(uint8_t)function, 0, (uint8_t)(id >> 8), (uint8_t)id};
    put_message(l, message, 4);
}

static inline bool is_short(const struct frame *f, int function, uint16_t id) {
    return f->operation == BINARY && f->length == 4 && f->payload[0] == function && f->payload[1] == 0 &&
           read_number(f->payload + 2, 2) == id;
}

static inline void put_connect_request(struct link *l, const struct identity *who, uint16_t id) {
    uint8_t message[30] = {CONNECT_REQUEST, 0, (uint8_t)(id >> 8), (uint8_t)id};
    memcpy(message + 4, who->vmac, 6);
    memcpy(message + 10, who->device, 16);
    write_number(message + 26, LONGEST, 2);
    write_number(message + 28, LONGEST_NPDU, 2);
    put_message(l, message, 30);
}

static inline bool is_connect_accept(const struct frame *f, uint16_t id) {
    return f->operation == BINARY && f->length == 30 && f->payload[0] == CONNECT_ACCEPT && f->payload[1] == 0 &&
           read_number(f->payload + 2, 2) == id;
}

// Opens a link and joins; what comes before the Connect-Accept is wrong.
static inline void join(struct link *l, int port, const struct identity *who, int receive_buffer) {
    struct frame f;
    if (!open_link(l, port, receive_buffer)) fail("the hub took no link");
    put_connect_request(l, who, 0);
    if (!send_some(l)) fail("a Connect-Request can't be sent");
    if (next_frame(l, &f, 20000) != FRAME || !is_connect_accept(&f, 0)) fail("no Connect-Accept came");
}

// The messages that are measured with: an Encapsulated-NPDU whose octets say who sent it, for whom, as which one of
// these two, and when. All that is left of them is a pattern of the same three numbers.
enum { EVERYONE = 0xFFFFFFFF, SHORTEST = 10 + 28, PATTERN = 4096 };

struct content {
    uint32_t from, to;
    uint64_t number, sent_at;
};

static uint8_t pattern[PATTERN + LONGEST];

static inline void make_pattern(void) {
    uint32_t word = 12345;
    for (size_t i = 0; i < sizeof pattern; i++) {
        word = word * 1664525u + 1013904223u;
        pattern[i] = (uint8_t)(word >> 24);
    }
}

static inline const uint8_t *pattern_of(const struct content *c) {
    return pattern + (c->number * 31 + c->from * 7 + c->to * 5) % PATTERN;
}

static inline void put_npdu(struct link *l, const uint8_t *vmac, const struct content *c, size_t length) {
    uint8_t message[LONGEST] = {ENCAPSULATED_NPDU, 0x04, (uint8_t)(c->number >> 8), (uint8_t)c->number};
    memcpy(message + 4, vmac, 6);
    memcpy(message + 10, "\x01\x00\x10\x08", 4);
    write_number(message + 14, c->from, 4);
    write_number(message + 18, c->to, 4);
    write_number(message + 22, c->number, 8);
    write_number(message + 30, c->sent_at, 8);
    memcpy(message + SHORTEST, pattern_of(c), length - SHORTEST);
    put_message(l, message, length);
}

// Reads an NPDU that a hub passed on, and compares all of it but the sender's VMAC, which is given back. The length is
// that with which it was sent; 0 where it may be any.
static inline const uint8_t *read_npdu(const struct frame *f, struct content *c, size_t length) {
    const uint8_t *m = f->payload;
    static const uint8_t everyone[6] = {255, 255, 255, 255, 255, 255};
    if (f->operation != BINARY || f->length < SHORTEST || m[0] != ENCAPSULATED_NPDU) return NULL;
    size_t more = m[1] == 0x0C ? 6 : 0;
    if ((m[1] != 0x08 && m[1] != 0x0C) || f->length < SHORTEST + more || (length && f->length != length + more)) return NULL;
    if (more && memcmp(m + 10, everyone, 6)) return NULL;
    const uint8_t *npdu = m + 10 + more;
    c->from = (uint32_t)read_number(npdu + 4, 4);
    c->to = (uint32_t)read_number(npdu + 8, 4);
    c->number = read_number(npdu + 12, 8);
    c->sent_at = read_number(npdu + 20, 8);
    if (memcmp(npdu, "\x01\x00\x10\x08", 4) || (c->to == EVERYONE) != (more > 0)) return NULL;
    if (read_number(m + 2, 2) != (c->number & 0xFFFF)) return NULL;
    if (memcmp(npdu + 28, pattern_of(c), f->length - more - SHORTEST)) return NULL;
    return m + 4;
}

// What a process has used of the processor, in nanoseconds, user and system together, with all its threads.
static inline uint64_t used_by(int process) {
    char path[64], line[1024];
    snprintf(path, sizeof path, "/proc/%d/stat", process);
    FILE *file = fopen(path, "r");
    if (!file || !fgets(line, sizeof line, file)) fail("there is no process %d", process);
    fclose(file);
    unsigned long long user, system;
    if (sscanf(strrchr(line, ')'), ") %*c %*d %*d %*d %*d %*d %*u %*u %*u %*u %*u %llu %llu", &user, &system) != 2) fail("%s can't be read", path);
    return (user + system) * (1000000000ull / (uint64_t)sysconf(_SC_CLK_TCK));
}

// A number of a process as /proc/PID/status has it: VmRSS, VmHWM in KiB, Threads.
static inline long status_of(int process, const char *name) {
    char path[64], line[256];
    long number = -1;
    snprintf(path, sizeof path, "/proc/%d/status", process);
    FILE *file = fopen(path, "r");
    if (!file) return -1;
    while (fgets(line, sizeof line, file))
        if (!strncmp(line, name, strlen(name)) && line[strlen(name)] == ':') number = atol(line + strlen(name) + 1);
    fclose(file);
    return number;
}
#endif
