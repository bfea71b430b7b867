// What a thread a connection costs: a relay with the shape of bsc's hub and none of its checks, proofs or history. Each
// connection has a thread, which waits by epoll for its socket and for a wake; one lock stands over who is joined; each
// connection has an outbox of its own; each frame leaves by one call. It shares no line with bsc, and does what driver.c
// asks for alone: it answers the one key that wire.h sends, and takes no frame in parts.
//
//     limit [SHAPE] PORT LINKS
//     limit --journal PREFIX PORT LINKS
//
// It listens at 127.0.0.1, and after so many links it writes the counts that `bsc hub --sessions` writes, and ends.
//
// With a prefix each connection has a file, PREFIX.NUMBER, into which its thread writes a line for each message that it passes
// on, as long as the hub's own line of it, by one call, before it does anything else. It is there to learn what such a line costs.
//
// Other shapes need fewer descriptors a connection, and are there to learn what they cost:
//
//     epoll      the hub's own, and what it is without a word: a socket, an eventfd, and an epoll that waits for both
//     ppoll      a socket, an eventfd, and a ppoll that waits for both
//     threads    a socket, and two threads: one waits in recv, the other by a futex for its outbox, and sends
//     direct     a socket, and one thread that waits in recv: who sends puts the frame into the receiver's socket, under the
//                receiver's lock. A socket that takes no more is as an outbox that is full
#define _GNU_SOURCE
#include "wire.h"

#include <fcntl.h>
#include <linux/futex.h>
#include <pthread.h>
#include <stdatomic.h>
#include <sys/epoll.h>
#include <sys/eventfd.h>
#include <sys/syscall.h>

enum { OUTBOX = 64, TURN = 16, SLOTS = 4096 };
static enum shape { EPOLL, PPOLL, THREADS, DIRECT } shape;
static const char *const shapes[] = {"epoll", "ppoll", "threads", "direct"};

// A message as it leaves, behind the head of its frame. A broadcast lies in many outboxes.
struct message {
    atomic_uint holders;
    uint32_t length;
    uint8_t octets[];
};

struct peer {
    struct link link;
    int watch, wake, code, journal;
    atomic_bool joined, closing;
    uint8_t vmac[6], device[16];
    size_t longest;
    const char *reason;
    // Filled by whoever has the lock, emptied by the peer's own thread.
    struct message *outbox[OUTBOX];
    atomic_uint put, taken, asleep;
    atomic_bool ended;
    struct peer *next, *before, *after;
    // Where others send, too: who does so has this lock, and the peer is there while one holds it.
    pthread_mutex_t sending;
    atomic_uint holders;
};

static const uint8_t hub_identity[26] = {0x02, 0,    0,    0,    0,    0xFF, 0x00, 0x11, 0x22, 0x33, 0x44, 0x55, 0x66,
                                         0x77, 0x88, 0x99, 0xAA, 0xBB, 0xCC, 0xDD, 0xEE, 0xFF, 0x06, 0x40, 0x05, 0xD9};
static const uint8_t everyone[6] = {255, 255, 255, 255, 255, 255};
static pthread_mutex_t lock = PTHREAD_MUTEX_INITIALIZER;
static struct peer *by_vmac[SLOTS], *live;
static unsigned long joined, replaced, refused, unicasts, broadcasts, appended, dropped, full, missed;
static long links, left;
static const char *prefix;
static uint8_t digits[256][2];

static struct peer **slot(const uint8_t *vmac) {
    uint32_t hash = 2166136261u;
    for (size_t i = 0; i < 6; i++) hash = (hash ^ vmac[i]) * 16777619u;
    return &by_vmac[(hash ^ hash >> 16) % SLOTS];
}

static struct peer *holder_of(const uint8_t *vmac) {
    struct peer *p = *slot(vmac);
    while (p && memcmp(p->vmac, vmac, 6)) p = p->next;
    return p;
}

static void unlist(struct peer *p) {
    if (!p->joined) return;
    struct peer **at = slot(p->vmac);
    while (*at != p) at = &(*at)->next;
    *at = p->next;
    *(p->before ? &p->before->after : &live) = p->after;
    if (p->after) p->after->before = p->before;
    p->joined = false;
}

static void wake(struct peer *p) {
    uint64_t one = 1;
    if (!atomic_load(&p->asleep) || !atomic_exchange(&p->asleep, false)) return;
    if (shape == THREADS) syscall(SYS_futex, &p->asleep, FUTEX_WAKE_PRIVATE, 1, NULL, NULL, 0);
    else if (write(p->wake, &one, 8) != 8) abort();
}

static void let_peer_go(struct peer *p) {
    if (atomic_fetch_sub(&p->holders, 1) > 1) return;
    close_link(&p->link);
    free(p);
}

// Where the peer's own thread alone sends, nobody is to be kept out.
static void begin_sending(struct peer *p) {
    if (shape >= THREADS) pthread_mutex_lock(&p->sending);
}

static void end_sending(struct peer *p) {
    if (shape >= THREADS) pthread_mutex_unlock(&p->sending);
}

// What is written in place of a frame of its own: what comes of the peer itself is answered at once.
static void send_all(struct peer *p, const uint8_t *octets, size_t length) {
    while (length > 0 && !p->closing) {
        ssize_t n = send(p->link.socket, octets, length, MSG_NOSIGNAL);
        if (n < 0 && errno == EINTR) continue;
        if (n < 0) p->closing = true;
        else octets += n, length -= (size_t)n;
    }
}

static void reply(struct peer *p, int operation, const uint8_t *payload, size_t length) {
    uint8_t frame[128] = {(uint8_t)(0x80 | operation), (uint8_t)length};
    memcpy(frame + 2, payload, length);
    begin_sending(p);
    send_all(p, frame, length + 2);
    end_sending(p);
}

static void close_with(struct peer *p, int code, const char *reason) {
    uint8_t payload[64] = {(uint8_t)(code >> 8), (uint8_t)code};
    memcpy(payload + 2, reason, strlen(reason));
    begin_sending(p);
    reply(p, CLOSE, payload, 2 + strlen(reason));
    p->closing = true;
    end_sending(p);
}

// A peer that is ended by another: one that is replaced is asked to leave first.
static void close_ended(struct peer *p) {
    const uint8_t request[4] = {DISCONNECT_REQUEST, 0, 0, 1};
    begin_sending(p);
    if (!p->closing) {
        if (p->code == 1000) reply(p, BINARY, request, 4);
        close_with(p, p->code, p->reason);
    }
    end_sending(p);
}

// Puts a frame into the socket of another one, which is held. False where the socket takes no more: a broadcast is missed
// then. Behind a unicast that isn't there, and behind a part of a frame, nothing may follow.
static bool send_direct(struct peer *to, const struct message *m, bool to_all) {
    ssize_t n = m->length;
    begin_sending(to);
    if (!to->closing) {
        n = send(to->link.socket, m->octets, m->length, MSG_NOSIGNAL | MSG_DONTWAIT);
        // Where the connection has failed, the thread that receives finds it.
        if (n < 0 && errno != EAGAIN) n = m->length;
        if (n != (ssize_t)m->length && (n > 0 || !to_all)) {
            to->closing = true;
            shutdown(to->link.socket, SHUT_RDWR);
        }
    }
    end_sending(to);
    return n == (ssize_t)m->length;
}

static bool append(struct peer *p, struct message *m) {
    unsigned put = atomic_load_explicit(&p->put, memory_order_relaxed);
    if (put - atomic_load_explicit(&p->taken, memory_order_acquire) == OUTBOX) return false;
    atomic_fetch_add_explicit(&m->holders, 1, memory_order_relaxed);
    p->outbox[put % OUTBOX] = m;
    atomic_store(&p->put, put + 1);
    appended++;
    wake(p);
    return true;
}

static void end(struct peer *p, int code, const char *reason) {
    unlist(p);
    p->code = code;
    p->reason = reason;
    atomic_store(&p->ended, true);
    if (shape != DIRECT) wake(p);
}

static void connect_request(struct peer *p, const uint8_t *m) {
    uint8_t accept[30] = {CONNECT_ACCEPT, 0, m[2], m[3]}, nak[11] = {0, 0, m[2], m[3], CONNECT_REQUEST, 1, 0, 0, 7, 0, 0x97};
    memcpy(accept + 4, hub_identity, 26);
    // Nobody sends anything before the Connect-Accept.
    begin_sending(p);
    pthread_mutex_lock(&lock);
    struct peer *holder = holder_of(m + 4);
    bool may = !holder || !memcmp(holder->device, m + 10, 16);
    if (may) {
        if (holder) end(holder, 1000, ""), replaced++, atomic_fetch_add(&holder->holders, 1);
        memcpy(p->vmac, m + 4, 6);
        memcpy(p->device, m + 10, 16);
        p->longest = (size_t)read_number(m + 26, 2);
        p->next = *slot(p->vmac);
        *slot(p->vmac) = p;
        p->after = live;
        if (live) live->before = p;
        live = p;
        p->joined = true;
        joined++;
    } else refused++;
    pthread_mutex_unlock(&lock);
    if (may) reply(p, BINARY, accept, 30);
    else reply(p, BINARY, nak, 11), close_with(p, 1000, "");
    end_sending(p);
    if (!may || !holder) return;
    if (shape == DIRECT) close_ended(holder);
    let_peer_go(holder);
}

// The message as it leaves, with the head of its frame.
static struct message *passed_on(const struct peer *p, const uint8_t *m, size_t length, bool to_all) {
    size_t whole = to_all ? length + 6 : length, head = whole < 126 ? 2 : 4;
    struct message *out = malloc(sizeof *out + head + whole);
    if (!out) abort();
    uint8_t *to = out->octets + head;
    out->octets[0] = 0x80 | BINARY;
    out->octets[1] = whole < 126 ? (uint8_t)whole : 126;
    if (head == 4) write_number(out->octets + 2, whole, 2);
    to[0] = m[0];
    to[1] = (uint8_t)(to_all ? m[1] | 0x08 : (m[1] | 0x08) & ~0x04);
    memcpy(to + 2, m + 2, 2);
    memcpy(to + 4, p->vmac, 6);
    memcpy(to + 10, to_all ? m + 4 : m + 10, whole - 10);
    out->length = (uint32_t)(head + whole);
    atomic_init(&out->holders, 1);
    return out;
}

static void let_go(struct message *m) {
    if (atomic_fetch_sub_explicit(&m->holders, 1, memory_order_acq_rel) == 1) free(m);
}

// Who is to have the message is looked up under the lock, and what is sent is sent behind it.
static void forward_direct(struct peer *p, const uint8_t *m, size_t length) {
    bool to_all = !memcmp(m + 4, everyone, 6);
    struct message *out = passed_on(p, m, length, to_all);
    size_t whole = to_all ? length + 6 : length;
    unsigned long many = 0, sent = 0;
    struct peer *to[SLOTS];
    pthread_mutex_lock(&lock);
    for (struct peer *other = to_all ? live : holder_of(m + 4); other && many < SLOTS; other = to_all ? other->after : NULL)
        if ((!to_all || other != p) && whole <= other->longest) atomic_fetch_add(&other->holders, 1), to[many++] = other;
    *(to_all ? &broadcasts : &unicasts) += 1;
    appended += many;
    dropped += many == 0;
    pthread_mutex_unlock(&lock);
    for (unsigned long i = 0; i < many; i++) sent += send_direct(to[i], out, to_all);
    if (sent < many) {
        pthread_mutex_lock(&lock);
        appended -= many - sent;
        dropped += sent == 0;
        *(to_all ? &missed : &full) += many - sent;
        if (!to_all) unlist(to[0]);
        pthread_mutex_unlock(&lock);
    }
    for (unsigned long i = 0; i < many; i++) let_peer_go(to[i]);
    let_go(out);
}

// The line of a message that was passed on at a place, by one call. A broadcast's has no list of those who got it.
static void write_line(struct peer *p, unsigned long place, const uint8_t *m, size_t length, unsigned conn) {
    char *line = malloc(2 * length + 160);
    if (!line) abort();
    size_t at = (size_t)sprintf(line, "%lu %d forward %d ", place, p->link.socket, p->link.socket);
    for (size_t i = 0; i < length; i++, at += 2) memcpy(line + at, digits[m[i]], 2);
    at += (size_t)sprintf(line + at, " looks %u:%lu sent %u\n", conn, place, conn);
    if (write(p->journal, line, at) != (ssize_t)at) abort();
    free(line);
}

static void forward(struct peer *p, const uint8_t *m, size_t length) {
    bool to_all = !memcmp(m + 4, everyone, 6);
    struct message *out = passed_on(p, m, length, to_all);
    size_t whole = to_all ? length + 6 : length;
    pthread_mutex_lock(&lock);
    unsigned long before = appended, place = unicasts + broadcasts;
    if (to_all) {
        broadcasts++;
        for (struct peer *other = live; other; other = other->after)
            if (other != p && whole <= other->longest && !append(other, out)) missed++;
    } else {
        struct peer *holder = holder_of(m + 4);
        unicasts++;
        if (holder && whole <= holder->longest && !append(holder, out)) full++, end(holder, 1008, "outbox full");
    }
    if (appended == before) dropped++;
    pthread_mutex_unlock(&lock);
    if (p->journal >= 0) write_line(p, place, m, length, (unsigned)p->link.socket + 1);
    let_go(out);
}

// Frames that wait, at most so many as a turn of bsc's has. False where there were none.
static bool pass_out(struct peer *p) {
    begin_sending(p);
    unsigned taken = atomic_load_explicit(&p->taken, memory_order_relaxed), put = atomic_load(&p->put), sent = 0;
    for (; taken != put && sent < TURN && !p->closing; sent++) {
        struct message *m = p->outbox[taken % OUTBOX];
        atomic_store_explicit(&p->taken, ++taken, memory_order_release);
        send_all(p, m->octets, m->length);
        let_go(m);
    }
    end_sending(p);
    return sent > 0;
}

static void message(struct peer *p, const uint8_t *m, size_t length) {
    if (!p->joined && length == 30 && m[0] == CONNECT_REQUEST) {
        connect_request(p, m);
    } else if (p->joined && length >= 10 && m[0] == ENCAPSULATED_NPDU && (m[1] & 0x0C) == 0x04) {
        if (shape == DIRECT) forward_direct(p, m, length);
        else forward(p, m, length);
    } else if (length == 4 && (m[0] == HEARTBEAT_REQUEST || m[0] == DISCONNECT_REQUEST)) {
        const uint8_t ack[4] = {(uint8_t)(m[0] + 1), 0, m[2], m[3]};
        if (m[0] == DISCONNECT_REQUEST) {
            pthread_mutex_lock(&lock);
            unlist(p);
            pthread_mutex_unlock(&lock);
        }
        begin_sending(p);
        // What was sent to it before comes before the answer.
        while (pass_out(p)) {}
        reply(p, BINARY, ack, 4);
        if (m[0] == DISCONNECT_REQUEST) close_with(p, 1000, "");
        end_sending(p);
    }
}

// Takes a masked frame of what has come, and takes its mask off. 0 where there is no whole one.
static int take_masked(struct link *l, uint8_t **payload, size_t *length) {
    uint8_t *at = l->in.at + l->in.from;
    size_t there = l->in.to - l->in.from, head = 6;
    if (there < head) return 0;
    *length = at[1] & 0x7F;
    if (*length == 126) {
        head = 8;
        if (there < head) return 0;
        *length = (size_t)read_number(at + 2, 2);
    }
    if (there < head + *length) return 0;
    *payload = at + head;
    uint64_t wide = 0, word;
    memcpy(&wide, at + head - 4, 4);
    wide |= wide << 32;
    size_t i = 0;
    for (; i + 8 <= *length; i += 8) {
        memcpy(&word, *payload + i, 8);
        word ^= wide;
        memcpy(*payload + i, &word, 8);
    }
    for (; i < *length; i++) (*payload)[i] ^= at[head - 4 + i % 4];
    l->in.from += head + *length;
    return at[0] & 0x0F;
}

static void hear(struct peer *p) {
    uint8_t *to = make_room(&p->link.in, 16384), *payload;
    ssize_t n = recv(p->link.socket, to, p->link.in.room - p->link.in.to, shape < THREADS ? MSG_DONTWAIT : 0);
    if (n < 0 && (errno == EAGAIN || errno == EINTR)) return;
    if (n <= 0) p->closing = true;
    else p->link.in.to += (size_t)n;
    size_t length;
    for (int operation; !p->closing && (operation = take_masked(&p->link, &payload, &length));) {
        if (operation == BINARY) message(p, payload, length);
        else if (operation == CLOSE) p->closing = true;
    }
}

static bool answer_handshake(struct peer *p) {
    static const char answer[] =
        "HTTP/1.1 101 Switching Protocols\r\nUpgrade: websocket\r\nConnection: Upgrade\r\n"
        "Sec-WebSocket-Accept: s3pPLMBiTxaQ9kYGzzhZRbK+xOo=\r\nSec-WebSocket-Protocol: hub.bsc.bacnet.org\r\n\r\n";
    for (;;) {
        if (receive_some(&p->link) < 0) return false;
        make_room(&p->link.in, 1)[0] = 0;
        char *head = (char *)p->link.in.at, *behind = strstr(head, "\r\n\r\n");
        if (!behind) continue;
        p->link.in.from = (size_t)(behind + 4 - head);
        send_all(p, (const uint8_t *)answer, sizeof answer - 1);
        return !p->closing;
    }
}

// One turn of a thread that sends: what waits goes out, or the close where the peer is ended. True where it may sleep then.
static bool may_sleep(struct peer *p) {
    bool passed = pass_out(p);
    if (!passed && atomic_load(&p->ended)) close_ended(p);
    atomic_store(&p->asleep, true);
    return !passed && atomic_load(&p->put) == atomic_load(&p->taken) && !atomic_load(&p->ended) && !p->closing;
}

static void wait_for_both(struct peer *p, bool sleeps) {
    struct epoll_event came[2];
    struct pollfd two[2] = {{p->link.socket, POLLIN, 0}, {p->wake, POLLIN, 0}};
    bool heard = false, woken = false;
    if (shape == PPOLL) {
        static const struct timespec none = {0, 0};
        ppoll(two, 2, sleeps ? NULL : &none, NULL);
        heard = two[0].revents, woken = two[1].revents;
    } else {
        int n = epoll_wait(p->watch, came, 2, sleeps ? -1 : 0);
        for (int i = 0; i < n; i++) {
            if (came[i].data.u32 == 0) heard = true;
            else woken = true;
        }
    }
    atomic_store(&p->asleep, false);
    uint64_t count;
    if (heard) hear(p);
    if (woken && read(p->wake, &count, 8) < 0 && errno != EAGAIN) abort();
}

// The thread that sends, where another one receives.
static void *send_on(void *of) {
    struct peer *p = of;
    while (!p->closing) {
        if (may_sleep(p)) syscall(SYS_futex, &p->asleep, FUTEX_WAIT_PRIVATE, true, NULL, NULL, 0);
        atomic_store(&p->asleep, false);
    }
    return NULL;
}

static void set_up(struct peer *p) {
    int yes = 1;
    struct epoll_event both[2] = {{.events = EPOLLIN, .data.u32 = 0}, {.events = EPOLLIN, .data.u32 = 1}};
    setsockopt(p->link.socket, IPPROTO_TCP, TCP_NODELAY, &yes, sizeof yes);
    p->watch = p->wake = p->journal = -1;
    if (prefix) {
        char path[4096];
        snprintf(path, sizeof path, "%s.%d", prefix, p->link.socket);
        if ((p->journal = open(path, O_WRONLY | O_CREAT | O_TRUNC | O_CLOEXEC, 0666)) < 0) abort();
    }
    if (shape < THREADS && (p->wake = eventfd(0, EFD_CLOEXEC | EFD_NONBLOCK)) < 0) abort();
    if (shape > EPOLL) return;
    p->watch = epoll_create1(EPOLL_CLOEXEC);
    if (p->watch < 0 || epoll_ctl(p->watch, EPOLL_CTL_ADD, p->link.socket, &both[0]) || epoll_ctl(p->watch, EPOLL_CTL_ADD, p->wake, &both[1])) abort();
}

static void *serve(void *of) {
    struct peer *p = of;
    pthread_t sender;
    set_up(p);
    if (!answer_handshake(p)) p->closing = true;
    if (shape == THREADS && pthread_create(&sender, NULL, send_on, p)) abort();
    while (!p->closing) {
        if (shape >= THREADS) hear(p);
        else {
            bool sleeps = may_sleep(p);
            if (!p->closing) wait_for_both(p, sleeps);
        }
    }
    if (shape == THREADS) wake(p), pthread_join(sender, NULL);
    pthread_mutex_lock(&lock);
    unlist(p);
    bool last = ++left == links;
    pthread_mutex_unlock(&lock);
    // The peer ends the stream: what it sends behind a close is read, so that no reset takes the close from it.
    while (recv(p->link.socket, make_room(&p->link.in, 4096), 4096, 0) > 0) p->link.in.to = p->link.in.from = 0;
    for (unsigned i = atomic_load(&p->taken); i != atomic_load(&p->put); i++) let_go(p->outbox[i % OUTBOX]);
    if (p->watch >= 0) close(p->watch);
    if (p->wake >= 0) close(p->wake);
    if (p->journal >= 0) close(p->journal);
    let_peer_go(p);
    if (last) {
        printf("hub counts joined=%lu replaced=%lu refused=%lu unicasts=%lu broadcasts=%lu appended=%lu dropped=%lu full=%lu missed=%lu\n",
               joined, replaced, refused, unicasts, broadcasts, appended, dropped, full, missed);
        exit(0);
    }
    return NULL;
}

int main(int count, char **words) {
    if (count == 5 && !strcmp(words[1], "--journal")) {
        prefix = words[2];
        for (unsigned i = 0; i < 256; i++) memcpy(digits[i], (uint8_t[]){"0123456789ABCDEF"[i / 16], "0123456789ABCDEF"[i % 16]}, 2);
        words += 2, count -= 2;
    }
    if (count == 4) {
        while (shape <= DIRECT && strcmp(words[1], shapes[shape])) shape++;
        words++, count--;
    }
    if (count != 3 || shape > DIRECT) return 1;
    links = atol(words[2]);
    int yes = 1, listener = socket(AF_INET, SOCK_STREAM | SOCK_CLOEXEC, 0);
    struct sockaddr_in at = {.sin_family = AF_INET, .sin_port = htons((uint16_t)atoi(words[1]))};
    at.sin_addr.s_addr = htonl(INADDR_LOOPBACK);
    setsockopt(listener, SOL_SOCKET, SO_REUSEADDR, &yes, sizeof yes);
    if (bind(listener, (struct sockaddr *)&at, sizeof at) || listen(listener, 4096)) return 6;
    fprintf(stderr, "limit: serves ws://127.0.0.1:%s/\n", words[1]);
    pthread_attr_t small;
    pthread_attr_init(&small);
    pthread_attr_setdetachstate(&small, PTHREAD_CREATE_DETACHED);
    pthread_mutexattr_t again;
    pthread_mutexattr_init(&again);
    pthread_mutexattr_settype(&again, PTHREAD_MUTEX_RECURSIVE);
    for (;;) {
        struct peer *p = calloc(1, sizeof *p);
        pthread_t thread;
        if (!p) abort();
        atomic_init(&p->holders, 1);
        pthread_mutex_init(&p->sending, &again);
        p->link.socket = accept4(listener, NULL, NULL, SOCK_CLOEXEC);
        if (p->link.socket < 0 || pthread_create(&thread, &small, serve, p)) abort();
    }
}
