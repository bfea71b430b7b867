// Measures a hub by the links of nodes that it takes at 127.0.0.1. Each message that comes is compared with the one that
// is due: one that is lost, comes twice, in another order or otherwise ends the run with status 1.
//
//     driver port                                        a port that is free
//     driver latency PORT PROCESS MESSAGES FILE          unicasts, one at a time; each time in microseconds into FILE
//     driver unicast PORT PROCESS CLIENTS OCTETS MS      each client sends to the next one, as fast as it may
//     driver broadcast PORT PROCESS CLIENTS OCTETS MS    one client sends to all others, as fast as it may
//     driver idle PORT PROCESS CLIENTS EVERY MS          clients that send a heartbeat each EVERY milliseconds
//     driver rows PORT PROCESS CLIENTS RATE MS           each client sends to the next one; RATE unicasts a second in all
//     driver crowd PORT PROCESS CLIENTS EACH WAVES       clients join, some at a time, send EACH unicasts in pairs, and leave; and
//                                                        so again, as many times as there are waves
//     driver connects PORT PROCESS CLIENTS               clients that join and leave, one after another, beside one more
//
// PROCESS is the hub's. Figures go to standard output, `name key=number ..`, and then the counts that the hub is to
// write, if it has no other links.
#include "wire.h"

#include <dirent.h>
#include <sys/epoll.h>
#include <sys/resource.h>

// How many unicasts, or broadcasts, of one sender are under way at most: half of what an outbox holds by default, so
// that none is ever full.
enum { WINDOW = 32, LEAST = WINDOW / 2, PATIENCE = 20000 };

// How many clients of a crowd are about to join at a time: fewer than the handshakes that a hub of bsc has at once.
enum { JOINING = 64 };

static int port, hub, clients;
static struct link *links;
static struct identity *who;
static struct rlimit descriptors;

static uint64_t used_here(void) {
    struct timespec t;
    clock_gettime(CLOCK_PROCESS_CPUTIME_ID, &t);
    return (uint64_t)t.tv_sec * 1000000000u + (uint64_t)t.tv_nsec;
}

static void join_all(void) {
    links = calloc((size_t)clients, sizeof *links);
    who = calloc((size_t)clients, sizeof *who);
    if (!links || !who) fail("no memory");
    for (int i = 0; i < clients; i++) {
        who[i] = identity_of((uint32_t)i, (uint32_t)i);
        join(&links[i], port, &who[i], 0);
    }
}

// Leaves with a Disconnect-Request, up to both closes. Nothing else may have come, so no message was there twice.
static void leave(struct link *l, int i) {
    struct frame f;
    put_short(l, DISCONNECT_REQUEST, 7);
    if (!send_some(l)) fail("client %d: a Disconnect-Request can't be sent", i);
    if (next_frame(l, &f, PATIENCE) != FRAME || !is_short(&f, DISCONNECT_ACK, 7)) fail("client %d: no Disconnect-ACK came next", i);
    if (next_frame(l, &f, PATIENCE) != FRAME || f.operation != CLOSE || f.length < 2 || read_number(f.payload, 2) != 1000)
        fail("client %d: no close with 1000 came", i);
    put_frame(l, CLOSE, (const uint8_t *)"\x03\xE8", 2);
    send_some(l);
}

static void leave_all(void) {
    for (int i = 0; i < clients; i++) {
        leave(&links[i], i);
        close_link(&links[i]);
    }
}

static void tell_counts(uint64_t unicasts, uint64_t broadcasts, uint64_t appended) {
    printf("hub counts joined=%d replaced=0 refused=0 unicasts=%llu broadcasts=%llu appended=%llu dropped=0 full=0 missed=0\n",
           clients, (unsigned long long)unicasts, (unsigned long long)broadcasts, (unsigned long long)appended);
}

static int by_size(const void *a, const void *b) {
    uint64_t x = *(const uint64_t *)a, y = *(const uint64_t *)b;
    return x < y ? -1 : x > y;
}

// Median, 99th of a hundred and worst of times in nanoseconds, which are sorted.
static void tell_times(const char *name, uint64_t *times, size_t n) {
    qsort(times, n, sizeof *times, by_size);
    printf("%s median_us=%.1f p99_us=%.1f worst_us=%.1f", name, times[n / 2] / 1e3, times[n * 99 / 100] / 1e3, times[n - 1] / 1e3);
}

static void latency(int messages, const char *path) {
    clients = 2;
    join_all();
    uint64_t *times = calloc((size_t)messages, sizeof *times);
    struct frame f;
    struct content c;
    uint64_t used = used_by(hub);
    for (int i = -100; i < messages; i++) {
        uint64_t begun = now(), number = (uint64_t)(i + 100);
        put_npdu(&links[0], who[1].vmac, &(struct content){0, 1, number, begun}, 50);
        if (!send_some(&links[0])) fail("unicast %d can't be sent", i);
        if (next_frame(&links[1], &f, PATIENCE) != FRAME) fail("unicast %d is lost", i);
        uint64_t took = now() - begun;
        const uint8_t *from = read_npdu(&f, &c, 50);
        if (!from || memcmp(from, who[0].vmac, 6) || c.from != 0 || c.to != 1 || c.number != number) fail("unicast %d came otherwise", i);
        if (i >= 0) times[i] = took;
    }
    used = used_by(hub) - used;
    leave_all();
    FILE *file = fopen(path, "w");
    if (!file) fail("%s can't be written", path);
    for (int i = 0; i < messages; i++) fprintf(file, "%.1f\n", times[i] / 1e3);
    if (fclose(file)) fail("%s can't be written", path);
    tell_times("latency", times, (size_t)messages);
    printf(" hub_us=%.1f\n", used / 1e3 / (messages + 100));
    tell_counts((uint64_t)messages + 100, 0, (uint64_t)messages + 100);
}

static int watch_all(void) {
    int watch = epoll_create1(EPOLL_CLOEXEC);
    for (int i = 0; i < clients; i++) {
        struct epoll_event e = {.events = EPOLLIN | EPOLLOUT | EPOLLET, .data.u32 = (uint32_t)i};
        if (epoll_ctl(watch, EPOLL_CTL_ADD, links[i].socket, &e) < 0) fail("epoll: %s", strerror(errno));
    }
    return watch;
}

// Receives once what is there. True where there may be more.
static bool receive_now(struct link *l) {
    uint8_t *to = make_room(&l->in, 65536);
    size_t room = l->in.room - l->in.to;
    ssize_t n = recv(l->socket, to, room, MSG_DONTWAIT);
    if (n > 0) l->in.to += (size_t)n;
    if (n == 0) fail("the hub ended a connection");
    if (n < 0 && errno != EAGAIN && errno != EINTR) fail("a connection failed: %s", strerror(errno));
    return n == (ssize_t)room || (n < 0 && errno == EINTR);
}

static void send_now(struct link *l) {
    while (l->out.from < l->out.to) {
        ssize_t n = send(l->socket, l->out.at + l->out.from, l->out.to - l->out.from, MSG_NOSIGNAL | MSG_DONTWAIT);
        if (n < 0 && errno == EINTR) continue;
        if (n < 0 && errno == EAGAIN) return;
        if (n < 0) fail("a connection failed: %s", strerror(errno));
        l->out.from += (size_t)n;
    }
}

// Sends as fast as what is under way allows. With one sender to all others a broadcast is under way until the last of
// them has it; else each client sends to the next one.
static void throughput(bool to_all, size_t octets, int milliseconds) {
    if (octets < SHORTEST || octets + 6 > LONGEST) fail("messages have %d to %d octets", SHORTEST, LONGEST - 6);
    join_all();
    int watch = watch_all(), n = clients;
    uint64_t *sent = calloc((size_t)n, 8), *received = calloc((size_t)n, 8);
    uint32_t behind[WINDOW] = {0};  // of the broadcasts under way, how many clients still wait for each
    static const uint8_t everyone[6] = {255, 255, 255, 255, 255, 255};
    uint64_t used = used_by(hub), used_by_us = used_here(), begun = now(), until = begun + (uint64_t)milliseconds * 1000000u;
    uint64_t done = 0, last = begun;  // broadcasts that all have
    int senders = to_all ? 1 : n, *due = calloc((size_t)n, sizeof *due), dues = 0;
    bool *is_due = calloc((size_t)n, sizeof *is_due), stopped = false;
    for (int i = 0; i < senders; i++) due[dues++] = i, is_due[i] = true;
    uint64_t missing = 0;  // copies sent that haven't come
    while (!stopped || missing > 0) {
        stopped = stopped || now() >= until;
        if (stopped && missing == 0) break;
        for (int k = 0; k < dues && !stopped; k++) {
            int i = due[k], next = to_all ? 0 : (i + 1) % n;
            uint64_t open = to_all ? sent[0] - done : sent[i] - received[next];
            for (uint64_t free = WINDOW - open; free > 0; free--) {
                struct content c = {(uint32_t)i, to_all ? EVERYONE : (uint32_t)next, sent[i], 0};
                put_npdu(&links[i], to_all ? everyone : who[next].vmac, &c, octets);
                if (to_all) behind[sent[i] % WINDOW] = (uint32_t)n - 1;
                missing += to_all ? (uint64_t)n - 1 : 1;
                sent[i]++;
            }
            send_now(&links[i]);
            is_due[i] = false;
        }
        dues = 0;
        struct epoll_event events[256];
        int ready = epoll_wait(watch, events, 256, PATIENCE);
        if (ready == 0) fail("%llu messages are lost", (unsigned long long)missing);
        for (int k = 0; k < ready; k++) {
            int i = (int)events[k].data.u32, before = to_all ? 0 : (i + n - 1) % n;
            struct link *l = &links[i];
            struct frame f;
            send_now(l);
            if (!(events[k].events & ~(uint32_t)EPOLLOUT)) continue;
            for (bool more = true; more;) {
                more = receive_now(l);
                while (take_frame(l, &f)) {
                    struct content c;
                    const uint8_t *from = read_npdu(&f, &c, octets);
                    if (!from || memcmp(from, who[before].vmac, 6) || c.from != (uint32_t)before ||
                        c.to != (to_all ? EVERYONE : (uint32_t)i) || (to_all && i == 0))
                        fail("client %d got something else", i);
                    if (c.number != received[i]) fail("client %d got message %llu in place of %llu", i, (unsigned long long)c.number, (unsigned long long)received[i]);
                    received[i]++;
                    missing--;
                    if (to_all && --behind[c.number % WINDOW] == 0) done++;
                    int sender = to_all ? 0 : before;
                    if (!is_due[sender] && sent[sender] - (to_all ? done : received[i]) <= WINDOW - LEAST) due[dues++] = sender, is_due[sender] = true;
                }
            }
        }
        if (missing == 0) last = now();
    }
    double seconds = (last - begun) / 1e9;
    used = used_by(hub) - used;
    used_by_us = used_here() - used_by_us;
    uint64_t messages = 0, copies = 0;
    for (int i = 0; i < n; i++) messages += sent[i], copies += received[i];
    leave_all();
    printf("%s clients=%d octets=%zu messages=%llu copies=%llu seconds=%.3f rate=%.0f hub_us=%.2f hub_share=%.2f driver_share=%.2f\n",
           to_all ? "broadcast" : "unicast", n, octets, (unsigned long long)messages, (unsigned long long)copies, seconds,
           copies / seconds, used / 1e3 / copies, used / 1e9 / seconds, used_by_us / 1e9 / seconds);
    tell_counts(to_all ? 0 : messages, to_all ? messages : 0, copies);
}

static int descriptors_of(int process) {
    char path[64];
    snprintf(path, sizeof path, "/proc/%d/fd", process);
    DIR *folder = opendir(path);
    int n = -2;
    if (!folder) fail("%s can't be read", path);
    while (readdir(folder)) n++;
    closedir(folder);
    return n;
}

static void sleep_until(uint64_t at) {
    struct timespec t = {(time_t)(at / 1000000000u), (long)(at % 1000000000u)};
    while (clock_nanosleep(CLOCK_MONOTONIC, TIMER_ABSTIME, &t, NULL) == EINTR) {}
}

static void idle(int every, int milliseconds) {
    long memory = status_of(hub, "VmRSS"), threads = status_of(hub, "Threads");
    int files = descriptors_of(hub);
    join_all();
    sleep_until(now() + 1000000000u);
    long memory_joined = status_of(hub, "VmRSS");
    uint64_t used = used_by(hub), begun = now();
    long beats = (long)clients * milliseconds / every, wrong = 0;
    for (long k = 0; k < beats; k++) {
        struct link *l = &links[k % clients];
        struct frame f;
        sleep_until(begun + (uint64_t)k * (uint64_t)every * 1000000u / (uint64_t)clients);
        put_short(l, HEARTBEAT_REQUEST, (uint16_t)k);
        if (!send_some(l)) fail("a heartbeat can't be sent");
        // The answer to the one before is long there: a driver that waits here would be measured, too.
        if (k >= clients) wrong += next_frame(l, &f, PATIENCE) != FRAME || !is_short(&f, HEARTBEAT_ACK, (uint16_t)(k - clients));
    }
    for (int i = 0; i < clients; i++) {
        struct frame f;
        long last = beats - 1 - (beats - 1 - i) % clients;
        if (i < beats) wrong += next_frame(&links[i], &f, PATIENCE) != FRAME || !is_short(&f, HEARTBEAT_ACK, (uint16_t)last);
    }
    sleep_until(begun + (uint64_t)milliseconds * 1000000u);
    double seconds = (now() - begun) / 1e9;
    used = used_by(hub) - used;
    if (wrong) fail("%ld heartbeats were answered otherwise", wrong);
    printf("idle clients=%d heartbeats=%ld seconds=%.1f share=%.4f memory_kib=%.1f threads=%.3f descriptors=%.3f\n", clients, beats, seconds,
           used / 1e9 / seconds, (double)(memory_joined - memory) / clients, (double)(status_of(hub, "Threads") - threads) / clients,
           (double)(descriptors_of(hub) - files) / clients);
    leave_all();
    tell_counts(0, 0, 0);
}

static void rows(int rate, int milliseconds) {
    join_all();
    int n = clients, watch = watch_all();
    // What the connections cost without a message is told apart.
    sleep_until(now() + 500000000u);
    uint64_t quiet = used_by(hub), quiet_begun = now();
    sleep_until(quiet_begun + 1000000000u);
    double quiet_share = (used_by(hub) - quiet) / (double)(now() - quiet_begun);
    uint64_t total = (uint64_t)rate * (uint64_t)milliseconds / 1000, sent = 0, came = 0;
    uint64_t *times = calloc(total, 8), *numbers = calloc((size_t)n, 8), *received = calloc((size_t)n, 8);
    uint64_t used = used_by(hub), begun = now();
    while (came < total) {
        uint64_t at = now(), by_now = (at - begun) * (uint64_t)rate / 1000000000u;
        for (; sent < total && sent < by_now; sent++) {
            int i = (int)(sent % (uint64_t)n), next = (i + 1) % n;
            if (numbers[i] - received[next] >= 2 * WINDOW - 2) break;  // behind: else an outbox might be full
            put_npdu(&links[i], who[next].vmac, &(struct content){(uint32_t)i, (uint32_t)next, numbers[i]++, now()}, 50);
            send_now(&links[i]);
        }
        struct epoll_event events[256];
        int ready = epoll_wait(watch, events, 256, sent < total ? 1 : PATIENCE);
        if (ready == 0 && sent == total) fail("%llu messages are lost", (unsigned long long)(total - came));
        for (int k = 0; k < ready; k++) {
            int i = (int)events[k].data.u32, before = (i + n - 1) % n;
            struct frame f;
            struct content c;
            send_now(&links[i]);
            if (!(events[k].events & ~(uint32_t)EPOLLOUT)) continue;
            while (receive_now(&links[i])) {}
            uint64_t then = now();
            while (take_frame(&links[i], &f)) {
                const uint8_t *from = read_npdu(&f, &c, 50);
                if (!from || memcmp(from, who[before].vmac, 6) || c.from != (uint32_t)before || c.to != (uint32_t)i || c.number != received[i])
                    fail("client %d got something else", i);
                received[i]++;
                times[came++] = then - c.sent_at;
            }
        }
    }
    double seconds = (now() - begun) / 1e9;
    used = used_by(hub) - used;
    leave_all();
    char name[64];
    snprintf(name, sizeof name, "rows clients=%d rate=%.0f", n, total / seconds);
    tell_times(name, times, total);
    printf(" hub_us=%.2f quiet_share=%.4f\n", used / 1e3 / total, quiet_share);
    tell_counts(total, 0, total);
}

// Joins all, JOINING at a time: each next one begins where one has joined.
static void join_together(void) {
    links = calloc((size_t)clients, sizeof *links);
    who = calloc((size_t)clients, sizeof *who);
    bool *upgraded = calloc((size_t)clients, sizeof *upgraded);
    int watch = epoll_create1(EPOLL_CLOEXEC), begun = 0, joined = 0;
    while (joined < clients) {
        for (; begun < clients && begun - joined < JOINING; begun++) {
            struct epoll_event e = {.events = EPOLLIN, .data.u32 = (uint32_t)begun};
            who[begun] = identity_of((uint32_t)begun, (uint32_t)begun);
            if (!begin_link(&links[begun], port, 0)) fail("client %d: the hub took no connection", begun);
            if (epoll_ctl(watch, EPOLL_CTL_ADD, links[begun].socket, &e) < 0) fail("epoll: %s", strerror(errno));
        }
        struct epoll_event events[JOINING];
        int ready = epoll_wait(watch, events, JOINING, PATIENCE);
        if (ready == 0) fail("%d of %d clients joined", joined, clients);
        for (int k = 0; k < ready; k++) {
            int i = (int)events[k].data.u32;
            struct link *l = &links[i];
            struct frame f;
            if (receive_some(l) < 0) fail("client %d: the hub ended the connection", i);
            if (!upgraded[i]) {
                enum upgrade answer = take_upgrade(l);
                if (answer == REFUSED) fail("client %d: the hub took no link", i);
                if (answer == PENDING) continue;
                upgraded[i] = true;
                put_connect_request(l, &who[i], 0);
                if (!send_some(l)) fail("client %d: a Connect-Request can't be sent", i);
            }
            if (!take_frame(l, &f)) continue;
            if (!is_connect_accept(&f, 0)) fail("client %d: no Connect-Accept came next", i);
            if (epoll_ctl(watch, EPOLL_CTL_DEL, l->socket, NULL) < 0) fail("epoll: %s", strerror(errno));
            joined++;
        }
    }
    close(watch);
    free(upgraded);
}

// What a crowd took.
struct spent {
    double joining, sending, leaving, joins, messages, driver;
    long memory, most;
};

// All clients join, and each sends to the other one of its pair, as fast as what is under way allows; then all leave.
static void wave(int each, struct spent *all) {
    int n = clients;
    uint64_t used = used_by(hub), begun = now();
    join_together();
    all->joining += (double)(now() - begun);
    all->joins += (double)(used_by(hub) - used);
    int watch = watch_all(), dues = n, *due = calloc((size_t)n, sizeof *due);
    bool *is_due = calloc((size_t)n, sizeof *is_due);
    uint64_t *sent = calloc((size_t)n, 8), *received = calloc((size_t)n, 8), total = (uint64_t)n * (uint64_t)each, came = 0;
    for (int i = 0; i < n; i++) due[i] = i, is_due[i] = true;
    used = used_by(hub);
    uint64_t used_by_us = used_here();
    begun = now();
    while (came < total) {
        for (int k = 0; k < dues; k++) {
            int i = due[k], other = i ^ 1;
            for (; sent[i] < (uint64_t)each && sent[i] - received[other] < WINDOW; sent[i]++)
                put_npdu(&links[i], who[other].vmac, &(struct content){(uint32_t)i, (uint32_t)other, sent[i], 0}, 50);
            send_now(&links[i]);
            is_due[i] = false;
        }
        dues = 0;
        struct epoll_event events[256];
        int ready = epoll_wait(watch, events, 256, PATIENCE);
        if (ready == 0) fail("%llu messages are lost", (unsigned long long)(total - came));
        for (int k = 0; k < ready; k++) {
            int i = (int)events[k].data.u32, other = i ^ 1;
            struct frame f;
            struct content c;
            send_now(&links[i]);
            if (!(events[k].events & ~(uint32_t)EPOLLOUT)) continue;
            for (bool more = true; more;) {
                more = receive_now(&links[i]);
                while (take_frame(&links[i], &f)) {
                    const uint8_t *from = read_npdu(&f, &c, 50);
                    if (!from || memcmp(from, who[other].vmac, 6) || c.from != (uint32_t)other || c.to != (uint32_t)i || c.number != received[i])
                        fail("client %d got something else", i);
                    received[i]++;
                    came++;
                    if (!is_due[other] && sent[other] < (uint64_t)each && sent[other] - received[i] <= WINDOW - LEAST) due[dues++] = other, is_due[other] = true;
                }
            }
        }
    }
    all->sending += (double)(now() - begun);
    all->messages += (double)(used_by(hub) - used);
    all->driver += (double)(used_here() - used_by_us);
    all->memory = status_of(hub, "VmRSS");
    all->most = status_of(hub, "VmHWM");
    begun = now();
    leave_all();
    all->leaving += (double)(now() - begun);
    close(watch);
    free(due), free(is_due), free(sent), free(received), free(links), free(who);
}

static void crowd(int each, int waves) {
    if (clients % 2) fail("a crowd is of pairs");
    long before = status_of(hub, "VmRSS");
    struct spent all = {0};
    for (int i = 0; i < waves; i++) wave(each, &all);
    int n = clients;
    clients = n * waves;
    uint64_t total = (uint64_t)clients * (uint64_t)each;
    printf("crowd clients=%d messages=%llu joins_s=%.3f join_us=%.1f seconds=%.3f rate=%.0f hub_us=%.2f driver_share=%.2f leaves_s=%.3f "
           "memory_kib=%.1f most_mib=%.1f\n", clients, (unsigned long long)total, all.joining / 1e9, all.joins / 1e3 / clients,
           all.sending / 1e9, total / (all.sending / 1e9), all.messages / 1e3 / total, all.driver / all.sending, all.leaving / 1e9,
           (double)(all.memory - before) / n, all.most / 1024.0);
    tell_counts(total, 0, total);
}

// One after another: a connection, its upgrade, Connect-Request and Connect-Accept, Disconnect-Request and its answer, both
// closes, and the ends of both streams. Only then the next one begins. One more is there from first to last, since a hub
// may end with its last link, and what it has used is asked behind that of all others.
static void connects(int n) {
    uint64_t *joins = calloc((size_t)n, 8), *times = calloc((size_t)n, 8);
    if (!joins || !times) fail("no memory");
    clients = 1;
    join_all();
    uint64_t used = used_by(hub), begun = now();
    for (int i = 0; i < n; i++) {
        struct identity one = identity_of((uint32_t)i + 1, (uint32_t)i + 1);
        struct link l;
        struct frame f;
        uint64_t at = now();
        join(&l, port, &one, 0);
        joins[i] = now() - at;
        leave(&l, i + 1);
        shutdown(l.socket, SHUT_WR);
        if (next_frame(&l, &f, PATIENCE) != ENDED) fail("client %d: the hub didn't end the connection", i + 1);
        close_link(&l);
        times[i] = now() - at;
    }
    double seconds = (now() - begun) / 1e9;
    used = used_by(hub) - used;
    leave_all();
    clients = n + 1;
    qsort(joins, (size_t)n, sizeof *joins, by_size);
    tell_times("connects", times, (size_t)n);
    printf(" join_us=%.1f seconds=%.3f hub_us=%.1f\n", joins[n / 2] / 1e3, seconds, used / 1e3 / n);
    tell_counts(0, 0, 0);
}

int main(int count, char **words) {
    const char *what = count > 1 ? words[1] : "";
    make_pattern();
    getrlimit(RLIMIT_NOFILE, &descriptors);
    descriptors.rlim_cur = descriptors.rlim_max;
    setrlimit(RLIMIT_NOFILE, &descriptors);
    if (!strcmp(what, "port")) {
        struct sockaddr_in at = {.sin_family = AF_INET};
        socklen_t size = sizeof at;
        int s = socket(AF_INET, SOCK_STREAM, 0);
        at.sin_addr.s_addr = htonl(INADDR_LOOPBACK);
        if (s < 0 || bind(s, (struct sockaddr *)&at, size) || getsockname(s, (struct sockaddr *)&at, &size)) fail("no port");
        printf("%d\n", ntohs(at.sin_port));
        return 0;
    }
    if (count < 5) fail("the words are wrong; the head of driver.c has them");
    port = atoi(words[2]);
    hub = atoi(words[3]);
    clients = atoi(words[4]);
    if (!strcmp(what, "connects")) connects(clients);
    else if (count < 6) fail("the words are wrong; the head of driver.c has them");
    else if (!strcmp(what, "latency")) latency(clients, words[5]);
    else if (count < 7) fail("the words are wrong; the head of driver.c has them");
    else if (!strcmp(what, "unicast") || !strcmp(what, "broadcast")) throughput(what[0] == 'b', (size_t)atol(words[5]), atoi(words[6]));
    else if (!strcmp(what, "crowd")) crowd(atoi(words[5]), atoi(words[6]));
    else if (!strcmp(what, "idle")) idle(atoi(words[5]), atoi(words[6]));
    else if (!strcmp(what, "rows")) rows(atoi(words[5]), atoi(words[6]));
    else fail("the words are wrong; the head of driver.c has them");
    return 0;
}
