// A hub under mixed traffic, by the links of nodes that it takes at 127.0.0.1: some stay all the time, others leave and
// come again, are replaced, are killed, are refused, or stop to read for a while. It compares all that comes, and ends
// with status 1 where a message is lost that may not be, comes twice, in another order or otherwise. Status 3 says that
// the machine was too busy to tell.
//
//     soak PORT PROCESS SECONDS LINKS FILE
//
// PROCESS is the hub's; it is to serve LINKS links, and what isn't needed of them is made at the end. A line each second
// goes to FILE: seconds, memory in KiB, threads, and messages that came. At the end two lines go to standard output:
// what was done, and what the hub is to have counted, where `a..b` is any number from a to b.
//
// Whoever joins, leaves, is killed or replaced, or sends a broadcast has the gate meanwhile, so each broadcast is meant
// for connections that are known. Before a node goes it makes heartbeats until all that the hub had for it has come. So
// of the counts only those are open that depend on unicasts to nodes that go just then.
#include "wire.h"

#include <pthread.h>
#include <stdatomic.h>

enum { STEADY = 16, CHURNING = 12, REPLACED = 4, KILLED = 4, ACTORS = STEADY + CHURNING + REPLACED + KILLED, FLOODER = ACTORS,
       STALLED, ALL };
enum { UNDER_WAY = 32, PATIENCE = 60000, FLOOD = 4000, LEAST_LINKS = 200 };

struct actor {
    atomic_bool joined;        // what is sent to it is to arrive
    atomic_int under_way;      // what was sent to it and hasn't come
    _Atomic uint32_t device;   // of its newest connection; the VMAC's number is the actor's place
    atomic_ullong sent[ALL];   // unicasts to each
    atomic_ullong sent_to_all;
    // Of its own thread alone:
    unsigned long long next[ALL], next_to_all[ALL];  // the least number that may come from each
    unsigned random;
};

struct session {
    struct link link;
    struct actor *actor;
    bool is_stalled;            // broadcasts may be missed
    bool has_unicast_of[ALL];   // behind the first of a sender no number may be left out
    uint16_t heartbeat;         // the newest ID
    bool is_answered, is_asked_to_leave, is_closed;
    unsigned code;
    uint64_t stalled_at;
    unsigned long long came;
};

static int port, hub;
static struct actor actors[ALL];
static pthread_mutex_t gate = PTHREAD_MUTEX_INITIALIZER;
static atomic_bool is_over, has_stalled;
static pthread_barrier_t all_quiet, all_compared;
static atomic_long links_left;
static atomic_uint devices = 1000;
static atomic_ullong joined, refused, replaced, rejoined, unicasts, broadcasts, unicasts_came, copies_came, full, missed, flooded_away,
    kills, stalls, silent;
static uint64_t begun;
static atomic_ullong longest_stall;

// Whether an actor has a connection from its first one to the end, so that no unicast to it may be lost.
static bool is_always_there(int place) { return place < STEADY || (place >= STEADY + CHURNING && place < STEADY + CHURNING + REPLACED); }

static int place_of(const struct actor *a) { return (int)(a - actors); }

static unsigned draw(struct actor *a, unsigned below) {
    a->random = a->random * 1664525u + 1013904223u;
    return (unsigned)((uint64_t)a->random * below >> 32);
}

static void pause_for(unsigned milliseconds) {
    struct timespec t = {milliseconds / 1000, (long)(milliseconds % 1000) * 1000000};
    nanosleep(&t, NULL);
}

static void count_link(void) {
    atomic_fetch_sub(&links_left, 1);
}

static bool may_come_again(void) { return !is_over && links_left > LEAST_LINKS; }

static void send_all(struct session *s) {
    if (!send_some(&s->link)) fail("actor %d: its connection failed: %s", place_of(s->actor), strerror(errno));
}

// Compares what came with what is due.
static void take(struct session *s, const struct frame *f) {
    struct actor *me = s->actor;
    int my = place_of(me);
    if (f->operation == CLOSE) {
        s->is_closed = true;
        s->code = f->length >= 2 ? (unsigned)read_number(f->payload, 2) : 0;
    } else if (is_short(f, HEARTBEAT_ACK, s->heartbeat) && !s->is_answered) {
        s->is_answered = true;
    } else if (f->operation == BINARY && f->length == 4 && f->payload[0] == DISCONNECT_REQUEST) {
        s->is_asked_to_leave = true;
        put_short(&s->link, DISCONNECT_ACK, (uint16_t)read_number(f->payload + 2, 2));
        send_all(s);
    } else {
        struct content c;
        const uint8_t *vmac = read_npdu(f, &c, 0);
        if (!vmac || c.from >= ALL || (c.to != (uint32_t)my && c.to != EVERYONE) || read_number(vmac + 2, 4) != c.from)
            fail("actor %d got something else", my);
        struct actor *sender = &actors[c.from];
        bool to_all = c.to == EVERYONE;
        unsigned long long *next = to_all ? &me->next_to_all[c.from] : &me->next[c.from];
        if (c.number >= (to_all ? sender->sent_to_all : sender->sent[my])) fail("actor %d got %llu of %u that nobody sent", my, (unsigned long long)c.number, c.from);
        if (c.number < *next) fail("actor %d got %llu of %u twice, or late", my, (unsigned long long)c.number, c.from);
        if (c.number > *next) {
            // A broadcast may be missed by one that stalled; unicasts may have come before this connection did.
            if (to_all ? !s->is_stalled : is_always_there(my) || s->has_unicast_of[c.from])
                fail("actor %d: of %u %llu came in place of %llu, to_all %d", my, c.from, (unsigned long long)c.number, *next, to_all);
        }
        if (!to_all) s->has_unicast_of[c.from] = true;
        *next = c.number + 1;
        s->came++;
        atomic_fetch_add(to_all ? &copies_came : &unicasts_came, 1);
        atomic_fetch_sub(&me->under_way, 1);
    }
}

// Takes what comes within a time, or until the first of it that ends a wait of the caller.
static void listen_for(struct session *s, int milliseconds) {
    struct frame f;
    uint64_t until = now() + (uint64_t)milliseconds * 1000000u;
    int left = milliseconds;
    for (;;) {
        enum next next = next_frame(&s->link, &f, left);
        if (next == ENDED && s->is_stalled && now() > s->stalled_at + 4500000000u) {
            fprintf(stderr, "live: a receiver stalled for more than the 5 s that a hub waits: this machine is too busy\n");
            exit(3);
        }
        if (next == ENDED) fail("actor %d: its connection ended", place_of(s->actor));
        if (next == NOTHING) return;
        take(s, &f);
        if (s->is_closed || s->is_answered) return;
        uint64_t at = now();
        left = at < until ? (int)((until - at) / 1000000) : 0;
    }
}

static void heartbeat(struct session *s) {
    s->is_answered = false;
    put_short(&s->link, HEARTBEAT_REQUEST, ++s->heartbeat);
    send_all(s);
    uint64_t until = now() + PATIENCE * 1000000ull;
    while (!s->is_answered) {
        listen_for(s, 1000);
        if (s->is_closed) fail("actor %d: closed with %u", place_of(s->actor), s->code);
        if (now() > until) fail("actor %d: a heartbeat isn't answered", place_of(s->actor));
    }
    s->is_answered = false;
}

// All that the hub has done so far for this connection has come behind eight heartbeats: a session empties a part of an
// outbox, a quarter at least of 64, each time before it receives.
static void empty(struct session *s) {
    for (int i = 0; i < 8; i++) heartbeat(s);
}

static void take_gate(struct session *s) {
    while (pthread_mutex_trylock(&gate)) listen_for(s, 2);
}

// Joins; who calls has the gate.
static void join_as(struct session *s, struct actor *a, uint32_t device, int receive_buffer) {
    struct identity who = identity_of((uint32_t)place_of(a), device);
    memset(s, 0, sizeof *s);
    s->actor = a;
    for (;; pause_for(10)) {
        struct frame f;
        if (!open_link(&s->link, port, receive_buffer)) fail("actor %d: the hub took no link", place_of(a));
        count_link();
        put_connect_request(&s->link, &who, 0);
        send_all(s);
        if (next_frame(&s->link, &f, PATIENCE) != FRAME) fail("actor %d: no answer to a Connect-Request", place_of(a));
        if (is_connect_accept(&f, 0)) break;
        static const uint8_t nak[11] = {0, 0, 0, 0, CONNECT_REQUEST, 1, 0, 0, 7, 0, 0x97};
        if (f.operation != BINARY || f.length != 11 || memcmp(f.payload, nak, 11)) fail("actor %d: its Connect-Request is answered otherwise", place_of(a));
        atomic_fetch_add(&refused, 1);
        close_link(&s->link);
    }
    atomic_fetch_add(&joined, 1);
    for (int i = 0; i < ALL; i++) a->next_to_all[i] = actors[i].sent_to_all;
    a->device = device;
    a->joined = true;
}

static void begin(struct session *s, struct actor *a, uint32_t device) {
    while (pthread_mutex_trylock(&gate)) pause_for(2);
    a->under_way = 0;
    join_as(s, a, device, 0);
    pthread_mutex_unlock(&gate);
}

// No broadcast may be left out at the end either; who calls has the gate.
static void compare_broadcasts(struct session *s) {
    for (int i = 0; i < ALL; i++)
        if (&actors[i] != s->actor && s->actor->next_to_all[i] != actors[i].sent_to_all)
            fail("actor %d: of %d %llu broadcasts came of %llu", place_of(s->actor), i, s->actor->next_to_all[i], (unsigned long long)actors[i].sent_to_all);
}

// Takes what comes until the hub closes, with a code, and closes too.
static void await_close(struct session *s, unsigned code) {
    uint64_t until = now() + PATIENCE * 1000000ull;
    while (!s->is_closed) {
        listen_for(s, 1000);
        if (now() > until) fail("actor %d: the hub doesn't close", place_of(s->actor));
    }
    if (s->code != code) fail("actor %d: closed with %u, not %u", place_of(s->actor), s->code, code);
    put_frame(&s->link, CLOSE, (const uint8_t *)"\x03\xE8", 2);
    send_some(&s->link);
    close_link(&s->link);
}

// Leaves in order; who calls has the gate.
static void leave(struct session *s) {
    s->actor->joined = false;
    empty(s);
    compare_broadcasts(s);
    put_short(&s->link, DISCONNECT_REQUEST, 7);
    send_all(s);
    struct frame f;
    for (;;) {
        if (next_frame(&s->link, &f, PATIENCE) != FRAME) fail("actor %d: no Disconnect-ACK came", place_of(s->actor));
        if (is_short(&f, DISCONNECT_ACK, 7)) break;
        take(s, &f);
    }
    await_close(s, 1000);
}

static const uint8_t everyone[6] = {255, 255, 255, 255, 255, 255};

static void send_unicast(struct session *s, int to, size_t length) {
    struct actor *me = s->actor;
    struct content c = {(uint32_t)place_of(me), (uint32_t)to, atomic_fetch_add(&me->sent[to], 1), 0};
    struct identity who = identity_of((uint32_t)to, 0);
    put_npdu(&s->link, who.vmac, &c, length);
    atomic_fetch_add(&unicasts, 1);
    send_all(s);
}

// Sends a unicast to somebody, unless so much is under way to them that their outbox might be full.
static void send_one(struct session *s) {
    struct actor *me = s->actor;
    int to = (int)draw(me, ACTORS);
    if (to == place_of(me)) return;
    if (actors[to].joined) {
        if (atomic_fetch_add(&actors[to].under_way, 1) >= UNDER_WAY) {
            atomic_fetch_sub(&actors[to].under_way, 1);
            return;
        }
    } else if (is_always_there(to) || draw(me, 4)) {
        return;
    }
    send_unicast(s, to, SHORTEST + draw(me, 1500 - SHORTEST));
}

// Sends a broadcast, unless so much is under way to somebody that their outbox might be full; who calls has the gate.
static bool send_to_all(struct session *s, size_t length) {
    struct actor *me = s->actor;
    int my = place_of(me), i;
    for (i = 0; i < ACTORS; i++)
        if (i != my && actors[i].joined && atomic_fetch_add(&actors[i].under_way, 1) >= UNDER_WAY) break;
    if (i < ACTORS) {
        for (; i >= 0; i--)
            if (i != my && actors[i].joined) atomic_fetch_sub(&actors[i].under_way, 1);
        return false;
    }
    struct content c = {(uint32_t)my, EVERYONE, atomic_fetch_add(&me->sent_to_all, 1), 0};
    put_npdu(&s->link, everyone, &c, length);
    atomic_fetch_add(&broadcasts, 1);
    send_all(s);
    return true;
}

// Ordinary traffic for a time: a unicast each 20 ms or so, and of those that stay a broadcast each 4 s.
static void talk(struct session *s, unsigned milliseconds) {
    struct actor *me = s->actor;
    uint64_t until = now() + (uint64_t)milliseconds * 1000000u;
    while (!is_over && now() < until) {
        listen_for(s, 1 + (int)draw(me, 40));
        if (s->is_closed || s->is_asked_to_leave) fail("actor %d: the hub ends its connection, %u", place_of(me), s->code);
        send_one(s);
        if (place_of(me) < STEADY && draw(me, 200) == 0) {
            take_gate(s);
            send_to_all(s, SHORTEST + draw(me, 1500 - SHORTEST));
            heartbeat(s);
            pthread_mutex_unlock(&gate);
        }
    }
}

// The end of all threads: none sends any more, then what came is compared.
static void finish(struct session *s) {
    struct actor *me = s->actor;
    // One that sends broadcasts in great number waits for all others to take them.
    while (!has_stalled) listen_for(s, 10);
    heartbeat(s);
    pthread_barrier_wait(&all_quiet);
    empty(s);
    for (int i = 0; i < ALL; i++)
        if (is_always_there(place_of(me)) && me->next[i] != actors[i].sent[place_of(me)])
            fail("actor %d: of %d %llu unicasts came of %llu", place_of(me), i, me->next[i], (unsigned long long)actors[i].sent[place_of(me)]);
    pthread_barrier_wait(&all_compared);
    take_gate(s);
    leave(s);
    pthread_mutex_unlock(&gate);
}

static void *steady(void *word) {
    struct session s;
    begin(&s, word, actors[place_of(word)].device);
    while (!is_over) talk(&s, 1000);
    finish(&s);
    return NULL;
}

static void *churning(void *word) {
    struct actor *a = word;
    struct session s;
    begin(&s, a, a->device);
    while (!is_over) {
        talk(&s, 1000 + draw(a, 4000));
        if (!may_come_again()) continue;
        take_gate(&s);
        leave(&s);
        // It comes again with the gate: a hub closes a link before it lets the connection go, so a broadcast might still be
        // for it. Where the hub hasn't let it go yet, it is replaced.
        pause_for(draw(a, 100));
        atomic_fetch_add(&rejoined, 1);
        a->under_way = 0;
        join_as(&s, a, a->device, 0);
        pthread_mutex_unlock(&gate);
    }
    finish(&s);
    return NULL;
}

static void *replacing(void *word) {
    struct actor *a = word;
    struct session s, old;
    begin(&s, a, a->device);
    while (!is_over) {
        talk(&s, 2000 + draw(a, 4000));
        if (!may_come_again()) continue;
        take_gate(&s);
        empty(&s);
        compare_broadcasts(&s);
        old = s;
        join_as(&s, a, a->device, 0);
        atomic_fetch_add(&replaced, 1);
        await_close(&old, 1000);
        if (!old.is_asked_to_leave) fail("actor %d: replaced, and not asked to leave", place_of(a));
        pthread_mutex_unlock(&gate);
    }
    finish(&s);
    return NULL;
}

// Goes without a word, in one of four ways, and comes again as another device: the hub refuses it as long as it holds
// the connection that was killed for alive.
static void *killed(void *word) {
    struct actor *a = word;
    struct session s;
    begin(&s, a, a->device);
    while (!is_over) {
        talk(&s, 1000 + draw(a, 4000));
        if (!may_come_again()) continue;
        take_gate(&s);
        empty(&s);
        compare_broadcasts(&s);
        unsigned how = draw(a, 4);
        if (how == 1) {
            // Half a frame.
            put_frame(&s.link, BINARY, pattern, 1000);
            s.link.out.to -= 500;
            send_all(&s);
        } else if (how == 2) {
            // It has stopped to read, while others still send it unicasts.
            pause_for(100);
        }
        a->joined = false;
        if (how == 2 || how == 0) reset_link(&s.link);
        else close_link(&s.link);
        atomic_fetch_add(&kills, 1);
        a->under_way = 0;
        join_as(&s, a, atomic_fetch_add(&devices, 1), 0);
        pthread_mutex_unlock(&gate);
    }
    finish(&s);
    return NULL;
}

// Links that a hub is to bear: some don't join, and some ask for a VMAC that another device holds.
static void *strange(void *word) {
    (void)word;
    struct actor dice = {.random = 1}, *a = &dice;
    while (!is_over) {
        pause_for(700);
        if (!may_come_again()) continue;
        struct link l;
        struct frame f;
        if (!open_link(&l, port, 0)) fail("the hub took no link");
        count_link();
        if (draw(a, 2)) {
            struct identity who = identity_of(draw(a, STEADY), 999);
            put_connect_request(&l, &who, 5);
            if (!send_some(&l) || next_frame(&l, &f, PATIENCE) != FRAME) fail("no answer to a duplicate");
            static const uint8_t nak[11] = {0, 0, 0, 5, CONNECT_REQUEST, 1, 0, 0, 7, 0, 0x97};
            if (f.length != 11 || memcmp(f.payload, nak, 11)) fail("a duplicate is answered otherwise");
            if (next_frame(&l, &f, PATIENCE) != FRAME || f.operation != CLOSE || read_number(f.payload, 2) != 1000) fail("a duplicate isn't closed");
            atomic_fetch_add(&refused, 1);
        } else {
            atomic_fetch_add(&silent, 1);
        }
        if (draw(a, 2)) reset_link(&l);
        else close_link(&l);
    }
    return NULL;
}

// One that stops to read and comes back, by turns under unicasts, which end its connection when its outbox is full, and
// under broadcasts, of which it misses some.
static void *stalling(void *word) {
    (void)word;
    struct actor *sends = &actors[FLOODER], *stalls_now = &actors[STALLED];
    struct session flood, stall;
    begin(&flood, sends, sends->device);
    while (pthread_mutex_trylock(&gate)) pause_for(2);
    join_as(&stall, stalls_now, stalls_now->device, 4096);
    pthread_mutex_unlock(&gate);
    for (int round = 0; !is_over; round++) {
        uint64_t until = now() + (round < 2 ? 2000000000u : 8000000000u);
        while (!is_over && now() < until) {
            listen_for(&flood, 5);
            listen_for(&stall, 5);
        }
        if (!may_come_again()) continue;
        while (pthread_mutex_trylock(&gate)) {
            listen_for(&flood, 1);
            listen_for(&stall, 1);
        }
        empty(&flood);
        empty(&stall);
        compare_broadcasts(&stall);
        uint64_t at = stall.stalled_at = now();
        unsigned long long before = stall.came;
        stall.is_stalled = true;
        if (round % 2 == 0) {
            for (int i = 0; i < FLOOD; i++) send_unicast(&flood, STALLED, 1500);
            heartbeat(&flood);
            if (now() - at > longest_stall) longest_stall = now() - at;
            await_close(&stall, 1008);
            atomic_fetch_add(&full, 1);
            // All that it didn't get was dropped: one unicast ended it, and for the others it was gone.
            before = stall.came - before;
            atomic_fetch_add(&flooded_away, FLOOD - before);
            if (before < 64 || before == FLOOD) fail("a receiver that stalled got %llu of %d", before, FLOOD);
            join_as(&stall, stalls_now, atomic_fetch_add(&devices, 1), 4096);
        } else {
            unsigned long long sent = sends->sent_to_all;
            // How many it takes depends on what the sockets hold; a put of the hub has 5 s.
            for (int i = 0; i < 3000 && now() < at + 2500000000u; i++)
                while (!send_to_all(&flood, LONGEST - 6)) pause_for(1);
            heartbeat(&flood);
            if (now() - at > longest_stall) longest_stall = now() - at;
            empty(&stall);
            sent = sends->sent_to_all - sent;
            before = stall.came - before;
            atomic_fetch_add(&missed, sent - before);
            if (before < 64) fail("a receiver that stalled got %llu of %llu", before, sent);
            stalls_now->next_to_all[FLOODER] = sends->sent_to_all;
            stall.is_stalled = false;
        }
        pthread_mutex_unlock(&gate);
        atomic_fetch_add(&stalls, 1);
    }
    has_stalled = true;
    heartbeat(&flood);
    heartbeat(&stall);
    pthread_barrier_wait(&all_quiet);
    empty(&flood);
    empty(&stall);
    pthread_barrier_wait(&all_compared);
    take_gate(&flood);
    leave(&flood);
    leave(&stall);
    pthread_mutex_unlock(&gate);
    return NULL;
}

int main(int count, char **words) {
    if (count != 6) fail("the words are: PORT PROCESS SECONDS LINKS FILE");
    port = atoi(words[1]);
    hub = atoi(words[2]);
    int seconds = atoi(words[3]);
    links_left = atol(words[4]);
    FILE *file = fopen(words[5], "w");
    if (!file) fail("%s can't be written", words[5]);
    make_pattern();
    begun = now();
    pthread_barrier_init(&all_quiet, NULL, ACTORS + 1);
    pthread_barrier_init(&all_compared, NULL, ACTORS + 1);
    pthread_t threads[ACTORS + 2];
    for (int i = 0; i < ALL; i++) {
        actors[i].random = (unsigned)i * 2654435761u + 1;
        actors[i].device = (uint32_t)i;
    }
    for (int i = 0; i < ACTORS + 2; i++) {
        void *(*plays)(void *) = i < STEADY ? steady : i < STEADY + CHURNING ? churning : i < STEADY + CHURNING + REPLACED ? replacing : i < ACTORS ? killed
                                 : i == ACTORS                                                                             ? stalling
                                                                                                                           : strange;
        if (pthread_create(&threads[i], NULL, plays, &actors[i < ALL ? i : 0])) fail("no thread");
    }
    for (int second = 1; second <= seconds; second++) {
        while (now() < begun + (uint64_t)second * 1000000000u) pause_for(10);
        fprintf(file, "%d\t%ld\t%ld\t%llu\n", second, status_of(hub, "VmRSS"), status_of(hub, "Threads"), unicasts_came + copies_came);
        fflush(file);
    }
    is_over = true;
    for (int i = ACTORS + 1; i >= 0; i--) pthread_join(threads[i], NULL);
    fclose(file);
    printf("soak seconds=%d unicasts=%llu broadcasts=%llu came=%llu joins=%llu takeovers=%llu kills=%llu stalls=%llu longest_stall_ms=%llu refused=%llu silent=%llu\n", seconds,
           unicasts, broadcasts, unicasts_came + copies_came, joined, replaced, kills, stalls, longest_stall / 1000000, refused, silent);
    printf("hub counts joined=%llu replaced=%llu..%llu refused=%llu unicasts=%llu broadcasts=%llu appended+dropped=%llu dropped=%llu..%llu full=%llu missed=%llu\n",
           joined, replaced, replaced + rejoined, refused, unicasts, broadcasts, unicasts + copies_came, flooded_away, unicasts - unicasts_came, full, missed);
    for (; links_left > 0; count_link()) {
        struct link l;
        if (!open_link(&l, port, 0)) fail("the hub took no link");
        close_link(&l);
    }
    return 0;
}
