// A relay that does the work of a hub by libwebsockets, in one thread with one event loop: nodes join by a
// Connect-Request and get unicasts and broadcasts by their VMACs. It shares no line with bsc and proves nothing.
//
//     relay PORT LINKS [AT_ONCE]
//
// It listens at 127.0.0.1, and after so many links it writes the counts that `bsc hub --sessions` writes, and ends. The
// library's own loop is quick with few links and goes over all of them at each turn, so with more than 50 it is libev's:
// 50 that are there at once, where that is told.
#include <libwebsockets.h>

#include <stdbool.h>
#include <stdint.h>
#include <stdio.h>
#include <stdlib.h>
#include <string.h>

enum { LONGEST = 16384, OUTBOX = 64, SLOTS = 4096 };

struct message {
    uint32_t holders;  // a broadcast lies in many outboxes
    size_t length;
    uint8_t before[LWS_PRE], octets[];
};

struct peer {
    struct lws *wsi;
    bool joined, live, closing;
    int code;
    const char *reason;
    uint8_t vmac[6], device[16];
    size_t longest;
    struct message *outbox[OUTBOX], *reply[4];
    unsigned first, waiting, replies;
    uint8_t *in;
    size_t came;
    struct peer *next_of_vmac, *next_of_device, *before, *after;
};

static const uint8_t hub_vmac[6] = {0x02, 0, 0, 0, 0, 0xFF};
static const uint8_t hub_identity[26] = {0x02, 0,    0,    0,    0,    0xFF, 0x00, 0x11, 0x22, 0x33, 0x44, 0x55, 0x66,
                                         0x77, 0x88, 0x99, 0xAA, 0xBB, 0xCC, 0xDD, 0xEE, 0xFF, 0x40, 0x00, 0x05, 0xD9};
static struct peer *by_vmac[SLOTS], *by_device[SLOTS], *live;
static unsigned long joined, replaced, refused, unicasts, broadcasts, appended, dropped, full, missed;
static long links, left;

static unsigned slot(const uint8_t *octets, size_t length) {
    uint32_t hash = 2166136261u;
    for (size_t i = 0; i < length; i++) hash = (hash ^ octets[i]) * 16777619u;
    return (hash ^ hash >> 16) % SLOTS;
}

static struct peer *holder_of(const uint8_t *vmac) {
    struct peer *p = by_vmac[slot(vmac, 6)];
    while (p && memcmp(p->vmac, vmac, 6)) p = p->next_of_vmac;
    return p;
}

static struct peer *of_device(const uint8_t *device) {
    struct peer *p = by_device[slot(device, 16)];
    while (p && memcmp(p->device, device, 16)) p = p->next_of_device;
    return p;
}

static void list(struct peer *p) {
    unsigned v = slot(p->vmac, 6), d = slot(p->device, 16);
    p->live = p->joined = true;
    p->next_of_vmac = by_vmac[v];
    by_vmac[v] = p;
    p->next_of_device = by_device[d];
    by_device[d] = p;
    p->before = NULL;
    p->after = live;
    if (live) live->before = p;
    live = p;
}

static void unlist(struct peer *p) {
    if (!p->live) return;
    struct peer **at = &by_vmac[slot(p->vmac, 6)];
    while (*at != p) at = &(*at)->next_of_vmac;
    *at = p->next_of_vmac;
    at = &by_device[slot(p->device, 16)];
    while (*at != p) at = &(*at)->next_of_device;
    *at = p->next_of_device;
    *(p->before ? &p->before->after : &live) = p->after;
    if (p->after) p->after->before = p->before;
    p->live = false;
}

static struct message *make(size_t length) {
    struct message *m = malloc(sizeof *m + length);
    if (!m) abort();
    m->holders = 0;
    m->length = length;
    return m;
}

static void let_go(struct message *m) {
    if (--m->holders == 0) free(m);
}

static void reply(struct peer *p, const uint8_t *octets, size_t length) {
    if (p->replies == 4) return;
    struct message *m = make(length);
    memcpy(m->octets, octets, length);
    m->holders = 1;
    p->reply[p->replies++] = m;
    lws_callback_on_writable(p->wsi);
}

static void close_with(struct peer *p, int code, const char *reason) {
    p->closing = true;
    p->code = code;
    p->reason = reason;
    lws_callback_on_writable(p->wsi);
}

static void append(struct peer *p, struct message *m) {
    m->holders++;
    p->outbox[(p->first + p->waiting++) % OUTBOX] = m;
    appended++;
    lws_callback_on_writable(p->wsi);
}

static void connect_request(struct peer *p, const uint8_t *m) {
    struct peer *holder = holder_of(m + 4), *same = of_device(m + 10);
    if (!memcmp(m + 4, hub_vmac, 6) || (holder && holder != same)) {
        const uint8_t nak[11] = {0, 0, m[2], m[3], 0x06, 1, 0, 0, 7, 0, 0x97};
        refused++;
        reply(p, nak, 11);
        close_with(p, 1000, "");
        return;
    }
    if (same) {
        const uint8_t request[4] = {0x08, 0, 0, 1};
        replaced++;
        unlist(same);
        reply(same, request, 4);
        close_with(same, 1000, "");
    }
    memcpy(p->vmac, m + 4, 6);
    memcpy(p->device, m + 10, 16);
    p->longest = (size_t)(m[26] << 8 | m[27]);
    list(p);
    joined++;
    uint8_t accept[30] = {0x07, 0, m[2], m[3]};
    memcpy(accept + 4, hub_identity, 26);
    reply(p, accept, 30);
}

static void forward(struct peer *p, const uint8_t *m, size_t length) {
    static const uint8_t everyone[6] = {255, 255, 255, 255, 255, 255};
    bool to_all = !memcmp(m + 4, everyone, 6);
    struct message *out = make(to_all ? length + 6 : length);
    out->octets[0] = m[0];
    out->octets[1] = (uint8_t)(to_all ? m[1] | 0x08 : (m[1] | 0x08) & ~0x04);
    memcpy(out->octets + 2, m + 2, 2);
    memcpy(out->octets + 4, p->vmac, 6);
    memcpy(out->octets + 10, to_all ? m + 4 : m + 10, out->length - 10);
    unsigned long before = appended;
    out->holders = 1;
    *(to_all ? &broadcasts : &unicasts) += 1;
    if (to_all) {
        for (struct peer *other = live; other; other = other->after) {
            if (other == p || out->length > other->longest) continue;
            if (other->waiting == OUTBOX) missed++;
            else append(other, out);
        }
    } else {
        struct peer *holder = p->live ? holder_of(m + 4) : NULL;
        if (holder && out->length <= holder->longest) {
            if (holder->waiting == OUTBOX) {
                full++;
                unlist(holder);
                close_with(holder, 1008, "outbox full");
            } else append(holder, out);
        }
    }
    if (appended == before) dropped++;
    let_go(out);
}

static void message(struct peer *p, const uint8_t *m, size_t length) {
    if (p->closing || length < 4) return;
    if (!p->joined) {
        if (length == 30 && m[0] == 0x06 && m[1] == 0) connect_request(p, m);
    } else if (length >= 10 && (m[1] & 0x0C) == 0x04) {
        forward(p, m, length);
    } else if (length == 4 && m[0] == 0x0A) {
        const uint8_t ack[4] = {0x0B, 0, m[2], m[3]};
        reply(p, ack, 4);
    } else if (length == 4 && m[0] == 0x08) {
        const uint8_t ack[4] = {0x09, 0, m[2], m[3]};
        unlist(p);
        reply(p, ack, 4);
        close_with(p, 1000, "");
    }
}

// Writes what waits while the socket takes it, frames before replies as they came to be due. -1 ends the connection.
static int write_out(struct peer *p) {
    while (p->waiting || p->replies) {
        if (lws_send_pipe_choked(p->wsi)) {
            lws_callback_on_writable(p->wsi);
            return 0;
        }
        struct message *m;
        if (p->waiting) {
            m = p->outbox[p->first];
            p->first = (p->first + 1) % OUTBOX;
            p->waiting--;
        } else {
            m = p->reply[0];
            memmove(p->reply, p->reply + 1, --p->replies * sizeof *p->reply);
        }
        // The library writes its head before the octets, so what lies in many outboxes is the same for each.
        int wrote = lws_write(p->wsi, m->octets, m->length, LWS_WRITE_BINARY);
        let_go(m);
        if (wrote < 0) return -1;
    }
    if (!p->closing) return 0;
    lws_close_reason(p->wsi, (enum lws_close_status)p->code, (uint8_t *)p->reason, strlen(p->reason));
    return -1;
}

static int on_event(struct lws *wsi, enum lws_callback_reasons why, void *user, void *in, size_t length) {
    struct peer *p = user;
    switch (why) {
        case LWS_CALLBACK_ESTABLISHED:
            memset(p, 0, sizeof *p);
            p->wsi = wsi;
            break;
        case LWS_CALLBACK_RECEIVE:
            if (lws_is_first_fragment(wsi) && lws_is_final_fragment(wsi)) {
                message(p, in, length);
                break;
            }
            if (!p->in) p->in = malloc(LONGEST);
            if (p->came + length > LONGEST) return -1;
            memcpy(p->in + p->came, in, length);
            p->came += length;
            if (lws_is_final_fragment(wsi)) {
                message(p, p->in, p->came);
                p->came = 0;
            }
            break;
        case LWS_CALLBACK_SERVER_WRITEABLE:
            return write_out(p);
        case LWS_CALLBACK_CLOSED:
            unlist(p);
            for (; p->waiting; p->waiting--, p->first = (p->first + 1) % OUTBOX) let_go(p->outbox[p->first]);
            for (unsigned i = 0; i < p->replies; i++) let_go(p->reply[i]);
            free(p->in);
            if (++left == links) {
                printf("hub counts joined=%lu replaced=%lu refused=%lu unicasts=%lu broadcasts=%lu appended=%lu dropped=%lu full=%lu missed=%lu\n",
                       joined, replaced, refused, unicasts, broadcasts, appended, dropped, full, missed);
                exit(0);
            }
            break;
        default:
            break;
    }
    return 0;
}

int main(int count, char **words) {
    static const struct lws_protocols protocols[] = {
        {"http-only", lws_callback_http_dummy, 0, 0, 0, NULL, 0},
        {"hub.bsc.bacnet.org", on_event, sizeof(struct peer), 4096, 0, NULL, 0},
        {NULL, NULL, 0, 0, 0, NULL, 0},
    };
    if (count != 3 && count != 4) return 1;
    links = atol(words[2]);
    long at_once = count == 4 ? atol(words[3]) : links;
    lws_set_log_level(LLL_ERR, NULL);
    struct lws_context_creation_info info = {
        .port = atoi(words[1]), .iface = "127.0.0.1", .protocols = protocols, .gid = (gid_t)-1, .uid = (uid_t)-1,
        .pt_serv_buf_size = 65536, .options = LWS_SERVER_OPTION_DISABLE_IPV6 | (at_once > 50 ? LWS_SERVER_OPTION_LIBEV : 0),
    };
    struct lws_context *context = lws_create_context(&info);
    if (!context) {
        info.options = LWS_SERVER_OPTION_DISABLE_IPV6;
        context = lws_create_context(&info);
    }
    if (!context) return 6;
    fprintf(stderr, "relay: serves ws://127.0.0.1:%s/\n", words[1]);
    while (lws_service(context, 0) >= 0) {}
    return 6;
}
