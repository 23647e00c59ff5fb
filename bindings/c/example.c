/* A front end and a relay in one process: they open a link, the front end invokes, the relay takes the request into its
 * table. Bytes go from one to the other through a buffer, where a program has a socket.
 *
 *     cc -I include bindings/c/example.c build/librelay.a -o example */
#include "relay.h"
#include <stdio.h>
#include <stdlib.h>

static const relay_moment now = {1700000000};

/* Sends from one link and receives at the other; the packet's body stands in buf where the part says. */
static relay_part pass(relay_link *from, relay_link *to, relay_outgoing what, const char *payload, size_t n,
                       uint8_t *buf, size_t room) {
    relay_sent sent = relay_send(from, buf, room, (const uint8_t *)payload, n, what, now);
    if (sent.refusal != 0) {
        printf("not sent: %d\n", sent.refusal);
        exit(1);
    }
    relay_arrival arrival = relay_receive(to, buf, sent.size, now);
    if (arrival.tag != RELAY_ARRIVAL_PACKET) {
        printf("not received: %d\n", arrival.refusal);
        exit(1);
    }
    return relay_body(buf, sent.size, arrival);
}

/* A publisher is lost, or a front link closed: whom the program would tell, under which number. */
static void gone(relay_table *table, relay_peer peer) {
    int64_t ends[RELAY_ALL_ENDS];
    relay_dropped dropped = relay_gone(table, peer, ends, RELAY_ALL_ENDS);
    const char *who = peer.publisher ? "publisher" : "link", *other = peer.publisher ? "link" : "publisher";
    for (size_t i = 0; i < dropped.count; i++) {
        printf("%s %d gone: %s %lld, number %lld\n", who, peer.number, other, (long long)ends[2 * i],
               (long long)ends[2 * i + 1]);
    }
}

/* A request whose publisher hangs: it has a deadline, and the program runs it out. */
static void deadline(relay_table *table, relay_front_number number) {
    const uint64_t start = 5000; /* milliseconds of a clock of the program's own */
    relay_asked asked = relay_ask_by(table, 5, number, 1, start, 250);
    printf("asked with a deadline: publisher 1 gets it as %lld\n", (long long)asked.number.value);
    int64_t ends[RELAY_ALL_ENDS];
    for (uint64_t after = 249; after <= 250; after++) {
        relay_dropped out = relay_run_out(table, start + after, ends, RELAY_ALL_ENDS);
        printf("after %d ms: %d ran out\n", (int)after, (int)out.count);
        for (size_t i = 0; i < out.count; i++) {
            printf("link %lld, number %lld\n", (long long)ends[2 * i], (long long)ends[2 * i + 1]);
        }
    }
    printf("replied too late: %d\n", relay_reply(table, 1, asked.number).refusal);
}

/* Requests under one front number, and how each of them ends. */
static int requests(relay_front_number number) {
    relay_publisher_number first = {1};
    relay_table table;
    if (relay_fresh(&table, first) != 0) {
        return 1;
    }
    relay_asked asked = relay_ask(&table, 3, number, 0);
    printf("asked: publisher 0 gets it as %lld\n", (long long)asked.number.value);
    relay_replied replied = relay_reply(&table, 0, asked.number);
    printf("replied: to link %d, number %lld\n", replied.link, (long long)replied.number.value);
    relay_cancelled late = relay_cancel(&table, 3, number);
    printf("cancelled too late: %d\n", late.refusal);

    /* Both a link and a publisher are 7, and each has one of these. */
    relay_ask(&table, 4, number, 7);
    relay_ask(&table, 7, number, 2);
    gone(&table, relay_publisher(7));
    gone(&table, relay_front(7));
    deadline(&table, number);
    return 0;
}

int main(void) {
    relay_settings client = {.server = false, .allows = true}, server = {.server = true, .allows = true};
    relay_link front = relay_set_up(client).link, ours = relay_set_up(server).link;
    uint8_t buf[256];

    relay_outgoing nonce = {0}, handshake = {0}, invoke = {0};
    nonce.kind = RELAY_NONCE; /* and 16 random bytes, in earnest */
    handshake.kind = RELAY_HANDSHAKE;
    pass(&front, &ours, nonce, "", 0, buf, sizeof buf);
    pass(&ours, &front, nonce, "", 0, buf, sizeof buf);
    pass(&front, &ours, handshake, "", 0, buf, sizeof buf);
    pass(&ours, &front, handshake, "", 0, buf, sizeof buf);

    invoke.kind = RELAY_INVOKE;
    invoke.number = 77;
    invoke.hasactor = true;
    invoke.actor = -5;
    relay_part body = pass(&front, &ours, invoke, "page 1", 6, buf, sizeof buf);
    relay_message message = relay_read_message(true, RELAY_INVOKE, buf + body.at, body.len);
    printf("kind %d, number %lld, actor %lld, payload %.*s\n", message.kind, (long long)message.number,
           (long long)message.actor, (int)message.len, (const char *)buf + body.at + message.at);

    relay_front_number number = {message.number};
    return requests(number);
}
