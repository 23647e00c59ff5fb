/* A client and a server in one process, set up with one key: they exchange their Nonces through a buffer, where a
 * program has a socket, and each derives the keys of both directions from the two Nonces as it has them. Then the
 * vectors that the protocol document prints for version 0. What follows on a link that ciphers is in cipher.c.
 *
 *     cc -I include bindings/c/keys.c build/librelay.a -o keys */
#include "relay.h"
#include <stdio.h>
#include <stdlib.h>
#include <string.h>

static const relay_moment now = {1700000000};

/* An end of the link, and what it derives keys from. */
typedef struct end {
    bool server;
    relay_link link;
    relay_derivation what;
} end;

static void check(const char *call, int refusal) {
    if (refusal != 0) {
        printf("%s: refused with %d\n", call, refusal);
        exit(1);
    }
}

static end set_up(bool server, const uint8_t *key, size_t n) {
    relay_settings settings = {.server = server, .allows = true, .lowest = 2};
    relay_set_up_answer answer = relay_set_up_with_key(settings, key, n);
    check("set-up", answer.refusal);
    end made = {.server = server, .link = answer.link};
    memset(made.what.shared, 7, sizeof made.what.shared); /* in earnest, of the two points */
    return made;
}

/* What an end takes of a Nonce, its own or the other's. */
static void take(end *at, bool server, const uint8_t *body, size_t n) {
    relay_nonce_fields nonce = relay_read_nonce(body, n);
    check("Nonce", nonce.refusal);
    relay_end *side = server ? &at->what.ends.server : &at->what.ends.client;
    memcpy(side->random, body + nonce.random.at, sizeof side->random);
    side->time = nonce.time;
    if (server)
        at->what.version = nonce.version; /* which both speak */
}

/* Sends a Nonce from one end, and receives it at the other. */
static void pass(end *from, end *to, uint8_t random) {
    relay_outgoing nonce = {.kind = RELAY_NONCE};
    memset(nonce.random, random, sizeof nonce.random); /* in earnest, drawn */
    uint8_t buf[76];
    relay_sent sent = relay_send(&from->link, buf, sizeof buf, (const uint8_t *)"", 0, nonce, now);
    check("send", sent.refusal);
    relay_arrival arrival = relay_receive(&to->link, buf, sent.size, now);
    check("receive", arrival.refusal);
    relay_part body = relay_body(buf, sent.size, arrival);
    take(to, from->server, buf + body.at, body.len);
    /* Of its own it knows the packet: a front of 12 bytes, and a checksum of 4. */
    take(from, from->server, buf + 12, sent.size - 16);
}

/* The keys for what one side sends. */
static relay_derived derive(end *at, bool server, const uint8_t *key, size_t n) {
    uint8_t message[RELAY_INIT_MESSAGE_MOST];
    at->what.from_server = server;
    relay_derived keys = relay_derive(message, sizeof message, at->what, key, n);
    check("derivation", keys.refusal);
    relay_clear(message, keys.size);
    return keys;
}

static void compare(end *client, end *server, bool sender, const uint8_t *key, size_t n) {
    relay_derived one = derive(client, sender, key, n), other = derive(server, sender, key, n);
    bool same = memcmp(one.key, other.key, sizeof one.key) == 0 &&
                memcmp(one.vector, other.vector, sizeof one.vector) == 0;
    printf("%s sends: %s keys at both ends\n", sender ? "server" : "client", same ? "the same" : "other");
    relay_clear((uint8_t *)&one, sizeof one);
    relay_clear((uint8_t *)&other, sizeof other);
}

static void exchange(void) {
    uint8_t key[32];
    memset(key, 'k', sizeof key); /* in earnest, read from where it is kept */
    end client = set_up(false, key, sizeof key), server = set_up(true, key, sizeof key);
    pass(&client, &server, 'c');
    pass(&server, &client, 's');
    printf("version %d\n", client.what.version);
    compare(&client, &server, false, key, sizeof key);
    compare(&client, &server, true, key, sizeof key);
    relay_clear(client.what.shared, sizeof client.what.shared);
    relay_clear(server.what.shared, sizeof server.what.shared);
    relay_clear(key, sizeof key);
}

static void print(const char *name, const uint8_t *bytes, size_t n) {
    printf("%s ", name);
    for (size_t i = 0; i < n; i++)
        printf("%02x", bytes[i]);
    printf("\n");
}

static void print_vector(bool server) {
    relay_derivation what = {.version = 0, .from_server = server};
    what.ends.client = (relay_end){.time = 0x01020304, .ip = 0x05060708, .port = 0x090a};
    what.ends.server = (relay_end){.ip = 0x0d0e0f10, .port = 0x1112};
    memcpy(what.ends.client.random, "abcdefghijklmnop", 16);
    memcpy(what.ends.server.random, "ABCDEFGHIJKLMNOP", 16);
    uint8_t message[90];
    relay_derived keys = relay_derive(message, sizeof message, what, (const uint8_t *)"hren", 4);
    check("derivation", keys.refusal);
    print("message", message, keys.size);
    print("key", keys.key, sizeof keys.key);
    print("vector", keys.vector, sizeof keys.vector);
}

int main(void) {
    exchange();
    print_vector(false);
    print_vector(true);
    return 0;
}
