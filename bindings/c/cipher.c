/* A client and a server in one process, whose link goes through the cipher from its Handshakes on: the whole sequence
 * of relay.h, at both ends. Bytes go from one to the other through a buffer, where a program has a socket, and arrive
 * in parts that end within blocks.
 *
 *     cc -I include bindings/c/cipher.c build/librelay.a -o cipher
 *
 * "./cipher" has both ends set to cipher only, "./cipher clear" a client set to either and a server set to clear only:
 * their link goes clear, by the same calls. */
#include "relay.h"
#include <stdio.h>
#include <stdlib.h>
#include <string.h>

static const relay_moment now = {1700000000};

enum { ROOM = 512, BLOCK = 16, PART = 21 };

/* One direction: its round keys, and the vector that the next block is chained to. */
typedef struct direction {
    relay_round_keys keys;
    relay_vector vector;
} direction;

/* An end of the link. Of input the first clear bytes may be received, and the others wait to be deciphered. */
typedef struct end {
    bool server;
    relay_link link;
    uint8_t point;      /* all 32 bytes of it */
    uint8_t theirs[32]; /* the other's */
    relay_derivation what;
    bool keyed; /* both Nonces are known and chose the cipher, and out and in are there */
    direction out, in;
    uint8_t output[ROOM], input[ROOM];
    size_t written, arrived, clear;
} end;

/* A refusal ends the process here; a driver that goes on ends the link, and clears its secrets. */
static void check(const char *call, int refusal) {
    if (refusal != 0) {
        printf("%s: refused with %d\n", call, refusal);
        exit(1);
    }
}

static end set_up(relay_settings settings, const uint8_t *key, size_t n) {
    relay_set_up_answer answer = relay_set_up_with_key(settings, key, n);
    check("set-up", answer.refusal);
    end made = {.server = settings.server, .link = answer.link, .point = settings.server ? 5 : 3};
    return made;
}

/* Sends a packet: it stands behind what was sent before, and goes nowhere yet. */
static void send(end *from, relay_outgoing what, const char *payload) {
    uint8_t *buf = from->output + from->written;
    size_t room = ROOM - from->written;
    relay_sent sent = relay_send(&from->link, buf, room, (const uint8_t *)payload, strlen(payload), what, now);
    check("send", sent.refusal);
    from->written += sent.size;
}

/* What is written to the socket: with keys, so from the Handshakes on, it is flushed and enciphered first. */
static void hand_over(end *from) {
    if (from->keyed) {
        relay_sent words = relay_flush(&from->link, from->output + from->written, ROOM - from->written);
        check("flush", words.refusal);
        from->written += words.size;
        relay_chained chained = relay_encipher(from->output, from->written, from->out.keys, from->out.vector);
        check("encipher", chained.refusal); /* never: a flush ends a block */
        from->out.vector = chained.vector;
    }
    printf("%s writes %zu bytes\n", from->server ? "server" : "client", from->written);
}

/* What may be received of the bytes that are there: with keys, whole blocks are deciphered, and what is left of a block
 * waits. */
static void make_clear(end *to) {
    size_t whole = to->arrived - to->clear;
    if (to->keyed) {
        whole -= whole % BLOCK;
        relay_chained chained = relay_decipher(to->input + to->clear, whole, to->in.keys, to->in.vector);
        check("decipher", chained.refusal); /* never, as these are whole blocks */
        to->in.vector = chained.vector;
    }
    to->clear += whole;
}

static void arrive(end *to, const uint8_t *bytes, size_t n) {
    memcpy(to->input + to->arrived, bytes, n);
    to->arrived += n;
    make_clear(to);
}

/* The body of the next packet; false while it is not there. */
static bool receive(end *to, uint8_t *body, size_t *n) {
    relay_arrival arrival = relay_receive(&to->link, to->input, to->clear, now);
    check("receive", arrival.refusal);
    if (arrival.tag != RELAY_ARRIVAL_PACKET)
        return false;
    relay_part part = relay_body(to->input, to->clear, arrival);
    memcpy(body, to->input + part.at, part.len);
    *n = part.len;
    memmove(to->input, to->input + arrival.consumed, to->arrived - arrival.consumed);
    to->arrived -= arrival.consumed;
    to->clear -= arrival.consumed;
    return true;
}

/* Hands over what was sent, in parts; the body of the packet that arrives. */
static size_t pass(end *from, end *to, uint8_t *body) {
    size_t n = 0;
    hand_over(from);
    for (size_t at = 0; at < from->written; at += PART) {
        size_t left = from->written - at;
        arrive(to, from->output + at, left < PART ? left : PART);
        receive(to, body, &n);
    }
    from->written = 0;
    return n;
}

/* What an end takes of a Nonce, its own or the other's: of the other's the point too. */
static void take(end *at, bool server, const uint8_t *body, size_t n) {
    relay_nonce_fields nonce = relay_read_nonce(body, n);
    check("Nonce", nonce.refusal);
    relay_end *side = server ? &at->what.ends.server : &at->what.ends.client;
    memcpy(side->random, body + nonce.random.at, sizeof side->random);
    side->time = nonce.time;
    if (server)
        at->what.version = nonce.version; /* which both speak */
    if (server != at->server)
        memcpy(at->theirs, body + nonce.point.at, nonce.point.len);
}

static void pass_nonce(end *from, end *to, uint8_t random) {
    relay_outgoing nonce = {.kind = RELAY_NONCE};
    memset(nonce.random, random, sizeof nonce.random); /* in earnest, drawn */
    memset(nonce.point, from->point, sizeof nonce.point);
    send(from, nonce, "");
    /* Of its own an end knows the packet: a front of 12 bytes, and a checksum of 4. */
    take(from, from->server, from->output + 12, from->written - 16);
    uint8_t body[ROOM];
    size_t n = pass(from, to, body);
    take(to, from->server, body, n);
}

/* The round keys and the vector for what one side sends. */
static direction derive(end *at, bool server, const uint8_t *key, size_t n) {
    uint8_t message[RELAY_INIT_MESSAGE_MOST];
    at->what.from_server = server;
    relay_derived derived = relay_derive(message, sizeof message, at->what, key, n);
    check("derivation", derived.refusal);
    relay_cipher_key cipher_key;
    direction made;
    memcpy(cipher_key.bytes, derived.key, sizeof cipher_key.bytes);
    memcpy(made.vector.bytes, derived.vector, sizeof made.vector.bytes);
    made.keys = server == at->server ? relay_encipher_keys(cipher_key) : relay_decipher_keys(cipher_key);
    relay_clear(message, derived.size);
    relay_clear((uint8_t *)&derived, sizeof derived);
    relay_clear(cipher_key.bytes, sizeof cipher_key.bytes);
    return made;
}

/* What the card gives. Here it is no secret; in earnest it is X25519's, of a key pair that is made for this link
 * alone. */
static void share(end *at) {
    for (size_t i = 0; i < sizeof at->what.shared; i++)
        at->what.shared[i] = (uint8_t)(at->theirs[i] + at->point);
}

/* Once both Nonces are known: the keys of both directions, if they chose the cipher. The caller clears its key. */
static void agree(end *at, const uint8_t *key, size_t n) {
    printf("%s: version %d, %s\n", at->server ? "server" : "client", at->what.version,
           at->link.ciphered ? "ciphered" : "clear");
    if (!at->link.ciphered)
        return;
    share(at);
    at->out = derive(at, at->server, key, n);
    at->in = derive(at, !at->server, key, n);
    relay_clear(at->what.shared, sizeof at->what.shared);
    at->keyed = true;
    /* What came in one read with the other's Nonce, behind it, is ciphered. */
    at->clear = 0;
    make_clear(at);
}

static void talk(end *client, end *server) {
    uint8_t body[ROOM];
    relay_outgoing handshake = {.kind = RELAY_HANDSHAKE}, invoke = {.kind = RELAY_INVOKE, .number = 77};
    relay_outgoing result = {.kind = RELAY_RESULT, .number = 77};
    send(client, handshake, "");
    pass(client, server, body);
    send(server, handshake, "");
    pass(server, client, body);
    send(client, invoke, "page 1, please");
    size_t n = pass(client, server, body);
    relay_message asked = relay_read_message(true, RELAY_INVOKE, body, n);
    printf("asked: %.*s\n", (int)asked.len, (const char *)body + asked.at);
    send(server, result, "the first page");
    n = pass(server, client, body);
    relay_message answer = relay_read_message(false, RELAY_RESULT, body, n);
    printf("answered: %.*s\n", (int)answer.len, (const char *)body + answer.at);
}

int main(int count, char **words) {
    bool clear = count > 1 && strcmp(words[1], "clear") == 0;
    /* Version 2 alone: the older ones have no point, and version 0 needs both addresses. */
    relay_settings of_client = {.allows = true, .lowest = 2, .cipher = true, .only = !clear};
    relay_settings of_server = {.server = true, .allows = true, .lowest = 2, .cipher = !clear, .only = !clear};
    uint8_t key[32];
    memset(key, 'k', sizeof key); /* in earnest, read from where it is kept */
    end client = set_up(of_client, key, sizeof key), server = set_up(of_server, key, sizeof key);
    pass_nonce(&client, &server, 'c');
    pass_nonce(&server, &client, 's');
    agree(&client, key, sizeof key);
    agree(&server, key, sizeof key);
    relay_clear(key, sizeof key);
    talk(&client, &server);
    relay_clear((uint8_t *)&client, sizeof client);
    relay_clear((uint8_t *)&server, sizeof server);
    return 0;
}
