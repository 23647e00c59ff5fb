/* The relay core for C: checksums, RPC messages, links with their keys and cipher, and the table of requests in flight.
 *
 * Nothing here opens a socket, reads a clock, allocates or draws a random number: the caller lends bytes, time and
 * randomness, and gets answers. Every call has a defined answer for every input, hostile ones included.
 *
 * What a caller owes: no pointer is NULL, not even where its length is 0; what is lent to be written overlaps nothing
 * else that the call is lent; a bool is 0 or 1. A call keeps no pointer, and calls on different links or tables may run
 * at the same time. The numbers of refusals are those of documents 01 and 02.
 *
 * Link with librelay.a (bindings/archive builds it). x86-64, System V ABI. */
#ifndef RELAY_H
#define RELAY_H

#include <stdbool.h>
#include <stddef.h>
#include <stdint.h>

#ifdef __cplusplus
extern "C" {
#endif

/* ---- Refusals ---- */

enum {
    RELAY_LENGTH_UNDER_16 = 1,          /* a packet's length is under 16 */
    RELAY_LENGTH_OVER_LIMIT = 2,        /* a packet's length is over 16,777,215 */
    RELAY_LENGTH_IN_OPENING = 3,        /* a packet's length is 1024 or more in the opening */
    RELAY_PACKET_NUMBER = 4,            /* a packet does not bear the next number */
    RELAY_TYPE_NOT_ALLOWED = 5,         /* a packet's type is not allowed now */
    RELAY_CHECKSUM = 6,                 /* a packet's checksum is wrong */
    RELAY_OPENING_SHORT = 7,            /* the body of a Nonce or Handshake is too short */
    RELAY_CLOCKS = 8,                   /* the clocks are more than 30 seconds apart */
    RELAY_ENCRYPTION = 9,               /* the encryption that a Nonce names is not accepted, or it names another key
                                           where the cipher is chosen */
    RELAY_BEYOND_OFFER = 10,            /* a version above ours, or CRC-32C granted though not offered */
    RELAY_MESSAGE_CUT = 11,             /* a message ends within a field */
    RELAY_NUMBER_ZERO = 12,             /* a query number is 0 */
    RELAY_HEADER_REPEATED = 13,         /* a second actor, extra or reqResultHeader */
    RELAY_HEADER_NOT_CARRIED = 14,      /* a header or mask bit that our links do not carry */
    RELAY_PAYLOAD_READS_AS_HEADER = 15, /* a payload begins with what would be read as a header */
    RELAY_BUFFER_TOO_SMALL = 16,        /* what is to be written does not fit the slice */
    RELAY_BODY_SIZE = 17,               /* a Ping, Pong, cancel or fin of the wrong size, or bytes after an error */
    RELAY_TEXT_FORM = 18,               /* a text of another form */
    RELAY_TYPE_NOT_RPC = 19,            /* a type that is no message's, or a message that does not go this way */
    RELAY_LINK_CLOSED = 20,             /* the link is closed */
    RELAY_PING_OUT_OF_TURN = 21,        /* a Ping or Pong out of turn */
    RELAY_NOT_OUR_TURN = 22,            /* in the opening: a send at the other side's turn, or a receive at ours */
    RELAY_VERSION_TOO_OLD = 24,         /* a Nonce's version is below the link's lowest */
    RELAY_PADDING_NOT_ZERO = 25,        /* a byte of the padding behind a packet is not 0 */
    RELAY_FOURTH_WORD = 26,             /* a fourth word of 4 before a packet */
    RELAY_OUT_OF_RANGE = 30,            /* a link, publisher, first number, time or lowest version is out of range, or a
                                           derivation's version is above 2 */
    RELAY_IN_FLIGHT_ALREADY = 31,       /* the link has a request in flight with this number */
    RELAY_LOAD_AT_LIMIT = 32,           /* the publisher has 16 requests in flight */
    RELAY_CAPACITY_GONE = 33,           /* what is left of the 64 places is reserved for other publishers */
    RELAY_NO_SUCH_REQUEST = 34,         /* no such request is in flight */
    RELAY_EVENT_UNKNOWN_OR_CUT = 35,    /* of the program relay_walk alone: an event of no known kind, or cut */
    RELAY_UNSUITABLE_KEY = 36,          /* a key is over 4,096 bytes; a link's is under 32, or has four zero bytes in
                                           front, or is not there though the link may cipher */
    RELAY_NOT_WHOLE_BLOCKS = 37         /* what is to be enciphered or deciphered is not whole blocks of 16 bytes */
};

/* ---- Packet types ---- */

#define RELAY_NONCE UINT32_C(0x7acb87aa)
#define RELAY_HANDSHAKE UINT32_C(0x7682eef5)
#define RELAY_PING UINT32_C(0x5730a2df)
#define RELAY_PONG UINT32_C(0x8430eaa7)
/* Messages of a client. */
#define RELAY_INVOKE UINT32_C(0x2374df3d)
#define RELAY_CANCEL UINT32_C(0x193f1b22)
#define RELAY_CLIENT_FIN UINT32_C(0x0b73429e)
/* Messages of a server. An old error is read, never written. */
#define RELAY_RESULT UINT32_C(0x63aeda4e)
#define RELAY_OLD_ERROR UINT32_C(0x7ae432f5)
#define RELAY_SERVER_FIN UINT32_C(0xa8ddbc46)

/* ---- Checksums ---- */

/* CRC-32 and CRC-32C of s. */
uint32_t relay_crc32(const uint8_t *s, size_t n);
uint32_t relay_crc32c(const uint8_t *s, size_t n);

/* The same of some bytes followed by s, where previous is the checksum of those bytes; 0 for none. */
uint32_t relay_crc32_update(uint32_t previous, const uint8_t *s, size_t n);
uint32_t relay_crc32c_update(uint32_t previous, const uint8_t *s, size_t n);

/* ---- Messages ---- */

/* What a message is: relay_message.kind. */
enum {
    RELAY_MESSAGE_REFUSED = 0,
    RELAY_MESSAGE_INVOKE = 1,
    RELAY_MESSAGE_CANCEL = 2,
    RELAY_MESSAGE_CLIENT_FIN = 3,
    RELAY_MESSAGE_PAYLOAD = 4, /* a result with a payload (document 01: a page) */
    RELAY_MESSAGE_ERROR = 5,   /* a result with an error, in any of its four forms */
    RELAY_MESSAGE_SERVER_FIN = 6
};

/* A message that was read. A field that its kind does not have is 0. */
typedef struct relay_message {
    uint8_t kind;
    uint8_t refusal;  /* why it was refused */
    bool hasactor;    /* an invoke names an actor */
    bool hastimeout;  /* an invoke has a timeout: exactly if timeout is not 0, since a field of 0 means none */
    bool tl2;         /* an invoke has the TL2 marker */
    int64_t number;   /* the query number */
    int64_t actor;
    uint32_t timeout; /* in milliseconds */
    int32_t code;     /* an error's */
    size_t at, len;   /* the payload (document 01: rest, page) or text: len bytes of the body from byte at on */
} relay_message;

/* The message whose packet has this type and body, as a server reads it, or a client. Nothing is copied. */
relay_message relay_read_message(bool server, uint32_t type, const uint8_t *body, size_t n);

/* ---- Links ---- */

/* How a link is set up. Settings are added at the end, and 0, which an initialiser gives to what it does not name, is
 * the behaviour from before the setting: a caller is compiled again with this header, and needs no change. */
typedef struct relay_settings {
    bool server;
    bool allows;    /* CRC-32C is offered by a client, or granted by a server that is offered it */
    uint8_t lowest; /* the lowest version that the other side's Nonce may have, 0 to 2; 0 takes every version */
    bool padded;    /* from the Handshakes on zeros follow each packet up to a multiple of 4 bytes, and up to three
                       words of value 4 may stand before one; both ends are set alike. A link whose Nonces chose the
                       cipher is padded so whatever this says */
    bool cipher;    /* the cipher is offered by a client, or taken by a server that is offered it; such a link is set up
                       with a key */
    bool only;      /* with cipher: the link never goes clear. Without cipher it is not heeded */
} relay_settings;

/* The three settings of the cipher, and the encryption that the Nonces name: 0 is clear, 1 is the cipher, and from a
 * client anything else leaves it to the server. What does not fit is refused with 9.
 *
 *                 cipher  only    a client offers    and takes      a server refuses    and answers
 *   clear only    false   any     0                  0              1                   0
 *   cipher only   true    true    1                  1              0                   1
 *   either        true    false   2                  0 or 1         nothing             0 to 0, 1 to all else
 *
 * Where the cipher is chosen, a Nonce with another KeyID than our key's is refused with 9 too. The Nonces are clear:
 * who can change them under way can have two links that are set to either go clear, or speak an older version. A link
 * that must be ciphered is set to cipher only, and for forward secrecy with lowest 2. */

/* What the caller gives with each call. */
typedef struct relay_moment {
    uint32_t time; /* our time, in seconds */
} relay_moment;

/* A link's state: made by relay_set_up or relay_set_up_with_key, lent to each call, and updated where it stands. Only
 * the calls write it; a driver may read it, and must read ciphered. */
typedef struct relay_link {
    relay_settings set;
    bool closed;
    bool crc32c;      /* the Handshakes agreed on CRC-32C */
    uint8_t version;  /* of the other side's Nonce */
    uint8_t stage;    /* how many packets of the opening went over, in either direction: 4 after it */
    uint8_t phase;    /* on a padded link, the words since the first byte of our Handshake, modulo 4 */
    bool awaits;      /* a Ping of ours is unanswered */
    bool owes;        /* we owe a Pong */
    bool ciphered;    /* the Nonces chose the cipher: from the Handshakes on the driver ciphers (see below) */
    uint32_t keyid;   /* the first four bytes, as a little-endian number, of the key that the link was set up with, or
                         0: all that a link keeps of a key */
    uint32_t sends;   /* the next packet's number, of each direction */
    uint32_t gets;
    uint64_t awaited; /* the ID of the Ping that awaits its Pong, and of the Ping that is owed one */
    uint64_t owed;
} relay_link;

/* A link before its opening, or why it is refused: refusal is 0 where link may be used. After a refusal link is a
 * closed one, which refuses every call with 20. */
typedef struct relay_set_up_answer {
    uint8_t refusal;
    relay_link link;
} relay_set_up_answer;

/* A link without a key. Refused with 36 where the settings have cipher, then with 30 for a lowest version above 2. */
relay_set_up_answer relay_set_up(relay_settings settings);

/* A link with a key. Refused with 36 for a key over 4,096 or under 32 bytes, an empty one too, or with four zero bytes
 * in front, then with 30. The caller keeps the key, for relay_derive, and clears it. Without the cipher in the settings
 * the link opens as one without a key does, with a peer that has another key or none. */
relay_set_up_answer relay_set_up_with_key(relay_settings settings, const uint8_t *key, size_t n);

/* What stands at the front of received bytes: relay_arrival.tag. */
enum {
    RELAY_ARRIVAL_REFUSED = 0,
    RELAY_ARRIVAL_INCOMPLETE = 1,
    RELAY_ARRIVAL_PACKET = 2
};

/* A field that its tag does not have is 0. */
typedef struct relay_arrival {
    uint8_t tag;
    uint8_t refusal;
    uint32_t kind;   /* a packet's type */
    size_t more;     /* how many bytes more are needed at least (document 01: wait for k more) */
    size_t consumed; /* how many bytes the packet takes (document 01: the bytes used), with the words before it and the
                        zeros behind it on a padded link */
    size_t at, len;  /* its body: len bytes from byte at on */
} relay_arrival;

/* The packet at the front of the bytes, how many bytes it lacks, or why it is refused. Refusals 1 to 10, 17, 21 and 24
 * to 26 close the link; 20, 22 and an incomplete packet leave it as it was. On a padded link the longest packet takes
 * 16,777,228 bytes with its words and zeros, and words with no packet behind them are an incomplete one: the driver
 * keeps them, as it keeps those that a client flushed behind its Handshake while the server's is not sent yet (22). */
relay_arrival relay_receive(relay_link *link, const uint8_t *bytes, size_t n, relay_moment moment);

/* A part of the lent bytes. */
typedef struct relay_part {
    size_t at, len;
} relay_part;

/* Where the body of the packet that was answered stands in these bytes; empty where there was no packet, or the bytes
 * do not have it. */
relay_part relay_body(const uint8_t *bytes, size_t n, relay_arrival arrival);

/* The clock difference, their time minus ours; 0 where the clocks are not near. */
typedef struct relay_clock {
    bool near; /* from -30 to 30 seconds */
    int64_t difference;
} relay_clock;

/* The clock difference that a Nonce with this body shows. */
relay_clock relay_clock_difference(const uint8_t *body, size_t n, relay_moment moment);

/* A process, as a Handshake names it. */
typedef struct relay_netpid {
    uint32_t ip;
    uint16_t port;
    uint16_t pid;
    uint32_t start; /* its start time */
} relay_netpid;

/* The two processes that a Handshake names: who sent it, and whom the sender took its peer for. */
typedef struct relay_netpids {
    relay_netpid sender, peer;
} relay_netpids;

/* The processes that a Handshake with this body names. Of fewer than 28 bytes, which relay_receive refuses with 7, what
 * is there is read, and the rest is 0; bytes past 28 are ignored. */
relay_netpids relay_read_netpids(const uint8_t *body, size_t n);

/* ---- Sending ---- */

/* What is to be sent; what its type does not have is ignored. */
typedef struct relay_outgoing {
    uint32_t kind;    /* the packet's type */
    bool error;       /* a result is an error: the payload lent to relay_send is its text */
    bool hasactor;    /* an invoke names an actor */
    bool hastimeout;  /* an invoke has a timeout; one of 0 is none, and no field is sent for it */
    bool tl2;         /* an invoke has the TL2 marker */
    uint32_t timeout; /* in milliseconds */
    int32_t code;     /* an error's */
    int64_t number;   /* a query number */
    int64_t actor;
    uint64_t id;      /* a Ping's; a Pong takes the ID of the Ping that it answers */
    uint8_t random[16]; /* a Nonce's */
    relay_netpid sender; /* a Handshake's: ours, and the other side's */
    relay_netpid peer;
    uint8_t point[32];   /* a Nonce's, where the link offers or takes the cipher: the card's point. Else it is not read,
                            and the Nonce has zeros there */
} relay_outgoing;

/* How many bytes were written at the front of the buffer, a packet's zeros among them, or why none: refusal is 0 where
 * they were. */
typedef struct relay_sent {
    uint8_t refusal;
    size_t size;
} relay_sent;

/* Writes a packet at the front of buf; bytes past it stay. After a refusal the link and every byte of buf are as
 * before. payload is what an invoke or result carries, or an error's text. A Nonce bears moment's time. */
relay_sent relay_send(relay_link *link, uint8_t *buf, size_t room, const uint8_t *payload, size_t n,
                      relay_outgoing outgoing, relay_moment moment);

/* Writes the words of value 4 at the front of buf that bring what a padded link wrote since the first byte of our
 * Handshake to a multiple of 16 bytes, and hands back their size: 0, 4, 8 or 12, and 0 before our Handshake and on an
 * unpadded link. Bytes past them stay. Refusals: 20, then 16; after one the link and every byte of buf are as before.
 *
 * When to flush: on a ciphered link, behind the last packet that is handed over at once, before the bytes are
 * enciphered. The cipher takes whole blocks of 16 bytes only. The words go out behind that packet, like a packet. A
 * padded link that is not ciphered is read whether it is flushed or not. A flush that is not needed writes nothing. */
relay_sent relay_flush(relay_link *link, uint8_t *buf, size_t room);

/* ---- A ciphered link, from its set-up on ----
 *
 * From each direction's Handshake on its bytes go through AES-256 in CBC mode. The library has the rules, the keys and
 * the cipher; the Diffie-Hellman exchange is the caller's (its card's): a key pair for each link, whose point goes into
 * the Nonce, and of the other's point 32 shared bytes. A driver's order of calls, alike at both ends:
 *
 *   1. relay_set_up_with_key, with cipher in the settings.
 *   2. Send and receive the Nonces, in clear. Ours gets 16 random bytes and the card's point.
 *   3. When both are known, at a server when its own is written and at a client when the server's is received, look at
 *      link.ciphered. If it is false, go on in clear and clear the key. Else, before anything else is sent or received:
 *   4. relay_read_nonce of the body that relay_body gave, and of our own Nonce: what relay_send wrote, but for the
 *      first 12 bytes and the last 4. Fill one relay_derivation: the version of the server's Nonce, random and time of
 *      each Nonce, in version 0 both addresses, in version 2 the shared bytes. If the card has none for the other's
 *      point (one of small order, for instance), the link ends here: nothing goes on without keys.
 *   5. relay_derive with from_server false, for what the client sends, and true, for what the server sends. Of our own
 *      direction relay_encipher_keys, of the other relay_decipher_keys; keep these and each direction's vector.
 *   6. relay_clear of the key, the shared bytes, both init messages, both relay_derived and both relay_cipher_key.
 *   7. Out, from our Handshake on: send any number of packets one behind the other, relay_flush behind the last, then
 *      relay_encipher of all that was written since the last time (it is whole blocks), keep the vector, and write the
 *      bytes to the socket. Nothing is written that was not flushed and enciphered.
 *   8. In, from the first byte behind the other's Nonce on, even if it came in one read with it: relay_decipher of the
 *      whole blocks that are there, keep the vector, put what is deciphered behind the clear bytes that no packet has
 *      used yet, and relay_receive of these. The rest of a block waits, as it is, for the bytes behind it.
 *   9. When the link ends: relay_clear of round keys and vectors, and if it ends before step 6, of the key and of what
 *      else step 6 names that is there by then.
 *
 * With another key at the other end, or after changed bytes, what is deciphered is not what was sent. But for chance
 * relay_receive refuses it then, by length, number, type or checksum, or waits for bytes that a false length promises.
 * The cipher hides, it does not authenticate: a CRC is no MAC, and who can change the bytes under way may get changes
 * past it. And the cipher looks up tables by secret bytes, so that its time depends on them: it is not constant-time.
 * Both are in docs/DECISIONS.md.
 *
 * No call keeps anything. What a compiler leaves on the stack is not cleared. */

/* MD5 and SHA-1 of s. */
typedef struct relay_md5_digest {
    uint8_t bytes[16];
} relay_md5_digest;

typedef struct relay_sha1_digest {
    uint8_t bytes[20];
} relay_sha1_digest;

relay_md5_digest relay_md5(const uint8_t *s, size_t n);
relay_sha1_digest relay_sha1(const uint8_t *s, size_t n);

/* What a derivation needs of a Nonce's body. */
typedef struct relay_nonce_fields {
    uint8_t refusal;   /* 0 where it was read; else all other fields are 0 */
    uint8_t version;
    uint32_t time;
    relay_part random; /* 16 bytes of the body */
    relay_part point;  /* 32 bytes from byte 28 of the body on; under version 2 there is none: len is 0. Zeros of a link
                          that neither offers nor takes the cipher */
} relay_nonce_fields;

/* Refused with 7 for a body under 28 bytes, or under 60 with version 2 or more. Bytes past that are ignored. */
relay_nonce_fields relay_read_nonce(const uint8_t *body, size_t n);

/* One end of a link. Version 0 alone uses ip and port, of its end of the connection: numbers, not the network's bytes,
 * so that 1.2.3.4 is 0x01020304. */
typedef struct relay_end {
    uint8_t random[16]; /* of its Nonce */
    uint32_t time;      /* of its Nonce */
    uint32_t ip;
    uint16_t port;
} relay_end;

typedef struct relay_ends {
    relay_end client, server;
} relay_ends;

/* What keys are derived from, beside the link's key. The caller clears shared. */
typedef struct relay_derivation {
    uint8_t version;    /* 0, 1 or 2: that of the server's Nonce, which both speak */
    bool from_server;   /* whether the keys are for what the server sends; else for what the client sends */
    relay_ends ends;
    uint8_t shared[32]; /* the Diffie-Hellman secret; version 2 alone uses it */
} relay_derivation;

/* The keys of one direction. The caller clears all of it. */
typedef struct relay_derived {
    uint8_t refusal;    /* 0 where they were derived; else all other fields are 0 */
    size_t size;        /* of the init message, at the buffer's front */
    uint8_t key[32];    /* for AES-256 */
    uint8_t vector[16]; /* the starting vector */
} relay_derived;

/* Room that every init message fits: it has 86 bytes and the key's, in version 2 118 and the key's. */
#define RELAY_INIT_MESSAGE_MOST 4214

/* Writes the init message at the front of buf, and hands back the keys that follow from it; bytes past it stay. The key
 * may have any length up to 4,096, though a link's has 32 bytes at least. Refused with 36 for a longer one, then 30 for
 * a version above 2, then 16; after a refusal every byte of buf is as before. The caller clears buf, which has the key
 * and the shared bytes in it, and its own copy of the key. */
relay_derived relay_derive(uint8_t *buf, size_t room, relay_derivation what, const uint8_t *key, size_t n);

/* Makes every byte 0. A compiler may leave out a memset of what is not read again, but not this call. */
void relay_clear(uint8_t *buf, size_t n);

/* The key of one direction, as relay_derive gave it, and what AES-256 makes of it once for all its blocks. The caller
 * clears both. */
typedef struct relay_cipher_key {
    uint8_t bytes[32];
} relay_cipher_key;

typedef struct relay_round_keys {
    uint8_t bytes[240];
} relay_round_keys;

/* What a direction's next block is chained to: first the vector of relay_derive, then that of each answer. */
typedef struct relay_vector {
    uint8_t bytes[16];
} relay_vector;

typedef struct relay_chained {
    uint8_t refusal;     /* 0 or 37 */
    relay_vector vector; /* for the next call; after a refusal as it was lent */
} relay_chained;

/* The round keys of FIPS 197's key expansion, for relay_encipher, and those of its equivalent inverse cipher, for
 * relay_decipher: neither call works with the other's. */
relay_round_keys relay_encipher_keys(relay_cipher_key key);
relay_round_keys relay_decipher_keys(relay_cipher_key key);

/* Enciphers or deciphers the bytes where they stand, in CBC mode; none is no block, and right. Two calls in a row, with
 * the first one's vector lent to the second, do as one call on all the bytes. Refused with 37 for a length that is no
 * multiple of 16; the bytes and the vector are then as before. */
relay_chained relay_encipher(uint8_t *buf, size_t n, relay_round_keys keys, relay_vector vector);
relay_chained relay_decipher(uint8_t *buf, size_t n, relay_round_keys keys, relay_vector vector);

/* ---- The table of requests in flight (document 01: the ticket table) ---- */

/* The number that a front end gave its request, and the number under which a publisher has it: two types, so that a C
 * compiler tells them apart. */
typedef struct relay_front_number {
    int64_t value;
} relay_front_number;

typedef struct relay_publisher_number {
    int64_t value;
} relay_publisher_number;

/* A table of at most 64 requests in flight: declared by the caller, made by relay_fresh, lent to each call, and updated
 * where it stands. Front links are 0 to 31, publishers 0 to 7. A request takes the lowest free slot, 0 to 63, and stays
 * in it until it is freed.
 *
 * Only the calls write it; a driver may read it. It has no pointers, nothing is allocated for it and nothing is to be
 * released: a copy by assignment is a table of its own. Its members belong to this version of the library: a table is
 * not kept in a file, nor lent to another version. */
typedef struct relay_table {
    uint64_t masks[9];    /* sets of slots, where bit i is slot i. 0: the used ones; 1 + p: those of publisher p, whose
                             ones are its load */
    int64_t numbers[136]; /* i: the front number in slot i; 64 + i: its publisher number; 128 + p: from where on
                             publisher p's next number is looked for */
    uint8_t places[128];  /* i: the link in slot i; 64 + i: its publisher */
    uint8_t order[64];    /* i: slot i's place in the order of acceptance, 0 the oldest. What a slot that is not used
                             has here, in numbers, in places and in times means nothing */
    uint64_t times[65];   /* i: the deadline of the request in slot i, 0 for none; 64: the latest time seen */
} relay_table;

/* Who is at the other end of a connection: a front link or a publisher, made by relay_front or relay_publisher. A type
 * of its own, so that a side is not taken for a number. */
typedef struct relay_peer {
    bool publisher; /* a publisher; else a front link */
    uint8_t number; /* the publisher's, 0 to 7, or the link's, 0 to 31 */
} relay_peer;

static inline relay_peer relay_front(uint8_t link) {
    relay_peer peer = {false, link};
    return peer;
}

static inline relay_peer relay_publisher(uint8_t publisher) {
    relay_peer peer = {true, publisher};
    return peer;
}

/* Numbers in a slice that relay_gone and relay_run_out never find too short: two for each of 64 requests. */
#define RELAY_ALL_ENDS 128

/* In the answers below, refusal is 0 where the call was not refused; the other fields are 0 where it was. A refused
 * call leaves the table, and the slice that it is lent, as they were. Where several refusals apply, the answer is the
 * one that is named first. */

typedef struct relay_asked {
    uint8_t refusal;
    relay_publisher_number number;
} relay_asked;

typedef struct relay_replied {
    uint8_t refusal;
    uint8_t link;
    relay_front_number number;
} relay_replied;

typedef struct relay_cancelled {
    uint8_t refusal;
    uint8_t publisher;
    relay_publisher_number number;
} relay_cancelled;

typedef struct relay_dropped {
    uint8_t refusal;
    size_t count;
} relay_dropped;

/* What the archive has: the same calls, a peer by its two members. A program has no use for them; it makes the calls
 * below, which lend the table where it stands and copy none of it. */
uint8_t relay_table_fresh(relay_table *table, relay_publisher_number first);
relay_asked relay_table_ask(relay_table *table, uint8_t link, relay_front_number number, uint8_t publisher,
                            uint64_t time, uint32_t timeout);
relay_replied relay_table_reply(relay_table *table, uint8_t publisher, relay_publisher_number number);
relay_cancelled relay_table_cancel(relay_table *table, uint8_t link, relay_front_number number);
relay_dropped relay_table_gone(relay_table *table, bool publisher, uint8_t number, int64_t *out, size_t n);
relay_dropped relay_table_run_out(relay_table *table, uint64_t time, int64_t *out, size_t n);

/* The same calls for a caller who keeps a table's members apart, each lent by itself. Each call copies them in, up to
 * 1,872 bytes, and what it may change out again. */
uint8_t relay_fresh_lent(uint64_t masks[9], int64_t numbers[136], uint64_t times[65], relay_publisher_number first);
relay_asked relay_ask_lent(uint64_t masks[9], int64_t numbers[136], uint8_t places[128], uint8_t order[64],
                           uint64_t times[65], uint8_t link, relay_front_number number, uint8_t publisher,
                           uint64_t time, uint32_t timeout);
relay_replied relay_reply_lent(uint64_t masks[9], const int64_t numbers[136], const uint8_t places[128],
                               uint8_t order[64], uint8_t publisher, relay_publisher_number number);
relay_cancelled relay_cancel_lent(uint64_t masks[9], const int64_t numbers[136], const uint8_t places[128],
                                  uint8_t order[64], uint8_t link, relay_front_number number);
relay_dropped relay_gone_lent(uint64_t masks[9], const int64_t numbers[136], const uint8_t places[128],
                              uint8_t order[64], bool publisher, uint8_t number, int64_t *out, size_t n);
relay_dropped relay_run_out_lent(uint64_t masks[9], const int64_t numbers[136], const uint8_t places[128],
                                 uint8_t order[64], uint64_t times[65], uint64_t time, int64_t *out, size_t n);

/* Makes an empty table of whatever stands there; first is the first number of every publisher. It has seen the time 0.
 * Answers 0, or 30 for a first number below 1: all members are then as they were, and what was no table before must not
 * be used. */
static inline uint8_t relay_fresh(relay_table *table, relay_publisher_number first) {
    return relay_table_fresh(table, first);
}

/* Times and deadlines. The caller brings the present time, in milliseconds of any one clock, below 2^62: since a start,
 * since 1970, as it likes. A table keeps the latest time that its calls have seen. If the clock goes back, that one
 * counts in its place, so that a time far ahead, once seen, stays. Each call's own time is among those seen, but a
 * refused call does not see its time.
 *
 * A request's deadline is the latest time seen when it was asked plus its timeout. The table reads no clock: a request
 * past its deadline stays in flight, counts for the load, and may be replied to or cancelled, until relay_run_out is
 * called. A driver calls it now and then, as often as a request may be late. */

/* Accepts a request with a deadline: time is the present time, timeout in milliseconds; a timeout of 0 is none, and the
 * request has no deadline. Answers the number under which the publisher gets it, which is none that the publisher has
 * in flight. Refused with 30 for a link or publisher out of range or a time of 2^62 or more, 12 for a number of 0, 31
 * where the link has the number in flight, 32 where the publisher has 16 requests, and 33 where it has 4 or more and no
 * room is left that is not kept for the 4 of another. */
static inline relay_asked relay_ask_by(relay_table *table, uint8_t link, relay_front_number number, uint8_t publisher,
                                       uint64_t time, uint32_t timeout) {
    return relay_table_ask(table, link, number, publisher, time, timeout);
}

/* The same of a request without a deadline, for a caller who has no clock at hand: it sees no time. */
static inline relay_asked relay_ask(relay_table *table, uint8_t link, relay_front_number number, uint8_t publisher) {
    return relay_ask_by(table, link, number, publisher, 0, 0);
}

/* Frees the request that a publisher replied to; answers its link and front number. Refused with 30 for a publisher out
 * of range, 12 for a number of 0, and 34 where the publisher has no such request. */
static inline relay_replied relay_reply(relay_table *table, uint8_t publisher, relay_publisher_number number) {
    return relay_table_reply(table, publisher, number);
}

/* Frees the request that a front end cancelled; answers its publisher and publisher number. Refused with 30 for a link
 * out of range, 12 for a number of 0, and 34 where the link has no such request. */
static inline relay_cancelled relay_cancel(relay_table *table, uint8_t link, relay_front_number number) {
    return relay_table_cancel(table, link, number);
}

/* A peer is gone: frees all its requests and writes the other end of each to the front of out, oldest accepted first;
 * out past them stays. Answers how many there were, which may be 0.
 *
 *     relay_gone(&table, relay_front(link), out, n)            a front link closed: publisher and publisher number
 *     relay_gone(&table, relay_publisher(publisher), out, n)   a publisher is lost: link and front number
 *
 * Refused with 30 for a link over 31 or a publisher over 7, and 16 where out, n numbers long, has not two for each:
 * RELAY_ALL_ENDS always do. The numbers of a lost publisher go on where they were. */
static inline relay_dropped relay_gone(relay_table *table, relay_peer peer, int64_t *out, size_t n) {
    return relay_table_gone(table, peer.publisher, peer.number, out, n);
}

/* Deadlines that have come: frees all requests whose deadline is at or before the present time (the latest time seen,
 * where the clock went back) and writes link and front number of each to the front of out, oldest accepted first, as
 * for a lost publisher; out past them stays. Answers how many there were, which may be 0.
 *
 * It tells link and front number alone: under which number which publisher has the request is not known any more, so
 * that it cannot be cancelled there, and a late reply to it is refused with 34. A driver that would cancel it at its
 * publisher calls relay_run_out on a copy of the table first, and then relay_cancel on the table itself for each end
 * that was written.
 *
 * Refused with 30 for a time of 2^62 or more, and 16 where out, n numbers long, has not two for each: RELAY_ALL_ENDS
 * always do. With n of 0 it thus tells whether a deadline has come: 16 if one has, else it answers 0 and sees its time.
 */
static inline relay_dropped relay_run_out(relay_table *table, uint64_t time, int64_t *out, size_t n) {
    return relay_table_run_out(table, time, out, n);
}

#ifdef __cplusplus
}
#endif

#endif
