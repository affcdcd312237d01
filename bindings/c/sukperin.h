/* sukperin.h: the core of an IPsec gateway: IKEv2, and ESP tunnels with NULL encryption and HMAC-SHA-256-128, with one peer.
 *
 * No socket, clock, thread or random source is inside. The host gives inputs, and carries out what the outputs say (docs/EMBEDDING.md).
 * What is proved of it the page of crates/sukperin says. What it can't see is trusted to its caller:
 *
 *   1. One owner of a handle. It begins as all zeros (SUK_NONE) and is changed by these calls alone. It may be moved, and then the old
 *      place is dead; a copy of it is never used.
 *   2. No overlaps. What one pointer of a call leads to lies apart from what every other one does, room and packet too.
 *   3. Lengths. A pointer is good for the length that stands behind it, in octets or records. No length is above PTRDIFF_MAX.
 *   4. Alignment. A pointer is aligned for its type. malloc, malloc_usable_size and free are one allocator's, and align to 16 octets.
 *   5. One thread a handle: it stays on the thread that made it; no signal handler, no forked child. Nothing proves that it may move.
 *   6. Fresh octets. What suk_fresh holds is drawn anew, unpredictably, for each input that takes one, also after one that is refused.
 *      If a nonce and a secret come again, keys come again.
 *   7. Numbers. A new sender under a key that was used before is given the last number that it was used with.
 *
 * What the library gives back to the system is overwritten first, key or not: when a gateway or an ESP SA ends, and what an input took for
 * a while. At such an end so are 64 KiB of the stack below the call, as much as any call takes. Registers aren't. A gateway that goes on
 * may keep what it needs no more in its blocks until they serve for something else. What the caller holds is the caller's to overwrite:
 * secrets, keys, fresh octets, rooms, packets.
 *
 * The functions sukperin_* below check of this what can be checked, null and lengths, and answer SUK_E_NULL; else they are the same calls.
 *
 * Every call answers 0, or a code (SUK_E_*, or the number of a refusal, E1 to E39) and has then done nothing, but for E19.
 * With each call stand the codes that it answers, in the order in which it looks for them. A record that it fills is as before where it
 * didn't answer 0, except where the call says otherwise.
 * Lengths are in octets, moments in milliseconds, SPIs numbers. A flag is an octet: 0 is no, all else yes. */
#ifndef SUKPERIN_H
#define SUKPERIN_H

#include <stdbool.h>
#include <stddef.h>
#include <stdint.h>

#ifdef __cplusplus
extern "C" {
#endif

/* ---- Codes ---- */

enum {
    SUK_OK = 0,
    SUK_E_MEMORY = 20,   /* E20: out of memory. The input may be given again */
    SUK_E_NO_END = 101,  /* the handle leads to none, or to what this call isn't for */
    SUK_E_IN_USE = 102,  /* the handle leads to something already: end it first */
    SUK_E_ROOM = 103,    /* the room is shorter than what may have to be written */
    SUK_E_CONFIG = 104,  /* an identity hasn't 1 to 256 octets, the window isn't 1 to 16, or the blocks no power of two from 2 to 128 */
    SUK_E_NULL = 105,    /* of the sukperin_* functions alone: a null pointer, or a length above PTRDIFF_MAX */
    SUK_E_POLICY = 106,  /* more than 256 entries, a family or an action that is none, or a range that ends before it begins */
    SUK_E_SPI = 107,     /* an SPI below 256, or a first SPI above 2^32 - 65,536 */
    SUK_E_NOTHING = 108, /* there is no such thing to tell */
    SUK_E_PLACE = 109    /* a packet's place isn't in the buffer */
};

/* What a packet needs more than its own octets when it is sealed: 8 before it, up to 5 and 16 behind it. */
#define SUK_ROOM(length) ((length) + 29)

/* ---- One ESP SA under a key that is given (RFC 4303): for tests, and to judge packets of another stack ---- */

/* One end of it. All zeros is none. */
typedef struct {
    void *private_at;
    bool private_live;
} suk_association;

#define SUK_NONE \
    { NULL, false }

typedef struct {
    uint64_t number; /* its sequence number */
    uint64_t length; /* of the packet, from the beginning of the room */
} suk_sealed;

typedef struct {
    uint64_t number;         /* its sequence number */
    uint64_t offset, length; /* where the payload lies in the packet */
    uint32_t next;           /* the payload's protocol: 4 IPv4, 41 IPv6, 59 none */
    uint32_t reserved;
} suk_opened;

/* A sender whose last number was `last`, 0 for a new one. 102, 107 (the SPI is below 256), 20. */
uint32_t suk_sender(suk_association *, uint32_t spi, const uint8_t key[32], uint8_t extended, uint64_t last);

/* A receiver that took no packet, with a replay window of `blocks`, which spans 64 numbers for each block but one. 102, 107, 104, 20. */
uint32_t suk_receiver(suk_association *, uint32_t spi, const uint8_t key[32], uint8_t extended, uint32_t blocks);

/* Seals a payload of this protocol into the room, which has at least SUK_ROOM(payload). What the room holds behind the packet stays.
 * 101, 103, 12 (the numbers are exhausted), 13 (more than 16,384 octets), 20. */
uint32_t suk_seal(suk_association *, uint8_t next, const uint8_t *payload, size_t, uint8_t *room, size_t, suk_sealed *);

/* Judges a packet, from its SPI on, and takes its number. 101, 28 (another SPI), 14 (its length), 17, 15, 16 (its number), 18 (its ICV),
 * 19 (its padding; the number stays taken). */
uint32_t suk_open(suk_association *, const uint8_t *packet, size_t, suk_opened *);

/* Overwrites and frees it, if there is one; the handle is all zeros afterwards. */
void suk_end_association(suk_association *);

/* ---- A gateway ---- */

/* All zeros is none. */
typedef struct {
    void *private_at;
    bool private_live;
} suk_gateway;

/* What a gateway is made of, but for what has no fixed length. */
typedef struct {
    uint8_t own_kind, peer_kind; /* the identities' types (RFC 7296 section 3.5): 1 IPv4, 2 name, 3 mail, 5 IPv6, 9 DN, 11 key ID */
    uint8_t extended;            /* whether extended sequence numbers are allowed, and then offered first */
    uint8_t window;              /* how many requests of the peer it takes at once, 1 to 16 */
    uint32_t blocks;             /* of replay windows: 2, 4, 8, 16, 32, 64 or 128 */
    uint32_t first_spi;          /* from 256 to 2^32 - 65,536; up to 65,536 are given from here on */
    uint8_t own_address[4], peer_address[4]; /* for the host's own use */
    uint8_t cookie_secret[32];               /* the first secret of its cookies: unpredictable */
    uint8_t tells_keys;                      /* whether suk_keys tells the keys of its IKE SAs */
    uint8_t reserved[3];                     /* 0 */
} suk_terms;

enum { SUK_DISCARD = 0, SUK_BYPASS = 1, SUK_PROTECT = 2 };

/* An entry of the policy, of which the first one that holds a flow counts. Ranges have both their ends. */
typedef struct {
    uint8_t family;   /* 4 or 6 */
    uint8_t protocol; /* 0: any */
    uint8_t action;
    uint8_t reserved; /* 0 */
    /* All ports, and protocols that have none: 0 to 65535. 0 to 0 is taken too, and holds hardly a packet. */
    uint16_t local_start_port, local_end_port, remote_start_port, remote_end_port;
    uint8_t local_start[16], local_end[16], remote_start[16], remote_end[16]; /* an address of IPv4: the first four octets */
} suk_entry;

/* The randomness of one input. */
typedef struct {
    uint64_t spi;
    uint8_t nonce[32], secret[32], seal[16];
} suk_fresh;

/* What comes of an input (docs/EMBEDDING.md, Outputs, says what the host does then). */
enum {
    SUK_REPLY = 1, /* one message, the answer to a request: to where it came from. ike where it is under keys, child it made, closed */
    SUK_REPEAT,    /* one message, the answer of before to a retransmission. ike where it is under keys */
    SUK_REQUEST,   /* one message to the peer. ike */
    SUK_COUNTED,   /* a response was counted. ike; child that it made; closed */
    SUK_TICKED,    /* messages that go out again, and closings */
    SUK_DONE,      /* cookies are made under the new secret */
    SUK_UP,        /* a packet goes up, inside: a part of the packet that came. child, number */
    SUK_DUMMY,     /* an ESP packet carried nothing. child, number */
    SUK_SEALED,    /* an ESP packet to the peer, in the room. child, number */
    SUK_CLEAR,     /* the packet goes on as it is */
    SUK_DISCARDED, /* the packet doesn't go on, by the policy */
    SUK_DROPPED,   /* what came is dropped: code is the refusal's number */
    SUK_REFUSED    /* the input is refused, and nothing is changed: code */
};

/* Serials are 0 where nothing is named. */
typedef struct {
    uint32_t kind, code;
    uint32_t ike, child, closed;
    uint32_t keyed;    /* the IKE SA whose keys the step made */
    uint64_t messages; /* how many there are to be taken by suk_message */
    uint64_t closings; /* how many IKE SAs suk_closing tells */
    uint64_t number;   /* the sequence number of an ESP packet */
    uint64_t offset;   /* where what goes up begins in the packet that came; where what was sealed begins in the room (0 of suk_outward) */
    uint64_t length;   /* of what goes up, of what was sealed, of what goes on as it is, or of one message */
} suk_output;

/* A packet's place in a buffer. */
typedef struct {
    uint64_t offset, length;
} suk_place;

typedef struct {
    uint64_t length;
    uint32_t ike; /* 0 of an answer */
    uint32_t reserved;
} suk_message_told;

/* A Child SA: one inbound and one outbound SA of ESP. */
typedef struct {
    uint32_t serial, ike;
    uint32_t spi_in, spi_out;
    uint8_t live; /* 0 once its end was announced: then it carries nothing outward */
    uint8_t extended;
    uint16_t reserved;
    uint32_t more;            /* 0 */
    uint64_t locals, remotes; /* how many selectors */
    uint64_t sent;            /* the last number that it sent, 0 where there is none */
    uint64_t taken;           /* the greatest number that it took, 0 where there is none */
} suk_child;

typedef struct {
    uint8_t family, protocol; /* protocol 0: any */
    uint16_t start_port, end_port;
    uint8_t start[16], end[16]; /* an address of IPv4: the first four octets */
} suk_selector_told;

typedef struct {
    uint64_t spi_i, spi_r;
    uint64_t moment; /* when it was made, of one half open; when it was closed; else 0 */
    uint32_t serial;
    uint8_t role;     /* 1 this end began it, 2 the peer */
    uint8_t phase;    /* 1 asked for, 2 told who it is, 3 half open, 4 established, 5 closed */
    uint8_t deleting; /* whether this end asked for its deletion */
    uint8_t window;   /* how many requests at once the peer takes */
} suk_ike_association;

/* The keys of an IKE SA (RFC 7296 section 2.14). Its initiator is the end that began it. */
typedef struct {
    uint8_t sk_d[32];             /* of which those of Child SAs are made */
    uint8_t sk_ai[32], sk_ar[32]; /* integrity of what the initiator sends, and the responder */
    uint8_t sk_ei[32], sk_er[32]; /* encryption of it */
    uint8_t sk_pi[32], sk_pr[32]; /* proof of the initiator's identity, and the responder's */
} suk_keys_told;

/* The longest message has 3000 octets. */
#define SUK_MESSAGE_ROOM 3000

/* A gateway of these terms, identities, secrets and entries, with no IKE SA. An empty secret of the peer's proves nothing.
 * 102, 107, 104, 106, 20. */
uint32_t suk_new(suk_gateway *, const suk_terms *, const uint8_t *own_id, size_t, const uint8_t *peer_id, size_t, const uint8_t *own_psk,
                 size_t, const uint8_t *peer_psk, size_t, const suk_entry *, size_t);

/* Overwrites and frees it, if there is one, with its keys and secrets; the handle is all zeros afterwards. */
void suk_end(suk_gateway *);

/* All inputs: 101. Else 0, and the record tells what came of it; out of memory is SUK_REFUSED too. What the input before left to be
 * taken is gone then. */

/* A datagram of IKE from this IPv4 address, without its UDP header and without the four zeros of port 4500. */
uint32_t suk_ike(suk_gateway *, const uint8_t from[4], const uint8_t *datagram, size_t, const suk_fresh *, suk_output *);

/* The command to ask for a Child SA by an entry, its place counted from 0: with a new IKE SA where ike is 0, else an additional one of
 * that IKE SA. */
uint32_t suk_start(suk_gateway *, uint32_t ike, uint32_t entry, const suk_fresh *, suk_output *);

/* The command to ask the peer of an IKE SA whether it is there. */
uint32_t suk_probe(suk_gateway *, uint32_t ike, const suk_fresh *, suk_output *);

/* The command to delete a Child SA. */
uint32_t suk_delete_child(suk_gateway *, uint32_t child, const suk_fresh *, suk_output *);

/* The command to delete an IKE SA with all its Child SAs. */
uint32_t suk_delete_ike(suk_gateway *, uint32_t ike, const suk_fresh *, suk_output *);

/* The command to make cookies under another secret. The one before stays good. */
uint32_t suk_secret(suk_gateway *, const uint8_t secret[32], suk_output *);

/* The time. An earlier moment counts as the greatest so far. To be told before each command and each datagram of IKE too: a request counts
 * from the last moment before it. */
uint32_t suk_tick(suk_gateway *, uint64_t moment, suk_output *);

/* When suk_tick is due next. 101; 108 where nothing will ever be due. */
uint32_t suk_next(suk_gateway *, uint64_t *moment);

/* An ESP packet that came, from its SPI on. */
uint32_t suk_esp(suk_gateway *, const uint8_t *packet, size_t, suk_output *);

/* A whole IP packet on its way out, sealed into the room where it is protected. 103, and nothing is done, where the room is
 * shorter than SUK_ROOM(packet). */
uint32_t suk_outward(suk_gateway *, const uint8_t *packet, size_t, uint8_t *room, size_t, suk_output *);

/* ESP packets that came, each in its place in one buffer: as so many calls of suk_esp in their order, with a record for each. Up to 64 at
 * a time have their ICVs computed side by side. 101; 103, and nothing is done, where there are fewer records than places. A packet whose
 * place isn't in the buffer is refused alone: SUK_REFUSED, code 109. A record's offset counts from its own packet's beginning. */
uint32_t suk_esp_all(suk_gateway *, const uint8_t *octets, size_t, const suk_place *, size_t, suk_output *, size_t);

/* Whole IP packets on their way out, each in its place in one buffer: as so many calls of suk_outward in their order. Sealed packets lie
 * one behind the other in the room from its beginning: a record's offset and length say where. A packet for which fewer than
 * SUK_ROOM(length) octets of the room are left is refused alone: SUK_REFUSED, code 103; one whose place isn't in the buffer with code 109.
 * A room of as many octets as SUK_ROOM of all lengths together is enough. None is refused for want of memory, as by a single call (code 20)
 * it may be. 101; 103, and nothing is done, where there are fewer records than places. */
uint32_t suk_outward_all(suk_gateway *, const uint8_t *octets, size_t, const suk_place *, size_t, uint8_t *room, size_t, suk_output *,
                         size_t);

/* A whole IP packet that came in unprotected. */
uint32_t suk_inward(suk_gateway *, const uint8_t *packet, size_t, suk_output *);

/* Views change nothing. */

/* The message in this place, from 0, of those that the last input left. 101, 108; 103 where the room is shorter, and then its length is
 * told all the same. */
uint32_t suk_message(suk_gateway *, uint64_t place, uint8_t *room, size_t, suk_message_told *);

/* The IKE SA in this place of those that the last suk_tick closed. 101, 108. */
uint32_t suk_closing(suk_gateway *, uint64_t place, uint32_t *ike);

/* The Child SA with the least serial above this one. 101, 108 where there is none. */
uint32_t suk_child_after(suk_gateway *, uint32_t serial, suk_child *);

/* A selector of a Child SA, on this side or the remote one, its place counted from 0. 101, 108. */
uint32_t suk_selector(suk_gateway *, uint32_t child, uint8_t remote, uint64_t place, suk_selector_told *);

/* The IKE SAs that are held, by rising serial. 101; 103 where the room has too few records, and then their count is told all
 * the same. */
uint32_t suk_associations(suk_gateway *, suk_ike_association *, size_t, uint64_t *count);

/* The keys of the IKE SA with this serial, for tests and for programs that read captured messages: they are secrets. 101; 108 where the
 * terms didn't say tells_keys, no such IKE SA is held, or it has no keys yet. */
uint32_t suk_keys(suk_gateway *, uint32_t ike, suk_keys_told *);

/* ---- The same calls, with null and lengths looked at ---- */

/* A null pointer is no fault where the length or the count of records is 0. */
static inline bool suk_is_bad(const void *at, size_t length) { return (at == NULL && length != 0) || length > PTRDIFF_MAX; }

/* The library is given no null pointer, even without octets. */
static inline const uint8_t *suk_some(const uint8_t *at) {
    static const uint8_t nothing[1] = {0};
    return at != NULL ? at : nothing;
}

/* Nor one to write to, even without room. */
static inline uint8_t *suk_some_room(uint8_t *at) {
    static uint8_t nothing[1];
    return at != NULL ? at : nothing;
}

static inline suk_output *suk_some_records(suk_output *at) {
    static suk_output nothing;
    return at != NULL ? at : &nothing;
}

typedef struct {
    const uint8_t *at;
    size_t length;
} suk_octets;

/* All that a gateway is made of. */
typedef struct {
    suk_terms terms;
    suk_octets own_id, peer_id, own_psk, peer_psk;
    const suk_entry *entries;
    size_t entry_count;
} suk_config;

static inline uint32_t sukperin_new(suk_gateway *gateway, const suk_config *config) {
    static suk_entry no_entry;
    if (gateway == NULL || config == NULL || suk_is_bad(config->own_id.at, config->own_id.length) ||
        suk_is_bad(config->peer_id.at, config->peer_id.length) || suk_is_bad(config->own_psk.at, config->own_psk.length) ||
        suk_is_bad(config->peer_psk.at, config->peer_psk.length) || suk_is_bad(config->entries, config->entry_count) ||
        config->entry_count > PTRDIFF_MAX / sizeof(suk_entry))
        return SUK_E_NULL;
    return suk_new(gateway, &config->terms, suk_some(config->own_id.at), config->own_id.length, suk_some(config->peer_id.at),
                   config->peer_id.length, suk_some(config->own_psk.at), config->own_psk.length, suk_some(config->peer_psk.at),
                   config->peer_psk.length, config->entries != NULL ? config->entries : &no_entry, config->entry_count);
}

static inline void sukperin_end(suk_gateway *gateway) {
    if (gateway != NULL)
        suk_end(gateway);
}

static inline uint32_t sukperin_ike(suk_gateway *gateway, const uint8_t from[4], const uint8_t *datagram, size_t length,
                                    const suk_fresh *fresh, suk_output *output) {
    if (gateway == NULL || from == NULL || suk_is_bad(datagram, length) || fresh == NULL || output == NULL)
        return SUK_E_NULL;
    return suk_ike(gateway, from, suk_some(datagram), length, fresh, output);
}

static inline uint32_t sukperin_start(suk_gateway *gateway, uint32_t ike, uint32_t entry, const suk_fresh *fresh, suk_output *output) {
    if (gateway == NULL || fresh == NULL || output == NULL)
        return SUK_E_NULL;
    return suk_start(gateway, ike, entry, fresh, output);
}

static inline uint32_t sukperin_probe(suk_gateway *gateway, uint32_t ike, const suk_fresh *fresh, suk_output *output) {
    if (gateway == NULL || fresh == NULL || output == NULL)
        return SUK_E_NULL;
    return suk_probe(gateway, ike, fresh, output);
}

static inline uint32_t sukperin_delete_child(suk_gateway *gateway, uint32_t child, const suk_fresh *fresh, suk_output *output) {
    if (gateway == NULL || fresh == NULL || output == NULL)
        return SUK_E_NULL;
    return suk_delete_child(gateway, child, fresh, output);
}

static inline uint32_t sukperin_delete_ike(suk_gateway *gateway, uint32_t ike, const suk_fresh *fresh, suk_output *output) {
    if (gateway == NULL || fresh == NULL || output == NULL)
        return SUK_E_NULL;
    return suk_delete_ike(gateway, ike, fresh, output);
}

static inline uint32_t sukperin_secret(suk_gateway *gateway, const uint8_t secret[32], suk_output *output) {
    if (gateway == NULL || secret == NULL || output == NULL)
        return SUK_E_NULL;
    return suk_secret(gateway, secret, output);
}

static inline uint32_t sukperin_tick(suk_gateway *gateway, uint64_t moment, suk_output *output) {
    if (gateway == NULL || output == NULL)
        return SUK_E_NULL;
    return suk_tick(gateway, moment, output);
}

static inline uint32_t sukperin_next(suk_gateway *gateway, uint64_t *moment) {
    if (gateway == NULL || moment == NULL)
        return SUK_E_NULL;
    return suk_next(gateway, moment);
}

static inline uint32_t sukperin_esp(suk_gateway *gateway, const uint8_t *packet, size_t length, suk_output *output) {
    if (gateway == NULL || suk_is_bad(packet, length) || output == NULL)
        return SUK_E_NULL;
    return suk_esp(gateway, suk_some(packet), length, output);
}

static inline uint32_t sukperin_outward(suk_gateway *gateway, const uint8_t *packet, size_t length, uint8_t *room, size_t room_length,
                                        suk_output *output) {
    if (gateway == NULL || suk_is_bad(packet, length) || suk_is_bad(room, room_length) || output == NULL)
        return SUK_E_NULL;
    return suk_outward(gateway, suk_some(packet), length, suk_some_room(room), room_length, output);
}

static inline uint32_t sukperin_esp_all(suk_gateway *gateway, const uint8_t *octets, size_t length, const suk_place *places, size_t count,
                                        suk_output *outputs, size_t records) {
    static const suk_place no_place = {0, 0};
    if (gateway == NULL || suk_is_bad(octets, length) || suk_is_bad(places, count) || count > PTRDIFF_MAX / sizeof(suk_place) ||
        suk_is_bad(outputs, records) || records > PTRDIFF_MAX / sizeof(suk_output))
        return SUK_E_NULL;
    return suk_esp_all(gateway, suk_some(octets), length, places != NULL ? places : &no_place, count, suk_some_records(outputs), records);
}

static inline uint32_t sukperin_outward_all(suk_gateway *gateway, const uint8_t *octets, size_t length, const suk_place *places,
                                            size_t count, uint8_t *room, size_t room_length, suk_output *outputs, size_t records) {
    static const suk_place no_place = {0, 0};
    if (gateway == NULL || suk_is_bad(octets, length) || suk_is_bad(places, count) || count > PTRDIFF_MAX / sizeof(suk_place) ||
        suk_is_bad(room, room_length) || suk_is_bad(outputs, records) || records > PTRDIFF_MAX / sizeof(suk_output))
        return SUK_E_NULL;
    return suk_outward_all(gateway, suk_some(octets), length, places != NULL ? places : &no_place, count, suk_some_room(room),
                           room_length, suk_some_records(outputs), records);
}

static inline uint32_t sukperin_inward(suk_gateway *gateway, const uint8_t *packet, size_t length, suk_output *output) {
    if (gateway == NULL || suk_is_bad(packet, length) || output == NULL)
        return SUK_E_NULL;
    return suk_inward(gateway, suk_some(packet), length, output);
}

static inline uint32_t sukperin_message(suk_gateway *gateway, uint64_t place, uint8_t *room, size_t length, suk_message_told *told) {
    if (gateway == NULL || suk_is_bad(room, length) || told == NULL)
        return SUK_E_NULL;
    return suk_message(gateway, place, suk_some_room(room), length, told);
}

static inline uint32_t sukperin_closing(suk_gateway *gateway, uint64_t place, uint32_t *ike) {
    if (gateway == NULL || ike == NULL)
        return SUK_E_NULL;
    return suk_closing(gateway, place, ike);
}

static inline uint32_t sukperin_child_after(suk_gateway *gateway, uint32_t serial, suk_child *told) {
    if (gateway == NULL || told == NULL)
        return SUK_E_NULL;
    return suk_child_after(gateway, serial, told);
}

static inline uint32_t sukperin_selector(suk_gateway *gateway, uint32_t child, bool remote, uint64_t place, suk_selector_told *told) {
    if (gateway == NULL || told == NULL)
        return SUK_E_NULL;
    return suk_selector(gateway, child, remote, place, told);
}

static inline uint32_t sukperin_associations(suk_gateway *gateway, suk_ike_association *room, size_t records, uint64_t *count) {
    static suk_ike_association nothing;
    if (gateway == NULL || suk_is_bad(room, records) || records > PTRDIFF_MAX / sizeof(suk_ike_association) || count == NULL)
        return SUK_E_NULL;
    return suk_associations(gateway, room != NULL ? room : &nothing, records, count);
}

static inline uint32_t sukperin_keys(suk_gateway *gateway, uint32_t ike, suk_keys_told *told) {
    if (gateway == NULL || told == NULL)
        return SUK_E_NULL;
    return suk_keys(gateway, ike, told);
}

static inline uint32_t sukperin_sender(suk_association *end, uint32_t spi, const uint8_t key[32], bool extended, uint64_t last) {
    if (end == NULL || key == NULL)
        return SUK_E_NULL;
    return suk_sender(end, spi, key, extended, last);
}

static inline uint32_t sukperin_receiver(suk_association *end, uint32_t spi, const uint8_t key[32], bool extended, uint32_t blocks) {
    if (end == NULL || key == NULL)
        return SUK_E_NULL;
    return suk_receiver(end, spi, key, extended, blocks);
}

static inline uint32_t sukperin_seal(suk_association *end, uint8_t next, const uint8_t *payload, size_t length, uint8_t *room,
                                     size_t room_length, suk_sealed *told) {
    if (end == NULL || suk_is_bad(payload, length) || suk_is_bad(room, room_length) || told == NULL)
        return SUK_E_NULL;
    return suk_seal(end, next, suk_some(payload), length, suk_some_room(room), room_length, told);
}

static inline uint32_t sukperin_open(suk_association *end, const uint8_t *packet, size_t length, suk_opened *told) {
    if (end == NULL || suk_is_bad(packet, length) || told == NULL)
        return SUK_E_NULL;
    return suk_open(end, suk_some(packet), length, told);
}

static inline void sukperin_end_association(suk_association *end) {
    if (end != NULL)
        suk_end_association(end);
}

/* What a code or a refusal's number means, in a phrase without the number. */
static inline const char *sukperin_text(uint32_t code) {
    switch (code) {
        case 0: return "done";
        case 1: return "fewer octets than a header has";
        case 2: return "the length field is not the length of the datagram";
        case 3: return "the version is not supported";
        case 4: return "the chain of payloads is broken";
        case 5: return "a proposal is malformed";
        case 6: return "a traffic selector is malformed";
        case 7: return "the nonce has a wrong length";
        case 8: return "a field is malformed";
        case 9: return "the message is too long";
        case 10: return "out of memory";
        case 11: return "more than 8160 octets of key material";
        case 12: return "the sequence numbers are exhausted";
        case 13: return "the payload has more than 16384 octets";
        case 14: return "the packet's length is not that of a packet";
        case 15: return "the number lies below the replay window";
        case 16: return "the number was taken already";
        case 17: return "the packet has no sequence number";
        case 18: return "the ICV is wrong";
        case 19: return "the padding is wrong";
        case 20: return "out of memory";
        case 21: return "not a whole IP packet";
        case 22: return "a fragment of a packet";
        case 23: return "no entry that protects, or outside the selectors";
        case 24: return "out of memory for the selectors";
        case 25: return "the table is full, or 128 IKE SAs are held";
        case 26: return "the inbound SPIs are spent";
        case 27: return "out of memory for the table";
        case 28: return "no such IKE SA, Child SA or SPI";
        case 29: return "the message doesn't open";
        case 30: return "the request was answered, and its reply is kept no more";
        case 31: return "the number lies outside the window";
        case 32: return "the IKE SA is in another phase, or this message is not due to it";
        case 33: return "the message claims the role of this end";
        case 34: return "too many IKE SAs are half open or held";
        case 35: return "the peer's window is full, or the IKE SA is being deleted";
        case 36: return "the numbers are spent";
        case 37: return "the fresh SPI is zero or in use";
        case 38: return "no room for an answer";
        case 39: return "a packet with an extension header";
        case 101: return "the handle leads to nothing, or to an end of another kind";
        case 102: return "the handle leads to something already";
        case 103: return "the room is too short";
        case 104: return "an identity, the window or the blocks can't be used";
        case 105: return "a null pointer, or a length that is none";
        case 106: return "an entry of the policy is at fault";
        case 107: return "an SPI is out of its range";
        case 108: return "there is no such thing to tell";
        case 109: return "a packet's place isn't in the buffer";
        default: return "an unknown code";
    }
}

#ifdef __cplusplus
}
#endif

#endif
