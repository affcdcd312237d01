/* What the tests in C share: what they expect, and two gateways in one memory.
 *
 * Randomness comes of a counter here, so that each run is the same: never do this outside a test. */
#include <stdio.h>
#include <stdlib.h>
#include <string.h>
#include <sukperin.h>

static unsigned passed, failed;

static inline void expect_at(int line, const char *what, uint64_t told, uint64_t wanted) {
    if (told == wanted) {
        passed++;
        return;
    }
    failed++;
    printf("line %d: %s is %llu, not %llu\n", line, what, (unsigned long long)told, (unsigned long long)wanted);
}

#define EXPECT(told, wanted) expect_at(__LINE__, #told, (uint64_t)(told), (uint64_t)(wanted))

typedef struct {
    suk_gateway gateway;
    uint8_t address[4];
    uint8_t message[SUK_MESSAGE_ROOM];
    size_t length;
} host;

static uint64_t drawn;

static inline suk_fresh fresh(void) {
    suk_fresh octets;
    memset(&octets, 0, sizeof octets);
    octets.spi = ++drawn;
    for (size_t i = 0; i < 32; i++) {
        octets.nonce[i] = (uint8_t)(drawn * 31 + i * 7);
        octets.secret[i] = (uint8_t)(drawn * 37 + i * 11 + 1);
    }
    for (size_t i = 0; i < 16; i++) octets.seal[i] = (uint8_t)(drawn * 13 + i);
    return octets;
}

static inline suk_octets text(const char *words) {
    suk_octets octets = {(const uint8_t *)words, strlen(words)};
    return octets;
}

/* Between 10.OWN.0.0/24 and 10.PEER.0.0/24, of all protocols and ports. */
static inline suk_entry entry_between(uint8_t action, uint8_t own_net, uint8_t peer_net) {
    suk_entry entry = {.family = 4, .action = action, .local_end_port = 65535, .remote_end_port = 65535};
    memcpy(entry.local_start, (uint8_t[]){10, own_net, 0, 0}, 4);
    memcpy(entry.local_end, (uint8_t[]){10, own_net, 0, 255}, 4);
    memcpy(entry.remote_start, (uint8_t[]){10, peer_net, 0, 0}, 4);
    memcpy(entry.remote_end, (uint8_t[]){10, peer_net, 0, 255}, 4);
    return entry;
}

static uint8_t extended = 1; /* whether gateways allow extended sequence numbers */

static inline suk_config config_of(const char *own, const char *peer, const suk_entry *entries, size_t count) {
    suk_config config = {.terms = {.own_kind = 2, .peer_kind = 2, .extended = extended, .window = 1, .blocks = 2, .first_spi = 4096},
                         .own_id = text(own),
                         .peer_id = text(peer),
                         .own_psk = text("secret"),
                         .peer_psk = text("secret"),
                         .entries = entries,
                         .entry_count = count};
    return config;
}

/* Protects to 10.PEER, and lets 10.9 pass. */
static inline void open_host(host *end, const char *own, const char *peer, uint8_t own_net, uint8_t peer_net) {
    suk_entry entries[2] = {entry_between(SUK_PROTECT, own_net, peer_net), entry_between(SUK_BYPASS, own_net, 9)};
    suk_config config = config_of(own, peer, entries, 2);
    memset(end, 0, sizeof *end);
    memcpy(end->address, (uint8_t[]){192, 0, 2, own_net}, 4);
    EXPECT(sukperin_new(&end->gateway, &config), SUK_OK);
}

static inline void take_message(host *end, const suk_output *output) {
    suk_message_told told = {0, 0, 0};
    if (output->messages > 0)
        EXPECT(sukperin_message(&end->gateway, 0, end->message, sizeof end->message, &told), SUK_OK);
    end->length = told.length;
}

static inline suk_output give(host *to, const uint8_t from[4], const uint8_t *datagram, size_t length) {
    suk_output output;
    memset(&output, 0, sizeof output);
    suk_fresh octets = fresh();
    EXPECT(sukperin_ike(&to->gateway, from, datagram, length, &octets, &output), SUK_OK);
    take_message(to, &output);
    return output;
}

static inline suk_output pass(host *from, host *to) { return give(to, from->address, from->message, from->length); }

static inline suk_output start(host *end, uint32_t ike, uint32_t entry) {
    suk_output output;
    suk_fresh octets = fresh();
    EXPECT(sukperin_start(&end->gateway, ike, entry, &octets, &output), SUK_OK);
    take_message(end, &output);
    return output;
}

/* The four messages, after which both ends hold child 1. */
static inline void greet(host *a, host *b) {
    suk_output output = start(a, 0, 0);
    EXPECT(output.kind, SUK_REQUEST);
    EXPECT(output.ike, 1);
    EXPECT(output.messages, 1);
    EXPECT(pass(a, b).kind, SUK_REPLY);
    EXPECT(pass(b, a).kind, SUK_REQUEST);
    EXPECT(pass(a, b).kind, SUK_REPLY);
    output = pass(b, a);
    EXPECT(output.kind, SUK_COUNTED);
    EXPECT(output.ike, 1);
    EXPECT(output.child, 1);
    EXPECT(output.closed, 0);
    EXPECT(output.messages, 0);
}

static inline void bring_up(host *a, host *b) {
    open_host(a, "a.example", "b.example", 1, 2);
    open_host(b, "b.example", "a.example", 2, 1);
    greet(a, b);
}

static inline void close_both(host *a, host *b) {
    sukperin_end(&a->gateway);
    sukperin_end(&b->gateway);
    EXPECT(a->gateway.private_at == NULL && !a->gateway.private_live, true);
}

/* From 10.1.0.1 to 10.TO.0.1, with so many octets behind the header. */
static inline size_t packet_to(uint8_t to, size_t payload, uint8_t packet[128]) {
    const uint8_t header[20] = {0x45, 0, 0, (uint8_t)(20 + payload), 0, 0, 0, 0, 64, 1, 0, 0, 10, 1, 0, 1, 10, to, 0, 1};
    memcpy(packet, header, 20);
    for (size_t i = 0; i < payload; i++) packet[20 + i] = (uint8_t)(i * 5 + payload);
    return 20 + payload;
}
