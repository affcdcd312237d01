/* Two gateways in one program: they come to an IKE SA in memory, a packet goes through, and a replay of it is refused.
 *
 *   cc example.c $(pkg-config --cflags --libs sukperin) -o example && ./example */
#include <stdio.h>
#include <stdlib.h>
#include <string.h>
#include <sukperin.h>
#include <sys/random.h>

/* One of the two ends, and the message that it is to send. */
typedef struct {
    suk_gateway gateway;
    uint8_t address[4];
    uint8_t message[SUK_MESSAGE_ROOM];
    size_t length;
} host;

static void must(uint32_t code, const char *what) {
    if (code == SUK_OK)
        return;
    fprintf(stderr, "%s: %u, %s\n", what, (unsigned)code, sukperin_text(code));
    exit(1);
}

/* Drawn anew for each input. */
static suk_fresh fresh(void) {
    suk_fresh octets;
    if (getrandom(&octets, sizeof octets, 0) != (ssize_t)sizeof octets)
        exit(1);
    return octets;
}

static suk_octets text(const char *words) {
    suk_octets octets = {(const uint8_t *)words, strlen(words)};
    return octets;
}

/* An end of 192.0.2.LAST that protects what goes from 10.OWN.0.0/24 to 10.PEER.0.0/24. */
static void open_host(host *end, const char *own, const char *peer, uint8_t last, uint8_t own_net, uint8_t peer_net) {
    suk_entry entry = {.family = 4, .action = SUK_PROTECT, .local_end_port = 65535, .remote_end_port = 65535};
    memcpy(entry.local_start, (uint8_t[]){10, own_net, 0, 0}, 4);
    memcpy(entry.local_end, (uint8_t[]){10, own_net, 0, 255}, 4);
    memcpy(entry.remote_start, (uint8_t[]){10, peer_net, 0, 0}, 4);
    memcpy(entry.remote_end, (uint8_t[]){10, peer_net, 0, 255}, 4);
    suk_config config = {.terms = {.own_kind = 2, .peer_kind = 2, .extended = 1, .window = 1, .blocks = 64, .first_spi = 4096},
                         .own_id = text(own),
                         .peer_id = text(peer),
                         .own_psk = text("a long secret of both ends"),
                         .peer_psk = text("a long secret of both ends"),
                         .entries = &entry,
                         .entry_count = 1};
    if (getrandom(config.terms.cookie_secret, 32, 0) != 32)
        exit(1);
    memset(end, 0, sizeof *end); /* a handle begins as all zeros */
    memcpy(end->address, (uint8_t[]){192, 0, 2, last}, 4);
    must(sukperin_new(&end->gateway, &config), "new");
}

/* Takes the message that an input left, if it left one. */
static void take_message(host *end, const suk_output *output) {
    suk_message_told told = {0};
    if (output->messages > 0)
        must(sukperin_message(&end->gateway, 0, end->message, sizeof end->message, &told), "message");
    end->length = told.length;
}

/* Gives one end what the other one has to send. */
static suk_output pass(host *from, host *to) {
    suk_output output;
    suk_fresh octets = fresh();
    must(sukperin_ike(&to->gateway, from->address, from->message, from->length, &octets, &output), "ike");
    take_message(to, &output);
    printf("an end says %u of %u octets, child %u\n", (unsigned)output.kind, (unsigned)from->length, (unsigned)output.child);
    return output;
}

int main(void) {
    static host a, b;
    open_host(&a, "a.example", "b.example", 1, 0, 1);
    open_host(&b, "b.example", "a.example", 2, 1, 0);

    suk_output output;
    suk_fresh octets = fresh();
    must(sukperin_start(&a.gateway, 0, 0, &octets, &output), "start");
    take_message(&a, &output);
    for (host *from = &a, *to = &b; from->length > 0;) {
        pass(from, to);
        host *other = from;
        from = to;
        to = other;
    }

    /* An IPv4 packet of 20 octets from 10.0.0.1 to 10.1.0.1. */
    const uint8_t packet[20] = {0x45, 0, 0, 20, 0, 0, 0, 0, 64, 1, 0, 0, 10, 0, 0, 1, 10, 1, 0, 1};
    uint8_t room[SUK_ROOM(sizeof packet)];
    must(sukperin_outward(&a.gateway, packet, sizeof packet, room, sizeof room, &output), "outward");
    printf("sealed %d: number %u, %u octets\n", output.kind == SUK_SEALED, (unsigned)output.number, (unsigned)output.length);
    const uint8_t *sealed = room + output.offset;
    size_t length = output.length;
    must(sukperin_esp(&b.gateway, sealed, length, &output), "esp");
    bool same = output.kind == SUK_UP && output.length == sizeof packet && memcmp(sealed + output.offset, packet, sizeof packet) == 0;
    printf("up %d: number %u\n", same, (unsigned)output.number);
    must(sukperin_esp(&b.gateway, sealed, length, &output), "esp");
    printf("the replay: E%u, %s\n", (unsigned)output.code, sukperin_text(output.code));

    sukperin_end(&a.gateway);
    sukperin_end(&b.gateway);
    return same && output.kind == SUK_DROPPED && output.code == 16 ? 0 : 1;
}
