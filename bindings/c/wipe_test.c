/* That the library overwrites what it gives back to the system (wipe.c): each block that it frees holds zeros alone, while two gateways
 * and an ESP SA live and when they end, and no secret stands on the stack then. The last line is 'N passed, M failed'.
 *
 *   cc wipe_test.c -lsukperin                           or -DSTATIC wipe_test.c libsukperin.a, which calls wipe.c by itself too
 *   cc -DLEAVES wipe_test.c libsukperin.a
 *
 * The second program is linked without wipe.c. Then each secret has to be found in a freed block or on the stack, or this test would see
 * nothing.
 * glibc's allocator is asked behind the one here. */
#include "tests.h"
#include <malloc.h>

/* ---- What is taken and freed ---- */

void *__libc_malloc(size_t);
void __libc_free(void *);

typedef struct {
    const char *name;
    uint8_t octets[32];
    unsigned found;    /* in how many freed blocks it stood */
    unsigned on_stack; /* how often it stood there when all had ended */
} secret;

enum { OWN_SECRET, PEER_SECRET, COOKIE_SECRET, OTHER_COOKIE_SECRET, EXPONENT, ESP_KEY, FIRST_CHILD, SECOND_CHILD, IKE_KEYS };
enum { SECRETS = IKE_KEYS + 7 };
static secret secrets[SECRETS] = {{"the secret of this end", {0}, 0, 0},
                                  {"the secret of the peer", {0}, 0, 0},
                                  {"the first secret of cookies", {0}, 0, 0},
                                  {"another secret of cookies", {0}, 0, 0},
                                  {"the secret of a key agreement", {0}, 0, 0},
                                  {"the key of an ESP SA", {0}, 0, 0},
                                  {"the key of the Child SA that was deleted", {0}, 0, 0},
                                  {"the key of the other Child SA", {0}, 0, 0},
                                  {"SK_d", {0}, 0, 0},
                                  {"SK_ai", {0}, 0, 0},
                                  {"SK_ar", {0}, 0, 0},
                                  {"SK_ei", {0}, 0, 0},
                                  {"SK_er", {0}, 0, 0},
                                  {"SK_pi", {0}, 0, 0},
                                  {"SK_pr", {0}, 0, 0}};

enum { MOST_BLOCKS = 10000 };
static void *blocks[MOST_BLOCKS]; /* that the library holds */
static size_t held;
static bool watches; /* whether it is the library that takes and frees */
static unsigned long freed, unclean;
static bool starves;

static bool is_zero(const uint8_t *octets, size_t length) {
    for (size_t i = 0; i < length; i++)
        if (octets[i] != 0)
            return false;
    return true;
}

static bool stands_in(const uint8_t *octets, size_t length, const uint8_t wanted[32]) {
    for (size_t i = 0; i + 32 <= length; i++)
        if (memcmp(octets + i, wanted, 32) == 0)
            return true;
    return false;
}

static unsigned blocks_with(const uint8_t wanted[32]) {
    unsigned count = 0;
    for (size_t i = 0; i < held; i++) count += stands_in(blocks[i], malloc_usable_size(blocks[i]), wanted);
    return count;
}

static void look_into(const void *block) {
    size_t length = malloc_usable_size((void *)block);
    freed++;
    unclean += !is_zero(block, length);
    for (size_t i = 0; i < SECRETS; i++)
        secrets[i].found += !is_zero(secrets[i].octets, 32) && stands_in(block, length, secrets[i].octets);
}

void *malloc(size_t length) {
    void *block = starves ? NULL : __libc_malloc(length);
    if (watches && block != NULL && held < MOST_BLOCKS)
        blocks[held++] = block;
    return block;
}

void free(void *block) {
    if (watches && block != NULL) {
        look_into(block);
        for (size_t i = 0; i < held; i++)
            if (blocks[i] == block) {
                blocks[i] = blocks[--held];
                break;
            }
    }
    __libc_free(block);
}

/* A realloc that always moves. */
void *realloc(void *block, size_t length) {
    void *moved = malloc(length);
    if (moved != NULL && block != NULL) {
        size_t before = malloc_usable_size(block);
        memcpy(moved, block, before < length ? before : length);
        free(block);
    }
    return moved;
}

#ifdef LEAVES
static const bool leaves = true;
void sukperin_wiped_free(void *block);
void *sukperin_wiped_realloc(void *block, size_t length);
void sukperin_proved_end(suk_gateway *);
void sukperin_proved_end_association(suk_association *);
void sukperin_wiped_free(void *block) { free(block); }
void *sukperin_wiped_realloc(void *block, size_t length) { return realloc(block, length); }
void suk_end(suk_gateway *gateway) { sukperin_proved_end(gateway); }
void suk_end_association(suk_association *end) { sukperin_proved_end_association(end); }
#else
static const bool leaves = false;
#endif

/* Looks for the secrets in what the calls before left on the stack, below the caller. */
static __attribute__((noinline)) void look_below(void) {
    volatile uint8_t left[1 << 16];
    const uint8_t *octets = (const uint8_t *)left;
    for (size_t i = 0; i + 32 <= sizeof left; i++)
        for (size_t j = 0; j < SECRETS; j++)
            secrets[j].on_stack += memcmp(octets + i, secrets[j].octets, 32) == 0 && !is_zero(octets + i, 32);
}

/* ---- What has secrets ---- */

static void draw_secrets(void) {
    for (size_t i = 0; i < FIRST_CHILD; i++)
        for (size_t j = 0; j < 32; j++) secrets[i].octets[j] = (uint8_t)(i * 41 + j * j + 101);
}

static suk_octets secret_of(size_t which) {
    suk_octets octets = {secrets[which].octets, 32};
    return octets;
}

static void open_with_secrets(host *end, const char *own, const char *peer, size_t own_secret, size_t peer_secret) {
    bool begins = own_secret == OWN_SECRET;
    suk_entry entry = begins ? entry_between(SUK_PROTECT, 1, 2) : entry_between(SUK_PROTECT, 2, 1);
    suk_config config = config_of(own, peer, &entry, 1);
    config.own_psk = secret_of(own_secret);
    config.peer_psk = secret_of(peer_secret);
    config.terms.tells_keys = 1;
    memcpy(config.terms.cookie_secret, secrets[COOKIE_SECRET].octets, 32);
    memset(end, 0, sizeof *end);
    EXPECT(sukperin_new(&end->gateway, &config), SUK_OK);
    explicit_bzero(&config, sizeof config); /* what the caller holds it overwrites itself */
}

/* The key under which a packet's ICV is right, if it stands in a block that the library holds. */
static bool find_key(uint32_t spi, const uint8_t *packet, size_t length, uint8_t key[32]) {
    bool found = false;
    suk_opened opened;
    watches = false;
    for (size_t i = 0; i < held && !found; i++) {
        const uint8_t *octets = blocks[i];
        for (size_t j = 0; j + 32 <= malloc_usable_size(blocks[i]) && !found; j++) {
            suk_association end = SUK_NONE;
            if (is_zero(octets + j, 32) || sukperin_receiver(&end, spi, octets + j, true, 2) != SUK_OK)
                continue;
            found = sukperin_open(&end, packet, length, &opened) == SUK_OK;
            if (found)
                memcpy(key, octets + j, 32);
            sukperin_end_association(&end);
        }
    }
    watches = true;
    return found;
}

/* A packet from a to b, whose key is a secret from now on. */
static void pass_packet(host *a, host *b, uint32_t child, size_t which) {
    suk_child told;
    suk_output output;
    uint8_t packet[128], sealed[SUK_ROOM(20)];
    EXPECT(sukperin_outward(&a->gateway, packet, packet_to(2, 0, packet), sealed, sizeof sealed, &output), SUK_OK);
    EXPECT(output.kind, SUK_SEALED);
    EXPECT(output.child, child);
    EXPECT(sukperin_child_after(&b->gateway, child - 1, &told), SUK_OK);
    EXPECT(find_key(told.spi_in, sealed, output.length, secrets[which].octets), true);
    EXPECT(sukperin_esp(&b->gateway, sealed, output.length, &output), SUK_OK);
    EXPECT(output.kind, SUK_UP);
}

static void two_gateways(void) {
    host a, b;
    suk_output output;
    uint8_t packet[128], room[256];
    suk_place places[3] = {{0, 20}, {0, 20}, {1, 200}};
    suk_output outputs[3];
    open_with_secrets(&a, "a.example", "b.example", OWN_SECRET, PEER_SECRET);
    open_with_secrets(&b, "b.example", "a.example", PEER_SECRET, OWN_SECRET);
    suk_fresh octets = fresh();
    memcpy(octets.secret, secrets[EXPONENT].octets, 32);
    EXPECT(sukperin_start(&a.gateway, 0, 0, &octets, &output), SUK_OK);
    sukperin_end(&a.gateway); /* in the midst of a key agreement */
    open_with_secrets(&a, "a.example", "b.example", OWN_SECRET, PEER_SECRET);
    EXPECT(sukperin_start(&a.gateway, 0, 0, &octets, &output), SUK_OK);
    take_message(&a, &output);
    EXPECT(pass(&a, &b).kind, SUK_REPLY);
    EXPECT(pass(&b, &a).kind, SUK_REQUEST);
    EXPECT(pass(&a, &b).kind, SUK_REPLY);
    EXPECT(pass(&b, &a).child, 1);
    suk_keys_told keys;
    EXPECT(sukperin_keys(&b.gateway, 1, &keys), SUK_OK);
    for (size_t i = 0; i < 7; i++) memcpy(secrets[IKE_KEYS + i].octets, (const uint8_t *)&keys + 32 * i, 32);
    pass_packet(&a, &b, 1, FIRST_CHILD);
    packet_to(2, 0, packet);
    EXPECT(sukperin_outward_all(&a.gateway, packet, 20, places, 3, room, sizeof room, outputs, 3), SUK_OK);
    EXPECT(outputs[1].kind, SUK_SEALED);
    EXPECT(sukperin_secret(&a.gateway, secrets[OTHER_COOKIE_SECRET].octets, &output), SUK_OK);
    /* A second child, of which the first one is deleted, and at last a probe that nobody answers. */
    EXPECT(start(&a, 1, 0).kind, SUK_REQUEST);
    EXPECT(pass(&a, &b).kind, SUK_REPLY);
    EXPECT(pass(&b, &a).child, 2);
    pass_packet(&a, &b, 2, SECOND_CHILD);
    octets = fresh();
    EXPECT(sukperin_delete_child(&a.gateway, 1, &octets, &output), SUK_OK);
    take_message(&a, &output);
    EXPECT(pass(&a, &b).kind, SUK_REPLY);
    EXPECT(pass(&b, &a).kind, SUK_COUNTED);
    EXPECT(blocks_with(secrets[FIRST_CHILD].octets), 0);
    EXPECT(blocks_with(secrets[SECOND_CHILD].octets), 2); /* one at each end */
    octets = fresh();
    EXPECT(sukperin_probe(&a.gateway, 1, &octets, &output), SUK_OK);
    uint64_t moment;
    while (sukperin_next(&a.gateway, &moment) == SUK_OK && output.closings == 0)
        EXPECT(sukperin_tick(&a.gateway, moment, &output), SUK_OK);
    EXPECT(output.closings, 1);
    sukperin_end(&a.gateway);
    sukperin_end(&b.gateway);
    look_below();
}

static void refused_gateways(void) {
    suk_gateway gateway = SUK_NONE;
    suk_entry entry = entry_between(SUK_PROTECT, 1, 2);
    suk_config config = config_of("a.example", "b.example", &entry, 1);
    config.own_psk = secret_of(OWN_SECRET);
    config.terms.window = 0;
    EXPECT(sukperin_new(&gateway, &config), SUK_E_CONFIG);
    config.terms.window = 1;
    entry.local_start[0] = 11;
    EXPECT(sukperin_new(&gateway, &config), SUK_E_POLICY);
}

static void one_esp_sa(void) {
    suk_association sender = SUK_NONE, receiver = SUK_NONE;
    suk_sealed sealed;
    suk_opened opened;
    uint8_t room[SUK_ROOM(4)];
    EXPECT(sukperin_sender(&sender, 4096, secrets[ESP_KEY].octets, true, 0), SUK_OK);
    EXPECT(sukperin_receiver(&receiver, 4096, secrets[ESP_KEY].octets, true, 128), SUK_OK);
    EXPECT(sukperin_seal(&sender, 4, (const uint8_t *)"four", 4, room, sizeof room, &sealed), SUK_OK);
    EXPECT(sukperin_open(&receiver, room, sealed.length, &opened), SUK_OK);
    sukperin_end_association(&sender);
    sukperin_end_association(&receiver);
    look_below();
}

#ifdef STATIC
void sukperin_wiped_free(void *block);
void *sukperin_wiped_realloc(void *block, size_t length);

/* So many octets are sevens; where they are all that the block is to hold, zeros stand behind them. */
static bool is_kept(void *block, size_t length, size_t kept) {
    const uint8_t *octets = block;
    for (size_t i = 0; i < kept; i++)
        if (octets[i] != 7)
            return false;
    return kept < length || is_zero(octets + length, malloc_usable_size(block) - length);
}

static void by_itself(void) {
    uint8_t *block = sukperin_wiped_realloc(NULL, 100), *before = block;
    memset(block, 7, malloc_usable_size(block));
    block = sukperin_wiped_realloc(block, 60); /* stays */
    EXPECT(block == before, true);
    EXPECT(is_kept(block, 60, 60), true);
    block = sukperin_wiped_realloc(block, 5000);
    EXPECT(block == before, false);
    EXPECT(is_kept(block, 5000, 60), true);
    memset(block, 7, 5000);
    starves = true;
    EXPECT(sukperin_wiped_realloc(block, 9000) == NULL, true);
    EXPECT(is_kept(block, 5001, 5000), true);
    EXPECT(sukperin_wiped_realloc(block, 2000) == block, true); /* it may keep more than it wants, but no octet of it */
    starves = false;
    EXPECT(is_kept(block, 2000, 2000), true);
    before = block;
    block = sukperin_wiped_realloc(block, 20);
    EXPECT(block == before, false);
    EXPECT(is_kept(block, 20, 20), true);
    sukperin_wiped_free(block);
    sukperin_wiped_free(NULL);
}
#endif

int main(void) {
    draw_secrets();
    watches = true;
    refused_gateways();
    one_esp_sa();
    two_gateways();
#ifdef STATIC
    by_itself();
#endif
    watches = false;
    EXPECT(freed > 50, true);
    EXPECT(held, 0); /* all that was taken was given back */
    unsigned on_stack = 0;
    for (size_t i = 0; i < SECRETS; i++) {
        EXPECT(secrets[i].found > 0, leaves && i != FIRST_CHILD); /* its key went before the block did */
        on_stack += secrets[i].on_stack;
        printf("%s stood in %u of %lu freed blocks, and %u times on the stack\n", secrets[i].name, secrets[i].found, freed,
               secrets[i].on_stack);
    }
    EXPECT(unclean > 0, leaves);
    EXPECT(on_stack > 0, leaves);
    printf("%u passed, %u failed\n", passed, failed);
    return failed == 0 ? 0 : 1;
}
