/* Each call of sukperin.h, and each refusal that can be brought about. The last line is 'N passed, M failed'.
 * Running out of memory is tried where it is built with -DSTARVES -Wl,--wrap=malloc,--wrap=realloc against the static library. */
#include "tests.h"

/* ---- One ESP SA ---- */

static const uint8_t KEY[32] = {0,  1,  2,  3,  4,  5,  6,  7,  8,  9,  10, 11, 12, 13, 14, 15,
                                16, 17, 18, 19, 20, 21, 22, 23, 24, 25, 26, 27, 28, 29, 30, 31};
enum { SPI = 0x1000 };

/* Made by Python's hmac under that key: number 1 with the payload "abcdef", and number 2 whose padding is 1, 9 instead of 1, 2. */
static const uint8_t FOREIGN[32] = {0x00, 0x00, 0x10, 0x00, 0x00, 0x00, 0x00, 0x01, 0x61, 0x62, 0x63, 0x64, 0x65, 0x66, 0x00, 0x04,
                                    0xa2, 0x30, 0x88, 0x14, 0x96, 0x57, 0x0b, 0x17, 0xb1, 0xd3, 0xd5, 0x13, 0x90, 0xe2, 0x2f, 0x17};
static const uint8_t BADLY_PADDED[32] = {0x00, 0x00, 0x10, 0x00, 0x00, 0x00, 0x00, 0x02, 0x61, 0x62, 0x63, 0x64, 0x01, 0x09, 0x02, 0x04,
                                         0xc8, 0x7e, 0xbc, 0x49, 0xa3, 0x86, 0x85, 0x2b, 0x96, 0xd0, 0xa1, 0xaa, 0x58, 0x6b, 0x2f, 0xcc};

static void associations_are_made_and_ended(void) {
    suk_association end = SUK_NONE;
    suk_sealed sealed;
    suk_opened opened;
    uint8_t room[64];
    EXPECT(sukperin_seal(&end, 4, KEY, 4, room, sizeof room, &sealed), SUK_E_NO_END);
    EXPECT(sukperin_open(&end, FOREIGN, sizeof FOREIGN, &opened), SUK_E_NO_END);
    sukperin_end_association(&end);
    EXPECT(sukperin_sender(&end, 255, KEY, false, 0), SUK_E_SPI);
    EXPECT(sukperin_receiver(&end, 255, KEY, false, 2), SUK_E_SPI);
    for (uint32_t blocks = 0; blocks <= 300; blocks++) {
        bool good = blocks >= 2 && blocks <= 128 && (blocks & (blocks - 1)) == 0;
        EXPECT(sukperin_receiver(&end, SPI, KEY, blocks % 3 == 0, blocks), good ? SUK_OK : SUK_E_CONFIG);
        sukperin_end_association(&end);
        EXPECT(end.private_at == NULL && !end.private_live, true);
    }
    EXPECT(sukperin_sender(&end, 256, KEY, false, 0), SUK_OK);
    EXPECT(sukperin_sender(&end, 256, KEY, false, 0), SUK_E_IN_USE);
    EXPECT(sukperin_receiver(&end, 256, KEY, false, 2), SUK_E_IN_USE);
    EXPECT(sukperin_open(&end, FOREIGN, sizeof FOREIGN, &opened), SUK_E_NO_END);
    sukperin_end_association(&end);
    EXPECT(sukperin_receiver(&end, 0xffffffff, KEY, false, 2), SUK_OK);
    EXPECT(sukperin_seal(&end, 4, KEY, 4, room, sizeof room, &sealed), SUK_E_NO_END);
    sukperin_end_association(&end);
    sukperin_end_association(&end);
}

static void associations_look_at_null(void) {
    suk_association end = SUK_NONE;
    suk_sealed sealed;
    suk_opened opened;
    uint8_t room[64];
    EXPECT(sukperin_sender(NULL, SPI, KEY, false, 0), SUK_E_NULL);
    EXPECT(sukperin_sender(&end, SPI, NULL, false, 0), SUK_E_NULL);
    EXPECT(sukperin_receiver(NULL, SPI, KEY, false, 2), SUK_E_NULL);
    EXPECT(sukperin_receiver(&end, SPI, NULL, false, 2), SUK_E_NULL);
    EXPECT(sukperin_sender(&end, SPI, KEY, false, 0), SUK_OK);
    EXPECT(sukperin_seal(NULL, 4, KEY, 4, room, sizeof room, &sealed), SUK_E_NULL);
    EXPECT(sukperin_seal(&end, 4, NULL, 4, room, sizeof room, &sealed), SUK_E_NULL);
    EXPECT(sukperin_seal(&end, 4, KEY, SIZE_MAX, room, sizeof room, &sealed), SUK_E_NULL);
    EXPECT(sukperin_seal(&end, 4, KEY, 4, NULL, 64, &sealed), SUK_E_NULL);
    EXPECT(sukperin_seal(&end, 4, KEY, 4, room, SIZE_MAX, &sealed), SUK_E_NULL);
    EXPECT(sukperin_seal(&end, 4, KEY, 4, NULL, 0, &sealed), SUK_E_ROOM);
    EXPECT(sukperin_seal(&end, 4, KEY, 4, room, sizeof room, NULL), SUK_E_NULL);
    EXPECT(sukperin_seal(&end, 59, NULL, 0, room, sizeof room, &sealed), SUK_OK);
    EXPECT(sukperin_open(NULL, room, sealed.length, &opened), SUK_E_NULL);
    EXPECT(sukperin_open(&end, NULL, 28, &opened), SUK_E_NULL);
    EXPECT(sukperin_open(&end, room, SIZE_MAX, &opened), SUK_E_NULL);
    EXPECT(sukperin_open(&end, room, sealed.length, NULL), SUK_E_NULL);
    sukperin_end_association(NULL);
    sukperin_end_association(&end);
}

static void sealing(void) {
    suk_association end = SUK_NONE;
    suk_sealed sealed;
    static uint8_t payload[16385], room[SUK_ROOM(16385)];
    memset(room, 0xee, sizeof room);
    EXPECT(sukperin_sender(&end, SPI, KEY, false, 0), SUK_OK);
    EXPECT(sukperin_seal(&end, 4, (const uint8_t *)"abcdef", 6, room, SUK_ROOM(6) - 1, &sealed), SUK_E_ROOM);
    EXPECT(room[0], 0xee);
    EXPECT(sukperin_seal(&end, 4, (const uint8_t *)"abcdef", 6, room, SUK_ROOM(6), &sealed), SUK_OK);
    EXPECT(sealed.number, 1);
    EXPECT(sealed.length, sizeof FOREIGN);
    EXPECT(memcmp(room, FOREIGN, sizeof FOREIGN), 0);
    EXPECT(room[sizeof FOREIGN], 0xee);
    EXPECT(sukperin_seal(&end, 4, payload, 16384, room, sizeof room, &sealed), SUK_OK);
    EXPECT(sealed.number, 2);
    EXPECT(sukperin_seal(&end, 4, payload, 16385, room, sizeof room, &sealed), 13);
    sukperin_end_association(&end);
    EXPECT(sukperin_sender(&end, SPI, KEY, false, 0xfffffffe), SUK_OK);
    EXPECT(sukperin_seal(&end, 4, payload, 4, room, sizeof room, &sealed), SUK_OK);
    EXPECT(sealed.number, 0xffffffff);
    EXPECT(sukperin_seal(&end, 4, payload, 4, room, sizeof room, &sealed), 12);
    sukperin_end_association(&end);
}

static void opening(void) {
    suk_association sender = SUK_NONE, end = SUK_NONE;
    suk_sealed sealed;
    suk_opened opened;
    uint8_t packet[32], early[64], late[64];
    EXPECT(sukperin_receiver(&end, SPI, KEY, false, 2), SUK_OK);
    EXPECT(sukperin_open(&end, FOREIGN, 0, &opened), 14);
    EXPECT(sukperin_open(&end, FOREIGN, 31, &opened), 14);
    memcpy(packet, FOREIGN, sizeof packet);
    packet[31] ^= 1;
    EXPECT(sukperin_open(&end, packet, sizeof packet, &opened), 18);
    packet[3] ^= 1;
    EXPECT(sukperin_open(&end, packet, sizeof packet, &opened), 28);
    memcpy(packet, FOREIGN, sizeof packet);
    packet[7] = 0;
    EXPECT(sukperin_open(&end, packet, sizeof packet, &opened), 17);
    EXPECT(sukperin_open(&end, FOREIGN, sizeof FOREIGN, &opened), SUK_OK);
    EXPECT(opened.number, 1);
    EXPECT(opened.next, 4);
    EXPECT(opened.offset, 8);
    EXPECT(opened.length, 6);
    EXPECT(sukperin_open(&end, FOREIGN, sizeof FOREIGN, &opened), 16);
    EXPECT(sukperin_open(&end, BADLY_PADDED, sizeof BADLY_PADDED, &opened), 19);
    EXPECT(sukperin_open(&end, BADLY_PADDED, sizeof BADLY_PADDED, &opened), 16);
    EXPECT(sukperin_sender(&sender, SPI, KEY, false, 9), SUK_OK);
    EXPECT(sukperin_seal(&sender, 4, KEY, 4, early, sizeof early, &sealed), SUK_OK);
    sukperin_end_association(&sender);
    EXPECT(sukperin_sender(&sender, SPI, KEY, false, 73), SUK_OK);
    EXPECT(sukperin_seal(&sender, 59, KEY, 0, late, sizeof late, &sealed), SUK_OK);
    EXPECT(sukperin_open(&end, late, sealed.length, &opened), SUK_OK);
    EXPECT(opened.number, 74);
    EXPECT(opened.next, 59);
    EXPECT(opened.length, 0);
    EXPECT(sukperin_open(&end, early, SUK_ROOM(4) - 1, &opened), 15);
    sukperin_end_association(&sender);
    sukperin_end_association(&end);
}

#ifdef STARVES
void *__real_malloc(size_t);
void *__real_realloc(void *, size_t);
void *__wrap_malloc(size_t);
void *__wrap_realloc(void *, size_t);
static unsigned long failing; /* how many allocations from now on until all fail, counted from 1; 0: none fails */

static bool has_memory(void) {
    if (failing > 1) {
        failing--;
        return true;
    }
    return failing == 0;
}

void *__wrap_malloc(size_t length) { return has_memory() ? __real_malloc(length) : NULL; }
void *__wrap_realloc(void *block, size_t length) { return has_memory() ? __real_realloc(block, length) : NULL; }

/* Each allocation of a call fails once, and nothing has changed then. */
static void associations_want_memory(void) {
    suk_association end = SUK_NONE;
    suk_sealed sealed;
    uint8_t room[64];
    uint32_t code = SUK_E_MEMORY;
    unsigned long nth = 0;
    while (code == SUK_E_MEMORY) {
        failing = ++nth;
        code = sukperin_receiver(&end, SPI, KEY, false, 128);
        failing = 0;
        EXPECT(end.private_live, code == SUK_OK);
    }
    EXPECT(code, SUK_OK);
    EXPECT(nth, 3);
    sukperin_end_association(&end);
    failing = 1;
    EXPECT(sukperin_sender(&end, SPI, KEY, false, 0), SUK_E_MEMORY);
    failing = 0;
    EXPECT(end.private_live, false);
    EXPECT(sukperin_sender(&end, SPI, KEY, false, 0), SUK_OK);
    failing = 1;
    EXPECT(sukperin_seal(&end, 4, KEY, 4, room, sizeof room, &sealed), SUK_E_MEMORY);
    failing = 0;
    EXPECT(sukperin_seal(&end, 4, KEY, 4, room, sizeof room, &sealed), SUK_OK);
    EXPECT(sealed.number, 1);
    sukperin_end_association(&end);
}
#endif

/* With extension the high half of a number isn't sent, and stands under the ICV. It is the one with which the number lies in the
 * 2^32 numbers from the window's lower edge on, so a new receiver takes no number just below 2^32. */
static void extended_numbers(void) {
    suk_association sender = SUK_NONE, end = SUK_NONE, plain = SUK_NONE;
    suk_sealed sealed;
    suk_opened opened;
    uint8_t packet[64];
    EXPECT(sukperin_receiver(&end, SPI, KEY, true, 4), SUK_OK);
    EXPECT(sukperin_receiver(&plain, SPI, KEY, false, 4), SUK_OK);
    EXPECT(sukperin_sender(&sender, SPI, KEY, true, 0x80000000), SUK_OK);
    EXPECT(sukperin_seal(&sender, 41, KEY, 9, packet, sizeof packet, &sealed), SUK_OK);
    EXPECT(sukperin_open(&plain, packet, sealed.length, &opened), 18);
    EXPECT(sukperin_open(&end, packet, sealed.length, &opened), SUK_OK);
    EXPECT(opened.number, 0x80000001);
    sukperin_end_association(&sender);
    EXPECT(sukperin_sender(&sender, SPI, KEY, true, 0xffffffff), SUK_OK);
    EXPECT(sukperin_seal(&sender, 41, KEY, 9, packet, sizeof packet, &sealed), SUK_OK);
    EXPECT(sealed.number, 0x100000000);
    EXPECT(sukperin_open(&plain, packet, sealed.length, &opened), 17);
    EXPECT(sukperin_open(&end, packet, sealed.length, &opened), SUK_OK);
    EXPECT(opened.number, 0x100000000);
    EXPECT(sukperin_open(&end, packet, sealed.length, &opened), 16);
    sukperin_end_association(&sender);
    EXPECT(sukperin_sender(&sender, SPI, KEY, true, UINT64_MAX), SUK_OK);
    EXPECT(sukperin_seal(&sender, 41, KEY, 9, packet, sizeof packet, &sealed), 12);
    sukperin_end_association(&sender);
    sukperin_end_association(&end);
    sukperin_end_association(&plain);
}


#ifdef STARVES
static bool wants_memory(const suk_output *output) {
    bool is_refusal = output->kind == SUK_DROPPED || output->kind == SUK_REFUSED;
    return is_refusal && (output->code == 10 || output->code == 20 || output->code == 24 || output->code == 27);
}

/* Gives what the one end has to send to the other one until it finds memory. */
static suk_output pass_starving(host *from, host *to) {
    suk_output output;
    unsigned long nth = 0;
    do {
        suk_fresh octets = fresh();
        failing = ++nth;
        uint32_t code = sukperin_ike(&to->gateway, from->address, from->message, from->length, &octets, &output);
        failing = 0;
        EXPECT(code, SUK_OK);
    } while (wants_memory(&output));
    EXPECT(nth > 1, true);
    take_message(to, &output);
    return output;
}

/* Lists ask for no memory, neither out nor in: the count of allocations until one fails stays. */
static void lists_want_none(host *a, host *b, const uint8_t packet[20]) {
    enum { COUNT = 66, ALLOWED = 1000 };
    static uint8_t octets[COUNT * 20], room[COUNT * SUK_ROOM(20)];
    static suk_place places[COUNT];
    static suk_output outputs[COUNT];
    for (size_t i = 0; i < COUNT; i++) {
        memcpy(octets + i * 20, packet, 20);
        places[i] = (suk_place){i * 20, 20};
    }
    failing = ALLOWED;
    EXPECT(sukperin_outward_all(&a->gateway, octets, sizeof octets, places, COUNT, room, sizeof room, outputs, COUNT), SUK_OK);
    EXPECT(failing, ALLOWED);
    for (size_t i = 0; i < COUNT; i++) {
        EXPECT(outputs[i].kind, SUK_SEALED);
        places[i] = (suk_place){outputs[i].offset, outputs[i].length};
    }
    EXPECT(sukperin_esp_all(&b->gateway, room, sizeof room, places, COUNT, outputs, COUNT), SUK_OK);
    EXPECT(failing, ALLOWED);
    failing = 0;
    for (size_t i = 0; i < COUNT; i++) EXPECT(outputs[i].kind, SUK_UP);
}

/* Two gateways come to a child, and a packet goes through, though each allocation on the way fails first. */
static void gateways_want_memory(void) {
    host a, b;
    suk_entry entry = entry_between(SUK_PROTECT, 1, 2);
    suk_config config = config_of("a.example", "b.example", &entry, 1);
    open_host(&a, "a.example", "b.example", 1, 2);
    open_host(&b, "b.example", "a.example", 2, 1);
    suk_gateway other = SUK_NONE;
    uint32_t code = SUK_E_MEMORY;
    for (unsigned long nth = 1; code == SUK_E_MEMORY; nth++) {
        failing = nth;
        code = sukperin_new(&other, &config);
        failing = 0;
        EXPECT(other.private_live, code == SUK_OK);
    }
    EXPECT(code, SUK_OK);
    sukperin_end(&other);
    suk_output output;
    unsigned long nth = 0;
    do {
        suk_fresh octets = fresh();
        failing = ++nth;
        EXPECT(sukperin_start(&a.gateway, 0, 0, &octets, &output), SUK_OK);
        failing = 0;
    } while (wants_memory(&output));
    EXPECT(output.kind, SUK_REQUEST);
    take_message(&a, &output);
    EXPECT(pass_starving(&a, &b).kind, SUK_REPLY);
    EXPECT(pass_starving(&b, &a).kind, SUK_REQUEST);
    EXPECT(pass_starving(&a, &b).kind, SUK_REPLY);
    EXPECT(pass_starving(&b, &a).child, 1);
    const uint8_t packet[20] = {0x45, 0, 0, 20, 0, 0, 0, 0, 64, 1, 0, 0, 10, 1, 0, 1, 10, 2, 0, 1};
    uint8_t room[SUK_ROOM(20)];
    failing = 1;
    EXPECT(sukperin_outward(&a.gateway, packet, 20, room, sizeof room, &output), SUK_OK);
    failing = 0;
    EXPECT(wants_memory(&output), true);
    EXPECT(sukperin_outward(&a.gateway, packet, 20, room, sizeof room, &output), SUK_OK);
    EXPECT(output.number, 1);
    failing = 1; /* an ESP packet that comes takes none */
    EXPECT(sukperin_esp(&b.gateway, room, output.length, &output), SUK_OK);
    failing = 0;
    EXPECT(output.kind, SUK_UP);
    lists_want_none(&a, &b, packet);
    close_both(&a, &b);
}
#endif

static void none_is_refused(void) {
    suk_gateway none = SUK_NONE;
    suk_fresh octets = fresh();
    suk_output output;
    suk_message_told message;
    suk_child child;
    suk_selector_told selector;
    suk_ike_association association;
    uint8_t room[64];
    uint32_t ike;
    uint64_t moment;
    uint64_t count;
    EXPECT(sukperin_ike(&none, KEY, KEY, 4, &octets, &output), SUK_E_NO_END);
    EXPECT(sukperin_start(&none, 0, 0, &octets, &output), SUK_E_NO_END);
    EXPECT(sukperin_probe(&none, 1, &octets, &output), SUK_E_NO_END);
    EXPECT(sukperin_delete_child(&none, 1, &octets, &output), SUK_E_NO_END);
    EXPECT(sukperin_delete_ike(&none, 1, &octets, &output), SUK_E_NO_END);
    EXPECT(sukperin_secret(&none, KEY, &output), SUK_E_NO_END);
    EXPECT(sukperin_tick(&none, 1, &output), SUK_E_NO_END);
    EXPECT(sukperin_next(&none, &moment), SUK_E_NO_END);
    EXPECT(sukperin_esp(&none, KEY, 4, &output), SUK_E_NO_END);
    EXPECT(sukperin_outward(&none, KEY, 4, room, sizeof room, &output), SUK_E_NO_END);
    EXPECT(sukperin_inward(&none, KEY, 4, &output), SUK_E_NO_END);
    EXPECT(sukperin_message(&none, 0, room, sizeof room, &message), SUK_E_NO_END);
    EXPECT(sukperin_closing(&none, 0, &ike), SUK_E_NO_END);
    EXPECT(sukperin_child_after(&none, 0, &child), SUK_E_NO_END);
    EXPECT(sukperin_selector(&none, 1, 0, 0, &selector), SUK_E_NO_END);
    EXPECT(sukperin_associations(&none, &association, 1, &count), SUK_E_NO_END);
    sukperin_end(&none);
    sukperin_end(NULL);
}

static void null_is_refused(void) {
    host a;
    open_host(&a, "a.example", "b.example", 1, 2);
    suk_gateway *gateway = &a.gateway, other = SUK_NONE;
    suk_config config = config_of("a", "b", NULL, 0);
    suk_fresh octets = fresh();
    suk_output output;
    suk_message_told message;
    suk_child child;
    suk_selector_told selector;
    suk_ike_association association;
    uint8_t room[64];
    uint32_t ike;
    uint64_t moment;
    uint64_t count;
    EXPECT(sukperin_new(NULL, &config), SUK_E_NULL);
    EXPECT(sukperin_new(&other, NULL), SUK_E_NULL);
    config.own_id.at = NULL;
    EXPECT(sukperin_new(&other, &config), SUK_E_NULL);
    config = config_of("a", "b", NULL, 1);
    EXPECT(sukperin_new(&other, &config), SUK_E_NULL);
    EXPECT(sukperin_ike(NULL, KEY, KEY, 4, &octets, &output), SUK_E_NULL);
    EXPECT(sukperin_ike(gateway, NULL, KEY, 4, &octets, &output), SUK_E_NULL);
    EXPECT(sukperin_ike(gateway, KEY, NULL, 4, &octets, &output), SUK_E_NULL);
    EXPECT(sukperin_ike(gateway, KEY, KEY, SIZE_MAX, &octets, &output), SUK_E_NULL);
    EXPECT(sukperin_ike(gateway, KEY, KEY, 4, NULL, &output), SUK_E_NULL);
    EXPECT(sukperin_ike(gateway, KEY, KEY, 4, &octets, NULL), SUK_E_NULL);
    EXPECT(sukperin_start(NULL, 0, 0, &octets, &output), SUK_E_NULL);
    EXPECT(sukperin_start(gateway, 0, 0, NULL, &output), SUK_E_NULL);
    EXPECT(sukperin_start(gateway, 0, 0, &octets, NULL), SUK_E_NULL);
    EXPECT(sukperin_probe(gateway, 1, NULL, &output), SUK_E_NULL);
    EXPECT(sukperin_delete_child(gateway, 1, NULL, &output), SUK_E_NULL);
    EXPECT(sukperin_delete_ike(gateway, 1, NULL, &output), SUK_E_NULL);
    EXPECT(sukperin_secret(gateway, NULL, &output), SUK_E_NULL);
    EXPECT(sukperin_tick(gateway, 1, NULL), SUK_E_NULL);
    EXPECT(sukperin_next(gateway, NULL), SUK_E_NULL);
    EXPECT(sukperin_next(NULL, &moment), SUK_E_NULL);
    EXPECT(sukperin_esp(gateway, NULL, 4, &output), SUK_E_NULL);
    EXPECT(sukperin_outward(gateway, KEY, 4, NULL, 64, &output), SUK_E_NULL);
    EXPECT(sukperin_outward(gateway, NULL, 4, room, 64, &output), SUK_E_NULL);
    EXPECT(sukperin_inward(gateway, NULL, 4, &output), SUK_E_NULL);
    EXPECT(sukperin_message(gateway, 0, NULL, 64, &message), SUK_E_NULL);
    EXPECT(sukperin_closing(gateway, 0, NULL), SUK_E_NULL);
    EXPECT(sukperin_closing(NULL, 0, &ike), SUK_E_NULL);
    EXPECT(sukperin_child_after(gateway, 0, NULL), SUK_E_NULL);
    EXPECT(sukperin_child_after(NULL, 0, &child), SUK_E_NULL);
    EXPECT(sukperin_selector(gateway, 1, 0, 0, NULL), SUK_E_NULL);
    EXPECT(sukperin_selector(NULL, 1, 0, 0, &selector), SUK_E_NULL);
    EXPECT(sukperin_associations(gateway, NULL, 1, &count), SUK_E_NULL);
    EXPECT(sukperin_associations(gateway, &association, 1, NULL), SUK_E_NULL);
    /* Without a length null is a pointer as any other. */
    EXPECT(sukperin_associations(gateway, NULL, 0, &count), SUK_OK);
    EXPECT(count, 0);
    EXPECT(sukperin_message(gateway, 0, NULL, 0, &message), SUK_E_NOTHING);
    EXPECT(sukperin_outward(gateway, KEY, 4, NULL, 0, &output), SUK_E_ROOM);
    EXPECT(sukperin_esp_all(gateway, NULL, 0, NULL, 0, NULL, 0), SUK_OK);
    EXPECT(sukperin_outward_all(gateway, NULL, 0, NULL, 0, NULL, 0, NULL, 0), SUK_OK);
    sukperin_end(gateway);
}

static void configurations(void) {
    static const uint8_t long_identity[257];
    static suk_entry many[257];
    suk_gateway gateway = SUK_NONE;
    suk_entry entry = entry_between(SUK_PROTECT, 1, 2);
    suk_config good = config_of("a.example", "b.example", &entry, 1), config = good;
#define WITH(change, code)                             \
    do {                                               \
        config = good;                                 \
        change;                                        \
        EXPECT(sukperin_new(&gateway, &config), code); \
        sukperin_end(&gateway);                        \
    } while (0)
    WITH((void)0, SUK_OK);
    WITH(config.own_id.length = 0, SUK_E_CONFIG);
    WITH(config.peer_id.length = 0, SUK_E_CONFIG);
    WITH((config.own_id.at = long_identity, config.own_id.length = 257), SUK_E_CONFIG);
    WITH((config.own_id.at = long_identity, config.own_id.length = 256), SUK_OK);
    WITH(config.terms.window = 0, SUK_E_CONFIG);
    WITH(config.terms.window = 16, SUK_OK);
    WITH(config.terms.window = 17, SUK_E_CONFIG);
    WITH(config.terms.blocks = 3, SUK_E_CONFIG);
    WITH(config.terms.blocks = 128, SUK_OK);
    WITH(config.terms.first_spi = 255, SUK_E_SPI);
    WITH(config.terms.first_spi = 256, SUK_OK);
    WITH(config.terms.first_spi = 0xffff0000, SUK_OK);
    WITH(config.terms.first_spi = 0xffff0001, SUK_E_SPI);
    WITH(config.entry_count = 0, SUK_OK);
    entry.local_start[3] = 1, entry.local_end[3] = 0;
    WITH((void)0, SUK_E_POLICY);
    entry = entry_between(SUK_PROTECT, 1, 2), entry.remote_start_port = 2, entry.remote_end_port = 1;
    WITH((void)0, SUK_E_POLICY);
    for (size_t i = 0; i < 257; i++) many[i] = entry_between(SUK_DISCARD, 1, 2);
    WITH((config.entries = many, config.entry_count = 256), SUK_OK);
    WITH((config.entries = many, config.entry_count = 257), SUK_E_POLICY);
    entry = entry_between(SUK_PROTECT, 1, 2);
    EXPECT(sukperin_new(&gateway, &good), SUK_OK);
    EXPECT(sukperin_new(&gateway, &good), SUK_E_IN_USE);
    sukperin_end(&gateway);
}

static void packets(void) {
    host a, b;
    bring_up(&a, &b);
    uint8_t packet[20] = {0x45, 0, 0, 20, 0, 0, 0, 0, 64, 1, 0, 0, 10, 1, 0, 1, 10, 2, 0, 1};
    uint8_t room[SUK_ROOM(20)], damaged[SUK_ROOM(20)];
    suk_output output;
    memset(&output, 0, sizeof output);
    EXPECT(sukperin_outward(&a.gateway, packet, 20, room, sizeof room - 1, &output), SUK_E_ROOM);
    EXPECT(sukperin_outward(&a.gateway, packet, 20, room, sizeof room, &output), SUK_OK);
    EXPECT(output.kind, SUK_SEALED);
    EXPECT(output.child, 1);
    EXPECT(output.number, 1);
    EXPECT(output.length, 48);
    const uint8_t *sealed = room + output.offset;
    memcpy(damaged, sealed, 48);
    damaged[20] ^= 1;
    EXPECT(sukperin_esp(&b.gateway, damaged, 48, &output), SUK_OK);
    EXPECT(output.kind, SUK_DROPPED);
    EXPECT(output.code, 18);
    EXPECT(sukperin_esp(&b.gateway, sealed, 47, &output), SUK_OK);
    EXPECT(output.code, 14);
    EXPECT(sukperin_esp(&b.gateway, sealed, 3, &output), SUK_OK);
    EXPECT(output.code, 14);
    damaged[0] ^= 1;
    EXPECT(sukperin_esp(&b.gateway, damaged, 48, &output), SUK_OK);
    EXPECT(output.code, 28);
    EXPECT(sukperin_esp(&b.gateway, sealed, 48, &output), SUK_OK);
    EXPECT(output.kind, SUK_UP);
    EXPECT(output.number, 1);
    EXPECT(output.offset, 8);
    EXPECT(output.length, 20);
    EXPECT(memcmp(sealed + output.offset, packet, 20), 0);
    suk_child child;
    EXPECT(sukperin_child_after(&a.gateway, 0, &child), SUK_OK);
    EXPECT(child.sent, 1);
    EXPECT(child.taken, 0);
    EXPECT(sukperin_child_after(&b.gateway, 0, &child), SUK_OK);
    EXPECT(child.sent, 0);
    EXPECT(child.taken, 1);
    EXPECT(sukperin_esp(&b.gateway, sealed, 48, &output), SUK_OK);
    EXPECT(output.kind, SUK_DROPPED);
    EXPECT(output.code, 16);
    EXPECT(sukperin_inward(&a.gateway, packet, 20, &output), SUK_OK);
    EXPECT(output.kind, SUK_DISCARDED);
    packet[17] = 9;
    EXPECT(sukperin_outward(&a.gateway, packet, 20, room, sizeof room, &output), SUK_OK);
    EXPECT(output.kind, SUK_CLEAR);
    packet[17] = 8;
    EXPECT(sukperin_outward(&a.gateway, packet, 20, room, sizeof room, &output), SUK_OK);
    EXPECT(output.kind, SUK_DISCARDED);
    memcpy(packet + 12, (uint8_t[]){10, 9, 0, 1, 10, 1, 0, 1}, 8);
    EXPECT(sukperin_inward(&a.gateway, packet, 20, &output), SUK_OK);
    EXPECT(output.kind, SUK_CLEAR);
    EXPECT(sukperin_inward(&a.gateway, packet, 19, &output), SUK_OK);
    EXPECT(output.kind, SUK_DROPPED);
    EXPECT(output.code, 21);
    packet[6] = 0x20; /* more fragments */
    EXPECT(sukperin_inward(&a.gateway, packet, 20, &output), SUK_OK);
    EXPECT(output.code, 22);
    uint8_t six[48] = {0x60, 0, 0, 0, 0, 8, 0, 64}; /* with a hop-by-hop header */
    EXPECT(sukperin_inward(&a.gateway, six, sizeof six, &output), SUK_OK);
    EXPECT(output.code, 39);
    close_both(&a, &b);
}

/* ---- Lists, beside single calls on twins ---- */

enum { LISTED = 150 };

/* Packets one behind the other, and what came of each. */
typedef struct {
    uint8_t octets[LISTED * 128];
    size_t length;
    suk_place places[LISTED];
    size_t count;
    suk_output outputs[LISTED], single[LISTED];
} list;

static void append(list *to, const uint8_t *packet, size_t length) {
    suk_place place = {to->length, length};
    to->places[to->count++] = place;
    memcpy(to->octets + to->length, packet, length);
    to->length += length;
}

static void append_place(list *to, uint64_t offset, uint64_t length) {
    suk_place place = {offset, length};
    to->places[to->count++] = place;
}

static bool same_records(const list *of) { return memcmp(of->outputs, of->single, of->count * sizeof(suk_output)) == 0; }

/* What a list tells of a packet that is refused alone. */
static suk_output refused(uint32_t code) {
    suk_output output;
    memset(&output, 0, sizeof output);
    output.kind = SUK_REFUSED;
    output.code = code;
    return output;
}

/* Two pairs of gateways, made of the same octets: what the one answers, its twin does. */
static void bring_up_twins(host pair[2], host twins[2]) {
    uint64_t before = drawn;
    bring_up(&pair[0], &pair[1]);
    drawn = before;
    bring_up(&twins[0], &twins[1]);
}


/* 150 packets on their way out, and what is sealed of them on its way in: in order, damaged, replayed, cut, and outside the buffer. */
static void lists(void) {
    static list out, in, again;
    static uint8_t room[LISTED * 128], single_room[LISTED * 128];
    host pair[2], twins[2];
    uint8_t packet[128];
    size_t needed = 0, used = 0, sealed = 0;
    bring_up_twins(pair, twins);
    memset(&out, 0, sizeof out);
    memset(&in, 0, sizeof in);
    memset(&again, 0, sizeof again);
    for (size_t i = 0; i < LISTED; i++) {
        size_t length = packet_to(i % 7 == 3 ? 9 : i % 7 == 4 ? 8 : 2, i % 50, packet);
        if (i % 7 == 6)
            append_place(&out, i % 2 ? UINT64_MAX : sizeof out.octets, 20);
        else
            append(&out, packet, i % 7 == 5 ? length - 1 : length);
        needed += SUK_ROOM(out.places[i].length);
    }
    memset(room, 0xee, sizeof room);
    EXPECT(sukperin_outward_all(&pair[0].gateway, out.octets, out.length, out.places, LISTED, room, needed, out.outputs, LISTED), SUK_OK);
    for (size_t i = 0; i < LISTED; i++) {
        if (i % 7 == 6) {
            out.single[i] = refused(SUK_E_PLACE);
            continue;
        }
        EXPECT(sukperin_outward(&twins[0].gateway, out.octets + out.places[i].offset, out.places[i].length, single_room + used,
                                sizeof single_room - used, &out.single[i]),
               SUK_OK);
        if (out.single[i].kind == SUK_SEALED) {
            EXPECT(out.single[i].offset, 0);
            out.single[i].offset = used;
            used += out.single[i].length;
            EXPECT(out.single[i].number, ++sealed);
        }
    }
    EXPECT(same_records(&out), true);
    EXPECT(sealed > 64, true);
    EXPECT(memcmp(room, single_room, used), 0);
    EXPECT(out.outputs[3].kind, SUK_CLEAR);
    EXPECT(out.outputs[4].kind, SUK_DISCARDED);
    EXPECT(out.outputs[5].code, 21);
    EXPECT(out.outputs[6].code, SUK_E_PLACE);

    for (size_t i = 0; i < LISTED; i++) {
        if (out.outputs[i].kind != SUK_SEALED)
            continue;
        const uint8_t *octets = room + out.outputs[i].offset;
        size_t length = out.outputs[i].length;
        append(&in, octets, i % 11 == 7 ? length - 1 : i % 11 == 8 ? 3 : length);
        if (i % 11 == 9)
            in.octets[in.length - 1] ^= 1;
        if (i % 11 == 10)
            in.octets[in.length - length] ^= 1;
        if (i % 11 == 2)
            append(&in, octets, length);
        if (i % 11 == 5)
            append_place(&in, in.length, sizeof in.octets);
    }
    append_place(&in, UINT64_MAX, UINT64_MAX);
    append_place(&in, 1, UINT64_MAX);
    append_place(&in, in.length + 1, 0);
    append_place(&in, in.length, 0); /* it is there, and has no octet */
    EXPECT(in.count > 64 && in.count < LISTED, true);
    memset(in.outputs, 0xee, sizeof in.outputs);
    EXPECT(sukperin_esp_all(&pair[1].gateway, in.octets, in.length, in.places, in.count, in.outputs, LISTED), SUK_OK);
    for (size_t i = 0; i < in.count; i++) {
        suk_place place = in.places[i];
        if (place.offset > in.length || place.length > in.length - place.offset)
            in.single[i] = refused(SUK_E_PLACE);
        else
            EXPECT(sukperin_esp(&twins[1].gateway, in.octets + place.offset, place.length, &in.single[i]), SUK_OK);
    }
    EXPECT(same_records(&in), true);
    EXPECT(in.outputs[in.count].kind, 0xeeeeeeee); /* a record without a place is as before */
    EXPECT(in.outputs[0].kind, SUK_UP);
    EXPECT(in.outputs[0].offset, 8);
    EXPECT(in.outputs[in.count - 1].code, 14);
    EXPECT(in.outputs[in.count - 2].code, SUK_E_PLACE);
    unsigned by_code[SUK_E_PLACE + 1] = {0};
    for (size_t i = 0; i < in.count; i++) by_code[in.outputs[i].code]++;
    EXPECT(by_code[0] > 32 && by_code[14] > 2 && by_code[16] > 2 && by_code[18] > 2 && by_code[28] > 2 && by_code[SUK_E_PLACE] > 5, true);

    /* The same again, backwards: all that was taken is a replay. */
    for (size_t i = in.count; i-- > 0;) append_place(&again, in.places[i].offset, in.places[i].length);
    EXPECT(sukperin_esp_all(&pair[1].gateway, in.octets, in.length, again.places, again.count, again.outputs, again.count), SUK_OK);
    for (size_t i = 0; i < in.count; i++) EXPECT(again.outputs[i].kind == SUK_UP, false);
    suk_child child, twin;
    EXPECT(sukperin_child_after(&pair[1].gateway, 0, &child), SUK_OK);
    EXPECT(sukperin_child_after(&twins[1].gateway, 0, &twin), SUK_OK);
    EXPECT(memcmp(&child, &twin, sizeof child), 0);
    close_both(&pair[0], &pair[1]);
    close_both(&twins[0], &twins[1]);
}

static uint32_t chance(uint32_t limit) { /* xorshift32 */
    static uint32_t state = 2463534242;
    state ^= state << 13;
    state ^= state >> 17;
    state ^= state << 5;
    return state % limit;
}

static bool is_there(suk_place place, size_t length) { return place.offset <= length && place.length <= length - place.offset; }

/* A place that mostly isn't in the octets of a list. */
static void append_misplaced(list *to) {
    static const uint64_t far[3] = {UINT64_MAX, UINT64_MAX / 2 + 1, 0};
    uint64_t offset = chance(2) ? chance((uint32_t)to->length + 2) : far[chance(3)];
    append_place(to, offset, chance(2) ? chance(40) : far[chance(3)]);
}

/* Gives a list of packets on their way out to an end, and each of them to its twin: the records and both rooms are the same. */
static void give_outward(host *end, host *twin, list *out, size_t room_length, uint8_t *room, uint8_t *twin_room) {
    size_t used = 0;
    memset(room, 0xee, room_length);
    memset(twin_room, 0xee, room_length);
    EXPECT(sukperin_outward_all(&end->gateway, out->octets, out->length, out->places, out->count, room, room_length, out->outputs, LISTED),
           SUK_OK);
    for (size_t i = 0; i < out->count; i++) {
        suk_place place = out->places[i];
        if (!is_there(place, out->length)) {
            out->single[i] = refused(SUK_E_PLACE);
        } else if (room_length - used < SUK_ROOM(place.length)) {
            out->single[i] = refused(SUK_E_ROOM);
        } else {
            EXPECT(sukperin_outward(&twin->gateway, out->octets + place.offset, place.length, twin_room + used, room_length - used,
                                    &out->single[i]),
                   SUK_OK);
            if (out->single[i].kind == SUK_SEALED) {
                out->single[i].offset = used;
                used += out->single[i].length;
            }
        }
    }
    EXPECT(same_records(out), true);
    EXPECT(memcmp(room, twin_room, room_length), 0);
}

/* The same of ESP packets that came. */
static void give_esp(host *end, host *twin, list *in) {
    EXPECT(sukperin_esp_all(&end->gateway, in->octets, in->length, in->places, in->count, in->outputs, LISTED), SUK_OK);
    for (size_t i = 0; i < in->count; i++) {
        suk_place place = in->places[i];
        if (!is_there(place, in->length))
            in->single[i] = refused(SUK_E_PLACE);
        else
            EXPECT(sukperin_esp(&twin->gateway, in->octets + place.offset, place.length, &in->single[i]), SUK_OK);
    }
    EXPECT(same_records(in), true);
}

/* Lists of up to 130 packets by chance: new ones, replays, late ones, damaged, cut, misplaced, and rooms that end too early. A late one
 * lies below the window (15), or where numbers are extended is taken for one of the next 2^32 (18). */
static void lists_by_chance(void) {
    enum { ROUNDS = 300, MOST = 130, POOL = 256 };
    static list out, in;
    static uint8_t room[LISTED * 128], twin_room[LISTED * 128], pool[POOL][128];
    static size_t lengths[POOL];
    host pair[2], twins[2];
    uint8_t packet[128];
    size_t pooled = 0, came = 0;
    unsigned by_code[SUK_E_PLACE + 1] = {0};
    bring_up_twins(pair, twins);
    for (int round = 0; round < ROUNDS; round++) {
        out.length = out.count = in.length = in.count = 0;
        for (size_t left = chance(MOST + 1); left > 0; left--) {
            uint32_t kind = chance(20);
            size_t length = packet_to(kind == 0 ? 9 : kind == 1 ? 8 : 2, chance(80), packet);
            if (kind == 2)
                append_misplaced(&out);
            else
                append(&out, packet, length - (kind == 3));
        }
        give_outward(&pair[0], &twins[0], &out, chance(4) ? sizeof room : 1 + chance(sizeof room / 2), room, twin_room);
        for (size_t i = 0; i < out.count; i++) {
            by_code[out.outputs[i].code]++;
            if (out.outputs[i].kind != SUK_SEALED)
                continue;
            lengths[pooled % POOL] = out.outputs[i].length;
            memcpy(pool[pooled++ % POOL], room + out.outputs[i].offset, out.outputs[i].length);
        }
        for (size_t left = pooled == 0 ? 0 : chance(MOST + 1); left > 0; left--) {
            uint32_t kind = chance(20);
            size_t most = pooled < POOL ? pooled : POOL, which = kind < 5 || came >= pooled ? chance((uint32_t)most) : came++ % POOL;
            memcpy(packet, pool[which], lengths[which]);
            if (kind == 5)
                packet[chance((uint32_t)lengths[which])] ^= (uint8_t)(1 << chance(8));
            if (kind == 6)
                append_misplaced(&in);
            else
                append(&in, packet, kind == 7 ? chance((uint32_t)lengths[which]) : lengths[which]);
        }
        give_esp(&pair[1], &twins[1], &in);
        for (size_t i = 0; i < in.count; i++) by_code[in.outputs[i].code]++;
    }
    const unsigned wanted[9] = {0, 14, extended ? 18 : 15, 16, 18, 21, 28, SUK_E_ROOM, SUK_E_PLACE};
    for (size_t i = 0; i < 9; i++) EXPECT(by_code[wanted[i]] > 20, true);
    for (size_t i = 0; i < 2; i++) {
        suk_child child, twin;
        EXPECT(sukperin_child_after(&pair[i].gateway, 0, &child), SUK_OK);
        EXPECT(sukperin_child_after(&twins[i].gateway, 0, &twin), SUK_OK);
        EXPECT(memcmp(&child, &twin, sizeof child), 0);
    }
    close_both(&pair[0], &pair[1]);
    close_both(&twins[0], &twins[1]);
}

/* What a list is refused for, as a whole and one packet of it alone. */
static void lists_that_are_refused(void) {
    static list three;
    host a, b;
    suk_gateway none = SUK_NONE;
    uint8_t packet[128], room[3 * SUK_ROOM(20)];
    suk_child child;
    bring_up(&a, &b);
    memset(&three, 0, sizeof three);
    for (int i = 0; i < 3; i++) append(&three, packet, packet_to(2, 0, packet));
    memset(three.outputs, 0xee, sizeof three.outputs);
    memset(room, 0xee, sizeof room);
    suk_output *outputs = three.outputs;
    EXPECT(sukperin_outward_all(&none, three.octets, 60, three.places, 3, room, sizeof room, outputs, 3), SUK_E_NO_END);
    EXPECT(sukperin_outward_all(&none, three.octets, 60, three.places, 3, room, sizeof room, outputs, 2), SUK_E_NO_END);
    EXPECT(sukperin_outward_all(&a.gateway, three.octets, 60, three.places, 3, room, sizeof room, outputs, 2), SUK_E_ROOM);
    EXPECT(sukperin_esp_all(&none, three.octets, 60, three.places, 3, outputs, 3), SUK_E_NO_END);
    EXPECT(sukperin_esp_all(&none, three.octets, 60, three.places, 3, outputs, 2), SUK_E_NO_END);
    EXPECT(sukperin_esp_all(&b.gateway, three.octets, 60, three.places, 3, outputs, 2), SUK_E_ROOM);
    EXPECT(outputs[0].kind, 0xeeeeeeee);
    EXPECT(room[0], 0xee);
    EXPECT(sukperin_child_after(&a.gateway, 0, &child), SUK_OK);
    EXPECT(child.sent, 0);
    /* A list without a packet. */
    EXPECT(sukperin_outward_all(&a.gateway, NULL, 0, NULL, 0, room, sizeof room, outputs, 0), SUK_OK);
    EXPECT(sukperin_esp_all(&b.gateway, NULL, 0, NULL, 0, outputs, 0), SUK_OK);
    EXPECT(outputs[0].kind, 0xeeeeeeee);
    /* Room for two, and an octet too few for the third. */
    EXPECT(sukperin_outward_all(&a.gateway, three.octets, 60, three.places, 3, room, 48 + 48 + SUK_ROOM(20) - 1, outputs, 3), SUK_OK);
    EXPECT(outputs[0].kind == SUK_SEALED && outputs[0].offset == 0 && outputs[0].length == 48, true);
    EXPECT(outputs[1].kind == SUK_SEALED && outputs[1].offset == 48 && outputs[1].number == 2, true);
    suk_output wanted = refused(SUK_E_ROOM);
    EXPECT(memcmp(&outputs[2], &wanted, sizeof wanted), 0);
    EXPECT(room[96], 0xee);
    /* One that is too long is refused alone: what follows it still has room. */
    packet_to(2, 1, packet);
    memset(&three, 0, sizeof three);
    append(&three, packet, 21);
    append(&three, packet, packet_to(2, 0, packet));
    append(&three, packet, packet_to(9, 0, packet));
    EXPECT(sukperin_outward_all(&a.gateway, three.octets, 61, three.places, 3, room, SUK_ROOM(20), outputs, 3), SUK_OK);
    EXPECT(outputs[0].code, SUK_E_ROOM);
    EXPECT(outputs[1].kind == SUK_SEALED && outputs[1].offset == 0 && outputs[1].number == 3, true);
    EXPECT(outputs[2].kind == SUK_REFUSED && outputs[2].code == SUK_E_ROOM, true); /* also what the policy would let pass */
    /* A list is no message. */
    suk_message_told told;
    EXPECT(sukperin_message(&a.gateway, 0, room, sizeof room, &told), SUK_E_NOTHING);
    const suk_place *places = three.places;
    EXPECT(sukperin_esp_all(NULL, three.octets, 60, places, 3, outputs, 3), SUK_E_NULL);
    EXPECT(sukperin_esp_all(&b.gateway, NULL, 60, places, 3, outputs, 3), SUK_E_NULL);
    EXPECT(sukperin_esp_all(&b.gateway, three.octets, SIZE_MAX, places, 3, outputs, 3), SUK_E_NULL);
    EXPECT(sukperin_esp_all(&b.gateway, three.octets, 60, NULL, 3, outputs, 3), SUK_E_NULL);
    EXPECT(sukperin_esp_all(&b.gateway, three.octets, 60, places, PTRDIFF_MAX / 8, outputs, 3), SUK_E_NULL);
    EXPECT(sukperin_esp_all(&b.gateway, three.octets, 60, places, 3, NULL, 3), SUK_E_NULL);
    EXPECT(sukperin_esp_all(&b.gateway, three.octets, 60, places, 3, outputs, PTRDIFF_MAX / 8), SUK_E_NULL);
    EXPECT(sukperin_outward_all(NULL, three.octets, 60, places, 3, room, sizeof room, outputs, 3), SUK_E_NULL);
    EXPECT(sukperin_outward_all(&a.gateway, NULL, 60, places, 3, room, sizeof room, outputs, 3), SUK_E_NULL);
    EXPECT(sukperin_outward_all(&a.gateway, three.octets, 60, NULL, 3, room, sizeof room, outputs, 3), SUK_E_NULL);
    EXPECT(sukperin_outward_all(&a.gateway, three.octets, 60, places, SIZE_MAX / 16, room, sizeof room, outputs, 3), SUK_E_NULL);
    EXPECT(sukperin_outward_all(&a.gateway, three.octets, 60, places, 3, NULL, sizeof room, outputs, 3), SUK_E_NULL);
    EXPECT(sukperin_outward_all(&a.gateway, three.octets, 60, places, 3, room, SIZE_MAX, outputs, 3), SUK_E_NULL);
    EXPECT(sukperin_outward_all(&a.gateway, three.octets, 60, places, 3, room, sizeof room, NULL, 3), SUK_E_NULL);
    EXPECT(sukperin_outward_all(&a.gateway, three.octets, 60, places, 3, room, sizeof room, outputs, SIZE_MAX / 64), SUK_E_NULL);
    close_both(&a, &b);
}

static void messages(void) {
    host a, b;
    bring_up(&a, &b);
    suk_output output;
    suk_message_told told = {0, 0, 0};
    uint8_t first[SUK_MESSAGE_ROOM], room[SUK_MESSAGE_ROOM];
    suk_fresh octets = fresh();
    EXPECT(sukperin_probe(&a.gateway, 1, &octets, &output), SUK_OK);
    EXPECT(output.kind, SUK_REQUEST);
    EXPECT(sukperin_message(&a.gateway, 1, room, sizeof room, &told), SUK_E_NOTHING);
    EXPECT(sukperin_message(&a.gateway, 0, room, 10, &told), SUK_E_ROOM);
    EXPECT(told.length, output.length);
    take_message(&a, &output);
    EXPECT(a.length, told.length);
    octets = fresh();
    EXPECT(sukperin_probe(&a.gateway, 1, &octets, &output), SUK_OK); /* its window has one place */
    EXPECT(output.kind, SUK_REFUSED);
    EXPECT(output.code, 35);
    memcpy(first, a.message, a.length);
    size_t length = a.length;
    first[length - 1] ^= 1;
    output = give(&b, a.address, first, length);
    EXPECT(output.kind, SUK_DROPPED);
    EXPECT(output.code, 29);
    EXPECT(give(&b, a.address, first, length - 1).code, 2);
    EXPECT(give(&b, a.address, first, 27).code, 1);
    first[length - 1] ^= 1;
    EXPECT(give(&a, b.address, first, length).code, 33); /* reflected */
    output = give(&b, a.address, first, length);
    EXPECT(output.kind, SUK_REPLY);
    uint8_t reply[SUK_MESSAGE_ROOM];
    size_t reply_length = b.length;
    memcpy(reply, b.message, reply_length);
    output = give(&b, a.address, first, length);
    EXPECT(output.kind, SUK_REPEAT);
    EXPECT(b.length, reply_length);
    EXPECT(memcmp(b.message, reply, reply_length), 0);
    EXPECT(give(&a, b.address, reply, reply_length).kind, SUK_COUNTED);
    EXPECT(give(&a, b.address, reply, reply_length).code, 31);
    EXPECT(start(&a, 9, 0).code, 28);
    EXPECT(start(&a, 0, 1).code, 23);
    EXPECT(start(&a, 0, 2).code, 23);
    octets = fresh();
    octets.spi = 0;
    EXPECT(sukperin_start(&a.gateway, 0, 0, &octets, &output), SUK_OK);
    EXPECT(output.kind, SUK_REFUSED);
    EXPECT(output.code, 37);
    EXPECT(sukperin_secret(&a.gateway, KEY, &output), SUK_OK);
    EXPECT(output.kind, SUK_DONE);
    close_both(&a, &b);
}

static void tables(void) {
    host a, b;
    bring_up(&a, &b);
    suk_child child;
    suk_selector_told selector;
    suk_ike_association room[4];
    uint64_t count = 0;
    EXPECT(sukperin_child_after(&a.gateway, 0, &child), SUK_OK);
    EXPECT(child.serial, 1);
    EXPECT(child.ike, 1);
    EXPECT(child.spi_in, 4096);
    EXPECT(child.spi_out, 4096);
    EXPECT(child.live, 1);
    EXPECT(child.extended, 1);
    EXPECT(child.locals, 1);
    EXPECT(child.remotes, 1);
    EXPECT(sukperin_child_after(&a.gateway, 1, &child), SUK_E_NOTHING);
    EXPECT(sukperin_selector(&a.gateway, 1, 0, 0, &selector), SUK_OK);
    EXPECT(selector.family, 4);
    EXPECT(selector.end_port, 65535);
    EXPECT(memcmp(selector.start, (uint8_t[]){10, 1, 0, 0}, 4), 0);
    EXPECT(memcmp(selector.end, (uint8_t[]){10, 1, 0, 255}, 4), 0);
    EXPECT(sukperin_selector(&a.gateway, 1, 1, 0, &selector), SUK_OK);
    EXPECT(memcmp(selector.start, (uint8_t[]){10, 2, 0, 0}, 4), 0);
    EXPECT(sukperin_selector(&a.gateway, 1, 0, 1, &selector), SUK_E_NOTHING);
    EXPECT(sukperin_selector(&a.gateway, 2, 0, 0, &selector), SUK_E_NOTHING);
    EXPECT(sukperin_associations(&a.gateway, room, 4, &count), SUK_OK);
    EXPECT(count, 1);
    EXPECT(room[0].serial, 1);
    EXPECT(room[0].role, 1);
    EXPECT(room[0].phase, 4);
    EXPECT(room[0].window, 1);
    EXPECT(sukperin_associations(&b.gateway, room, 4, &count), SUK_OK);
    EXPECT(room[0].role, 2);
    count = 0;
    EXPECT(sukperin_associations(&a.gateway, NULL, 0, &count), SUK_E_ROOM);
    EXPECT(count, 1);
    close_both(&a, &b);
}

static void keys(void) {
    host a, b;
    suk_entry entries[2] = {entry_between(SUK_PROTECT, 1, 2), entry_between(SUK_PROTECT, 2, 1)};
    suk_config configs[2] = {config_of("a.example", "b.example", &entries[0], 1), config_of("b.example", "a.example", &entries[1], 1)};
    suk_keys_told told, other;
    suk_gateway none = SUK_NONE;
    memset(&a, 0, sizeof a);
    memset(&b, 0, sizeof b);
    configs[0].terms.tells_keys = 1;
    configs[1].terms.tells_keys = 2; /* all but 0 is yes */
    EXPECT(sukperin_new(&a.gateway, &configs[0]), SUK_OK);
    EXPECT(sukperin_new(&b.gateway, &configs[1]), SUK_OK);
    memset(&told, 0xee, sizeof told);
    other = told;
    EXPECT(sukperin_keys(&none, 1, &told), SUK_E_NO_END);
    EXPECT(sukperin_keys(&a.gateway, 1, &told), SUK_E_NOTHING);
    EXPECT(start(&a, 0, 0).kind, SUK_REQUEST);
    EXPECT(sukperin_keys(&a.gateway, 1, &told), SUK_E_NOTHING); /* asked for: no keys yet */
    EXPECT(memcmp(&told, &other, sizeof told), 0);
    sukperin_end(&a.gateway);
    EXPECT(sukperin_new(&a.gateway, &configs[0]), SUK_OK);
    greet(&a, &b);
    EXPECT(sukperin_keys(&a.gateway, 1, &told), SUK_OK);
    EXPECT(sukperin_keys(&b.gateway, 1, &other), SUK_OK);
    EXPECT(memcmp(&told, &other, sizeof told), 0);
    const uint8_t *each[7] = {told.sk_d, told.sk_ai, told.sk_ar, told.sk_ei, told.sk_er, told.sk_pi, told.sk_pr};
    for (size_t i = 0; i < 7; i++)
        for (size_t j = 0; j < i; j++) EXPECT(memcmp(each[i], each[j], 32) != 0, true);
    EXPECT(sukperin_keys(&a.gateway, 2, &told), SUK_E_NOTHING);
    EXPECT(sukperin_keys(&a.gateway, 0, &told), SUK_E_NOTHING);
    EXPECT(memcmp(&told, &other, sizeof told), 0);
    EXPECT(sukperin_keys(NULL, 1, &told), SUK_E_NULL);
    EXPECT(sukperin_keys(&a.gateway, 1, NULL), SUK_E_NULL);
    close_both(&a, &b);
    bring_up(&a, &b); /* of terms that don't say so */
    EXPECT(sukperin_keys(&a.gateway, 1, &told), SUK_E_NOTHING);
    EXPECT(memcmp(&told, &other, sizeof told), 0);
    close_both(&a, &b);
}

static void orders_to_delete(void) {
    host a, b;
    bring_up(&a, &b);
    suk_output output;
    suk_fresh octets = fresh();
    suk_child child;
    EXPECT(start(&a, 1, 0).kind, SUK_REQUEST);
    EXPECT(pass(&a, &b).kind, SUK_REPLY);
    EXPECT(pass(&b, &a).child, 2);
    EXPECT(sukperin_delete_child(&a.gateway, 1, &octets, &output), SUK_OK);
    EXPECT(output.kind, SUK_REQUEST);
    take_message(&a, &output);
    EXPECT(sukperin_child_after(&a.gateway, 0, &child), SUK_OK);
    EXPECT(child.live, 0);
    octets = fresh();
    EXPECT(sukperin_delete_child(&a.gateway, 1, &octets, &output), SUK_OK);
    EXPECT(output.code, 32);
    octets = fresh();
    EXPECT(sukperin_delete_child(&a.gateway, 7, &octets, &output), SUK_OK);
    EXPECT(output.code, 28);
    EXPECT(pass(&a, &b).kind, SUK_REPLY);
    EXPECT(pass(&b, &a).kind, SUK_COUNTED);
    EXPECT(sukperin_child_after(&a.gateway, 0, &child), SUK_OK);
    EXPECT(child.serial, 2);
    octets = fresh();
    EXPECT(sukperin_delete_ike(&a.gateway, 1, &octets, &output), SUK_OK);
    take_message(&a, &output);
    output = pass(&a, &b);
    EXPECT(output.kind, SUK_REPLY);
    EXPECT(output.closed, 1);
    output = pass(&b, &a);
    EXPECT(output.kind, SUK_COUNTED);
    EXPECT(output.closed, 1);
    EXPECT(sukperin_child_after(&a.gateway, 0, &child), SUK_E_NOTHING);
    octets = fresh();
    EXPECT(sukperin_delete_ike(&a.gateway, 1, &octets, &output), SUK_OK);
    EXPECT(output.code, 32);
    close_both(&a, &b);
}

static void time_passes(void) {
    host a;
    open_host(&a, "a.example", "b.example", 1, 2);
    suk_output output;
    uint64_t moment = 7;
    uint32_t ike = 0;
    EXPECT(sukperin_tick(&a.gateway, 0, &output), SUK_OK);
    EXPECT(output.kind, SUK_TICKED);
    EXPECT(sukperin_next(&a.gateway, &moment), SUK_E_NOTHING);
    EXPECT(start(&a, 0, 0).kind, SUK_REQUEST);
    EXPECT(sukperin_next(&a.gateway, &moment), SUK_OK);
    EXPECT(moment, 1000);
    unsigned resent = 0, closed = 0;
    while (closed == 0 && sukperin_next(&a.gateway, &moment) == SUK_OK) {
        EXPECT(sukperin_tick(&a.gateway, moment, &output), SUK_OK);
        EXPECT(output.kind, SUK_TICKED);
        resent += output.messages;
        closed += output.closings;
    }
    EXPECT(resent, 5);
    EXPECT(closed, 1);
    EXPECT(moment, 47000);
    EXPECT(sukperin_closing(&a.gateway, 0, &ike), SUK_OK);
    EXPECT(ike, 1);
    EXPECT(sukperin_closing(&a.gateway, 1, &ike), SUK_E_NOTHING);
    sukperin_end(&a.gateway);
}

static void texts(void) {
    EXPECT(strcmp(sukperin_text(16), "the number was taken already"), 0);
    for (uint32_t code = 0; code <= 120; code++) {
        bool known = code <= 39 || (code >= 101 && code <= 109);
        EXPECT(strcmp(sukperin_text(code), "an unknown code") != 0, known);
    }
}

int main(void) {
    associations_are_made_and_ended();
    associations_look_at_null();
    sealing();
    opening();
    extended_numbers();
#ifdef STARVES
    associations_want_memory();
    gateways_want_memory();
#endif
    none_is_refused();
    null_is_refused();
    configurations();
    packets();
    lists();
    lists_by_chance();
    extended = 0;
    lists_by_chance();
    extended = 1;
    lists_that_are_refused();
    messages();
    tables();
    keys();
    orders_to_delete();
    time_passes();
    texts();
    printf("%u passed, %u failed\n", passed, failed);
    return failed == 0 ? 0 : 1;
}
