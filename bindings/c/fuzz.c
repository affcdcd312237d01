/* Calls in any order, by a seed: two gateways and an ESP SA, given what the other end sent, damaged or made up.
 *
 *   cc -g -fsanitize=address,undefined fuzz.c -lsukperin -o fuzz && ./fuzz [FIRST SEED] [SEEDS] [CALLS]
 *
 * It stops at the first answer that the header doesn't allow, and tells seed and call. What is written lies in rooms of exactly the
 * length that is given, so that a sanitizer sees each octet beyond. */
#include <stdio.h>
#include <stdlib.h>
#include <string.h>
#include <sukperin.h>

static uint64_t state, seed, calls;

static uint64_t draw(void) { /* xorshift64* */
    state ^= state >> 12;
    state ^= state << 25;
    state ^= state >> 27;
    return state * UINT64_C(2685821657736338717);
}

static uint32_t below(uint32_t limit) { return (uint32_t)((draw() >> 32) % limit); }

static void draw_octets(void *to, size_t length) {
    for (size_t i = 0; i < length; i++) ((uint8_t *)to)[i] = (uint8_t)(draw() >> 56);
}

static suk_fresh fresh(void) {
    suk_fresh octets;
    draw_octets(&octets, sizeof octets);
    return octets;
}

static void require_at(int line, bool holds) {
    if (holds)
        return;
    printf("line %d: a promise is broken, at seed %llu, call %llu\n", line, (unsigned long long)seed, (unsigned long long)calls);
    exit(1);
}

#define REQUIRE(holds) require_at(__LINE__, holds)

/* A copy in a block of just its length. */
static uint8_t *copy_of(const uint8_t *octets, size_t length) {
    uint8_t *copy = malloc(length > 0 ? length : 1);
    if (copy == NULL)
        exit(2);
    if (length > 0)
        memcpy(copy, octets, length);
    return copy;
}

/* ---- What was sent, to be given later ---- */

enum { KEPT = 16, LONGEST = 4096 };
typedef struct {
    uint8_t octets[LONGEST];
    size_t length;
} datagram;

static datagram sent[2][2][KEPT]; /* by end, and by IKE or ESP */
static size_t count_of_sent[2][2];

static void keep(int end, bool esp, const uint8_t *octets, size_t length) {
    datagram *place = &sent[end][esp][count_of_sent[end][esp]++ % KEPT];
    REQUIRE(length <= LONGEST);
    memcpy(place->octets, octets, length);
    place->length = length;
}

/* Mostly what the other end sent last; else an older one, one of its own, damaged, cut, or made up. */
static uint8_t *something_for(int end, bool esp, size_t *length) {
    int from = below(16) == 0 ? end : 1 - end;
    size_t count = count_of_sent[from][esp];
    if (count == 0 || below(24) == 0) {
        uint8_t octets[200];
        draw_octets(octets, sizeof octets);
        *length = below(sizeof octets);
        return copy_of(octets, *length);
    }
    size_t back = below(3) != 0 ? 1 : 1 + below(KEPT);
    const datagram *chosen = &sent[from][esp][(count - (back < count ? back : count)) % KEPT];
    *length = chosen->length;
    uint8_t *octets = copy_of(chosen->octets, *length);
    uint32_t chance = below(12);
    if (chance == 0 && *length > 0)
        octets[below((uint32_t)*length)] ^= (uint8_t)(1 << below(8));
    if (chance == 1)
        *length = below((uint32_t)*length + 1);
    return octets;
}

/* ---- Two gateways ---- */

static suk_gateway gateways[2];
static uint64_t moment;
static uint64_t seen[SUK_REFUSED + 1];

static suk_octets text(const char *words) {
    suk_octets octets = {(const uint8_t *)words, strlen(words)};
    return octets;
}

static void open_gateway(int end) {
    static const char *const names[2] = {"a.example", "b.example"};
    suk_entry entries[3];
    memset(entries, 0, sizeof entries);
    for (uint8_t i = 0; i < 3; i++) {
        entries[i] = (suk_entry){.family = 4, .action = SUK_PROTECT, .local_end_port = 65535, .remote_end_port = 65535};
        entries[i].local_start[0] = entries[i].local_end[0] = entries[i].remote_start[0] = entries[i].remote_end[0] = 10;
        entries[i].local_start[1] = entries[i].local_end[1] = (uint8_t)(2 * i + end);
        entries[i].remote_start[1] = entries[i].remote_end[1] = (uint8_t)(2 * i + 1 - end);
        memset(entries[i].local_end + 2, 255, 2);
        memset(entries[i].remote_end + 2, 255, 2);
    }
    entries[2].action = SUK_BYPASS;
    suk_config config = {
        .terms = {.own_kind = 2, .peer_kind = 2, .extended = (uint8_t)below(2), .window = 1, .blocks = 2, .first_spi = 256},
        .own_id = text(names[end]),
        .peer_id = text(names[1 - end]),
        .own_psk = text("secret"),
        .peer_psk = text(below(20) == 0 ? "another" : "secret"),
        .entries = entries,
        .entry_count = 3};
    config.terms.window = (uint8_t)below(18);
    config.terms.blocks = below(8) == 0 ? below(200) : UINT32_C(2) << below(7);
    bool good = config.terms.window >= 1 && config.terms.window <= 16 && config.terms.blocks >= 2 && config.terms.blocks <= 128 &&
                (config.terms.blocks & (config.terms.blocks - 1)) == 0;
    bool live = gateways[end].private_live;
    REQUIRE(sukperin_new(&gateways[end], &config) == (uint32_t)(live ? SUK_E_IN_USE : good ? SUK_OK : SUK_E_CONFIG));
}

/* What an input answered, with the packet that came or the room. */
static void look_at(int end, uint32_t code, const suk_output *output, size_t packet, const uint8_t *room, size_t room_length) {
    if (!gateways[end].private_live) {
        REQUIRE(code == SUK_E_NO_END);
        return;
    }
    REQUIRE(code == SUK_OK && output->kind >= SUK_REPLY && output->kind <= SUK_REFUSED);
    seen[output->kind]++;
    bool is_refusal = output->kind == SUK_DROPPED || output->kind == SUK_REFUSED;
    REQUIRE(is_refusal ? output->code >= 1 && output->code <= 39 : output->code == 0);
    if (output->kind == SUK_UP)
        REQUIRE(output->offset <= packet && output->length <= packet - output->offset);
    if (output->kind == SUK_SEALED) {
        REQUIRE(output->offset <= room_length && output->length <= room_length - output->offset);
        keep(end, true, room + output->offset, output->length);
    }
    bool has_one = output->kind == SUK_REPLY || output->kind == SUK_REPEAT || output->kind == SUK_REQUEST;
    REQUIRE(output->kind == SUK_TICKED || output->messages == (has_one ? 1 : 0));
    for (uint64_t place = 0; place < output->messages; place++) {
        suk_message_told told;
        uint8_t *message = malloc(SUK_MESSAGE_ROOM);
        if (message == NULL)
            exit(2);
        REQUIRE(sukperin_message(&gateways[end], place, message, SUK_MESSAGE_ROOM, &told) == SUK_OK);
        keep(end, false, message, told.length);
        free(message);
    }
    for (uint64_t place = 0; place < output->closings; place++) {
        uint32_t ike = 0;
        REQUIRE(sukperin_closing(&gateways[end], place, &ike) == SUK_OK && ike != 0);
    }
}

/* A packet on its way out, and its length. */
static size_t draw_packet(uint8_t packet[64]) {
    memset(packet, 0, 64);
    packet[0] = 0x45;
    packet[3] = 64;
    packet[9] = (uint8_t)below(20);
    packet[12] = packet[16] = 10;
    packet[13] = (uint8_t)below(6);
    packet[17] = (uint8_t)below(6);
    if (below(10) == 0)
        packet[below(20)] ^= (uint8_t)(1 << below(8));
    return below(20) == 0 ? below(65) : 64;
}

static void give_packet_outward(int end) {
    suk_output output;
    uint8_t packet[64];
    size_t length = draw_packet(packet), room_length = SUK_ROOM(length) - (below(10) == 0);
    uint8_t *copy = copy_of(packet, length), *room = malloc(room_length);
    if (room == NULL)
        exit(2);
    uint32_t code = sukperin_outward(&gateways[end], copy, length, room, room_length, &output);
    if (gateways[end].private_live && room_length < SUK_ROOM(length))
        REQUIRE(code == SUK_E_ROOM);
    else
        look_at(end, code, &output, length, room, room_length);
    free(copy);
    free(room);
}

/* ---- Lists ---- */

enum { LISTED = 80 };
static suk_place places[LISTED];
static uint64_t listed, alone; /* packets given in lists, and those refused alone */

/* Another place than the one that it has, mostly outside a buffer of so many octets. */
static suk_place misplaced(size_t length) {
    static const uint64_t far[3] = {UINT64_MAX, UINT64_MAX / 2 + 1, 0};
    suk_place place = {far[below(3)], far[below(3)]};
    if (below(2) == 0)
        place.offset = below((uint32_t)length + 2);
    if (below(2) == 0)
        place.length = below((uint32_t)length + 2);
    return place;
}

static bool is_there(suk_place place, size_t length) { return place.offset <= length && place.length <= length - place.offset; }

/* A copy of the places, and records, in blocks of just their length; sometimes a record is missing. */
static suk_place *copy_of_places(size_t count) { return (suk_place *)(void *)copy_of((const uint8_t *)places, count * sizeof(suk_place)); }
static suk_output *records_for(size_t count, size_t *records) {
    *records = count > 0 && below(20) == 0 ? count - 1 : count + (below(4) == 0);
    suk_output *outputs = malloc(*records * sizeof(suk_output) + 1);
    if (outputs == NULL)
        exit(2);
    return outputs;
}

/* What a list answered as a whole; whether its records are filled. */
static bool is_taken(int end, uint32_t code, size_t count, size_t records) {
    bool live = gateways[end].private_live;
    REQUIRE(code == (uint32_t)(!live ? SUK_E_NO_END : records < count ? SUK_E_ROOM : SUK_OK));
    return code == SUK_OK;
}

static bool is_refused_by(const suk_output *output, uint32_t code) {
    suk_output wanted;
    memset(&wanted, 0, sizeof wanted);
    wanted.kind = SUK_REFUSED;
    wanted.code = code;
    return memcmp(output, &wanted, sizeof wanted) == 0;
}

/* Up to 80 of what the other end sent, as one list. */
static void give_list(int end) {
    static uint8_t octets[LISTED * LONGEST];
    size_t count = below(8) == 0 ? below(LISTED + 1) : below(6), length = 0, records;
    for (size_t i = 0; i < count; i++) {
        size_t part;
        uint8_t *given = something_for(end, true, &part);
        memcpy(octets + length, given, part);
        free(given);
        places[i] = (suk_place){length, part};
        length += part;
    }
    for (size_t i = 0; i < count; i++)
        if (below(20) == 0)
            places[i] = misplaced(length);
    uint8_t *copy = copy_of(octets, length);
    suk_place *given = copy_of_places(count);
    suk_output *outputs = records_for(count, &records);
    uint32_t code = sukperin_esp_all(&gateways[end], copy, length, given, count, outputs, records);
    if (is_taken(end, code, count, records)) {
        for (size_t i = 0; i < count; i++) {
            listed++;
            if (is_there(places[i], length)) {
                look_at(end, code, &outputs[i], places[i].length, NULL, 0);
            } else {
                REQUIRE(is_refused_by(&outputs[i], SUK_E_PLACE));
                alone++;
            }
        }
    }
    free(copy);
    free(given);
    free(outputs);
}

/* Up to 80 packets on their way out, as one list; sometimes the room is too short for the last ones. */
static void give_list_outward(int end) {
    static uint8_t octets[LISTED * 64];
    size_t count = below(8) == 0 ? below(LISTED + 1) : below(6), length = 0, needed = 1, used = 0, records;
    for (size_t i = 0; i < count; i++) {
        uint8_t packet[64];
        size_t part = draw_packet(packet);
        memcpy(octets + length, packet, part);
        places[i] = (suk_place){length, part};
        length += part;
        needed += SUK_ROOM(part);
    }
    for (size_t i = 0; i < count; i++)
        if (below(20) == 0)
            places[i] = misplaced(length);
    size_t room_length = below(6) == 0 ? 1 + below((uint32_t)needed) : needed;
    uint8_t *copy = copy_of(octets, length), *room = malloc(room_length);
    suk_place *given = copy_of_places(count);
    suk_output *outputs = records_for(count, &records);
    if (room == NULL)
        exit(2);
    uint32_t code = sukperin_outward_all(&gateways[end], copy, length, given, count, room, room_length, outputs, records);
    if (is_taken(end, code, count, records)) {
        for (size_t i = 0; i < count; i++) {
            listed++;
            if (!is_there(places[i], length)) {
                REQUIRE(is_refused_by(&outputs[i], SUK_E_PLACE));
                alone++;
            } else if (room_length - used < SUK_ROOM(places[i].length)) {
                REQUIRE(is_refused_by(&outputs[i], SUK_E_ROOM));
                alone++;
            } else {
                look_at(end, code, &outputs[i], places[i].length, room, room_length);
                REQUIRE(outputs[i].kind == SUK_SEALED ? outputs[i].offset == used : outputs[i].offset == 0);
                if (outputs[i].kind == SUK_SEALED)
                    used += outputs[i].length;
            }
        }
    }
    free(copy);
    free(room);
    free(given);
    free(outputs);
}

static void look_at_tables(int end) {
    suk_child child = {0};
    suk_ike_association room[160];
    uint64_t count = 0;
    uint64_t next = 0;
    uint32_t code, live = gateways[end].private_live;
    while ((code = sukperin_child_after(&gateways[end], child.serial, &child)) == SUK_OK) {
        for (int remote = 0; remote < 2; remote++) {
            suk_selector_told selector;
            uint64_t selectors = remote ? child.remotes : child.locals;
            for (uint64_t place = 0; place < selectors; place++)
                REQUIRE(sukperin_selector(&gateways[end], child.serial, remote == 1, place, &selector) == SUK_OK);
            REQUIRE(sukperin_selector(&gateways[end], child.serial, remote == 1, selectors, &selector) == SUK_E_NOTHING);
        }
    }
    REQUIRE(code == (uint32_t)(live ? SUK_E_NOTHING : SUK_E_NO_END));
    REQUIRE(sukperin_associations(&gateways[end], room, 160, &count) == (uint32_t)(live ? SUK_OK : SUK_E_NO_END) && count <= 160);
    suk_keys_told keys;
    code = sukperin_keys(&gateways[end], below(8), &keys);
    REQUIRE(live ? code == SUK_OK || code == SUK_E_NOTHING : code == SUK_E_NO_END);
    code = sukperin_next(&gateways[end], &next);
    REQUIRE(live ? code == SUK_OK || code == SUK_E_NOTHING : code == SUK_E_NO_END);
}

static void call_a_gateway(void) {
    int end = (int)below(2);
    suk_gateway *gateway = &gateways[end];
    suk_output output;
    suk_fresh octets = fresh();
    size_t length = 0;
    uint8_t *given = NULL;
    const uint8_t from[4] = {192, 0, 2, (uint8_t)(2 - end)};
    uint32_t code;
    switch (below(18)) {
        case 0:
            if (below(40) == 0)
                sukperin_end(gateway);
            open_gateway(end);
            return;
        case 1: code = sukperin_start(gateway, below(2) ? 0 : below(8), below(4), &octets, &output); break;
        case 2: code = sukperin_probe(gateway, below(8), &octets, &output); break;
        case 3: code = sukperin_delete_child(gateway, below(12), &octets, &output); break;
        case 4:
            if (below(8) != 0)
                return;
            code = sukperin_delete_ike(gateway, below(8), &octets, &output);
            break;
        case 5: code = sukperin_secret(gateway, octets.secret, &output); break;
        case 6: code = sukperin_tick(gateway, moment += below(600), &output); break;
        case 7: look_at_tables(end); return;
        case 8:
        case 9: give_packet_outward(end); return;
        case 10:
        case 11:
            given = something_for(end, true, &length);
            code = sukperin_esp(gateway, given, length, &output);
            break;
        case 12:
            given = something_for(end, true, &length);
            code = sukperin_inward(gateway, given, length, &output);
            break;
        case 13: give_list(end); return;
        case 14: give_list_outward(end); return;
        default:
            given = something_for(end, false, &length);
            code = sukperin_ike(gateway, from, given, length, &octets, &output);
            break;
    }
    look_at(end, code, &output, length, NULL, 0);
    free(given);
}

/* ---- One ESP SA: end 0 sends, end 1 receives ---- */

static suk_association ends[2];
static datagram packets[KEPT];
static size_t count_of_packets;
static uint64_t opened_packets;

static void call_an_association(void) {
    static const uint8_t key[32] = {7};
    suk_association *end = &ends[below(2)];
    bool live = end->private_live, sends = end == &ends[0];
    uint32_t code, chance = below(40);
    if (chance == 0) {
        sukperin_end_association(end);
        REQUIRE(!end->private_live && end->private_at == NULL);
    } else if (chance == 1 || !live) {
        code =
            sends ? sukperin_sender(end, 4096, key, true, below(1000)) : sukperin_receiver(end, 4096, key, true, UINT32_C(2) << below(7));
        REQUIRE(code == (uint32_t)(live ? SUK_E_IN_USE : SUK_OK));
    } else if (sends) {
        uint8_t payload[200];
        suk_sealed told;
        size_t length = below(200), room_length = SUK_ROOM(length) - (below(20) == 0);
        draw_octets(payload, length);
        uint8_t *copy = copy_of(payload, length), *room = malloc(room_length);
        if (room == NULL)
            exit(2);
        code = sukperin_seal(end, (uint8_t)below(256), copy, length, room, room_length, &told);
        REQUIRE(code == (uint32_t)(room_length < SUK_ROOM(length) ? SUK_E_ROOM : SUK_OK));
        if (code == SUK_OK) {
            REQUIRE(told.length <= room_length);
            datagram *place = &packets[count_of_packets++ % KEPT];
            memcpy(place->octets, room, told.length);
            place->length = told.length;
        }
        free(copy);
        free(room);
    } else if (count_of_packets > 0) {
        suk_opened told;
        const datagram *chosen = &packets[below((uint32_t)(count_of_packets < KEPT ? count_of_packets : KEPT))];
        uint8_t *copy = copy_of(chosen->octets, chosen->length);
        size_t length = below(20) == 0 ? below((uint32_t)chosen->length) : chosen->length;
        if (below(10) == 0)
            copy[below((uint32_t)chosen->length)] ^= (uint8_t)(1 << below(8));
        code = sukperin_open(end, copy, length, &told);
        REQUIRE(code == SUK_OK || (code >= 14 && code <= 19) || code == 28);
        if (code == SUK_OK) {
            REQUIRE(told.offset <= length && told.length <= length - told.offset && told.next < 256);
            opened_packets++;
        }
        free(copy);
    }
}

int main(int count, char **words) {
    uint64_t first = count > 1 ? strtoull(words[1], NULL, 10) : 1;
    uint64_t seeds = count > 2 ? strtoull(words[2], NULL, 10) : 100;
    uint64_t limit = count > 3 ? strtoull(words[3], NULL, 10) : 30000;
    for (seed = first; seed < first + seeds; seed++) {
        state = seed * UINT64_C(0x9e3779b97f4a7c15) + 1;
        moment = 0;
        count_of_packets = 0;
        memset(count_of_sent, 0, sizeof count_of_sent);
        for (int end = 0; end < 2; end++) open_gateway(end);
        for (calls = 0; calls < limit; calls++) {
            if (below(4) == 0)
                call_an_association();
            else
                call_a_gateway();
        }
        for (int end = 0; end < 2; end++) {
            sukperin_end(&gateways[end]);
            sukperin_end_association(&ends[end]);
        }
    }
    printf("packets opened %llu, listed %llu, refused alone %llu; outputs by kind:", (unsigned long long)opened_packets,
           (unsigned long long)listed, (unsigned long long)alone);
    for (int kind = SUK_REPLY; kind <= SUK_REFUSED; kind++) printf(" %llu", (unsigned long long)seen[kind]);
    printf("\n%llu seeds of %llu calls: no promise broken\n", (unsigned long long)seeds, (unsigned long long)limit);
    return 0;
}
