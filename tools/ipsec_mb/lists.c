/*
 * Seals or opens a list of ESP packets with Intel's IPsec-MB, as crates/tool_times does with the core: HMAC-SHA-256-128,
 * NULL encryption, extended sequence numbers (RFC 4303; RFC 4868). tools/beside_ipsec_mb.py builds it and compares.
 *
 *     lists seal_all|open_all ROUNDS COUNT OCTETS ..
 *
 * COUNT payloads have these sizes in turn. It prints the nanoseconds of the fastest of the rounds, and an octet of what
 * was made, so that no compiler leaves the work out.
 */
#include <intel-ipsec-mb.h>
#include <stdint.h>
#include <stdio.h>
#include <stdlib.h>
#include <string.h>
#include <time.h>

enum { GROUP = 64, HEAD = 8, TRAILER = 2, CHECK = 16, HALF = 4 };

static const uint8_t key[32] = {
    0x0b, 0x0b, 0x0b, 0x0b, 0x0b, 0x0b, 0x0b, 0x0b, 0x0b, 0x0b, 0x0b, 0x0b, 0x0b, 0x0b, 0x0b, 0x0b,
    0x0b, 0x0b, 0x0b, 0x0b, 0x0b, 0x0b, 0x0b, 0x0b, 0x0b, 0x0b, 0x0b, 0x0b, 0x0b, 0x0b, 0x0b, 0x0b,
};
static IMB_MGR *manager;
static uint8_t inner[32], outer[32];

/* A packet to be hashed: its octets from SPI to next header, and where its check value goes. */
struct task {
    uint8_t *octets;
    size_t covered;
    uint8_t value[CHECK];
};

static uint64_t nanoseconds(void) {
    struct timespec now;
    clock_gettime(CLOCK_MONOTONIC, &now);
    return (uint64_t)now.tv_sec * 1000000000u + (uint64_t)now.tv_nsec;
}

static void put(uint8_t *at, uint32_t number) {
    for (int place = 0; place < 4; place++)
        at[place] = (uint8_t)(number >> (24 - 8 * place));
}

/* The hash after a key's block, padded with one octet (RFC 2104). */
static void after_pad(uint8_t pad, uint8_t *hash) {
    uint8_t block[64];
    for (size_t place = 0; place < sizeof block; place++)
        block[place] = (uint8_t)((place < sizeof key ? key[place] : 0) ^ pad);
    IMB_SHA256_ONE_BLOCK(manager, block, hash);
}

/* Lays out a packet at a place, and answers its covered octets. */
static size_t lay(uint8_t *at, uint32_t number, const uint8_t *payload, size_t length) {
    size_t padding = (4 - (length + TRAILER) % 4) % 4;
    put(at, 256);
    put(at + 4, number);
    memcpy(at + HEAD, payload, length);
    uint8_t *behind = at + HEAD + length;
    for (size_t one = 0; one < padding; one++)
        *behind++ = (uint8_t)(one + 1);
    *behind++ = (uint8_t)padding;
    *behind++ = 4;
    return (size_t)(behind - at);
}

/* The check values of so many packets, 64 at a time: the half of the number that is not sent is hashed behind each. */
static void values(struct task *tasks, size_t count) {
    static IMB_JOB jobs[GROUP];
    for (size_t start = 0; start < count; start += GROUP) {
        size_t many = count - start < GROUP ? count - start : GROUP;
        for (size_t place = 0; place < many; place++) {
            struct task *task = &tasks[start + place];
            IMB_JOB *job = &jobs[place];
            job->hash_alg = IMB_AUTH_HMAC_SHA_256;
            job->src = task->octets;
            job->hash_start_src_offset_in_bytes = 0;
            job->msg_len_to_hash_in_bytes = task->covered + HALF;
            job->u.HMAC._hashed_auth_key_xor_ipad = inner;
            job->u.HMAC._hashed_auth_key_xor_opad = outer;
            job->auth_tag_output = task->value;
            job->auth_tag_output_len_in_bytes = CHECK;
        }
        if (IMB_SUBMIT_HASH_BURST(manager, jobs, (uint32_t)many, IMB_AUTH_HMAC_SHA_256) != many)
            exit(1);
    }
}

int main(int count_of_words, char **words) {
    if (count_of_words < 5)
        return 1;
    int sealing = strcmp(words[1], "seal_all") == 0;
    size_t rounds = strtoul(words[2], NULL, 10), count = strtoul(words[3], NULL, 10);
    size_t kinds = (size_t)count_of_words - 4;

    manager = alloc_mb_mgr(0);
    if (manager == NULL || count == 0)
        return 1;
    init_mb_mgr_avx2(manager);
    after_pad(0x36, inner);
    after_pad(0x5c, outer);

    size_t *sizes = calloc(count, sizeof *sizes), room = 0;
    for (size_t place = 0; place < count; place++) {
        sizes[place] = strtoul(words[4 + place % kinds], NULL, 10);
        room += sizes[place] + HEAD + TRAILER + 3 + CHECK;
    }
    uint8_t *payload = malloc(65536), *out = malloc(room + HALF);
    struct task *tasks = calloc(count, sizeof *tasks);
    uint8_t(*came)[CHECK] = calloc(count, sizeof *came);
    memset(payload, 7, 65536);

    uint64_t best = UINT64_MAX;
    uint32_t number = 0;
    uint8_t last = 0;
    for (size_t round = 0; round < rounds; round++) {
        uint64_t begin = 0;
        /* Packets that come are laid out and sealed before the clock starts. */
        for (int turn = sealing; turn < 2; turn++) {
            int timed = turn == 1;
            if (timed)
                begin = nanoseconds();
            if (sealing || !timed) {
                uint8_t *at = out;
                for (size_t place = 0; place < count; place++) {
                    size_t covered = lay(at, ++number, payload, sizes[place]);
                    put(at + covered, 0);
                    tasks[place].octets = at;
                    tasks[place].covered = covered;
                    at += covered + CHECK;
                }
                values(tasks, count);
                for (size_t place = 0; place < count; place++)
                    memcpy(tasks[place].octets + tasks[place].covered, tasks[place].value, CHECK);
            } else {
                for (size_t place = 0; place < count; place++) {
                    uint8_t *check = tasks[place].octets + tasks[place].covered;
                    memcpy(came[place], check, CHECK);
                    put(check, 0);
                }
                values(tasks, count);
                for (size_t place = 0; place < count; place++) {
                    const uint8_t *behind = tasks[place].octets + tasks[place].covered;
                    if (memcmp(came[place], tasks[place].value, CHECK) != 0 || behind[-1] != 4)
                        return 1;
                    for (uint8_t padding = behind[-2], one = 0; one < padding; one++)
                        if (behind[-2 - padding + one] != one + 1)
                            return 1;
                }
            }
        }
        uint64_t taken = nanoseconds() - begin;
        if (taken < best)
            best = taken;
        last = tasks[count - 1].value[CHECK - 1];
    }
    printf("%llu %u\n", (unsigned long long)best, last);
    return 0;
}
