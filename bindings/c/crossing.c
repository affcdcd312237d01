/* What it costs to cross into the library, and what lists gain: ratios of one run, in which single calls and lists take turns.
 *
 *   cc -O2 crossing.c -lsukperin -o crossing && ./crossing [ROUNDS [LIMIT]]
 *
 * Of lists several are taken in a row, and the last one counts: while packets are taken one by one the processor's wide units sleep, and
 * the first list wakes them.
 *
 * It prints how many times as fast a list of 64 packets is as so many single calls (the median of the rounds, 200 if none are named), how
 * many nanoseconds a packet of a list takes at least, how often each takes memory, and how long a refused call takes at least. The
 * status is 1 where a refused call takes LIMIT ns, 10 if none is named, where a list is slower, or where ESP packets that come take
 * memory.
 *
 * The clock is the one that is read without a call of the system, as that of tools/crossing.py's other programs is: the processor's own
 * would add a call to each list, and empty the TLB before it on a virtual machine. Whatever else runs slows a round, so the fastest and
 * the median count. glibc's allocator is asked behind the one here. */
#include "tests.h"
#include <time.h>

enum { PACKETS = 64, LONGEST = 1400, MOST_ROUNDS = 10000, REFUSED = 10000, IN_A_ROW = 4 };

/* ---- Counting ---- */

void *__libc_malloc(size_t);
void *__libc_realloc(void *, size_t);
static unsigned long allocations;

void *malloc(size_t length) {
    allocations++;
    return __libc_malloc(length);
}

void *realloc(void *block, size_t length) {
    allocations++;
    return __libc_realloc(block, length);
}

static double now(void) {
    struct timespec time;
    clock_gettime(CLOCK_MONOTONIC, &time);
    return (double)time.tv_sec * 1e9 + (double)time.tv_nsec;
}

static int compare(const void *one, const void *other) {
    double a = *(const double *)one, b = *(const double *)other;
    return (a > b) - (a < b);
}

static double median(double *values, size_t count) {
    qsort(values, count, sizeof *values, compare);
    return values[count / 2];
}

static double crossing = 1e9; /* the least time of a refused call so far */

/* Times refused calls once more. A turn belongs to each round of lists, since a slow moment of the machine outlasts many turns in a row. */
static void time_refused_calls(void) {
    suk_gateway none = SUK_NONE;
    suk_output output;
    uint32_t codes = 0;
    double start = now();
    for (int i = 0; i < REFUSED; i++) codes |= suk_tick(&none, (uint64_t)i, &output);
    double each = (now() - start) / REFUSED;
    EXPECT(codes, SUK_E_NO_END);
    crossing = each < crossing ? each : crossing;
}

/* ---- Lists beside single calls ---- */

static uint8_t packets[PACKETS * LONGEST], sealed[PACKETS * SUK_ROOM(LONGEST)];
static suk_place places[PACKETS], sealed_places[PACKETS];
static suk_output outputs[PACKETS];

enum { OUT_SINGLE, OUT_LIST, IN_SINGLE, IN_LIST, TASKS };
static double times[TASKS];
static unsigned long taken[TASKS]; /* allocations */

static void lay_packets(size_t length) {
    for (size_t i = 0; i < PACKETS; i++) {
        uint8_t *packet = packets + i * length;
        memset(packet, (int)i, length);
        packet_to(2, 0, packet);
        packet[2] = (uint8_t)(length >> 8);
        packet[3] = (uint8_t)length;
        places[i] = (suk_place){i * length, length};
    }
}

static double begin(int task) {
    taken[task] -= allocations;
    return now();
}

static void end(int task, double start) {
    times[task] = now() - start;
    taken[task] += allocations;
}

static void seal_singly(host *a) {
    size_t used = 0;
    double start = begin(OUT_SINGLE);
    for (size_t i = 0; i < PACKETS; i++) {
        suk_outward(&a->gateway, packets + places[i].offset, places[i].length, sealed + used, sizeof sealed - used, &outputs[i]);
        sealed_places[i] = (suk_place){used, outputs[i].length};
        used += outputs[i].length;
    }
    end(OUT_SINGLE, start);
    EXPECT(outputs[PACKETS - 1].kind, SUK_SEALED);
}

static void seal_list(host *a) {
    double start = begin(OUT_LIST);
    suk_outward_all(&a->gateway, packets, sizeof packets, places, PACKETS, sealed, sizeof sealed, outputs, PACKETS);
    end(OUT_LIST, start);
    EXPECT(outputs[PACKETS - 1].kind, SUK_SEALED);
    for (size_t i = 0; i < PACKETS; i++) sealed_places[i] = (suk_place){outputs[i].offset, outputs[i].length};
}

static void open_singly(host *b) {
    double start = begin(IN_SINGLE);
    for (size_t i = 0; i < PACKETS; i++) suk_esp(&b->gateway, sealed + sealed_places[i].offset, sealed_places[i].length, &outputs[i]);
    end(IN_SINGLE, start);
    EXPECT(outputs[PACKETS - 1].kind, SUK_UP);
}

static void open_list(host *b) {
    double start = begin(IN_LIST);
    suk_esp_all(&b->gateway, sealed, sizeof sealed, sealed_places, PACKETS, outputs, PACKETS);
    end(IN_LIST, start);
    EXPECT(outputs[PACKETS - 1].kind, SUK_UP);
}

/* Prints a row, and tells whether lists aren't slower. */
static bool lists_gain(host *a, host *b, size_t length, size_t rounds) {
    static double out[MOST_ROUNDS], in[MOST_ROUNDS];
    double least_out = 1e12, least_in = 1e12;
    lay_packets(length);
    memset(taken, 0, sizeof taken);
    for (size_t round = 0; round < rounds; round++) {
        time_refused_calls();
        seal_singly(a);
        open_singly(b);
        for (int list = 0; list < IN_A_ROW; list++) {
            seal_list(a);
            open_list(b);
        }
        out[round] = times[OUT_SINGLE] / times[OUT_LIST];
        in[round] = times[IN_SINGLE] / times[IN_LIST];
        least_out = times[OUT_LIST] < least_out ? times[OUT_LIST] : least_out;
        least_in = times[IN_LIST] < least_in ? times[IN_LIST] : least_in;
    }
    double gained_out = median(out, rounds), gained_in = median(in, rounds), all = (double)rounds * PACKETS;
    printf("| %zu | %.2f | %.2f | %.0f | %.0f | %.2f | %.2f | %.2f | %.2f |\n", length, gained_out, gained_in, least_out / PACKETS,
           least_in / PACKETS, (double)taken[OUT_SINGLE] / all, (double)taken[OUT_LIST] / all / IN_A_ROW, (double)taken[IN_SINGLE] / all,
           (double)taken[IN_LIST] / all / IN_A_ROW);
    EXPECT(taken[IN_SINGLE], 0);
    EXPECT(taken[IN_LIST], 0);
    return gained_out > 1 && gained_in > 1;
}

int main(int count, char **words) {
    static const size_t lengths[3] = {64, 576, 1400};
    size_t rounds = count > 1 ? strtoul(words[1], NULL, 10) : 200;
    double limit = count > 2 ? strtod(words[2], NULL) : 10;
    rounds = rounds < 1 ? 1 : rounds > MOST_ROUNDS ? MOST_ROUNDS : rounds;
    host a, b;
    bring_up(&a, &b);
    puts("| Octets | Gain of a list: outward | that came | Its ns a packet: outward | that came | Allocations a packet: outward | in a list "
         "| that came | in a list |");
    puts("|---|---|---|---|---|---|---|---|---|");
    for (size_t i = 0; i < 3; i++) EXPECT(lists_gain(&a, &b, lengths[i], rounds), true);
    printf("a refused call takes %.1f ns\n", crossing);
    EXPECT(crossing < limit, true);
    close_both(&a, &b);
    printf("%u passed, %u failed\n", passed, failed);
    return failed == 0 ? 0 : 1;
}
