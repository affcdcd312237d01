/*
 * Computes the public value of a secret in the 2048-bit group (RFC 3526, section 3) with OpenSSL's constant-time power, as crates/tool_costs
 * does with the core: 2 to a secret of 32 octets 55. tools/beside_openssl.py builds it and compares.
 *
 *     public COUNT
 *
 * It prints the nanoseconds of the fastest of COUNT turns, and the last octet of the value.
 */
#include <openssl/bn.h>
#include <stdint.h>
#include <stdio.h>
#include <stdlib.h>
#include <string.h>
#include <time.h>

static uint64_t nanoseconds(void) {
    struct timespec now;
    clock_gettime(CLOCK_MONOTONIC, &now);
    return (uint64_t)now.tv_sec * 1000000000u + (uint64_t)now.tv_nsec;
}

int main(int count, char **words) {
    if (count != 2)
        return 2;
    uint8_t secret[32], octets[256];
    memset(secret, 0x55, sizeof secret);
    BN_CTX *context = BN_CTX_new();
    BIGNUM *prime = BN_get_rfc3526_prime_2048(NULL), *value = BN_new(), *base = BN_new();
    BIGNUM *exponent = BN_bin2bn(secret, sizeof secret, NULL);
    BN_MONT_CTX *prepared = BN_MONT_CTX_new();
    if (!context || !prime || !value || !base || !exponent || !prepared || !BN_set_word(base, 2) || !BN_MONT_CTX_set(prepared, prime, context))
        return 1;
    BN_set_flags(exponent, BN_FLG_CONSTTIME);
    uint64_t best = UINT64_MAX;
    for (long turns = strtol(words[1], NULL, 10); turns > 0; turns--) {
        uint64_t start = nanoseconds();
        if (!BN_mod_exp_mont_consttime(value, base, exponent, prime, context, prepared))
            return 1;
        uint64_t time = nanoseconds() - start;
        best = time < best ? time : best;
    }
    if (BN_bn2binpad(value, octets, sizeof octets) != sizeof octets)
        return 1;
    printf("%llu %u\n", (unsigned long long)best, octets[sizeof octets - 1]);
    return 0;
}
