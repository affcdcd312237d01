/* How the library gives memory back: overwritten, since keys and secrets may stand in it.
 *
 * tools/library.sh compiles this into the library, and redirects to it what the library's own code would have called as free and realloc.
 * The program around the library keeps its own. How long a block is malloc_usable_size tells: so octets count that lie behind the length
 * that was asked for, and that may have been in use before the block was shortened. */
#include <malloc.h>
#include <stdlib.h>
#include <string.h>
#include "sukperin.h"

#define HIDDEN __attribute__((visibility("hidden")))

HIDDEN void sukperin_wiped_free(void *block);
HIDDEN void *sukperin_wiped_realloc(void *block, size_t length);

/* The two calls as they were proved, which tools/library.sh named so. */
void sukperin_proved_end(suk_gateway *);
void sukperin_proved_end_association(suk_association *);

/* As free. No compiler may leave explicit_bzero out, though nobody reads the block again. */
void sukperin_wiped_free(void *block) {
    if (block == NULL)
        return;
    explicit_bzero(block, malloc_usable_size(block));
    free(block);
}

/* As realloc, which would leave the old copy of a block that moves behind. A block stays where it is if it loses at most half of its
 * octets, or if there is no memory to move it to: then what lies behind its new length is overwritten at once. */
void *sukperin_wiped_realloc(void *block, size_t length) {
    size_t held = block != NULL ? malloc_usable_size(block) : 0;
    void *moved = block == NULL || length > held || length < held / 2 ? malloc(length) : NULL;
    if (moved == NULL && block != NULL && length <= held) {
        explicit_bzero((unsigned char *)block + length, held - length);
        return block;
    }
    if (moved != NULL && block != NULL) {
        memcpy(moved, block, length < held ? length : held);
        sukperin_wiped_free(block);
    }
    return moved;
}

/* What calls before this one left on the stack: as far below as the deepest of them reaches (suk_esp_all, 62 thousand octets). */
static __attribute__((noinline)) void wipe_stack(void) {
    unsigned char left[1 << 16];
    explicit_bzero(left, sizeof left);
}

void suk_end(suk_gateway *gateway) {
    sukperin_proved_end(gateway);
    wipe_stack();
}

void suk_end_association(suk_association *end) {
    sukperin_proved_end_association(end);
    wipe_stack();
}
