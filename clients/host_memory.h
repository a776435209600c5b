/* The memory of a host, for the clients: it counts the blocks that the library has, and refuses a
 * request where a client says so. The linker puts the three functions at its end in the place of
 * `malloc`, `realloc` and `free` (--wrap). One thread of the system alone uses it: the calls that
 * the other threads of `live.c` make ask for nothing, and give nothing back. */
#ifndef HOST_MEMORY_H
#define HOST_MEMORY_H

#include <stdbool.h>
#include <stddef.h>

static long blocks;             /* that were granted, and not given back */
static long still_granted = -1; /* requests before the one that is refused; below 0 none is */

/* Refuses one request: the one after so many. */
static inline void refuse_after(long requests) {
    still_granted = requests;
}

/* Whether the request that was to be refused has come. It is refused no more. */
static inline bool has_refused(void) {
    bool came = still_granted < 0;
    still_granted = -1;
    return came;
}

static inline bool is_to_refuse(void) {
    return still_granted >= 0 && still_granted-- == 0;
}

#ifdef __cplusplus
extern "C" {
#endif

void *__real_malloc(size_t size);
void *__real_realloc(void *block, size_t size);
void __real_free(void *block);
void *__wrap_malloc(size_t size);
void *__wrap_realloc(void *block, size_t size);
void __wrap_free(void *block);

void *__wrap_malloc(size_t size) {
    void *block = is_to_refuse() ? NULL : __real_malloc(size);
    if (block != NULL) blocks++;
    return block;
}

/* The library asks for another size of a block that it has, so their number stays. */
void *__wrap_realloc(void *block, size_t size) {
    return is_to_refuse() ? NULL : __real_realloc(block, size);
}

void __wrap_free(void *block) {
    if (block != NULL) blocks--;
    __real_free(block);
}

#ifdef __cplusplus
}
#endif

#endif
