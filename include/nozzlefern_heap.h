/* What the library's heap counts. Bytes are those of blocks, without the 16 that stand before each. */
#ifndef NZF_HEAP_H
#define NZF_HEAP_H

#include <stddef.h>

#ifdef __cplusplus
extern "C" {
#endif

/* How many bytes of heap all nodes hold now. */
size_t nzf_heap_used(void);

/* How many they held at most since the program began. */
size_t nzf_heap_most(void);

#ifdef __cplusplus
}
#endif

#endif
