/* Called by the proved code in place of malloc: c/Makefile redirects its calls. While a store is being opened, the memory of blocks
 * that were filled with zeros is returned to the system, so pages take memory only once they are used. */
#ifndef BESTORE_LIBRARY_HEAP_H
#define BESTORE_LIBRARY_HEAP_H

#include <stdbool.h>
#include <stddef.h>

/* Like malloc. A very large block, such as a store's pages, is put into huge pages if the kernel has them: then fewer reads have to
 * wait for the processor's address translation. */
void *bes_request_memory(size_t size);

/* Called before and after this thread opens or builds a store, with whether it did. In between, the last large block that the
 * thread requests must stay in use until `bes_end_opening`, if it did. With `are_kept`, each other large block must still be in use
 * when the thread requests the next one. No other thread may know these blocks. Their zeros then take no memory until they are
 * written. */
void bes_begin_opening(bool are_kept);
void bes_end_opening(bool is_open);

#endif
