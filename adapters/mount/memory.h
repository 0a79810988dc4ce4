/* How much memory there is. */
#ifndef MOUNT_MEMORY_H
#define MOUNT_MEMORY_H

#include <stdint.h>

/* Returns the bytes of memory of this machine, or of its control group if that has fewer. 0 if neither is known. */
uint64_t memory_of_machine(void);
/* Returns how many bytes files may have without --size: 1 GB, or a quarter of the memory if that is less. */
uint64_t memory_for_files(void);

#endif
