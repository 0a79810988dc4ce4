/* Comments in the record, for who reads it. They are no calls. */
#ifndef MOUNT_NOTES_H
#define MOUNT_NOTES_H

#include "nodes.h"

/* Notes which file a descriptor of the layer is: `# descriptor N is PATH`. */
void note_descriptor(const struct node *node, uint64_t descriptor);
/* Notes a call that was made to fail: `# failed CALL of PATH: ERROR`. */
void note_failing(const char *call, const char *path, const char *error);

#endif
