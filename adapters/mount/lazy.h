/*
 * The commands of LazyFS that let it fail at a call, as rules of failing.h. Of each field, `::NAME=VALUE`, the first one counts:
 *
 *   crash::timing=before|after::op=OP::from_rgx=REGEX        the power goes off at the next OP of such a path: open, create, write or fsync
 *   torn-op::file=PATH::occurrence=N::parts=P::persist=LIST  it goes off in the N-th write (1) of PATH. Of P equal parts a crash keeps
 *                                                            those of the list, as 1,3. `parts_bytes=LIST` gives their sizes instead
 */
#ifndef MOUNT_LAZY_H
#define MOUNT_LAZY_H

#include <stdbool.h>

/* Whether a command is one of these. */
bool is_lazy_fault(const char *command);
/* Makes it. Returns 0, EINVAL, or ENOBUFS if there are too many rules. */
int lazy_fault(const char *command);

#endif
