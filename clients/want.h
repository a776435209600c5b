/* What the clients compare by: a value that is not the wanted one ends the client. */
#ifndef WANT_H
#define WANT_H

#include <stddef.h>
#include <stdio.h>
#include <stdlib.h>

#define WANT(got, wanted) want(__LINE__, (long)(got), (long)(wanted))

static size_t row; /* of the table, or the refused request, that was looked at last */

static inline void want(int line, long got, long wanted) {
    if (got != wanted) {
        fprintf(stderr, "line %d, row %zu: %ld, wanted %ld\n", line, row, got, wanted);
        exit(1);
    }
}

#endif
