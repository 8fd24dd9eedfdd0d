/* Which fault a wrong library has. */
#ifndef FAULTS_H
#define FAULTS_H

#include "backoff.h"
#include <stdlib.h>
#include <string.h>

static inline bool has(const char *fault) {
    const char *chosen = getenv("FAULT");
    return chosen != NULL && strcmp(chosen, fault) == 0;
}

#endif
