/* For the C tests beside this: a check that fails says where, and the program then ends with 1. */
#ifndef CHECK_H
#define CHECK_H

#include <stdio.h>

static int wrong;

#define CHECK(test)                                                                                                                        \
    do {                                                                                                                                   \
        if (!(test)) {                                                                                                                     \
            printf("%s:%d: not so: %s\n", __FILE__, __LINE__, #test);                                                                      \
            wrong = 1;                                                                                                                     \
        }                                                                                                                                  \
    } while (0)

#endif
