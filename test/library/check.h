/* What the tests in C share: each expectation that fails is printed with its line, in any thread. They compile as C99 and as C++. */
#ifndef CHECK_H
#define CHECK_H

#include <stdio.h>
#include <stdlib.h>

static int expected, failed;

static inline void count_one(int *number) { __atomic_add_fetch(number, 1, __ATOMIC_RELAXED); }

#define EXPECT(condition) \
    do { \
        count_one(&expected); \
        if (!(condition)) { \
            count_one(&failed); \
            printf("%s:%d: %s\n", __FILE__, __LINE__, #condition); \
        } \
    } while (0)

/* The status of a call is this one. */
#define STATUS(wanted, call) \
    do { \
        int32_t status_of_call = (call); \
        count_one(&expected); \
        if (status_of_call != (wanted)) { \
            count_one(&failed); \
            printf("%s:%d: %s is %s and not %s\n", __FILE__, __LINE__, #call, udfburn_error_name(status_of_call), #wanted); \
        } \
    } while (0)

static inline int finish(const char *name) {
    printf("%s: %d expected, %d failed\n", name, expected, failed);
    return failed ? EXIT_FAILURE : EXIT_SUCCESS;
}

#endif
