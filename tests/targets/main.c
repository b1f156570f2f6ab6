/* The digest as a program: digest SEED ROUNDS prints it in one line. */
#include "digest.h"
#include <stdio.h>
#include <stdlib.h>

int main(int count, char **words) {
    if (count != 3) {
        fprintf(stderr, "usage: digest SEED ROUNDS\n");
        return 2;
    }
    struct digest d = digest((uint32_t)atol(words[1]), (uint32_t)atol(words[2]));
    printf("digest %08lx%08lx planned %lu decoded %lu passed %lu metered %lu piped %lu listed %lu chosen %lu\n", (unsigned long)(d.hash >> 32),
           (unsigned long)(d.hash & 0xffffffffu), (unsigned long)d.planned, (unsigned long)d.decoded, (unsigned long)d.passed,
           (unsigned long)d.metered, (unsigned long)d.piped, (unsigned long)d.listed, (unsigned long)d.chosen);
    return 0;
}
