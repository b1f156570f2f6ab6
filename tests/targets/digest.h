/* The digest of a library, and how often each kind of call was accepted. */
#ifndef DIGEST_H
#define DIGEST_H

#include <stdint.h>

struct digest { uint64_t hash; uint32_t planned, decoded, passed, metered, piped, listed, chosen; };
struct digest digest(uint32_t seed, uint32_t rounds);

#endif
