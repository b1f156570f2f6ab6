/* SHA-256 (FIPS 180-4): the name of a file by its bytes. */
#ifndef SHA256_H
#define SHA256_H

#include <stddef.h>
#include <stdint.h>

enum { SHA256 = 32, TEXT_OF_SHA256 = 2 * SHA256 + 1 };
void sha256(const uint8_t *bytes, size_t length, uint8_t sum[SHA256]);
const char *text_of_sha256(const uint8_t sum[SHA256], char text[TEXT_OF_SHA256]);

#endif
