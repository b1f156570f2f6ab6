/* host/example.c and the digest on a Cortex-M0 with no system: what they need of a C library, printing through the emulator (semihosting), and
 * the stack that they move, painted first. */
#include "digest.h"
#include <stdarg.h>
#include <stddef.h>
#include <stdint.h>
#include <stdio.h>

int example_main(void);
extern uint32_t bss_begin[], bss_end[], stack_top[];

/* ---- The C library's part, and the Arm ABI's names for it. */

void *memcpy(void *to, const void *from, size_t length) {
    for (size_t i = 0; i < length; i++) ((volatile uint8_t *)to)[i] = ((const uint8_t *)from)[i];
    return to;
}
void *memset(void *to, int value, size_t length) {
    for (size_t i = 0; i < length; i++) ((volatile uint8_t *)to)[i] = (uint8_t)value;
    return to;
}
void __aeabi_memcpy(void *to, const void *from, size_t length) { memcpy(to, from, length); }
void __aeabi_memcpy4(void *to, const void *from, size_t length) { memcpy(to, from, length); }
void __aeabi_memset(void *to, size_t length, int value) { memset(to, value, length); }
void __aeabi_memset4(void *to, size_t length, int value) { memset(to, value, length); }
void __aeabi_memclr(void *to, size_t length) { memset(to, 0, length); }
void __aeabi_memclr4(void *to, size_t length) { memset(to, 0, length); }

/* ---- Printing: the emulator takes a character at a time. %02x, %08x, %u and %s. */

enum { WRITE_CHARACTER = 3, EXIT = 0x18, STOPPED = 0x20026, FAULT = 0x20023 };
static void ask(int what, const void *with) {
    register int r0 __asm__("r0") = what;
    register const void *r1 __asm__("r1") = with;
    __asm__ volatile("bkpt 0xab" : "+r"(r0) : "r"(r1) : "memory");
}
static void put(char c) { ask(WRITE_CHARACTER, &c); }
static void hex(uint32_t n, int digits) {
    while (digits--) put("0123456789abcdef"[n >> 4 * digits & 15]);
}
static void decimal(uint32_t n) {
    static const uint32_t tens[] = { 1000000000, 100000000, 10000000, 1000000, 100000, 10000, 1000, 100, 10, 1 };
    int begun = 0;
    for (int k = 0; k < 10; k++) {
        char c = '0';
        for (; n >= tens[k]; n -= tens[k]) c++;
        begun |= c != '0' || k == 9;
        if (begun) put(c);
    }
}
static int print(const char *f, va_list a) {
    for (; *f; f++) {
        if (*f != '%') put(*f);
        else if (*++f == '0') hex(va_arg(a, uint32_t), f[1] - '0'), f += 2;
        else if (*f == 'u') decimal(va_arg(a, uint32_t));
        else for (const char *s = va_arg(a, const char *); *s; s++) put(*s);
    }
    return 0;
}
int printf(const char *format, ...) {
    va_list a;
    va_start(a, format);
    int n = print(format, a);
    va_end(a);
    return n;
}
int fprintf(FILE *to, const char *format, ...) {
    va_list a;
    (void)to;
    va_start(a, format);
    int n = print(format, a);
    va_end(a);
    return n;
}

/* ---- The stack: from the end of the data to below this frame is painted, and what has changed is what was moved. */

enum { PAINT = 0x5AA5C33C, KEPT = 64 };
static uint32_t *lowest(void) { return bss_end; }
static void paint(void) {
    uint32_t *here = (uint32_t *)__builtin_frame_address(0) - KEPT;
    for (volatile uint32_t *p = lowest(); p < here; p++) *p = PAINT;
}
static void moved(const char *what) {
    uint32_t *p = lowest();
    while (p < stack_top && *p == PAINT) p++;
    printf("stack %s %u\n", what, (uint32_t)((uint8_t *)stack_top - (uint8_t *)p));
}

int main(void) {
    paint();
    int status = example_main();
    moved("example");
    paint();
    struct digest d = digest(SEED, ROUNDS);
    moved("digest");
    printf("digest %08x%08x planned %u decoded %u passed %u metered %u piped %u listed %u chosen %u\n", (uint32_t)(d.hash >> 32),
           (uint32_t)d.hash, d.planned, d.decoded, d.passed, d.metered, d.piped, d.listed, d.chosen);
    return status;
}

static void reset(void) {
    for (uint32_t *p = bss_begin; p < bss_end; p++) *p = 0;
    int status = main();
    ask(EXIT, (const void *)(status ? FAULT : STOPPED));
    for (;;) {}
}
static void fault(void) {
    printf("a fault\n");
    ask(EXIT, (const void *)FAULT);
    for (;;) {}
}
__attribute__((section(".vectors"), used)) static const void *const vectors[] = { stack_top, (const void *)reset, (const void *)fault,
                                                                                  (const void *)fault };
