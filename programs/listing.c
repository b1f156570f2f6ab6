/* A reader's listing: the write list of a request as a table, with the chip after each write. What it prints is compared with listing.out.
 * The request and the registers may be a stranger's: they go through the exported calls and nowhere else. */
#include "chip.h"
#include "registers.h"
#include "station_text.h"
#include "table.h"
#include "words.h"
#include <stdio.h>
#include <stdlib.h>
#include <string.h>

const char *program = "tools/listing";

static const char help[] =
    "tools/listing [OPTIONS] BYTES..\n"
    "\n"
    "Prints the write list of a request as a table, a line for each write: the\n"
    "register, its byte before and after, the fields that the write sets, and what is\n"
    "in use after it: old, new, same where the two are the same, torn where it is\n"
    "neither; waiting where new coefficients wait for the next Vsync. A line of its\n"
    "own, just before the last write, says where the host waits for that. Registers\n"
    "that are right already are left out; the last line says how many. BYTES is the\n"
    "request: a byte is exactly two hex digits, with or without blanks between.\n"
    "\n"
    "  --image FILE         the chip's registers as they stand, 256 bytes\n"
    "  --packet FILE        its packet buffer, 32 bytes\n"
    "  --coefficients FILE  its coefficient buffer, 24 bytes\n"
    "  --mark N             its waiting mark: 0 for none; 1 to 255: a change waits\n"
    "  --i2ctransfer BUS    no table: lines for a shell, which stops at the first\n"
    "                       that fails, for the chip on this bus (a number); for\n"
    "                       Vsync they sleep for a second, which is longer than a\n"
    "                       frame of any mode, and then see that the chip is still\n"
    "                       powered, for a hot plug has undone what was written.\n"
    "                       Only with --image\n"
    "  --chip ADDRESS       the chip's address for these lines, 0x39 (where it is not\n"
    "                       given) or 0x3d\n"
    "  --raw                no table: the pairs of address and value, two bytes each;\n"
    "                       the wait just before the last is yours\n"
    "\n"
    "What is not given is zeros. For a real chip give its registers (tools/image\n"
    "makes the file), for the list keeps their free bits and leaves out what is right\n"
    "in them. The status is 0 for a list, 1 for a request that is refused, 2 for a\n"
    "command that is not as above.\n"
    "\n"
    "  tools/listing " EXAMPLE "\n";

/* The length of a list, and what is not in it. */
static void print_length(const char *before, const uint8_t *pairs, uint32_t count) {
    printf("%s%u writes; registers that are right already and are left out: %u\n", before, (unsigned)count, left_out(pairs, count));
}

static void print_list(struct chip c, const uint8_t *pairs, uint32_t count) {
    struct chip end = c;
    chip_run(&end, pairs, count);
    struct beginning b = chip_begin(&c);
    struct sent s, new = chip_sent(&end);
    table_head("no");
    for (uint32_t w = 0; w < count; w++) {
        uint8_t address = pairs[2 * w], before = c.image[address];
        if (waits_before(w, count)) {
            chip_vsync(&c);
            chip_follow(&b, &c, 1);
            s = chip_sent(&c);
            table_vsync(&s, &b.old, &new);
        }
        chip_write(&c, pairs + 2 * w);
        chip_follow(&b, &c, 0);
        s = chip_sent(&c);
        table_row((unsigned)w + 1, address, before, c.image[address], &s, &b.old, &new);
    }
    print_length("", pairs, count);
}

/* Lines that a shell runs, in order, as far as the first that fails. After a hot plug 0x41[6] is 1 (docs/HOST.md, point 14). */
enum { CHIP_ON_THE_BUS = 0x39, OTHER_CHIP = 0x3D, BUSES = 9999 };
static void print_commands(const uint8_t *pairs, uint32_t count, long bus, long chip) {
    printf("#!/bin/sh\n");
    print_length("# ", pairs, count);
    printf("# For the registers as they were given (--image), and for no others.\n");
    printf("set -e\n");
    for (uint32_t w = 0; w < count; w++) {
        if (waits_before(w, count)) {
            printf("sleep 1 # wait for Vsync\n");
            printf("test $(($(i2ctransfer -y %ld w1@0x%02lx 0x41 r1) & 0x40)) = 0 # no hot plug\n", bus, (unsigned long)chip);
        }
        printf("i2ctransfer -y %ld w2@0x%02lx 0x%02x 0x%02x\n", bus, (unsigned long)chip, pairs[2 * w], pairs[2 * w + 1]);
    }
}

static void take_chip(const char *word, struct option *o) {
    long *chip = o->into;
    *chip = !strcmp(word, "0x39") ? CHIP_ON_THE_BUS : !strcmp(word, "0x3d") || !strcmp(word, "0x3D") ? OTHER_CHIP : 0;
    if (!*chip) misuse("%s is 0x39 or 0x3d", o->name);
}

int main(int count, char **words) {
    struct chip c = { { 0 }, { 0 }, { 0 }, { 0 } };
    long bus = 0, mark = 0, chip = CHIP_ON_THE_BUS;
    int raw = 0;
    struct option options[] = {
        { "--image", take_file, c.image, STATION_IMAGE, 0 },
        { "--packet", take_file, c.packet, STATION_PACKET, 0 },
        { "--coefficients", take_file, c.coefficients, STATION_COEFFICIENTS, 0 },
        { "--mark", take_number, &mark, UINT8_MAX, 0 },
        { "--i2ctransfer", take_number, &bus, BUSES, 0 },
        { "--chip", take_chip, &chip, 0, 0 },
        { "--raw", NULL, &raw, 0, 0 },
    };
    enum { BY_IMAGE, BY_PACKET, BY_COEFFICIENTS, BY_MARK, BY_BUS, BY_CHIP, OPTIONS = sizeof options / sizeof options[0] };
    size_t length;
    uint8_t *request = request_of_command(count, words, help, options, OPTIONS, &length), writes[STATION_WRITES];
    int to_shell = options[BY_BUS].given;
    c.mark[0] = (uint8_t)mark;
    if (raw && to_shell) misuse("--raw and --i2ctransfer exclude each other");
    if (to_shell && !options[BY_IMAGE].given) misuse("--i2ctransfer needs the chip's registers, --image: a list for others would leave out what is wrong");
    if (options[BY_CHIP].given && !to_shell) misuse("--chip goes with --i2ctransfer");
    struct station_count n = station_plan(request, length, c.image, STATION_IMAGE, writes, STATION_WRITES);
    free(request);
    if (n.refusal) {
        fprintf(raw || to_shell ? stderr : stdout, "refused %u: %s\n", (unsigned)n.refusal, station_text(n.refusal));
        return REFUSED;
    }
    if (raw) fwrite(writes, 2, n.count, stdout);
    else if (to_shell) print_commands(writes, n.count, bus, chip);
    else print_list(c, writes, n.count);
    return printed(ACCEPTED);
}
