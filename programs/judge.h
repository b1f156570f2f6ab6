/* What is wrong with a vendor's list, pair by pair and in words (document 02, request 03). The verdict is the library's, station_vet; this
 * finds the reasons, and comes to a verdict of its own, which must be the same. */
#ifndef JUDGE_H
#define JUDGE_H

#include "chip.h"

/* The rules that a pair can break: of the pair itself, and of the cut after it where another pair follows. Just before the last pair comes
 * the list's one Vsync; the last rule is of the cut between the two, and the pair before the Vsync breaks it. */
enum fault { NO_GROUP, NOT_MANDATED, FREE_MOVED, TWO_HOLDS, NOT_MUTED, TORN_AVI, TORN_AUDIO, TORN_MATRIX, TORN_AT_VSYNC, FAULTS };

/* A pair: whether each rule is broken; the byte before it, and after it, or its own value where the machine does not take it; the bits of
 * the second and the third rule; what is in use after it, and what would be if a Vsync came next, with what is old then as demand 3 has it.
 * `early`: that is torn, at a place where the list has no Vsync. No rule is broken, but a real chip has one whenever it comes. */
struct judged { uint8_t broken[FAULTS], before, after, mandated, moved, early; struct sent now, then, old_then; };

/* A list: how many pairs there are, and how many come before one that would leave two packet holds up (all, where none would); the chip at
 * that end; what was in use at the beginning, and is after the Vsync and at the end. */
struct judgement {
    struct station_verdict verdict;
    uint32_t count, end;
    struct chip last;
    struct sent old, turned_over, new;
    struct judged pairs[STATION_LIST / 2];
};
void judge(const struct chip *c, const uint8_t *list, size_t length, struct judgement *j);
int is_bad(const struct judged *p);

/* Does a register hold a named bit, belong to the AVI or the audio packet or stand in Table 14? */
int is_of_a_group(uint8_t address);

/* The library's verdict. */
struct station_verdict vet(const struct chip *c, const uint8_t *list, size_t length);

/* The rules that a pair breaks, in short words, with its register's bits. */
enum { TEXT_OF_FAULTS = 400 };
void text_of_faults(uint8_t address, const struct judged *p, char text[TEXT_OF_FAULTS]);

/* A rule in short words, and in whole ones. */
extern const char *const fault_words[FAULTS], *const fault_says[FAULTS];

#endif
