#include "draw.h"
#include <stdio.h>
#include <string.h>

/* How a value of a lane looks: its word, its fill and the colour of the word. What is light or hatched stays so without colour. */
struct look { const char *word, *fill, *ink; };
static const struct look
    of_picture[] = { { "neither", "url(#dots)", "#000" }, { "muted", "#333", "#fff" }, { "open", "#fff", "#000" },
                     { "neither", "url(#dots)", "#000" }, [NOT_SENT] = { "mute written, not sent", "url(#unsent)", "#000" },
                     [SHOWN_WRONGLY] = { "OPEN", "url(#shown)", "#000" } },
    of_group[] = { [NEITHER] = { "TORN", "url(#torn)", "#000" }, [OLD] = { "old", "url(#old)", "#000" },
                   [NEW] = { "new", "#0072b2", "#fff" }, [BOTH] = { "same", "#e4e4e4", "#000" } },
    of_chain[] = { { "TORN", "url(#torn)", "#000" }, { "old", "url(#old)", "#000" }, { "link 1", "#0072b2", "#fff" },
                   { "link 2", "#f0e442", "#000" }, { "link 3", "#00664b", "#fff" }, { "link 4", "#9ad4f5", "#000" },
                   { "link 5", "#8c2d62", "#fff" }, { "link 6", "#e8e8e8", "#000" } },
    of_wait[] = { { "", "none", "#000" }, { "waiting", "#fff", "#000" } },
    of_hold[] = { { "", "none", "#000" }, { "up", "#5d3a9b", "#fff" } };

static const struct { const char *name; int height; const struct look *looks; uint8_t address, mask; } lanes[LANES] = {
    [PICTURE] = { "picture", 26, of_picture, 0, 0 },
    [LANE_AVI] = { "AVI in use", 26, of_group, 0, 0 },
    [LANE_AUDIO] = { "audio in use", 26, of_group, 0, 0 },
    [LANE_MATRIX] = { "matrix in use", 26, of_group, 0, 0 },
    [LANE_WAITING] = { "for Vsync", 15, of_wait, 0, 0 },
    [HOLD_MATRIX] = { "hold: matrix", 15, of_hold, 0x1A, 0x20 },
    [HOLD_AVI] = { "hold: AVI", 15, of_hold, 0x4A, 0x40 },
    [HOLD_AUDIO] = { "hold: audio", 15, of_hold, 0x4A, 0x20 },
};

static const struct look *look_of(const struct run *r, enum lane l, int value) {
    return r->chain && lanes[l].looks == of_group ? &of_chain[value] : &lanes[l].looks[value];
}

const char *lane_name(enum lane l) { return lanes[l].name; }
const char *word_of_lane(const struct run *r, enum lane l, int value) { return look_of(r, l, value)->word; }

/* ---- A run: a moment for the beginning, for each event, and for what stays. */

/* The groups at a moment: whose each is, from MIXED on; or its age. */
static void look_at_groups(struct run *r, const struct sent *s, int *value) {
    if (!r->chain) {
        for (int g = 0; g < GROUPS; g++) value[LANE_AVI + g] = age((enum group)g, s, &r->begun.old, &r->new);
        return;
    }
    struct point p = chain_point(r->chain, &r->chip);
    for (int g = 0; g < GROUPS; g++) value[LANE_AVI + g] = p.whose[g] - MIXED;
    if (*p.fault && !*r->fault) memcpy(r->fault, p.fault, sizeof r->fault);
}

enum { GC_ENABLE = 0x40, IS_SENT = 0x80 };

/* One more moment: the chip as it stands. */
static struct moment *look(struct run *r, int width) {
    struct moment *m = &r->moments[r->count++];
    struct sent s = chip_sent(&r->chip);
    memset(m, 0, sizeof *m);
    m->width = width;
    m->step = NO_STEP;
    m->value[PICTURE] = (int)(s.mute & 3);
    if (s.mute == STATION_MUTED && !(r->chip.image[GC_ENABLE] & IS_SENT)) m->value[PICTURE] = NOT_SENT;
    look_at_groups(r, &s, m->value);
    m->value[LANE_WAITING] = (int)s.waiting;
    for (int l = HOLD_MATRIX; l < LANES; l++) m->value[l] = (r->chip.image[lanes[l].address] & lanes[l].mask) != 0;
    return m;
}

void run_begin(struct run *r, const struct chip *c, const struct sent *new) {
    r->chip = *c;
    r->begun = chip_begin(c);
    r->new = *new;
    r->count = 0;
    r->cut = -1;
    look(r, REST);
}

void run_vsync(struct run *r, int width) {
    chip_vsync(&r->chip);
    chip_follow(&r->begun, &r->chip, 1);
    look(r, width)->is_vsync = 1;
}

struct moment *run_write(struct run *r, const uint8_t *pairs, uint32_t w, int width) {
    uint8_t address = pairs[2 * w], before = r->chip.image[address];
    chip_write(&r->chip, pairs + 2 * w);
    chip_follow(&r->begun, &r->chip, 0);
    struct moment *m = look(r, width);
    m->number = (int)w + 1;
    m->step = step_of(pairs, w);
    m->address = address;
    m->before = before;
    m->after = r->chip.image[address];
    return m;
}

/* The first events of a list's run; what is in use after the last of them stays for a while. */
void run_events(struct run *r, const uint8_t *pairs, const struct events *e, uint32_t events) {
    for (uint32_t k = 0; k < events; k++) {
        int width = k + 1 == events ? REST : 1;
        if (r->chain) chain_follow(r->chain, k);
        if (e->at[k].kind == WRITE) run_write(r, pairs, e->at[k].write, width);
        else run_vsync(r, width);
    }
}

/* The run is cut here, and the chip stays for a while as it is. */
void run_cut(struct run *r) {
    r->moments[r->count - 1].width = REST / 2;
    r->cut = r->count;
    look(r, REST / 2);
}

void run_stay(struct run *r, int width) { look(r, width); }


/* ---- The drawing. */

enum { LEFT = 118, WIDE = DRAWING_WIDE, RIGHT = 8, STEPS_TOP = 58, STEPS_HIGH = 40, GAP = 8, LETTER = 8, TICK = 34, CROSS_TOP = 30 };

static double unit(const struct run *r) {
    int units = 0;
    for (int m = 0; m < r->count; m++) units += r->moments[m].width;
    return (double)(WIDE - LEFT - RIGHT) / units;
}

/* The one after the last is where the last ends. */
double at_moment(const struct run *r, int moment) {
    int units = 0;
    for (int m = 0; m < moment; m++) units += r->moments[m].width;
    return LEFT + units * unit(r);
}

int drawing_high(void) {
    int bottom = STEPS_TOP + STEPS_HIGH + GAP;
    for (int l = 0; l < LANES; l++) bottom += lanes[l].height + GAP;
    return bottom + 4;
}

static int fits(const char *word, double width) { return (double)strlen(word) * LETTER <= width; }

/* A word on a hatch has a rim, and no box that would hide the hatch. */
static void draw_box(double x, double width, int y, int height, const struct look *k) {
    int plain = k->fill[0] == '#';
    if (!strcmp(k->fill, "none")) return;
    printf("<rect x='%.1f' y='%d' width='%.1f' height='%d' fill='%s' stroke='#000'/>", x, y, width, height, k->fill);
    if (fits(k->word, width - (plain ? 0 : 2 * LETTER)))
        printf("<text x='%.1f' y='%d' fill='%s' class='in%s'>%s</text>", x + width / 2, y + height / 2 + 4, k->ink, plain ? "" : " rim", k->word);
    printf("\n");
}

/* A lane: a box for each stretch of moments that have the same value. */
static void draw_lane(const struct run *r, enum lane l, int y) {
    printf("<text x='%d' y='%d' class='lane'>%s</text><path d='M%d %dH%d' stroke='#aaa'/>\n", LEFT - 8, y + lanes[l].height / 2 + 4,
           lanes[l].name, LEFT, y + lanes[l].height / 2, WIDE - RIGHT);
    for (int m = 0; m < r->count; ) {
        int end = m + 1, value = r->moments[m].value[l];
        while (end < r->count && end != r->cut && r->moments[end].value[l] == value) end++;
        draw_box(at_moment(r, m), at_moment(r, end) - at_moment(r, m), y, lanes[l].height, look_of(r, l, value));
        m = end;
    }
}

/* A Vsync: its word, where there is room, among the steps, and a line behind the lanes. */
static void draw_vsyncs(const struct run *r, int bottom) {
    for (int m = 0; m < r->count; m++) {
        double x = at_moment(r, m) + unit(r) / 2;
        if (!r->moments[m].is_vsync) continue;
        printf("<path d='M%.1f %dV%d' stroke='#000' stroke-width='2' stroke-dasharray='2 2'/>", x, STEPS_TOP + STEPS_HIGH, bottom);
        if (unit(r) > LETTER)
            printf("<text transform='translate(%.1f %d) rotate(-90)' class='up'>Vsync</text>", x + 3.5, STEPS_TOP + STEPS_HIGH - 4);
        printf("\n");
    }
}

/* A bad pair: a column through the lanes, and a cross above each stretch of them, or each where there is room. */
static void draw_bad(const struct run *r, int bottom) {
    double last = -TICK;
    for (int m = 0; m < r->count; m++) {
        double x = at_moment(r, m), middle = x + unit(r) / 2;
        if (!r->moments[m].is_bad) continue;
        printf("<rect x='%.1f' y='%d' width='%.1f' height='%d' class='bad'/>", x, CROSS_TOP + 4, unit(r), bottom - CROSS_TOP - 4);
        if (middle - last >= 11 || !r->moments[m - 1].is_bad) {
            printf("<text x='%.1f' y='%d' class='cross'>&#10007;</text>", middle, CROSS_TOP);
            last = middle;
        }
        printf("\n");
    }
}

/* The steps, with a tick for each write that says the write where one points at it. */
static void draw_steps(const struct run *r) {
    int middle = STEPS_TOP + STEPS_HIGH / 2 + 4;
    double last_tick = -TICK, end_tick = WIDE;
    printf("<text x='%d' y='%d' class='lane'>step</text>\n", LEFT - 8, middle);
    printf("<text x='%d' y='%d' class='lane'>%s</text>\n", LEFT - 8, STEPS_TOP - 8, r->from_0 ? "pair at" : "write");
    for (int m = 0; m < r->count; ) {
        int end = m + 1, step = r->moments[m].step;
        while (end < r->count && r->moments[end].step == step && end != r->cut) end++;
        double x = at_moment(r, m), last = at_moment(r, end - 1) + unit(r), width = last - x;
        if (step != NO_STEP) {
            printf("<rect x='%.1f' y='%d' width='%.1f' height='%d' fill='%s' stroke='#000'/>\n", x, STEPS_TOP, width, STEPS_HIGH,
                   step % 2 ? "#fff" : "#ddd");
            for (int w = m; w < end; w++) {
                const struct moment *n = &r->moments[w];
                printf("<rect x='%.1f' y='%d' width='%.1f' height='%d' fill='%s' fill-opacity='.25'>", at_moment(r, w), STEPS_TOP + STEPS_HIGH - 7,
                       unit(r), 7, n->number % 2 ? "#000" : "#fff");
                printf("<title>%s %d (%s): 0x%02X %s, %02X to %02X</title></rect>\n", r->from_0 ? "pair at" : "write", n->number - r->from_0,
                       step_words[step], n->address, name_of_register(n->address), n->before, n->after);
            }
            const char *word = step_words[step];
            if (fits(word, width)) printf("<text x='%.1f' y='%d' class='in'>%s</text>\n", x + width / 2, middle - 4, word);
            else if (width >= LETTER) printf("<text transform='translate(%.1f %d) rotate(-90)' class='up'>%s</text>\n", x + width / 2 + 3.5,
                                             STEPS_TOP + STEPS_HIGH - 9, word);
        }
        m = end;
    }
    /* Numbers: the first, the last before a cut and the last of all, and between them as many tens as have room. */
    for (int m = 0; m < r->count; m++) {
        const struct moment *n = &r->moments[m];
        double x = at_moment(r, m) + unit(r) / 2;
        int is_last = m + 1 == r->count || m + 1 == r->cut, number = n->number - r->from_0, next = m + 1;
        if (!n->number) continue;
        for (end_tick = WIDE; next < r->count; next++)
            if (r->moments[next].number && (next + 1 == r->count || next + 1 == r->cut)) {
                end_tick = at_moment(r, next) + unit(r) / 2;
                break;
            }
        if (!is_last && n->number != 1 && (number % 10 || x - last_tick < TICK || end_tick - x < TICK)) continue;
        if (is_last && x - last_tick < TICK / 2) continue;
        printf("<text x='%.1f' y='%d' class='in'>%d</text>\n", x, STEPS_TOP - 8, number);
        last_tick = x;
    }
}

void say_moment(const struct run *r, int moment) {
    const struct moment *m = &r->moments[moment];
    for (int l = PICTURE; l <= LANE_MATRIX; l++)
        printf("%s%s <b>%s</b>", l == PICTURE ? "" : l == LANE_MATRIX ? " and " : ", ", lanes[l].name,
               look_of(r, (enum lane)l, m->value[l])->word);
    printf("%s.", m->value[LANE_WAITING] ? ", a new one <b>waiting</b> for Vsync" : "");
}

static int is_muted(int picture) { return picture == STATION_MUTED || picture == NOT_SENT; }

struct tally tally_of(const struct run *r) {
    struct tally t = { 0, 0, 0 };
    int first = 1, last = r->count - 1;
    while (first < r->count && !r->moments[first].number) first++;
    while (last > 0 && r->moments[last].is_vsync) last--;
    for (int m = 0; m < r->count; m++) {
        const int *value = r->moments[m].value;
        if (m > 0 && !r->moments[m].number && !r->moments[m].is_vsync) continue;
        t.all++;
        t.torn += value[LANE_AVI] == NEITHER || value[LANE_AUDIO] == NEITHER || value[LANE_MATRIX] == NEITHER;
        t.shown += m >= first && m < last && !is_muted(value[PICTURE]);
    }
    return t;
}

void draw_lanes(const struct run *r, const char *label, const char *of_cut) {
    int y = STEPS_TOP + STEPS_HIGH + GAP, bottom = drawing_high() - 4;
    printf("<div class='wide'><svg viewBox='0 0 %d %d' role='img' aria-label='%s'>\n", WIDE, bottom + 4, label);
    draw_steps(r);
    draw_vsyncs(r, bottom);
    for (int l = 0; l < LANES; l++) {
        draw_lane(r, (enum lane)l, y);
        y += lanes[l].height + GAP;
    }
    draw_bad(r, bottom);
    if (r->cut > 0) {
        double x = at_moment(r, r->cut);
        printf("<path d='M%.1f 17V%d' stroke='#fff' stroke-width='8'/>", x, bottom);
        printf("<path d='M%.1f 17V%d' stroke='#000' stroke-width='3' stroke-dasharray='9 5'/>", x, bottom);
        printf("<text x='%.1f' y='13' class='cut'>%s</text>\n", x, of_cut);
    }
    printf("</svg></div>\n");
}

void print_head(const char *title, const char *more_style) {
    printf("<!DOCTYPE html>\n<html lang='en'><head><meta charset='utf-8'><meta name='viewport' content='width=device-width, initial-scale=1'>\n"
           "<title>%s</title>\n<style>\n"
           "body { font: 15px/1.45 sans-serif; color: #000; background: #fff; max-width: 1160px; margin: 18px auto; padding: 0 16px }\n"
           "h1 { font-size: 22px; margin: 0 0 6px } h2 { font-size: 17px; margin: 26px 0 4px } p { margin: 4px 0 }\n"
           "svg { width: 100%%; height: auto; display: block } svg text { font: 13px sans-serif }\n"
           ".wide { overflow-x: auto } .wide svg { min-width: 860px }\n"
           ".in { text-anchor: middle } .lane { text-anchor: end } svg .up { font-size: 11px }\n"
           ".rim { paint-order: stroke; stroke: #fff; stroke-width: 5px; stroke-linejoin: round; font-weight: bold }\n"
           "svg .cut { text-anchor: middle; font-weight: bold }\n"
           ".bad { fill: #b00020; fill-opacity: .13 } svg .cross { text-anchor: middle; fill: #b00020; font-weight: bold }\n"
           "table { border-collapse: collapse; font-size: 13px } td, th { border: 1px solid #999; padding: 1px 6px; text-align: left }\n"
           "code { font-size: 14px; overflow-wrap: anywhere }\n"
           "@media print { body { margin: 0; max-width: none } .wide { overflow: visible } .wide svg { min-width: 0 } h2 { break-after: avoid }\n"
           "  tr, svg { break-inside: avoid } * { print-color-adjust: exact; -webkit-print-color-adjust: exact } }\n"
           "%s</style></head><body>\n"
           "<svg width='0' height='0' style='position:absolute;width:0;height:0' aria-hidden='true'><defs>\n"
           "<pattern id='old' width='8' height='8' patternUnits='userSpaceOnUse'><rect width='8' height='8' fill='#fff1d0'/>"
           "<path d='M-2 10L10 -2M-2 2L2 -2M6 10L10 6' stroke='#b36b00' stroke-width='1.6'/></pattern>\n"
           "<pattern id='torn' width='10' height='10' patternUnits='userSpaceOnUse'><rect width='10' height='10' fill='#d55e00'/>"
           "<path d='M0 0L10 10M10 0L0 10' stroke='#000' stroke-width='2.6'/></pattern>\n"
           "<pattern id='shown' width='10' height='10' patternUnits='userSpaceOnUse'><rect width='10' height='10' fill='#fff'/>"
           "<path d='M0 0L10 10M10 0L0 10' stroke='#b00020' stroke-width='1.6'/></pattern>\n"
           "<pattern id='unsent' width='8' height='8' patternUnits='userSpaceOnUse'><rect width='8' height='8' fill='#fff'/>"
           "<path d='M0 0V8' stroke='#333' stroke-width='5'/></pattern>\n"
           "<pattern id='dots' width='6' height='6' patternUnits='userSpaceOnUse'><rect width='6' height='6' fill='#fff'/>"
           "<circle cx='3' cy='3' r='1.2' fill='#000'/></pattern>\n"
           "</defs></svg>\n", title, more_style);
}

/* The looks and what they mean. */
struct meaning { const struct look *look; const char *says; };
static const struct meaning
    ages[] = { { &of_group[OLD], "as before" }, { &of_group[NEW], "as asked" }, { &of_group[BOTH], "before is as asked" },
               { &of_group[NEITHER], "a mix" }, { &of_hold[1], "held: its copy is in use" }, { &of_wait[1], "new, for Vsync" } },
    pictures[] = { { &of_picture[STATION_OPEN], "shown" }, { &of_picture[STATION_MUTED], "nothing shown" },
                   { &of_picture[0], "0x4B[7:6] is 00 or 11" }, { &of_picture[NOT_SENT], "0x40[7] is 0: no screen is told" },
                   { &of_picture[SHOWN_WRONGLY], "and must be muted" } };
enum { AGES = sizeof ages / sizeof ages[0], PICTURES = sizeof pictures / sizeof pictures[0] };

/* Each with its box, in one line that breaks where the page ends. */
static void print_meanings(const struct meaning *looks, int number) {
    for (int k = 0; k < number; k++) {
        int wide = (int)strlen(looks[k].look->word) * LETTER + 24;
        printf("<span><svg width='%d' height='24' style='width:%dpx;height:24px' aria-hidden='true'>", wide + 2, wide + 2);
        draw_box(1, wide, 1, 22, looks[k].look);
        printf("</svg> %s</span>\n", looks[k].says);
    }
}

static const char key_style[] = "<style>.key { display: flex; flex-wrap: wrap; gap: 4px 18px; margin: 6px 0; font-size: 13px }\n"
    ".key span { display: flex; align-items: center; gap: 6px } .key svg { display: inline-block }</style>\n";

/* What is no box. */
static void print_signs(int of_lists) {
    printf("<span>step fixed: bytes of the guide's Table 14</span>\n<span>step others: every other register</span>\n<span>dotted line: Vsync</span>\n"
           "<span>dashed line: the host dies</span>\n");
    if (of_lists) printf("<span>&#10007; and a red column: a bad pair</span>\n");
}

void draw_key(int of_lists) {
    printf("%s<div class='key' role='img' aria-label='the key'>\n", key_style);
    print_meanings(ages, AGES);
    print_meanings(pictures, PICTURES - (of_lists ? 0 : 1));
    print_signs(of_lists);
    printf("</div>\n");
}

void draw_key_of_chain(uint32_t links) {
    struct meaning owners[2 + LINKS] = { { &of_chain[0], "a mix" }, { &of_chain[1], "as at the beginning" } };
    for (uint32_t k = 1; k <= links; k++) owners[1 + k] = (struct meaning){ &of_chain[1 + k], "as it asked" };
    printf("%s<div class='key' role='img' aria-label='the key'>\n", key_style);
    print_meanings(owners, 2 + (int)links);
    print_meanings(ages + 4, AGES - 4);
    print_meanings(pictures, PICTURES - 1);
    print_signs(0);
    printf("</div>\n");
}
