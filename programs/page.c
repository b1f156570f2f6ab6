/* The page of a vendor's list, to be filed, mailed and printed: what review.h holds, drawn. It judges nothing. It is whole without a script,
 * and has nothing closed and no file beside it. */
#include "draw.h"
#include "review.h"
#include "table.h"
#include <stdarg.h>
#include <stdio.h>
#include <stdlib.h>
#include <string.h>

static const char style[] =
    ".banner { border: 3px solid; border-left-width: 16px; padding: 10px 16px; margin: 10px 0; font-size: 17px; display: flex; gap: 16px;\n"
    "  align-items: center } .banner b { font-size: 25px; display: block } .sign { font-size: 44px; line-height: 1 }\n"
    ".yes { border-color: #00664b; background: #e6f5ef } .no { border-color: #b00020; background: #fdecee } .un { border-color: #555;\n"
    "  background: #f2f2f2 } .yes .sign, .yes b { color: #00513b } .no .sign, .no b { color: #8c0019 }\n"
    "dl { display: grid; grid-template-columns: max-content minmax(0, 1fr); gap: 2px 14px; margin: 8px 0; font-size: 14px } dt { color: #444 }\n"
    "dd { margin: 0; overflow-wrap: anywhere } .sum { font: 12px monospace; color: #444 }\n"
    "h3 { font-size: 15px; margin: 18px 0 4px } .muted { color: #444 } .note { border-left: 6px solid #f0e442; padding-left: 10px; margin: 6px 0 }\n"
    "pre { background: #f6f6f6; border: 1px solid #ccc; padding: 6px 10px; margin: 4px 0; font: 13px/1.4 monospace; overflow-x: auto }\n"
    ".columns { columns: 280px; white-space: pre-wrap } pre .x { background: #fbd5d9; font-weight: bold } pre .p { background: #dcefff; font-weight: bold } pre .m { text-decoration: line-through;\n"
    "  color: #555 } pre .n { color: #555 }\n"
    ".mend { border-left: 6px solid #0072b2; padding: 2px 0 2px 10px; margin: 6px 0 } .mend ul { margin: 2px 0; padding-left: 20px }\n"
    "tr.bad td { background: #fdecee; fill-opacity: 1 } tr.bad td:first-child { border-left: 6px solid #b00020 } td.torn { font-weight: bold;\n"
    "  background: #f3a56f !important } td.src { font-family: monospace; white-space: pre-wrap; overflow-wrap: anywhere; max-width: 330px }\n"
    ".bits { font-family: monospace } .bits b { text-decoration: underline; background: #ffe9a8 } .side { display: flex; flex-wrap: wrap; gap: 10px 30px }\n"
    ".patch { display: inline-block; width: 46px; height: 26px; border: 1px solid #000; vertical-align: middle }\n"
    ".num { font: 12px monospace } .cutter { margin: 8px 0; padding: 8px 12px; border: 1px solid #999; background: #fafafa }\n"
    ".cutter input { width: 100% } .sig { margin-top: 34px; display: grid; grid-template-columns: 2fr 1fr 3fr; gap: 24px }\n"
    ".sig div { border-top: 1px solid #000; font-size: 12px; padding-top: 2px; margin-top: 26px }\n"
    "#die { stroke: #000; stroke-width: 3; stroke-dasharray: 9 5 }\n"
    "@media (max-width: 700px) { body { padding: 0 10px } .banner { gap: 10px; font-size: 15px } .sign { font-size: 32px }\n"
    "  dl { grid-template-columns: 1fr } dt { margin-top: 4px } .sig { grid-template-columns: 1fr; gap: 6px } }\n"
    "@media print { body { font-size: 11px } code { font-size: 10px } .key { break-inside: avoid; font-size: 10px !important } .cutter, #die { display: none }\n"
    "  tr:first-child { break-after: avoid } pre { font-size: 10px; white-space: pre-wrap; overflow: visible }\n"
    "  table { font-size: 10px } td.src { max-width: 200px } h3 { break-after: avoid } .mend, .banner, .sig, pre { break-inside: avoid } }\n";

/* ---- A stranger's text. */

/* Letters that turn the writing round would show another line than the one that was read. */
static int is_hidden(unsigned long letter) {
    return (letter >= 0x200B && letter <= 0x200F) || (letter >= 0x202A && letter <= 0x202E) || (letter >= 0x2060 && letter <= 0x2069) ||
           letter == 0xFEFF;
}

static void print_text_of(const char *text, size_t most) {
    const uint8_t *at = (const uint8_t *)text;
    for (size_t n = 0; *at; n++) {
        int more = *at >= 0xF0 && *at < 0xF5 ? 3 : *at >= 0xE0 ? 2 : *at >= 0xC2 ? 1 : 0, good = *at < 0x80 || (more > 0 && *at < 0xF5);
        unsigned long letter = *at < 0x80 ? *at : *at & (0x3Fu >> more);
        for (int i = 1; good && i <= more; i++) good = (at[i] & 0xC0) == 0x80, letter = letter << 6 | (at[i] & 0x3F);
        if (n == most) {
            printf("&hellip;");
            return;
        }
        if (!good) printf("&#xFFFD;"), more = 0;
        else if (is_hidden(letter)) printf("[U+%04lX]", letter);
        else if (letter == '&') printf("&amp;");
        else if (letter == '<') printf("&lt;");
        else if (letter == '>') printf("&gt;");
        else if (letter == '"') printf("&quot;");
        else if (letter == '\'') printf("&#39;");
        else if (letter < ' ' && letter != '\t') putchar('?');
        else printf("%.*s", 1 + more, (const char *)at);
        at += 1 + more;
    }
}

enum { LONG_LINE = 200, SHORT_LINE = 90 };

/* ---- The banner and what was judged. */

static void print_banner(const struct review *v) {
    const char *kind = "no", *sign = "&#10007;";
    char word[32];
    snprintf(word, sizeof word, "REFUSED %u", (unsigned)v->verdict.refusal);
    if (!v->is_read) kind = "un", sign = "?", snprintf(word, sizeof word, "NOT READ");
    else if (!v->agrees) kind = "un", sign = "?", snprintf(word, sizeof word, "NO VERDICT");
    else if (!v->verdict.refusal) kind = "yes", sign = "&#10003;", snprintf(word, sizeof word, "ACCEPTED");
    printf("<div class='banner %s'><span class='sign' aria-hidden='true'>%s</span><div><b>%s</b>\n", kind, sign, word);
    if (!v->is_read) printf("Line %lu: ", v->list.wrong_line), print_text_of(v->list.wrong, TEXT_OF_A_WRONG);
    else if (v->agrees && !v->verdict.refusal) printf("It may be run on these registers as they stand, with one Vsync awaited just before its last pair.");
    else print_text_of(v->subject, TEXT_OF_A_SUBJECT);
    if (v->is_read) {
        printf("<br><span class='muted'>on ");
        print_text_of(v->registers.name ? v->registers.name : "zeros, of no real chip", LONG_LINE);
        printf("</span>");
    }
    printf("</div></div>\n");
}

static void print_given(const char *what, const struct given *g, const char *otherwise) {
    char sum[TEXT_OF_SHA256];
    if (!g->name && !otherwise) return;
    printf("<dt>%s<dd>", what);
    print_text_of(g->name ? g->name : otherwise, LONG_LINE);
    if (g->name) printf(" <span class='sum'>sha256 %s</span>", text_of_sha256(g->sha256, sum));
    printf("\n");
}

static void print_frame(const char *what, const uint8_t image[STATION_IMAGE], const struct request *q) {
    char words[TEXT_OF_A_REQUEST], mode[TEXT_OF_A_MODE];
    words_of_request(q->bytes, q->length, words);
    printf("<dt>%s<dd>%s<br><code>%s</code>\n", what, text_of_frame(image, q, mode), words);
}

static void print_facts(const struct review *v) {
    const struct list *l = &v->list;
    struct given list = { l->name, { 0 } };
    memcpy(list.sha256, l->sha256, SHA256);
    printf("<dl>\n");
    print_given("list", &list, NULL);
    if (v->is_read) printf("<br>%lu pair%s in %lu line%s%s\n", (unsigned long)l->all / 2, l->all == 2 ? "" : "s", l->lines,
                           l->lines == 1 ? "" : "s", !l->bare ? "" : l->base == DECIMAL ? ", numbers read as decimal" : ", numbers read as hex");
    print_given("registers", &v->registers, "zeros, of no real chip");
    print_given("packet buffer", &v->packet, NULL);
    print_given("coefficient buffer", &v->coefficients, NULL);
    if (v->chip.mark[0]) printf("<dt>waiting mark<dd>%u: a change of the coefficients waits for Vsync\n", v->chip.mark[0]);
    printf("<dt>judged by<dd>station_vet of version %s%s\n", STATION_VERSION,
           !v->is_read ? ": not asked, for the text could not be read" : v->agrees ? "; the reasons were found by tools/review, and lead to the same verdict" : "; the reasons differ");
    if (v->date) printf("<dt>date<dd>"), print_text_of(v->date, LONG_LINE), printf("\n");
    if (v->is_read) {
        if (v->begins) print_frame("from", v->chip.image, &v->begin);
        else printf("<dt>from<dd>registers in which no request ends\n");
        if (v->ends) print_frame("to", v->j.last.image, &v->end);
        else if (v->is_run && v->mend.has_nearest) print_frame("to<br>(nearest)", v->mend.nearest.image, &v->mend.nearest.asked);
    }
    printf("</dl>\n");
}

/* A sentence begins with a capital. */
static void print_sentence(const char *text) { printf("%c%s", *text >= 'a' && *text <= 'z' ? *text - 'a' + 'A' : *text, text + 1); }

static void tell_note(const char *text) { printf("<p class='note'>%s</p>\n", text); }
static void tell_worth(const char *text) { printf("<p class='note'><b>Worth knowing:</b> %s</p>\n", text); }
static void tell_item(const char *text) { printf("<li>"), print_sentence(text), printf("</li>\n"); }

/* ---- The vendor's lines. */

static void print_line(const struct list *l, unsigned long line, const char *mark, const char *class) {
    printf("<span class='%s'>%s %5lu | ", class, mark, line);
    print_text_of(line_of(l, line), LONG_LINE);
    printf("</span>\n");
}

/* The lines of the pairs that break a rule, with a line around each stretch, as many as are read at a glance. */
static void print_lines_of_fault(const struct review *v, int fault) {
    enum { MOST = 14 };
    const struct list *l = &v->list;
    unsigned long last = 0;
    int printed = 0, left = 0;
    char *is_bad = calloc(l->lines + 3, 1);
    if (!is_bad) return;
    for (uint32_t i = 0; i < v->j.count; i++)
        if (v->j.pairs[i].broken[fault]) is_bad[l->line[i]] = 1;
    printf("<pre>");
    for (unsigned long n = 1; n <= l->lines; n++) {
        if (!is_bad[n] && !is_bad[n - 1] && !is_bad[n + 1]) continue;
        if (printed >= MOST) {
            left += is_bad[n];
            continue;
        }
        if (last && last + 1 < n) printf("          &hellip;\n");
        print_line(l, n, is_bad[n] ? "&#10007;" : " ", is_bad[n] ? "x" : "n");
        last = n;
        printed++;
    }
    if (left) printf("          &hellip; and %d line%s more\n", left, left == 1 ? "" : "s");
    printf("</pre>\n");
    free(is_bad);
}

/* A pair as the vendor writes theirs, by the line of one. */
static void print_pair(const struct review *v, uint32_t place, uint8_t address, uint8_t value) {
    const char *line = v->j.count ? line_of(&v->list, v->list.line[place < v->j.count ? place : v->j.count - 1]) : "";
    line += strspn(line, " \t");
    const char *chip = strstr(line, "0x39") ? strstr(line, "0x39") : strcasestr(line, "0x3d");
    if ((!strncmp(line, "i2cset", 6) || !strncmp(line, "i2ctransfer", 11)) && chip) {
        char front[64];
        snprintf(front, sizeof front, "%.*s", (int)(chip + 4 - line), line);
        print_text_of(front, LONG_LINE);
        printf(" 0x%02x 0x%02x", address, value);
    } else if (*line == '{') printf("{0x%02x, 0x%02x},", address, value);
    else if (v->list.bare) printf(v->list.base == DECIMAL ? "%u %u" : "%02x %02x", address, value);
    else printf("0x%02x, 0x%02x,", address, value);
}

/* Is that a pair as the mends have it? */
static int is_plain(const struct review *v, uint32_t place) {
    const char *line = v->j.count ? line_of(&v->list, v->list.line[place < v->j.count ? place : v->j.count - 1]) : "";
    return v->list.bare && v->list.base == HEX && !strstr(line, "i2c") && !strchr(line, '{');
}

/* ---- Findings. */

static unsigned print_mends(const struct review *v, uint32_t why) {
    char text[TEXT_OF_A_CHANGE];
    unsigned count = 0;
    for (uint32_t i = 0; i < v->mend.count; i++) {
        const struct mended *p = &v->mend.pairs[i];
        if (p->change == KEPT || p->why != why) continue;
        if (!count++) printf("<div class='mend'><b>Mend:</b><ul>\n");
        printf("<li>%s", text_of_change(v, p, text));
        if (p->change != LEFT_OUT && !is_plain(v, p->place)) printf(": <code>"), print_pair(v, p->place, p->address, p->value), printf("</code>");
        printf("</li>\n");
    }
    if (count) printf("</ul></div>\n");
    return count;
}

static void print_nearest(const struct review *v) {
    char words[TEXT_OF_A_REQUEST];
    if (!v->mend.has_nearest) return;
    words_of_request(v->mend.nearest.asked.bytes, v->mend.nearest.asked.length, words);
    printf("<p>Nearest is <code>%s</code>:</p>\n<div class='wide'><table><tr><th>register<th>name<th>the list leaves<th>it wants</tr>\n", words);
    for (int a = 0; a < STATION_IMAGE; a++)
        if (v->mend.nearest.image[a] != v->j.last.image[a])
            printf("<tr><td>0x%02X<td>%s<td>%02X<td><b>%02X</b></tr>\n", (unsigned)a, name_of_register((uint8_t)a), v->j.last.image[a],
                   v->mend.nearest.image[a]);
    printf("</table></div>\n");
}

static void print_findings(const struct review *v) {
    char places[TEXT_OF_PLACES];
    unsigned number = 0, rest = 0;
    uint32_t first = 0;
    printf("<h2>What is wrong, and how it is mended</h2>\n");
    for (int f = 0; f < FAULTS; f++) {
        if (!pairs_of_fault(v, f, &first)) continue;
        printf("<h3>%u. ", ++number);
        print_sentence(fault_words[f]);
        printf(", %s</h3>\n<p>", text_of_places(v, f, places));
        print_sentence(fault_says[f]);
        printf(".</p>\n");
        print_lines_of_fault(v, f);
        if (f == NOT_MANDATED || f == FREE_MOVED) {
            printf("<ul>\n");
            for (uint32_t i = 0, told = 0; i < v->j.count && told < 12; i++) {
                char text[TEXT_OF_FAULTS];
                struct judged alone = v->j.pairs[i];
                if (!alone.broken[f]) continue;
                memset(alone.broken, 0, sizeof alone.broken);
                alone.broken[f] = 1;
                text_of_faults(v->list.bytes[2 * i], &alone, text);
                printf("<li>at %u, line %lu: %s</li>\n", (unsigned)i, v->list.line[i], text), told++;
            }
            printf("</ul>\n");
        }
        if (!print_mends(v, (uint32_t)f) && v->mend.accepted) printf("<p class='mend'><b>Mend:</b> by the changes of the others.</p>\n");
    }
    if (!v->ends) {
        printf("<h3>%u. The end</h3>\n<p>No request ends in the registers that the list leaves.</p>\n<ul>\n", ++number);
        tell_bad_end(&v->j.last, tell_item);
        printf("</ul>\n");
        print_nearest(v);
    }
    rest = print_mends(v, FAULTS);
    for (int f = 0; f < FAULTS; f++)
        if (!pairs_of_fault(v, f, &first)) rest += print_mends(v, (uint32_t)f);
    if (v->mend.accepted)
        printf("<p><b>With %s the library accepts the list</b> (it was tried).%s The whole list with %s stands at the end of this page.</p>\n",
               v->mend.changes == 1 ? "this change" : "these changes together", v->mend.changes == 1 ? "" : " Line numbers are those of the vendor's text.",
               v->mend.changes == 1 ? "it" : "them");
    else printf("<p><b>No changes were found with which the library accepts the list.</b> Send the request below instead.</p>\n");
    char text[TEXT_OF_FAULTS];
    if (v->mend.accepted && text_of_taken_back(v, text)) printf("<p><b>%s</b></p>\n", text);
}

/* The mended list, its changes marked: + and -, not by colour alone. */
static void print_mended(const struct review *v) {
    if (!v->mend.accepted) return;
    printf("<h2>The list, mended</h2>\n<p class='muted'>Accepted by the library on these registers. + is put in, - is taken out; read it down each column.</p>\n"
           "<pre class='columns'>");
    for (uint32_t i = 0; i < v->mend.count; i++) {
        const struct mended *p = &v->mend.pairs[i];
        if (p->change == CHANGED) printf("<span class='m'>- "), print_pair(v, p->place, p->address, p->was), printf("</span>\n");
        printf("<span class='%s'>%s ", p->change == KEPT ? "n" : p->change == LEFT_OUT ? "m" : "p", p->change == KEPT ? " " : p->change == LEFT_OUT ? "-" : "+");
        print_pair(v, p->place, p->address, p->value);
        printf("</span>\n");
    }
    printf("</pre>\n");
}

static void print_request(const struct review *v) {
    const struct request *q = request_of_review(v);
    char words[TEXT_OF_A_REQUEST];
    if (!q) return;
    words_of_request(q->bytes, q->length, words);
    printf("<h2>%s</h2>\n<p>", !v->verdict.refusal ? "The same as a request" : "Or send this request instead");
    printf("%s a request is planned by the library for whatever registers the chip has by then.</p>\n<pre>",
           v->ends ? "The list ends in this request;" : "The end of the list is nearest to this request;");
    for (size_t i = 0; i < q->length; i++) printf("%s%02x", i % 24 ? " " : i ? "\n" : "", q->bytes[i]);
    printf("</pre>\n<p class='muted'><code>tools/request %s</code></p>\n", words);
}

/* ---- Time. */

/* The run of the list as far as the machine takes it; the bad pairs, and an open picture where it must be muted. */
static void play(const struct review *v, struct run *r) {
    static struct events events;
    struct places none = { .count = 0 };
    events_of(&events, v->j.end, &none, -1);
    r->from_0 = 1;
    run_begin(r, &v->chip, &v->j.new);
    r->begun.waits = 0;                                         /* of a vendor's list old is what was in use at its beginning */
    run_events(r, v->list.bytes, &events, events.count);
    for (int m = 0; m < r->count; m++) {
        struct moment *n = &r->moments[m];
        if (!n->number) continue;
        const struct judged *p = &v->j.pairs[n->number - 1];
        n->is_bad = is_bad(p);
        if (p->broken[NOT_MUTED]) n->value[PICTURE] = SHOWN_WRONGLY;
    }
}

/* What is left where the host dies: a script moves a line over the drawing. Without one nothing of this is seen, and the table has it all. */
static void print_slider(const struct review *v, const struct run *r) {
    int last = 0, first_bad = 0;
    for (int m = r->count; m-- > 0; )
        if (r->moments[m].is_bad) first_bad = m;
    printf("<div class='cutter' id='cutter' hidden><label>The host dies after <b id='after'></b>\n"
           "<input type='range' id='k' min='0' max='0' value='0'></label><div id='left'></div></div>\n<script>\n(function () {\n  var s = [");
    for (int m = 0; m < r->count; m++) {
        const struct moment *n = &r->moments[m];
        if (n->is_vsync) printf("%s['the Vsync that is awaited'", last++ ? ",\n    " : "");
        else if (n->number) printf("%s['the pair at %d (line %lu), 0x%02X = %02X'", last++ ? ",\n    " : "", n->number - 1, v->list.line[n->number - 1],
                                   n->address, v->list.bytes[2 * n->number - 1]);
        else printf("%s['no pair'", last++ ? ",\n    " : "");
        for (int l = PICTURE; l <= LANE_WAITING; l++) printf(", '%s'", word_of_lane(r, (enum lane)l, n->value[l]));
        printf(", %.1f, %d]", at_moment(r, m + 1), n->is_bad);
    }
    printf("];\n"
           "  var by = function (id) { return document.getElementById(id); }, svg = document.querySelector('#time svg'), k = by('k');\n"
           "  var line = document.createElementNS('http' + '://www.w3.org/2000/svg', 'path');\n"
           "  line.setAttribute('id', 'die'); svg.appendChild(line); k.max = s.length - 1; by('cutter').hidden = false;\n"
           "  function show() {\n"
           "    var t = s[+k.value];\n"
           "    by('after').textContent = t[0] + (t[7] ? ', a bad pair' : '');\n"
           "    by('left').textContent = 'Left in use until somebody comes: picture ' + t[1] + '; AVI ' + t[2] + '; audio ' + t[3] + '; matrix ' + t[4] +\n"
           "      (t[5] ? ', a new one waiting for Vsync' : '') + '.';\n"
           "    line.setAttribute('d', 'M' + t[6] + ' 17V%d');\n"
           "  }\n"
           "  k.addEventListener('input', show); k.value = %d; show();\n})();\n</script>\n", drawing_high() - 4, first_bad);
}

static void print_time(const struct review *v, struct run *r) {
    struct tally t;
    play(v, r);
    t = tally_of(r);
    printf("<h2>Time, from the first pair to the last</h2>\n");
    draw_key(1);
    printf("<div id='time'>\n");
    draw_lanes(r, "what is in use after each pair", "");
    printf("</div>\n");
    print_slider(v, r);
    printf("<p>Of %d places where a host may die, something in use is torn at <b>%d</b>; after the first pair and before the last the picture is "
           "not muted at <b>%d</b>.</p>\n", t.all, t.torn, t.shown);
    if (v->j.end < v->j.count)
        printf("<p>The pair at %u would leave two packet holds up: the chip does not take it, and the list ends before it; %u of its %u pairs are "
               "drawn.</p>\n", (unsigned)v->j.end, (unsigned)v->j.end, (unsigned)v->j.count);
}

/* ---- What changes. */

static void print_fields(const struct review *v) {
    const struct request *q = request_of_review(v);
    char *text = NULL, *line;
    size_t length = 0;
    FILE *to;
    printf("<div><h3>Field by field%s</h3>\n", v->ends ? "" : ", were it the nearest request");
    if (!v->begins || !q) printf("<p>No request ends in the registers before it: there is nothing to compare.</p></div>\n");
    else if ((to = open_memstream(&text, &length))) {
        int changes = explain_changes(to, v->begin.bytes, q->bytes);
        fclose(to);
        if (!changes) printf("<p>Nothing that a request names.</p>");
        else {
            printf("<table><tr><th>field<th>from<th>to</tr>\n");
            for (line = strtok(text, "\n"); line; line = strtok(NULL, "\n")) {
                char *name = line + strspn(line, " "), *was = name + strcspn(name, " "), *is = strstr(line, " -> ");
                if (!is) continue;
                *was = 0;
                was += 1 + strspn(was + 1, " ");
                *is = 0;
                printf("<tr><td>%s<td>%s<td>%s</tr>\n", name, was, is + 4);
            }
            printf("</table>\n");
        }
        free(text);
        printf("</div>\n");
    }
}

/* The groups of registers, in the order of the drawing. */
static const char *group_of(uint8_t a) {
    uint8_t pair[2] = { a, 0 };
    return a == 0x4A ? "holds" : a == 0x4B ? "mute" : step_words[step_of(pair, 0)];
}

static void print_bits(uint8_t byte, uint8_t moved) {
    printf("<td class='bits'>%02X &nbsp;", byte);
    for (int b = 7; b >= 0; b--) printf(moved >> b & 1 ? "<b>%d</b>" : "%d", byte >> b & 1);
}

static void print_registers(const struct review *v) {
    static const char *const groups[] = { "mute", "holds", "fixed", "matrix", "AVI", "audio", "others" };
    unsigned count = 0;
    printf("<div><h3>Register by register; bits that move are underlined</h3>\n<div class='wide'><table><tr><th>group<th>register<th>name<th>from<th>to</tr>\n");
    for (size_t g = 0; g < sizeof groups / sizeof groups[0]; g++)
        for (int a = 0; a < STATION_IMAGE; a++) {
            uint8_t was = v->chip.image[a], is = v->j.last.image[a];
            if (was == is || strcmp(group_of((uint8_t)a), groups[g])) continue;
            printf("<tr><td>%s<td>0x%02X<td>%s", groups[g], (unsigned)a, name_of_register((uint8_t)a));
            print_bits(was, was ^ is);
            print_bits(is, was ^ is);
            printf("</tr>\n");
            count++;
        }
    if (!count) printf("<tr><td colspan=5>no register</tr>\n");
    printf("</table></div></div>\n");
}

/* ---- Colours: the corners of the colour cube through the matrix in use, as it begins and as it ends. The chip's input is RGB or, by its ID,
 * YCbCr: then it has them as HDTV does, in limited range. */

static int hex_of(double x) { return x <= 0 ? 0 : x >= 1 ? 255 : (int)(255 * x + .5); }

/* Codes as a screen takes them that is told this encoding: A, B, C are R, G, B, or Cr, Y, Cb. */
static void print_patch(int is_ycbcr, double a, double b, double c) {
    double red = a / 4095, green = b / 4095, blue = c / 4095;
    if (is_ycbcr) {
        double y = (b - 256) / 3504, cr = (a - 2048) / 3584, cb = (c - 2048) / 3584;
        red = y + 1.5748 * cr;
        green = y - .1873 * cb - .4681 * cr;
        blue = y + 1.8556 * cb;
    }
    printf("<span class='patch' style='background:#%02x%02x%02x'></span> ", (unsigned)hex_of(red), (unsigned)hex_of(green), (unsigned)hex_of(blue));
}

static int is_ycbcr_input(const struct chip *c) {
    const struct wiring *w = wiring_of_id(c->image[0x15] & 0x0F);
    return w && !is_rgb(w);
}

/* A corner of the cube, red in bit 2, green in bit 1, blue in bit 0, as the chip finds it at its input. */
static struct station_pixel input_of(const struct chip *c, uint8_t corner) {
    enum { FULL = 4095 };
    double red = corner >> 2 & 1, green = corner >> 1 & 1, blue = corner & 1, y = .2126 * red + .7152 * green + .0722 * blue;
    if (!is_ycbcr_input(c)) return (struct station_pixel){ 0, corner & 4 ? FULL : 0, corner & 2 ? FULL : 0, corner & 1 ? FULL : 0 };
    return (struct station_pixel){ 0, (uint32_t)(2048.5 + 3584 * (red - y) / 1.5748), (uint32_t)(256.5 + 3504 * y),
                                   (uint32_t)(2048.5 + 3584 * (blue - y) / 1.8556) };
}

static void print_colour(const struct chip *c, const struct sent *s, uint8_t corner) {
    enum { CONVERTER = 0x18, IS_ON = 0x80, DATA_BYTE_1 = 3 };
    uint8_t matrix[STATION_MATRIX];
    int is_ycbcr = (s->avi[DATA_BYTE_1] >> 5 & 3) != 0;
    struct station_pixel p = input_of(c, corner);
    station_matrix(c->image, STATION_IMAGE, c->coefficients, STATION_COEFFICIENTS, c->mark[0], matrix, sizeof matrix);
    if (c->image[CONVERTER] & IS_ON) p = station_preview(matrix, sizeof matrix, p.a, p.b, p.c);
    printf("<td>");
    if (p.refusal) printf("mode %u: no preview", matrix[0]);
    else {
        print_patch(is_ycbcr, p.a, p.b, p.c);
        printf("<span class='num'>%u %u %u</span>", (unsigned)p.a, (unsigned)p.b, (unsigned)p.c);
    }
}

static void print_colours(const struct review *v) {
    static const struct { const char *name; uint8_t corner; } patches[] = {
        { "black", 0 }, { "white", 7 }, { "red", 4 }, { "green", 2 }, { "blue", 1 }, { "cyan", 3 }, { "magenta", 5 }, { "yellow", 6 },
    };
    enum { FULL = 4095 };
    printf("<h2>Colours</h2>\n<p>Eight patches of the chip's input, RGB%s, through the matrix as the list begins and as it ends, by "
           "<code>station_preview</code>: codes from 0 to 4095 of the outputs A, B and C. They are drawn as a screen shows them that is told RGB, or YCbCr "
           "(A is Cr, B is Y, C is Cb); a colour is near, a number is exact.</p>\n<div class='wide'><table><tr><th>patch<th>input<th>as it begins<th>as it ends</tr>\n",
           is_ycbcr_input(&v->chip) || is_ycbcr_input(&v->j.last) ? ", or where the wiring feeds YCbCr the same in YCbCr (of HDTV, limited range)" : "");
    for (size_t p = 0; p < sizeof patches / sizeof patches[0]; p++) {
        printf("<tr><td>%s<td>", patches[p].name);
        print_patch(0, patches[p].corner & 4 ? FULL : 0, patches[p].corner & 2 ? FULL : 0, patches[p].corner & 1 ? FULL : 0);
        print_colour(&v->chip, &v->j.old, patches[p].corner);
        print_colour(&v->j.last, &v->j.new, patches[p].corner);
        printf("</tr>\n");
    }
    printf("</table></div>\n");
}

/* ---- Every pair. */

static void print_age(const struct review *v, enum group g, const struct sent *now) {
    int is = age(g, now, &v->j.old, &v->j.new);
    printf("<td%s>%s%s", is == NEITHER ? " class='torn'" : "", is == NEITHER ? "TORN" : word_of_age(is), g == MATRIX && now->waiting ? ", waiting" : "");
}

static void print_in_use(const struct review *v, const struct sent *now, int is_shown) {
    printf("<td%s>%s", is_shown ? " class='torn'" : "", word_of_picture(now->mute));
    for (int g = 0; g < GROUPS; g++) print_age(v, (enum group)g, now);
}

static void print_pairs(const struct review *v) {
    const struct list *l = &v->list;
    unsigned long told = 0;
    printf("<h2>Every pair</h2>\n<p class='muted'>Places are counted from 0, as the library does; what is in use is meant after the pair.</p>\n"
           "<div class='wide'><table><tr><th>at<th>line<th>as it was sent<th>register<th>was<th>is<th>sets<th>picture<th>AVI<th>audio<th>matrix<th>bad</tr>\n");
    for (uint32_t i = 0; i < v->j.count; i++) {
        const struct judged *p = &v->j.pairs[i];
        char sets[TEXT_OF_SETS], faults[TEXT_OF_FAULTS] = "";
        if (waits_before(i, v->j.end)) {
            printf("<tr><td><td><td colspan=5><i>wait for Vsync</i>");
            print_in_use(v, &v->j.turned_over, 0);
            printf("<td></tr>\n");
        }
        sets_of_write(sets, TEXT_OF_SETS - 1, l->bytes[2 * i], p->before, p->after);
        text_of_faults(l->bytes[2 * i], p, faults);
        printf("<tr%s><td>%u<td>%lu<td class='src'>", is_bad(p) ? " class='bad'" : "", (unsigned)i, l->line[i]);
        if (l->line[i] != told) print_text_of(line_of(l, l->line[i]), SHORT_LINE);
        else printf("&Prime;");
        told = l->line[i];
        printf("<td>0x%02X %s<td>%02X<td>%02X<td>%s", l->bytes[2 * i], name_of_register(l->bytes[2 * i]), p->before, p->after, sets);
        if (i < v->j.end) print_in_use(v, &p->now, p->broken[NOT_MUTED]);
        else printf("<td>-<td>-<td>-<td>-");
        printf("<td>%s%s</tr>\n", *faults ? "&#10007; " : "", faults);
    }
    if (!v->j.count) printf("<tr><td colspan=12>the list is empty</tr>\n");
    printf("</table></div>\n");
}

/* ---- The whole. */

/* A text that was not read, around the line at fault. */
static void print_unread(const struct review *v) {
    const struct list *l = &v->list;
    unsigned long from = l->wrong_line > 3 ? l->wrong_line - 3 : 1;
    printf("<h2>What could not be read</h2>\n<p>Nothing was judged: what could be read in two ways, or not at all, is not read.</p>\n<pre>");
    for (unsigned long n = from; n <= l->lines && n <= l->wrong_line + 3; n++)
        print_line(l, n, n == l->wrong_line ? "&#10007;" : " ", n == l->wrong_line ? "x" : "n");
    printf("</pre>\n<div class='mend'><b>What to do:</b> ");
    print_text_of(l->wrong, TEXT_OF_A_WRONG);
    printf("</div>\n<p class='muted'><code>tools/review --help</code> has the forms that are read.</p>\n");
}

static void print_not_run(const struct review *v) {
    printf("<h2>What is wrong, and how it is mended</h2>\n");
    if (v->verdict.refusal == STATION_HOLDS_UP)
        printf("<p>Register 0x4A is %02X: %s. No list may be run on this chip as it stands.</p>\n<div class='mend'><b>Mend:</b> it is the chip's state and "
               "not the list's fault. Have the host run a list of ours first (<code>tools/listing</code>), or reset the chip (docs/HOST.md, point 8); "
               "then read the registers again and review the list on those.</div>\n", v->chip.image[0x4A],
               v->chip.image[0x4A] & 0x10 ? "the hold of the GC packet, bit 4, is up" : "the holds of AVI and audio, bits 6 and 5, are both up");
    else printf("<p>The list has %lu pairs, and at most %u are taken.</p>\n<div class='mend'><b>Mend:</b> leave out what is written twice, or registers "
                "that are right already; the longest list of ours has fewer than 128 pairs.</div>\n", (unsigned long)v->list.all / 2, LIST_PAIRS);
}

void print_page(const struct review *v) {
    static struct run r;
    char title[TEXT_OF_A_SUBJECT + 8] = "";
    for (const char *at = v->subject; *at && strlen(title) + 1 < sizeof title; at++)
        if (!strchr("<>&", *at)) title[strlen(title)] = *at;
    print_head(title, style);
    printf("<h1>Review of a vendor's list: ");
    print_text_of(v->list.name, LONG_LINE);
    printf("</h1>\n");
    print_banner(v);
    print_facts(v);
    if (!v->is_read) print_unread(v);
    else {
        tell_notes(v, tell_note);
        if (!v->agrees)
            printf("<p><b>The library's verdict is %u at %u, and by the reasons it is %u at %u: trust neither.</b></p>\n", (unsigned)v->verdict.refusal,
                   (unsigned)v->verdict.place, (unsigned)v->j.verdict.refusal, (unsigned)v->j.verdict.place);
        else if (!v->is_run) print_not_run(v);
    }
    if (v->is_read && v->agrees && v->is_run) {
        tell_worth_knowing(v, tell_worth);
        if (v->verdict.refusal) print_findings(v);
        print_request(v);
        print_time(v, &r);
        printf("<h2>What changes</h2>\n<div class='side'>\n");
        print_fields(v);
        print_registers(v);
        printf("</div>\n");
        print_colours(v);
        print_pairs(v);
        if (v->verdict.refusal) print_mended(v);
    }
    printf("<div class='sig'><div>reviewed by</div><div>date</div><div>decision</div></div>\n</body></html>\n");
}
