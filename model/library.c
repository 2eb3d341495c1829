/* Drives the library for model/through_library.py. Standard input: cases, each a set-up behind its length in two bytes, the sixteen counters of
 * refusals to begin with, in four bytes each, then calls behind their number in four bytes, then lengths of buffers, in two bytes each, behind their
 * number in two, then pairs of object numbers behind their number in one byte; all low byte first. Before a call of request 254 C puts marks of an
 * open object into the facility: the low two bits of e, for process p and object t, where p runs and t is live. Before a call of request 253 it puts
 * in levels of process p, where it runs: the current level from the low four bits of e, the read mark from the high ones, the write mark from the
 * low four of t; of request 252 the number of moves of process p, where it runs: t; of request 251 the set t for process p, where it runs, as that of
 * its current label, read mark and write mark, each where the first, second or third bit of e is set; of request 250 the set e for object t, where it
 * is live and its level is set; of request 249 the set t for the clearance of user p. Standard output: of each set-up its number and the record's
 * index in two bytes; of each call of an accepted one why it is refused, in ten bytes, and in words behind the length of two bytes, both before the
 * call and after it; the short line and the full one, each behind its length in two bytes; the outcome's seven bytes, the sixteen counters, for each user
 * how often a process of it moves at most, the same for number e in four bytes, for each process its moves and its three labels, the calling process's
 * record, the target's record as a process, its record as an object, its effective flags, and for each flag the object that it comes from; then the set-up
 * written out after the calls, behind its length in two bytes; then for each length of a buffer number and length in two bytes, and the buffer, whose bytes
 * were 165, with eight bytes behind it; then for each pair whether the first holds the matter of the second after the calls. Each call is made by value and
 * where the facility is, why it is refused and its lines are asked both ways, and each set-up read and written out; a difference between the two ends the
 * program with status 1, a set-up written out that is not read back as it is with status 3, a text that is not cut off as it has to be, or
 * that touches a byte behind it, with status 4. Each call is first made at another seat, on a copy; where it does not get 1 or 2 there, or changes
 * anything, the program ends with status 5. With an argument it prints the words of each byte as a role, a category and a data type instead, a line
 * for each byte. */
#include <stdio.h>
#include <stdlib.h>
#include <string.h>

#include "hvozdalka.h"

static int take(void *to, size_t n)
{
    return fread(to, 1, n, stdin) == n;
}

static void need(void *to, size_t n)
{
    if (!take(to, n)) exit(2);
}

static void put(const void *from, size_t n)
{
    if (fwrite(from, 1, n, stdout) != n) exit(2);
}

static size_t number(const uint8_t *b, int n)
{
    size_t sum = 0;
    while (n-- > 0) sum = sum * 256 + b[n];
    return sum;
}

static void put_words(const uint32_t *words, int n)
{
    for (int k = 0; k < n; k++) put((uint8_t[4]){words[k] & 255, words[k] >> 8 & 255, words[k] >> 16 & 255, words[k] >> 24}, 4);
}

static hv_call call_of(const uint8_t *c)
{
    return (hv_call){c[0], c[1], c[2], c[3], 0};
}

/* All of a facility but its padding. */
static int same(const hv_facility *a, const hv_facility *b)
{
    enum { PAD = offsetof(hv_facility, opens) + HV_PROCESSES * HV_OBJECTS, PAD_END = offsetof(hv_facility, refusals) };
    enum { TAIL = offsetof(hv_facility, writesets) + HV_PROCESSES };
    return memcmp(a, b, PAD) == 0 && memcmp((const uint8_t *)a + PAD_END, (const uint8_t *)b + PAD_END, TAIL - PAD_END) == 0;
}

static void put_process(hv_facility f, uint8_t process)
{
    hv_process_record p = hv_process(f, process);
    put((uint8_t[10]){p.running, p.owner, p.current.level, p.current.set, p.readmark.level, p.readmark.set, p.writemark.level, p.writemark.set,
                      p.automatic, p.moves}, 10);
}

static void put_object(hv_facility f, uint8_t t)
{
    hv_object_record o = hv_object(f, t);
    put((uint8_t[8]){o.live, o.kind, o.label.level, o.label.set, o.category, o.datatype, o.flags, o.parent}, 8);
    put((uint8_t[1]){hv_effective_flags(f, t)}, 1);
    put((uint8_t[5]){hv_flag_source(f, t, HV_READ_ONLY), hv_flag_source(f, t, HV_NO_EXECUTE), hv_flag_source(f, t, HV_NO_DELETE),
                     hv_flag_source(f, t, HV_SEARCH_ONLY), hv_flag_source(f, t, HV_ADD_INHERITED)}, 5);
}

/* The moves of each process and its labels: as the library reads them by value and as they are in the bytes, after both ways to enforce. */
static void put_labels(const hv_facility *f, const hv_facility *by_value)
{
    for (uint8_t p = 0; p < HV_PROCESSES; p++) {
        hv_process_record r = hv_process(*f, p), v = hv_process(*by_value, p);
        uint8_t given[7] = {r.moves, r.current.level, r.current.set, r.readmark.level, r.readmark.set, r.writemark.level, r.writemark.set};
        uint8_t held[7] = {f->moves[p], f->currents[p], f->currentsets[p], f->readmarks[p], f->readsets[p], f->writemarks[p], f->writesets[p]};
        if (memcmp(given, held, sizeof given) != 0 || memcmp(&r, &v, sizeof r) != 0) exit(1);
        put(given, sizeof given);
    }
}

/* How often a process of each user moves at most, and of any number. */
static void put_most_moves(const hv_facility *f, uint8_t number)
{
    for (uint8_t u = 0; u < HV_USERS; u++) {
        uint32_t most = hv_most_moves(*f, u);
        if (most > 255) exit(1);
        put((uint8_t[1]){(uint8_t)most}, 1);
    }
    put_words((uint32_t[1]){hv_most_moves(*f, number)}, 1);
}

/* What C puts into the facility before a call of a request that is none. */
static void put_in(hv_facility *f, const uint8_t *c)
{
    int runs = c[1] < HV_PROCESSES && f->runnings[c[1]] == 1, live = c[2] < HV_OBJECTS && f->lives[c[2]] == 1;
    if (c[0] == 254 && runs && live) f->opens[c[1] * HV_OBJECTS + c[2]] = c[3] & 3;
    if (c[0] == 253 && runs) {
        f->currents[c[1]] = c[3] & 15;
        f->readmarks[c[1]] = c[3] >> 4;
        f->writemarks[c[1]] = c[2] & 15;
    }
    if (c[0] == 252 && runs) f->moves[c[1]] = c[2];
    if (c[0] == 251 && runs) {
        if (c[3] & 1) f->currentsets[c[1]] = c[2];
        if (c[3] & 2) f->readsets[c[1]] = c[2];
        if (c[3] & 4) f->writesets[c[1]] = c[2];
    }
    if (c[0] == 250 && live && f->levels[c[2]] != HV_UNSET) f->sets[c[2]] = c[3];
    if (c[0] == 249 && c[1] < f->users) f->clearancesets[c[1]] = c[2];
}

enum { ROOM = 512, OTHER = 165 };

/* Whether a buffer has these bytes at its front, and behind them what stood there before. */
static int holds(const uint8_t *buffer, const uint8_t *bytes, size_t n)
{
    for (size_t k = n; k < ROOM; k++)
        if (buffer[k] != OTHER) return 0;
    return memcmp(buffer, bytes, n) == 0;
}

static size_t why_words(const hv_facility *f, const uint8_t *c, int at, uint8_t *out, size_t length)
{
    return at ? hv_why_words_at(f, call_of(c), out, length) : hv_why_words(*f, call_of(c), out, length);
}

/* The text of why a call is refused; then into a shorter buffer, and into none. */
static void put_why_words(const hv_facility *f, const uint8_t *c)
{
    uint8_t text[2][ROOM], cut[ROOM];
    memset(text, OTHER, sizeof text);
    size_t n = why_words(f, c, 0, text[0], ROOM), shorter = n ? (size_t)(c[1] + c[2] + c[3]) % n : 0;
    if (why_words(f, c, 1, text[1], ROOM) != n || memcmp(text[0], text[1], ROOM) != 0) exit(1);
    if (!holds(text[0], text[0], n)) exit(4);
    for (int at = 0; at < 2; at++) {
        memset(cut, OTHER, sizeof cut);
        if (why_words(f, c, at, cut, shorter) != shorter || !holds(cut, text[0], shorter) || why_words(f, c, at, NULL, 0) != 0) exit(4);
    }
    put((uint8_t[2]){n & 255, n >> 8 & 255}, 2);
    put(text[0], n);
}

static void put_why(const hv_facility *f, const uint8_t *c)
{
    hv_failed w[2] = {hv_why(*f, call_of(c)), hv_why_at(f, call_of(c))};
    uint8_t b[2][10];
    for (int k = 0; k < 2; k++)
        memcpy(b[k], (uint8_t[10]){w[k].unset, w[k].fixed, w[k].clearance, w[k].writemark, w[k].readmark, w[k].receiver, w[k].nocategory, w[k].category,
                                   w[k].datatype, w[k].flag}, 10);
    if (memcmp(b[0], b[1], 10) != 0) exit(1);
    put(b[0], 10);
    put_why_words(f, c);
}

/* At another seat there is no process: the same call is refused there, and changes nothing. */
static void at_other_seat(const hv_facility *f, const uint8_t *c)
{
    hv_call call = call_of(c);
    hv_facility g = *f;
    uint8_t number = c[0] > HV_LOGIN ? HV_NO_REQUEST : HV_NO_PROCESS_NUMBER;
    call.seat = (uint8_t)(1 + (c[0] + c[1] + c[2] + c[3]) % 255);
    hv_outcome o = hv_enforce_at(&g, call), q = hv_query_at(f, call);
    hv_enforced e = hv_enforce(*f, call);
    if (o.number != number || q.number != number || e.outcome.number != number || !same(&g, f) || !same(&e.facility, f)) exit(5);
}

/* Both lines in words, each behind its length in two bytes; by value and where the facility is, which becomes the one after the call. */
static void put_lines(const hv_facility *f, const hv_facility *after, uint64_t index, const uint8_t *c)
{
    static uint8_t out[2][HV_WORDS_ROOM];
    for (int full = 0; full < 2; full++) {
        hv_facility g = *f;
        hv_printed p = full ? hv_put_words(*f, index, call_of(c), out[0]) : hv_put_short_words(*f, index, call_of(c), out[0]);
        size_t n = full ? hv_put_words_at(&g, index, call_of(c), out[1]) : hv_put_short_words_at(&g, index, call_of(c), out[1]);
        if (n != p.length || memcmp(out[0], out[1], n) != 0 || !same(&g, after) || !same(&p.facility, after)) exit(1);
        put((uint8_t[2]){n & 255, n >> 8 & 255}, 2);
        put(out[0], n);
    }
}

static void one_call(hv_facility *f, uint64_t index, const uint8_t *c)
{
    put_in(f, c);
    at_other_seat(f, c);
    put_why(f, c);
    hv_facility before = *f;
    hv_outcome q = hv_query_at(f, call_of(c));
    hv_enforced e = hv_enforce(*f, call_of(c));
    hv_outcome o = hv_enforce_at(f, call_of(c));
    if (memcmp(&o, &e.outcome, sizeof o) || memcmp(&o, &q, sizeof o) || !same(f, &e.facility)) exit(1);
    put_why(f, c);
    put_lines(&before, f, index, c);
    uint32_t refusals[HV_USERS];
    for (uint8_t u = 0; u < HV_USERS; u++) refusals[u] = hv_refusals(*f, u);
    put((uint8_t[7]){o.number, o.mac, o.fc, o.sim, o.combined, o.object, o.ff}, 7);
    put_words(refusals, HV_USERS);
    put_most_moves(f, c[3]);
    put_labels(f, &e.facility);
    put_process(*f, c[1]);
    put_process(*f, c[2]);
    put_object(*f, c[2]);
}

/* A set-up read by value, and into a facility where it is that was full of other bytes. */
static hv_reading read_setup(const uint8_t *setup, size_t length)
{
    static hv_facility f;
    memset(&f, 165, sizeof f);
    hv_reading r = hv_read_setup(setup, length);
    hv_setup_numbers n = hv_read_setup_at(setup, length, &f);
    if (n.number != r.number || n.index != r.index || !same(&f, &r.facility)) exit(1);
    return r;
}

/* The set-up written out, and whether it is read back: number 0, and written out again the same bytes. */
static void put_setup(hv_facility f)
{
    uint8_t out[HV_SETUP_MOST], again[HV_SETUP_MOST];
    hv_writing w = hv_write_setup(f, out, sizeof out);
    if (w.number != HV_ACCEPTED) exit(3);
    hv_reading r = read_setup(out, w.length);
    if (r.number != HV_ACCEPTED) exit(3);
    hv_writing v = hv_write_setup(r.facility, again, sizeof again);
    if (v.number != HV_ACCEPTED || v.length != w.length || memcmp(out, again, w.length) != 0) exit(3);
    put((uint8_t[2]){w.length & 255, w.length >> 8 & 255}, 2);
    put(out, w.length);
}

/* The set-up written out into a buffer of so many bytes, and what stands in the buffer and behind it. */
static void put_room(hv_facility f, size_t room)
{
    enum { BEHIND = 8 };
    static uint8_t out[2][65536 + BEHIND];
    memset(out, 165, sizeof out);
    hv_writing w = hv_write_setup(f, out[0], room), v = hv_write_setup_at(&f, out[1], room);
    if (w.number != v.number || w.length != v.length || memcmp(out[0], out[1], sizeof out[0]) != 0) exit(1);
    put((uint8_t[3]){w.number, w.length & 255, w.length >> 8 & 255}, 3);
    put(out[0], room + BEHIND);
}

/* The word of a byte, and a byte behind it. */
static void put_word(size_t (*words)(uint8_t, uint8_t *, size_t), uint8_t byte, char behind)
{
    uint8_t text[ROOM], cut[ROOM];
    memset(text, OTHER, sizeof text);
    memset(cut, OTHER, sizeof cut);
    size_t n = words(byte, text, ROOM), shorter = n ? byte % n : 0;
    if (n > HV_WORD_MOST || !holds(text, text, n) || words(byte, cut, shorter) != shorter || !holds(cut, text, shorter) || words(byte, NULL, 0) != 0) exit(4);
    put(text, n);
    put(&behind, 1);
}

static int all_words(void)
{
    for (int byte = 0; byte < 256; byte++) {
        put_word(hv_role_words, (uint8_t)byte, ',');
        put_word(hv_category_words, (uint8_t)byte, ',');
        put_word(hv_data_type_words, (uint8_t)byte, '\n');
    }
    return fflush(stdout) ? 2 : 0;
}

int main(int count, char **arguments)
{
    (void)arguments;
    if (count > 1) return all_words();
    static uint8_t setup[65536], list[1 << 20];
    uint8_t b[4], counters[4 * HV_USERS];
    while (take(b, 2)) {
        size_t length = number(b, 2);
        need(setup, length);
        need(counters, sizeof counters);
        need(b, 4);
        size_t calls = number(b, 4);
        if (calls > sizeof list / 4) return 2;
        need(list, calls * 4);
        hv_reading r = read_setup(setup, length);
        put((uint8_t[3]){r.number, r.index & 255, r.index >> 8}, 3);
        for (int u = 0; u < HV_USERS; u++) r.facility.refusals[u] = (uint32_t)number(counters + 4 * u, 4);
        for (size_t k = 0; k < calls && r.number == HV_ACCEPTED; k++) one_call(&r.facility, k + 1, list + 4 * k);
        if (r.number == HV_ACCEPTED) put_setup(r.facility);
        need(b, 2);
        for (size_t rooms = number(b, 2); rooms > 0; rooms--) {
            uint8_t room[2];
            need(room, 2);
            if (r.number == HV_ACCEPTED) put_room(r.facility, number(room, 2));
        }
        need(b, 1);
        for (int pairs = b[0]; pairs > 0; pairs--) {
            uint8_t pair[2];
            need(pair, 2);
            put((uint8_t[1]){hv_holds(setup, length, list, calls * 4, pair[0], pair[1]).holds}, 1);
        }
    }
    return fflush(stdout) ? 2 : 0;
}
