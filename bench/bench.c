/* Compares the proved facility with the same rules in plain C, compiled in two ways: first that all agree on random calls, then how long each takes.
 * All in one run. Each line of the output has fields between tabs; bench/measure.py makes tables of them. */
#define _POSIX_C_SOURCE 200809L
#include <stdio.h>
#include <stdlib.h>
#include <string.h>
#include <time.h>

#include "plain.h"

enum { CALLS = 4096, WARM = 20, ROUNDS = 800, TRIALS = 400000, RAISED = 1000, MOVED = 1000, STOPPED = 100, JOINED = 50, APART = 100 };

static uint64_t seed = 1;

static uint32_t random_below(uint32_t n)
{
    seed = seed * 6364136223846793005u + 1442695040888963407u;
    return (uint32_t)((seed >> 33) % n);
}

static uint8_t byte_below(uint32_t n)
{
    return (uint8_t)random_below(n);
}

static hv_call call_of(const uint8_t c[4])
{
    return (hv_call){c[0], c[1], c[2], c[3], 0};
}

/* A number below n, sometimes unset. */
static uint8_t or_unset(uint32_t n)
{
    return random_below(20) ? byte_below(n) : HV_UNSET;
}

/* Few flags, so that calls are accepted; most of them with add-inherited. */
static uint8_t random_flags(void)
{
    static const uint8_t each[] = {HV_READ_ONLY, HV_NO_EXECUTE, HV_NO_DELETE, HV_SEARCH_ONLY};
    return (uint8_t)((random_below(6) ? 0 : each[random_below(4)]) | (random_below(3) ? HV_ADD_INHERITED : 0));
}

/* A set of these categories; of none the empty one. */
static uint8_t random_set(uint8_t categories)
{
    return categories ? (uint8_t)(categories & random_below(256)) : 0;
}

/* The categories that the labels of a set-up have: often none, else mostly few, so that equal sets occur. */
static uint8_t random_categories(void)
{
    uint32_t way = random_below(8);
    return way < 3 ? 0 : way < 7 ? (uint8_t)(3 << random_below(7)) : HV_ALL_CATEGORIES;
}

/* A set-up with users of all roles and objects of all kinds, half of them in a directory before them. */
static size_t random_setup(uint8_t *s, int switches, uint8_t categories)
{
    size_t at = 8, objects = 4 + random_below(30), directories = 0;
    uint8_t parents[64];
    memset(s, 0, HV_SETUP_MOST);
    memcpy(s, (uint8_t[5]){3, switches & 1, (switches >> 1) & 1, (switches >> 2) & 1, (switches >> 3) & 1}, 5);
    for (int u = 0; u < 4; u++, at += 8) {
        uint8_t clearance = byte_below(6), role = byte_below(3), trusted = random_below(5) == 0;
        uint8_t set = categories && random_below(3) ? categories : random_set(categories);
        memcpy(s + at, (uint8_t[5]){1, clearance, role, trusted, set}, 5);
    }
    for (size_t t = 0; t < objects; t++, at += 8) {
        uint8_t kind = byte_below(4), level = or_unset(6), category = or_unset(3), datatype = random_below(4) == 0;
        uint8_t flags = random_flags(), parent = directories && random_below(2) ? parents[random_below((uint32_t)directories)] : 0;
        memcpy(s + at, (uint8_t[8]){2, kind, level, category, datatype, flags, parent, level == HV_UNSET ? 0 : random_set(categories)}, 8);
        if (kind == HV_DIRECTORY) parents[directories++] = (uint8_t)(t + 1);
    }
    return at;
}

/* Numbers that are often good: few processes, few objects. */
static void random_call(uint8_t c[4])
{
    c[0] = (uint8_t)(random_below(40) ? random_below(22) : random_below(256));
    c[1] = (uint8_t)(random_below(40) ? random_below(4) : random_below(256));
    c[2] = (uint8_t)(random_below(40) ? random_below(20) : random_below(256));
    c[3] = (uint8_t)(random_below(40) ? random_below(4) : random_below(256));
}

/* One for a set-up without categories: of set-level t is the set. */
static void random_call_by_level(uint8_t c[4])
{
    random_call(c);
    if (c[0] == HV_SET_LEVEL) c[2] = 0;
}

static int same_current(const hv_facility *f, uint8_t p, uint8_t q)
{
    return f->currents[p] == f->currents[q] && f->currentsets[p] == f->currentsets[q];
}

/* A login, a set-level or a signal among few processes, the signal to one of the same label where there is one. */
static void random_signal(const hv_facility *f, uint8_t c[4])
{
    uint8_t p = byte_below(4), q = byte_below(4), other = byte_below(4), way = byte_below(6);
    for (int k = 0; k < 4 && way != 2 && (f->runnings[q] != 1 || !same_current(f, p, q)); k++) q = (uint8_t)((q + 1) % 4);
    if (f->runnings[p] != 1) memcpy(c, (uint8_t[4]){HV_LOGIN, p, 0, byte_below(4)}, 4);
    else if (way == 0) memcpy(c, (uint8_t[4]){HV_SET_LEVEL, p, random_set(f->clearancesets[f->owners[p] % HV_USERS]), byte_below(6)}, 4);
    else if (way == 1) memcpy(c, (uint8_t[4]){HV_SET_LEVEL, p, f->currentsets[other], f->currents[other]}, 4);
    else memcpy(c, (uint8_t[4]){HV_SEND_SIGNAL, p, q, 0}, 4);
}

/* A login, a clone, a terminate or, mostly, a call of class R, W or B, so that levels move; of processes whose level few other calls set. */
static void random_move(const hv_facility *f, uint8_t c[4])
{
    static const uint8_t requests[] = {HV_READ_OPEN, HV_READ_OPEN, HV_EXECUTE, HV_SEARCH, HV_GET_STATUS_DATA, HV_WRITE_OPEN, HV_WRITE_OPEN,
                                       HV_READ_WRITE_OPEN, HV_WRITE, HV_CREATE, HV_ALTER, HV_MODIFY_ACCESS_DATA};
    enum { READS = 5 };
    uint8_t p = (uint8_t)(4 + byte_below(4)), way = byte_below(16);
    if (f->runnings[p] != 1) memcpy(c, (uint8_t[4]){HV_LOGIN, p, 0, byte_below(4)}, 4);
    else if (way < 2) memcpy(c, (uint8_t[4]){HV_TERMINATE, p, 0, 0}, 4);
    else if (way == 2) memcpy(c, (uint8_t[4]){HV_CLONE, p, (uint8_t)(4 + byte_below(4)), 0}, 4);
    else
        for (int k = 0; k < 8 && (k == 0 || plain_query(f, c[0], p, c[2], c[3]).number != 0); k++) {
            uint8_t request = requests[random_below(way < 8 ? READS : sizeof requests)], t = byte_below(34), e = byte_below(2);
            memcpy(c, (uint8_t[4]){request, p, t, e}, 4);
        }
}

/* Puts two processes to one label with a read mark below it, also with MAC off, where calls leave every label as at login. */
static void put_labels(hv_facility *f, uint8_t p, uint8_t q, hv_label label)
{
    if (p >= HV_PROCESSES || q >= HV_PROCESSES || f->runnings[p] != 1 || f->runnings[q] != 1) return;
    f->currents[p] = f->currents[q] = label.level;
    f->readmarks[p] = f->readmarks[q] = label.level / 2;
    f->currentsets[p] = f->currentsets[q] = label.set;
    f->readsets[p] = f->readsets[q] = label.set & 0x55;
}

/* Any byte as the set of one of the three labels of a process that runs. */
static void put_set(hv_facility *f, uint8_t p, uint32_t which, uint8_t set)
{
    if (p >= HV_PROCESSES || f->runnings[p] != 1) return;
    if (which == 0) f->currentsets[p] = set;
    else if (which == 1) f->readsets[p] = set;
    else f->writesets[p] = set;
}

/* All of a facility but its padding. */
static int same(const hv_facility *a, const hv_facility *b)
{
    enum { PAD = offsetof(hv_facility, opens) + HV_PROCESSES * HV_OBJECTS, PAD_END = offsetof(hv_facility, refusals) };
    enum { TAIL = offsetof(hv_facility, writesets) + HV_PROCESSES };
    return memcmp(a, b, PAD) == 0 && memcmp((const uint8_t *)a + PAD_END, (const uint8_t *)b + PAD_END, TAIL - PAD_END) == 0;
}

/* Set-ups written out, also after deletions, are the same. */
static int same_written(const hv_facility *plain, const hv_facility *proved)
{
    uint8_t out[HV_SETUP_MOST], at[HV_SETUP_MOST], again[HV_SETUP_MOST];
    size_t n = plain_write_setup(plain, again, sizeof again);
    return hv_write_setup(*proved, out, sizeof out).length == n && memcmp(out, again, n) == 0
        && hv_write_setup_at(proved, at, sizeof at).length == n && memcmp(at, again, n) == 0;
}

/* The effective flags of a live object, and where it has each of them from. */
static int same_flags(const hv_facility *plain, const hv_facility *proved, uint8_t t)
{
    static const uint8_t each[] = {HV_READ_ONLY, HV_NO_EXECUTE, HV_NO_DELETE, HV_SEARCH_ONLY, HV_ADD_INHERITED};
    if (t >= HV_OBJECTS || plain->lives[t] != 1) return 1;
    for (size_t k = 0; k < sizeof each; k++)
        if (hv_flag_source(*proved, t, each[k]) != plain_flag_source(plain, t, each[k])) return 0;
    return hv_effective_flags(*proved, t) == plain_effective_flags(plain, t);
}

/* The next call, many of them signals or moves. Now and then an object is put open for both at a process that runs, so that a write meets a
 * read-only one, or sender and receiver of a signal are put to one label, or the moves of the caller to the stop or next to it, or a set of the
 * caller to any byte. */
static void next_call(hv_facility *plain, hv_facility *proved, uint8_t c[4])
{
    uint32_t way = random_below(6);
    if (way == 0) random_signal(plain, c);
    else if (way == 1) random_move(plain, c);
    else random_call(c);
    if (random_below(8) == 0 && c[1] < HV_PROCESSES && c[2] < HV_OBJECTS && plain->runnings[c[1]] == 1 && plain->lives[c[2]] == 1)
        plain->opens[c[1] * HV_OBJECTS + c[2]] = proved->opens[c[1] * HV_OBJECTS + c[2]] = HV_OPEN_READING | HV_OPEN_WRITING;
    if (c[0] == HV_SEND_SIGNAL && random_below(8) == 0) {
        hv_label label = {byte_below(6), random_set(random_categories())};
        put_labels(plain, c[1], c[2], label);
        put_labels(proved, c[1], c[2], label);
    }
    if (random_below(64) == 0) {
        uint32_t which = random_below(3);
        uint8_t set = byte_below(256);
        put_set(plain, c[1], which, set);
        put_set(proved, c[1], which, set);
    }
    if (way == 1 && random_below(8) == 0) plain->moves[c[1]] = proved->moves[c[1]] = (uint8_t)(UINT8_MAX - byte_below(3));
}

/* What the calls of the agreement did. */
static struct { long accepted, signals, raised, left, moved, stopped, sets, joined, apart; } seen;

/* Counts a call by the caller's and the target's process before it and after it. */
static void count_seen(const hv_facility *before, const hv_facility *after, const uint8_t c[4], hv_outcome o)
{
    uint8_t p = c[1] % HV_PROCESSES, receiver = c[2] % HV_PROCESSES;
    if (c[0] == HV_SEND_SIGNAL && o.number == HV_DENIED) seen.apart += before->currents[p] == before->currents[receiver];
    if (o.number != 0) return;
    seen.accepted++;
    if (c[0] == HV_SEND_SIGNAL) {
        seen.signals++;
        seen.raised += after->readmarks[receiver] != before->readmarks[receiver] || after->readsets[receiver] != before->readsets[receiver];
        seen.left += after->readmarks[receiver] != after->currents[receiver] || after->readsets[receiver] != after->currentsets[receiver];
    }
    if (c[0] == HV_LOGIN || c[0] == HV_TERMINATE || c[0] == HV_SET_LEVEL) return;
    int set = after->currentsets[p] != before->currentsets[p];
    seen.moved += after->moves[p] > before->moves[p];
    seen.stopped += (set || after->currents[p] != before->currents[p]) && after->moves[p] == before->moves[p];
    seen.sets += set;
    seen.joined += set && c[2] < HV_OBJECTS && after->currentsets[p] != before->sets[c[2]];
}

static int enough_seen(void)
{
    printf("agreement\t%d\t%ld\n", TRIALS, seen.accepted);
    printf("signals\t%ld\t%ld\t%ld\n", seen.signals, seen.raised, seen.left);
    printf("moves\t%ld\t%ld\n", seen.moved, seen.stopped);
    printf("labels\t%ld\t%ld\t%ld\n", seen.sets, seen.joined, seen.apart);
    if (seen.raised < RAISED || seen.left < RAISED) return printf("too few signals that raise a mark, or leave one below the label\n"), 0;
    if (seen.moved < MOVED || seen.stopped < STOPPED) return printf("too few moves, or moves at the stop\n"), 0;
    if (seen.sets < MOVED || seen.joined < JOINED || seen.apart < APART)
        return printf("too few moves of the set, or to the sets of two, or signals refused at one level\n"), 0;
    return 1;
}

/* Random calls on random set-ups: outcome, state, query, flags, the bound on moves and set-up written out are the same. */
static int agree(void)
{
    static hv_facility plain, proved;
    for (long k = 0, rest = 0; k < TRIALS; k++, rest--) {
        if (rest == 0) {
            uint8_t s[HV_SETUP_MOST];
            uint16_t index;
            if (k > 0 && !same_written(&plain, &proved)) return printf("set-ups written out after calls differ\n"), 0;
            size_t n = random_setup(s, (int)random_below(16), random_categories());
            if (random_below(10) == 0) s[random_below((uint32_t)n)] = (uint8_t)random_below(256);
            uint8_t number = plain_read_setup(&plain, s, n, &index);
            hv_reading r = hv_read_setup(s, n);
            hv_setup_numbers at = hv_read_setup_at(s, n, &proved);
            if (at.number != number || at.index != index || !same(&plain, &proved)) return printf("set-ups in place differ\n"), 0;
            proved = r.facility;
            if (r.number != number || r.index != index || !same(&plain, &proved)) return printf("set-ups differ\n"), 0;
            if (!same_written(&plain, &proved)) return printf("set-ups written out differ\n"), 0;
            rest = 400;
        }
        uint8_t c[4];
        next_call(&plain, &proved, c);
        hv_facility before = plain;
        hv_outcome q = hv_query(proved, call_of(c));
        hv_enforced e = hv_enforce(proved, call_of(c));
        hv_facility place = proved;
        hv_outcome qa = hv_query_at(&place, call_of(c));
        hv_outcome ea = hv_enforce_at(&place, call_of(c));
        hv_outcome o = plain_enforce(&plain, c[0], c[1], c[2], c[3]);
        hv_facility inlined = before;
        hv_outcome qi = inlined_query(&inlined, c[0], c[1], c[2], c[3]);
        hv_outcome ei = inlined_enforce(&inlined, c[0], c[1], c[2], c[3]);
        proved = e.facility;
        if (memcmp(&o, &qi, sizeof o) != 0 || memcmp(&o, &ei, sizeof o) != 0 || !same(&plain, &inlined))
            return printf("call %d %d %d %d inlined differs: %d, %d and %d\n", c[0], c[1], c[2], c[3], o.number, qi.number, ei.number), 0;
        if (memcmp(&o, &qa, sizeof o) != 0 || memcmp(&o, &ea, sizeof o) != 0 || !same(&plain, &place))
            return printf("call %d %d %d %d in place differs: %d, %d and %d\n", c[0], c[1], c[2], c[3], o.number, qa.number, ea.number), 0;
        count_seen(&before, &plain, c, o);
        if (memcmp(&o, &e.outcome, sizeof o) != 0 || memcmp(&o, &q, sizeof o) != 0 || !same(&plain, &proved))
            return printf("call %d %d %d %d differs: %d and %d\n", c[0], c[1], c[2], c[3], o.number, e.outcome.number), 0;
        if (!same_flags(&plain, &proved, c[2]) || (o.number == 0 && !same_flags(&plain, &proved, o.object)))
            return printf("flags after call %d %d %d %d differ\n", c[0], c[1], c[2], c[3]), 0;
        if (hv_most_moves(proved, c[3]) != plain_most_moves(&plain, c[3])) return printf("most moves of user %d differ\n", c[3]), 0;
    }
    return enough_seen();
}

/* Calls in a list, each taken for what it comes to from a state that goes on with them. */
typedef struct { uint8_t calls[CALLS][4]; hv_facility start; int n; } list;

enum wanted { ANY, REFUSED, ACCEPTED };

static void make(list *l, const hv_facility *start, enum wanted wanted)
{
    hv_facility f = l->start = *start;
    l->n = 0;
    for (long tries = 0; l->n < CALLS && tries < 4000000; tries++) {
        uint8_t c[4];
        random_call_by_level(c);
        hv_outcome o = plain_query(&f, c[0], c[1], c[2], c[3]);
        if ((wanted == REFUSED && o.number == 0) || (wanted == ACCEPTED && o.number != 0)) continue;
        if (f.entered > 120 && c[0] == HV_CREATE && o.number == 0) continue;
        plain_enforce(&f, c[0], c[1], c[2], c[3]);
        memcpy(l->calls[l->n++], c, 4);
    }
}

static double now(void)
{
    struct timespec t;
    clock_gettime(CLOCK_MONOTONIC, &t);
    return (double)t.tv_sec * 1e9 + (double)t.tv_nsec;
}

static volatile uint32_t sink;

static void proved_query(const list *l)
{
    uint32_t sum = 0;
    for (int k = 0; k < l->n; k++) sum += hv_query(l->start, call_of(l->calls[k])).number;
    sink = sum;
}

static void proved_query_at(const list *l)
{
    uint32_t sum = 0;
    for (int k = 0; k < l->n; k++) sum += hv_query_at(&l->start, call_of(l->calls[k])).number;
    sink = sum;
}

static void proved_enforce_at(const list *l)
{
    hv_facility f = l->start;
    uint32_t sum = 0;
    for (int k = 0; k < l->n; k++) sum += hv_enforce_at(&f, call_of(l->calls[k])).number;
    sink = f.refusals[0] + sum;
}

static void in_place_query(const list *l)
{
    uint32_t sum = 0;
    for (int k = 0; k < l->n; k++) sum += plain_query(&l->start, l->calls[k][0], l->calls[k][1], l->calls[k][2], l->calls[k][3]).number;
    sink = sum;
}

static void inlined_in_place_query(const list *l)
{
    uint32_t sum = 0;
    for (int k = 0; k < l->n; k++) sum += inlined_query(&l->start, l->calls[k][0], l->calls[k][1], l->calls[k][2], l->calls[k][3]).number;
    sink = sum;
}

static void by_value_query(const list *l)
{
    uint32_t sum = 0;
    for (int k = 0; k < l->n; k++) sum += plain_query_by_value(l->start, l->calls[k][0], l->calls[k][1], l->calls[k][2], l->calls[k][3]).number;
    sink = sum;
}

static void proved_enforce(const list *l)
{
    hv_enforced e = {.facility = l->start};
    for (int k = 0; k < l->n; k++) e = hv_enforce(e.facility, call_of(l->calls[k]));
    sink = e.facility.refusals[0];
}

static void in_place_enforce(const list *l)
{
    hv_facility f = l->start;
    uint32_t sum = 0;
    for (int k = 0; k < l->n; k++) sum += plain_enforce(&f, l->calls[k][0], l->calls[k][1], l->calls[k][2], l->calls[k][3]).number;
    sink = f.refusals[0] + sum;
}

static void inlined_in_place_enforce(const list *l)
{
    hv_facility f = l->start;
    uint32_t sum = 0;
    for (int k = 0; k < l->n; k++) sum += inlined_enforce(&f, l->calls[k][0], l->calls[k][1], l->calls[k][2], l->calls[k][3]).number;
    sink = f.refusals[0] + sum;
}

static void by_value_enforce(const list *l)
{
    hv_enforced e = {.facility = l->start};
    for (int k = 0; k < l->n; k++) e = plain_enforce_by_value(e.facility, l->calls[k][0], l->calls[k][1], l->calls[k][2], l->calls[k][3]);
    sink = e.facility.refusals[0];
}

/* The proved facility on the whole list in one call: enforce and a line, by value within the library. */
static void proved_block(const list *l)
{
    static uint8_t out[CALLS * HV_LINE_MOST + HV_SHORT_MOST];
    sink = (uint32_t)hv_put_block(l->start, 1, l->calls[0], (size_t)l->n * 4, out, sizeof out).length;
}

static void proved_block_at(const list *l)
{
    static uint8_t out[CALLS * HV_LINE_MOST + HV_SHORT_MOST];
    hv_facility f = l->start;
    sink = (uint32_t)hv_put_block_at(&f, 1, l->calls[0], (size_t)l->n * 4, out, sizeof out);
}

static void in_place_block(const list *l)
{
    static char out[CALLS * HV_LINE_MOST + HV_SHORT_MOST];
    hv_facility f = l->start;
    size_t at = 0;
    for (int k = 0; k < l->n; k++) {
        hv_outcome o = plain_enforce(&f, l->calls[k][0], l->calls[k][1], l->calls[k][2], l->calls[k][3]);
        at += plain_line(out + at, (uint64_t)k + 1, l->calls[k], &f, o);
    }
    sink = (uint32_t)at;
}

static void inlined_in_place_block(const list *l)
{
    static char out[CALLS * HV_LINE_MOST + HV_SHORT_MOST];
    hv_facility f = l->start;
    size_t at = 0;
    for (int k = 0; k < l->n; k++) {
        hv_outcome o = inlined_enforce(&f, l->calls[k][0], l->calls[k][1], l->calls[k][2], l->calls[k][3]);
        at += plain_line(out + at, (uint64_t)k + 1, l->calls[k], &f, o);
    }
    sink = (uint32_t)at;
}

static int by_size(const void *a, const void *b)
{
    double x = *(const double *)a, y = *(const double *)b;
    return (x > y) - (x < y);
}

enum { WORKS = 5 };
typedef void work(const list *);

/* Where it is, proved, plain and inlined; by value, proved and plain; NULL where there is nothing to measure. In each round each takes its turn, so
 * that a slow moment of the machine falls on all of them. Of each: nanoseconds for a call, the best and the median of the rounds. */
static void row(const char *table, const char *name, const list *l, work *const works[WORKS])
{
    static double t[WORKS][ROUNDS];
    for (int r = -WARM; r < ROUNDS; r++)
        for (int k = 0; k < WORKS; k++) {
            if (!works[k]) continue;
            double from = now();
            works[k](l);
            if (r >= 0) t[k][r] = (now() - from) / l->n;
        }
    printf("%s\t%s", table, name);
    for (int k = 0; k < WORKS; k++) {
        if (!works[k]) {
            printf("\t-\t-");
            continue;
        }
        qsort(t[k], ROUNDS, sizeof t[k][0], by_size);
        printf("\t%.2f\t%.2f", t[k][0], t[k][ROUNDS / 2]);
    }
    printf("\n");
    fflush(stdout);
}

static uint8_t setup_bytes[HV_SETUP_MOST];
static size_t setup_length;

/* The set-up read into a facility where it is, by value, and in plain C. */
static void proved_read_at(const list *l)
{
    static hv_facility f;
    for (int k = 0; k < l->n; k++) sink = hv_read_setup_at(setup_bytes, setup_length, &f).number;
}

static void proved_read(const list *l)
{
    for (int k = 0; k < l->n; k++) sink = hv_read_setup(setup_bytes, setup_length).number;
}

static void in_place_read(const list *l)
{
    static hv_facility f;
    uint16_t index;
    for (int k = 0; k < l->n; k++) sink = plain_read_setup(&f, setup_bytes, setup_length, &index);
}

/* The same, and what was read is written out. */
static void proved_setup_at(const list *l)
{
    static hv_facility f;
    uint8_t out[HV_SETUP_MOST];
    for (int k = 0; k < l->n; k++) {
        hv_read_setup_at(setup_bytes, setup_length, &f);
        sink = (uint32_t)hv_write_setup_at(&f, out, sizeof out).length;
    }
}

static void proved_setup(const list *l)
{
    for (int k = 0; k < l->n; k++) {
        hv_reading r = hv_read_setup(setup_bytes, setup_length);
        uint8_t out[HV_SETUP_MOST];
        sink = (uint32_t)hv_write_setup(r.facility, out, sizeof out).length;
    }
}

static void in_place_setup(const list *l)
{
    for (int k = 0; k < l->n; k++) {
        static hv_facility f;
        uint8_t out[HV_SETUP_MOST];
        uint16_t index;
        plain_read_setup(&f, setup_bytes, setup_length, &index);
        sink = (uint32_t)plain_write_setup(&f, out, sizeof out);
    }
}

/* The set-up of the facility that a list begins with, written out. */
static void proved_write_at(const list *l)
{
    uint8_t out[HV_SETUP_MOST];
    for (int k = 0; k < l->n; k++) sink = (uint32_t)hv_write_setup_at(&l->start, out, sizeof out).length;
}

static void proved_write(const list *l)
{
    uint8_t out[HV_SETUP_MOST];
    for (int k = 0; k < l->n; k++) sink = (uint32_t)hv_write_setup(l->start, out, sizeof out).length;
}

static void in_place_write(const list *l)
{
    uint8_t out[HV_SETUP_MOST];
    for (int k = 0; k < l->n; k++) sink = (uint32_t)plain_write_setup(&l->start, out, sizeof out);
}

enum { DEPTH = 127, BELOW = 127 };

/* FF on, 127 directories, all with add-inherited, and a file, number 127, with it too; each in the one before, or none with a parent. */
static size_t chain_setup(uint8_t *s, int parents)
{
    size_t at = 16;
    memset(s, 0, HV_SETUP_MOST);
    memcpy(s, (uint8_t[16]){3, 1, 1, 1, 1, 0, 0, 0, 1, 5}, 16);
    for (int t = 0; t <= DEPTH; t++, at += 8) {
        uint8_t kind = t < DEPTH ? HV_DIRECTORY : HV_FILE, parent = parents ? (uint8_t)t : 0;
        memcpy(s + at, (uint8_t[7]){2, kind, 0, 0, 0, HV_ADD_INHERITED, parent}, 7);
    }
    return at;
}

/* The same calls on a file without a parent and on one below a chain of 127 directories. */
static int chains(list *l)
{
    static const struct { uint8_t request; const char *name; int query; } each[] = {
        {HV_WRITE_OPEN, "query of write-open", 1},
        {HV_EXECUTE, "query of execute", 1},
        {HV_WRITE_OPEN, "write-open", 0},
        {HV_EXECUTE, "execute", 0},
        {HV_READ_OPEN, "read-open, which no flag forbids", 0},
    };
    work *const asked[WORKS] = {proved_query_at, in_place_query, inlined_in_place_query, NULL, NULL};
    work *const done[WORKS] = {proved_enforce_at, in_place_enforce, inlined_in_place_enforce, NULL, NULL};
    for (size_t k = 0; k < sizeof each / sizeof each[0]; k++)
        for (int deep = 0; deep < 2; deep++) {
            uint8_t s[HV_SETUP_MOST];
            uint16_t index;
            if (plain_read_setup(&l->start, s, chain_setup(s, deep), &index) != 0) return 0;
            for (uint8_t p = 0; p < 2; p++) plain_enforce(&l->start, HV_LOGIN, p, 0, 0);
            l->n = CALLS;
            for (int i = 0; i < CALLS; i++) memcpy(l->calls[i], (uint8_t[4]){each[k].request, (uint8_t)(i % 2), BELOW, 0}, 4);
            for (uint8_t p = 0; p < 2; p++)
                if (plain_query(&l->start, each[k].request, p, BELOW, 0).number != 0) return 0;
            row(deep ? "deep" : "flat", each[k].name, l, each[k].query ? asked : done);
        }
    return 1;
}

int main(void)
{
    static list l;
    static hv_facility f, start;
    uint16_t index;
    if (!agree()) return 1;
    seed = 7;
    setup_length = random_setup(setup_bytes, 15, 0);
    plain_read_setup(&start, setup_bytes, setup_length, &index);
    start.mac = start.fc = start.sim = start.ff = 1;
    f = start;
    for (int k = 0; k < 300; k++) {
        uint8_t c[4];
        random_call_by_level(c);
        plain_enforce(&f, c[0], c[1], c[2], c[3]);
    }
    work *const queries[WORKS] = {proved_query_at, in_place_query, inlined_in_place_query, proved_query, by_value_query};
    work *const enforces[WORKS] = {proved_enforce_at, in_place_enforce, inlined_in_place_enforce, proved_enforce, by_value_enforce};
    work *const blocks[WORKS] = {proved_block_at, in_place_block, inlined_in_place_block, proved_block, NULL};
    work *const reads[WORKS] = {proved_read_at, in_place_read, NULL, proved_read, NULL};
    work *const setups[WORKS] = {proved_setup_at, in_place_setup, NULL, proved_setup, NULL};
    work *const writes[WORKS] = {proved_write_at, in_place_write, NULL, proved_write, NULL};
    make(&l, &f, ANY);
    row("call", "query", &l, queries);
    row("call", "enforce, any", &l, enforces);
    make(&l, &f, REFUSED);
    row("call", "enforce, refused", &l, enforces);
    make(&l, &f, ACCEPTED);
    row("call", "enforce, accepted", &l, enforces);
    static const struct { uint8_t a[4], b[4]; const char *name; } each[] = {
        {{HV_READ, 0, 1, 0}, {HV_READ, 0, 1, 0}, "read"},
        {{HV_READ_OPEN, 0, 1, 0}, {HV_READ_OPEN, 1, 1, 0}, "read-open"},
        {{HV_WRITE_OPEN, 0, 1, 0}, {HV_CLOSE, 0, 1, 0}, "write-open and close"},
        {{HV_SEND_SIGNAL, 0, 1, 0}, {HV_SEND_SIGNAL, 1, 0, 0}, "send-signal"},
        {{HV_SET_LEVEL, 0, 0, 0}, {HV_SET_LEVEL, 1, 0, 0}, "set-level"},
        {{HV_LOGIN, 9, 0, 0}, {HV_TERMINATE, 9, 0, 0}, "login and terminate"},
        {{HV_CLONE, 0, 9, 0}, {HV_TERMINATE, 9, 0, 0}, "clone and terminate"},
    };
    static const uint8_t small[] = {
        3, 1, 1, 1, 1, 0, 0, 0,
        1, 5, 0, 0, 0, 0, 0, 0,
        2, HV_DIRECTORY, 0, 0, 0, 0, 0, 0,
        2, HV_FILE, 0, 0, 0, HV_ADD_INHERITED, 1, 0,
    };
    plain_read_setup(&start, small, sizeof small, &index);
    for (uint8_t p = 0; p < 2; p++) {
        plain_enforce(&start, HV_LOGIN, p, 0, 0);
        plain_enforce(&start, HV_READ_WRITE_OPEN, p, 1, 0);
    }
    for (size_t k = 0; k < sizeof each / sizeof each[0]; k++) {
        l.start = start;
        l.n = CALLS;
        for (int i = 0; i < CALLS; i++) memcpy(l.calls[i], i % 2 ? each[k].b : each[k].a, 4);
        hv_facility g = start;
        for (int i = 0; i < CALLS; i++)
            if (plain_enforce(&g, l.calls[i][0], l.calls[i][1], l.calls[i][2], l.calls[i][3]).number != 0) return printf("%s is refused\n", each[k].name), 1;
        row("call", each[k].name, &l, enforces);
    }
    if (!chains(&l)) return printf("a call below the chain is refused\n"), 1;
    make(&l, &f, ANY);
    row("whole", "enforce and line, in blocks", &l, blocks);
    l.n = 64;
    row("whole", "set-up read", &l, reads);
    row("whole", "set-up read and written out", &l, setups);
    row("whole", "set-up written out", &l, writes);
    return 0;
}
