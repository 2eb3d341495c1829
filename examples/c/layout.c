/* Checks that hvozdalka.h and the library agree: the sizes and offsets of each struct, each field by its value through the library, and that
 * a call on the bytes of a facility where it is does what the call by value does, so that both take each field from the same place. */
#include <stddef.h>
#include <stdio.h>
#include <stdlib.h>
#include <string.h>

#include "hvozdalka.h"

static int failures, checks;

static void expect(int holds, const char *what, int number)
{
    checks++;
    if (!holds) {
        failures++;
        printf("differs: %s %d\n", what, number);
    }
}

_Static_assert(offsetof(hv_facility, mac) == 0, "mac");
_Static_assert(offsetof(hv_facility, fc) == 1, "fc");
_Static_assert(offsetof(hv_facility, sim) == 2, "sim");
_Static_assert(offsetof(hv_facility, users) == 3, "users");
_Static_assert(offsetof(hv_facility, clearances) == 4, "clearances");
_Static_assert(offsetof(hv_facility, roles) == 20, "roles");
_Static_assert(offsetof(hv_facility, trusts) == 36, "trusts");
_Static_assert(offsetof(hv_facility, entered) == 52, "entered");
_Static_assert(offsetof(hv_facility, lives) == 53, "lives");
_Static_assert(offsetof(hv_facility, kinds) == 181, "kinds");
_Static_assert(offsetof(hv_facility, levels) == 309, "levels");
_Static_assert(offsetof(hv_facility, categories) == 437, "categories");
_Static_assert(offsetof(hv_facility, datatypes) == 565, "datatypes");
_Static_assert(offsetof(hv_facility, runnings) == 693, "runnings");
_Static_assert(offsetof(hv_facility, owners) == 725, "owners");
_Static_assert(offsetof(hv_facility, currents) == 757, "currents");
_Static_assert(offsetof(hv_facility, readmarks) == 789, "readmarks");
_Static_assert(offsetof(hv_facility, writemarks) == 821, "writemarks");
_Static_assert(offsetof(hv_facility, automatics) == 853, "automatics");
_Static_assert(offsetof(hv_facility, opens) == 885, "opens");
_Static_assert(offsetof(hv_facility, refusals) == 4984, "refusals");
_Static_assert(offsetof(hv_facility, ff) == 5048, "ff");
_Static_assert(offsetof(hv_facility, flags) == 5049, "flags");
_Static_assert(offsetof(hv_facility, parents) == 5177, "parents");
_Static_assert(offsetof(hv_facility, moves) == 5305, "moves");
_Static_assert(offsetof(hv_facility, clearancesets) == 5337, "clearancesets");
_Static_assert(offsetof(hv_facility, sets) == 5353, "sets");
_Static_assert(offsetof(hv_facility, currentsets) == 5481, "currentsets");
_Static_assert(offsetof(hv_facility, readsets) == 5513, "readsets");
_Static_assert(offsetof(hv_facility, writesets) == 5545, "writesets");
_Static_assert(sizeof(hv_facility) == 5580, "facility");
_Static_assert(offsetof(hv_enforced, outcome) == 5580 && sizeof(hv_enforced) == 5588, "enforced");
_Static_assert(offsetof(hv_reading, number) == 5580 && offsetof(hv_reading, index) == 5582 && sizeof(hv_reading) == 5584, "reading");
_Static_assert(offsetof(hv_printed, length) == 5584 && sizeof(hv_printed) == 5592, "printed");
_Static_assert(sizeof(hv_call) == 5 && offsetof(hv_call, request) == 0 && offsetof(hv_call, process) == 1 && offsetof(hv_call, target) == 2
               && offsetof(hv_call, extra) == 3 && offsetof(hv_call, seat) == 4, "call");
_Static_assert(sizeof(hv_outcome) == 7 && offsetof(hv_outcome, object) == 5 && offsetof(hv_outcome, ff) == 6, "outcome");
_Static_assert(sizeof(hv_writing) == 16 && offsetof(hv_writing, number) == 8, "writing");
_Static_assert(sizeof(hv_label) == 2 && offsetof(hv_label, level) == 0 && offsetof(hv_label, set) == 1, "label");
_Static_assert(sizeof(hv_user_record) == 4 && sizeof(hv_process_record) == 10 && sizeof(hv_object_record) == 8, "records");
_Static_assert(offsetof(hv_user_record, clearance) == 0 && offsetof(hv_user_record, role) == 2 && offsetof(hv_user_record, trusted) == 3, "user record");
_Static_assert(offsetof(hv_process_record, current) == 2 && offsetof(hv_process_record, readmark) == 4 && offsetof(hv_process_record, writemark) == 6
               && offsetof(hv_process_record, automatic) == 8 && offsetof(hv_process_record, moves) == 9, "process record");
_Static_assert(offsetof(hv_object_record, label) == 2 && offsetof(hv_object_record, category) == 4 && offsetof(hv_object_record, datatype) == 5
               && offsetof(hv_object_record, flags) == 6 && offsetof(hv_object_record, parent) == 7, "object record");
_Static_assert(sizeof(hv_summary_record) == 6 && offsetof(hv_summary_record, entered) == 4 && offsetof(hv_summary_record, ff) == 5, "summary");

_Static_assert(sizeof(hv_held) == 4 && offsetof(hv_held, number) == 1 && offsetof(hv_held, index) == 2, "held");
_Static_assert(sizeof(hv_setup_numbers) == 4 && offsetof(hv_setup_numbers, index) == 2, "set-up numbers");
_Static_assert(offsetof(hv_account, kinds) == 1 && offsetof(hv_account, objects) == 136 && offsetof(hv_account, processes) == 2184
               && sizeof(hv_account) == 2696, "account");

_Static_assert(sizeof(hv_failed) == 10 && offsetof(hv_failed, unset) == 0 && offsetof(hv_failed, fixed) == 1 && offsetof(hv_failed, clearance) == 2
               && offsetof(hv_failed, writemark) == 3 && offsetof(hv_failed, readmark) == 4 && offsetof(hv_failed, receiver) == 5
               && offsetof(hv_failed, nocategory) == 6 && offsetof(hv_failed, category) == 7 && offsetof(hv_failed, datatype) == 8
               && offsetof(hv_failed, flag) == 9, "failed");

/* The paddings: from, and behind the last byte. */
enum { PAD = offsetof(hv_facility, opens) + HV_PROCESSES * HV_OBJECTS, PAD_END = offsetof(hv_facility, refusals) };
enum { TAIL = offsetof(hv_facility, writesets) + HV_PROCESSES, TAIL_END = sizeof(hv_facility) };
_Static_assert(PAD == 4981 && PAD_END == 4984 && TAIL == 5577 && TAIL_END == 5580, "paddings");

static const uint8_t each_flag[] = {HV_READ_ONLY, HV_NO_EXECUTE, HV_NO_DELETE, HV_SEARCH_ONLY, HV_ADD_INHERITED};

/* The call of four bytes. */
static hv_call call_of(const uint8_t c[4])
{
    return (hv_call){c[0], c[1], c[2], c[3], 0};
}

static int label_is(hv_label label, int level, int set)
{
    return label.level == level && label.set == set;
}

static void processes(hv_facility f)
{
    for (int p = 0; p < 256; p++) {
        hv_process_record r = hv_process(f, (uint8_t)p);
        int is = p < HV_PROCESSES;
        expect(r.running == (is ? f.runnings[p] : 0), "running", p);
        expect(r.owner == (is ? f.owners[p] : 0), "owner", p);
        expect(label_is(r.current, is ? f.currents[p] : 0, is ? f.currentsets[p] : 0), "current", p);
        expect(label_is(r.readmark, is ? f.readmarks[p] : 0, is ? f.readsets[p] : 0), "read mark", p);
        expect(label_is(r.writemark, is ? f.writemarks[p] : 0, is ? f.writesets[p] : 0), "write mark", p);
        expect(r.automatic == (is ? f.automatics[p] : 0), "automatic", p);
        expect(r.moves == (is ? f.moves[p] : 0), "moves", p);
    }
}

static void users(hv_facility f)
{
    for (int u = 0; u < 256; u++) {
        hv_user_record r = hv_user(f, (uint8_t)u);
        int is = u < HV_USERS;
        uint32_t most = 1u + r.clearance.level;
        for (int bit = 0; bit < 8; bit++) most += r.clearance.set >> bit & 1;
        expect(label_is(r.clearance, is ? f.clearances[u] : 0, is ? f.clearancesets[u] : 0), "clearance", u);
        expect(r.role == (is ? f.roles[u] : 0), "role", u);
        expect(r.trusted == (is ? f.trusts[u] : 0), "trusted", u);
        expect(hv_refusals(f, (uint8_t)u) == (is ? f.refusals[u] : 0), "refusals", u);
        expect(hv_most_moves(f, (uint8_t)u) == most, "most moves", u);
    }
}

/* Each field of a facility of random bytes, as C has it and as the library reads it. */
static void fields(hv_facility f)
{
    users(f);
    processes(f);
    for (int t = 0; t < 256; t++) {
        hv_object_record r = hv_object(f, (uint8_t)t);
        int is = t < HV_OBJECTS;
        expect(r.live == (is ? f.lives[t] : 0), "live", t);
        expect(r.kind == (is ? f.kinds[t] : 0), "kind", t);
        expect(label_is(r.label, is ? f.levels[t] : 0, is ? f.sets[t] : 0), "label", t);
        expect(r.category == (is ? f.categories[t] : 0), "category", t);
        expect(r.datatype == (is ? f.datatypes[t] : 0), "data type", t);
        expect(r.flags == (is ? f.flags[t] : 0), "flags", t);
        expect(r.parent == (is ? f.parents[t] : 0), "parent", t);
        if (!is) {
            expect(hv_effective_flags(f, (uint8_t)t) == 0, "effective flags of a number above 127", t);
            for (size_t k = 0; k < sizeof each_flag; k++)
                expect(hv_flag_source(f, (uint8_t)t, each_flag[k]) == HV_NO_OBJECT, "source for a number above 127", t);
        }
    }
    for (int p = 0; p < 40; p++)
        for (int t = 0; t < 136; t++) {
            int is = p < HV_PROCESSES && t < HV_OBJECTS;
            expect(hv_open_marks(f, (uint8_t)p, (uint8_t)t) == (is ? f.opens[p * HV_OBJECTS + t] & 3 : 0), "open", p * 256 + t);
        }
    hv_summary_record s = hv_summary(f);
    expect(s.mac == f.mac && s.fc == f.fc && s.sim == f.sim && s.ff == f.ff, "switches", 0);
    expect(s.users == f.users && s.entered == f.entered, "counts", 0);
}

/* All of a facility but its padding, which a copy by value may leave. */
static int same_facility(const hv_facility *f, const hv_facility *g)
{
    return memcmp(f, g, PAD) == 0 && memcmp((const uint8_t *)f + PAD_END, (const uint8_t *)g + PAD_END, TAIL - PAD_END) == 0;
}

static int same_paddings(const hv_facility *f, const hv_facility *g)
{
    return memcmp((const uint8_t *)f + PAD, (const uint8_t *)g + PAD, PAD_END - PAD) == 0
        && memcmp((const uint8_t *)f + TAIL, (const uint8_t *)g + TAIL, TAIL_END - TAIL) == 0;
}

/* A call of no request gives the facility back: each byte of it, out of the library. */
static void handed_back(hv_facility f)
{
    hv_enforced e = hv_enforce(f, (hv_call){255, 0, 0, 0, 0});
    expect(same_facility(&e.facility, &f), "facility handed back", 0);
    hv_facility g = f;
    hv_outcome o = hv_enforce_at(&g, (hv_call){255, 0, 0, 0, 0});
    expect(memcmp(&g, &f, sizeof f) == 0 && o.number == HV_NO_REQUEST, "facility where it is", 0);
    expect(e.outcome.number == HV_NO_REQUEST && e.outcome.combined == HV_NOT_CARED && e.outcome.object == HV_NO_OBJECT
           && e.outcome.ff == HV_NOT_CARED, "outcome", 0);
}

static uint8_t below(int n)
{
    return (uint8_t)((rand() >> 7) % n);
}

static void each_below(uint8_t *bytes, size_t n, int limit)
{
    for (size_t i = 0; i < n; i++)
        bytes[i] = below(limit);
}

/* Labels of two categories, so that one set often contains another; some write marks with all eight. */
static void likely_labels(hv_facility *f)
{
    each_below(f->clearances, sizeof f->clearances, 16);
    each_below(f->levels, sizeof f->levels, 17);
    each_below(f->currents, sizeof f->currents, 16);
    each_below(f->readmarks, sizeof f->readmarks, 16);
    each_below(f->writemarks, sizeof f->writemarks, 16);
    each_below(f->clearancesets, sizeof f->clearancesets, 4);
    each_below(f->sets, sizeof f->sets, 4);
    each_below(f->currentsets, sizeof f->currentsets, 4);
    each_below(f->readsets, sizeof f->readsets, 4);
    for (int p = 0; p < HV_PROCESSES; p++) f->writesets[p] = below(2) ? HV_ALL_CATEGORIES : below(4);
    for (int t = 0; t < HV_OBJECTS; t++)
        if (f->levels[t] == 16) f->levels[t] = HV_UNSET;
}

/* A facility in which most numbers mean something, so that calls are decided by each field. */
static hv_facility likely(void)
{
    hv_facility f;
    each_below((uint8_t *)&f, sizeof f, 256);
    each_below(&f.mac, 1, 2);
    each_below(&f.fc, 1, 2);
    each_below(&f.sim, 1, 2);
    each_below(&f.ff, 1, 2);
    f.users = (uint8_t)(HV_USERS - below(4));
    likely_labels(&f);
    each_below(f.roles, sizeof f.roles, 3);
    each_below(f.trusts, sizeof f.trusts, 2);
    f.entered = (uint8_t)(HV_OBJECTS - below(8));
    each_below(f.lives, sizeof f.lives, 2);
    each_below(f.kinds, sizeof f.kinds, 4);
    each_below(f.categories, sizeof f.categories, 4);
    each_below(f.datatypes, sizeof f.datatypes, 2);
    each_below(f.runnings, sizeof f.runnings, 2);
    each_below(f.owners, sizeof f.owners, HV_USERS);
    each_below(f.automatics, sizeof f.automatics, 2);
    each_below(f.opens, sizeof f.opens, 4);
    for (int p = 0; p < HV_PROCESSES; p++) f.moves[p] = below(3) ? below(256) : (uint8_t)(255 - below(2));   /* some at the stop, or next to it */
    for (int t = 0; t < HV_OBJECTS; t++) {
        if (f.categories[t] == 3) f.categories[t] = HV_UNSET;
        f.flags[t] = (uint8_t)((below(3) ? 0 : below(16)) | (below(2) ? HV_ADD_INHERITED : 0));
        f.parents[t] = 0;
        for (int k = 0; k < 4 && t > 0 && f.parents[t] == 0; k++) {
            uint8_t parent = below(t);
            if (f.kinds[parent] == HV_DIRECTORY) f.parents[t] = (uint8_t)(parent + 1);
        }
    }
    return f;
}

/* Whether object t inherits from its parent, and from which. */
static int inherits(const hv_facility *f, int t, int *parent)
{
    *parent = f->parents[t] - 1;
    return (f->flags[t] & HV_ADD_INHERITED) != 0 && *parent >= 0 && f->lives[*parent] == 1;
}

/* The effective flags and where each comes from, of each live object, against a loop up the chain. */
static void flags(hv_facility f)
{
    for (int t = 0; t < HV_OBJECTS; t++) {
        if (f.lives[t] != 1) continue;
        uint8_t sum = f.flags[t];
        int parent;
        for (int at = t; inherits(&f, at, &parent); at = parent) sum |= f.flags[parent] & ~HV_NO_DELETE;
        expect(hv_effective_flags(f, (uint8_t)t) == sum, "effective flags", t);
        for (size_t k = 0; k < sizeof each_flag; k++) {
            int at = t, found = HV_NO_OBJECT;
            while (!(f.flags[at] & each_flag[k]) && inherits(&f, at, &parent)) at = parent;
            if ((sum & each_flag[k]) != 0) found = at;
            expect(hv_flag_source(f, (uint8_t)t, each_flag[k]) == found, "source of a flag", t * 256 + each_flag[k]);
        }
    }
}

/* FF's answer in the outcome's last byte, and both ways to read parents: a file below a directory that is read-only. */
static void shield(void)
{
    static const uint8_t setup[] = {
        3, 0, 0, 0, 1, 0, 0, 0,
        1, 0, 0, 0, 0, 0, 0, 0,
        2, HV_FILE, 0, 0, 0, HV_NO_DELETE, 0, 0,
        2, HV_DIRECTORY, 0, 0, 0, HV_READ_ONLY | HV_NO_DELETE, 0, 0,
        2, HV_FILE, 0, 0, 0, HV_ADD_INHERITED, 2, 0,
    };
    uint8_t out[sizeof setup];
    hv_reading r = hv_read_setup(setup, sizeof setup);
    expect(r.number == HV_ACCEPTED && r.facility.ff == 1 && r.facility.flags[1] == 5 && r.facility.parents[2] == 2, "set-up of a shield", r.number);
    hv_writing w = hv_write_setup(r.facility, out, sizeof out);
    expect(w.number == HV_ACCEPTED && w.length == sizeof setup && memcmp(out, setup, sizeof setup) == 0, "set-up of a shield, written", w.number);
    const hv_call save = {HV_WRITE_OPEN, 0, 2, 0, 0};
    hv_enforce_at(&r.facility, (hv_call){HV_LOGIN, 0, 0, 0, 0});
    hv_outcome o = hv_enforce_at(&r.facility, save);
    expect(o.number == HV_DENIED && o.ff == HV_NOT_GRANTED && o.combined == HV_NOT_GRANTED && o.object == HV_NO_OBJECT, "shield", o.number);
    static const char why[] = " (read-only of object 1)";
    uint8_t said[HV_WHY_MOST];
    size_t n = hv_why_words(r.facility, save, said, sizeof said);
    expect(hv_why(r.facility, save).flag == HV_READ_ONLY && n == strlen(why) && memcmp(said, why, n) == 0, "reason of a shield", (int)n);
    expect(hv_effective_flags(r.facility, 2) == (HV_ADD_INHERITED | HV_READ_ONLY), "effective flags of a shield", 2);
    expect(hv_flag_source(r.facility, 2, HV_READ_ONLY) == 1 && hv_flag_source(r.facility, 2, HV_NO_DELETE) == HV_NO_OBJECT, "source of a shield", 2);
    uint8_t damaged[sizeof setup];
    memcpy(damaged, setup, sizeof setup);
    damaged[sizeof setup - 2] = 1;
    r = hv_read_setup(damaged, sizeof damaged);
    expect(r.number == HV_SETUP_PARENT && r.index == 4, "a parent that is no directory", r.number);
}

/* What an accepted signal does, by value and where the facility is: the receiver's read mark alone changes, and becomes its current label. */
static void signal_to(hv_facility f, uint8_t p, uint8_t t, uint8_t number, int raised, const char *what)
{
    hv_facility g = f, wanted = f;
    if (raised) {
        wanted.readmarks[t] = f.currents[t];
        wanted.readsets[t] = f.currentsets[t];
    }
    if (number == HV_DENIED) wanted.refusals[f.owners[p]]++;
    hv_enforced e = hv_enforce(f, (hv_call){HV_SEND_SIGNAL, p, t, 0, 0});
    hv_outcome o = hv_enforce_at(&g, (hv_call){HV_SEND_SIGNAL, p, t, 0, 0});
    expect(e.outcome.number == number && o.number == number, what, o.number);
    expect(same_facility(&e.facility, &wanted), what, e.facility.readmarks[t]);
    expect(same_facility(&g, &wanted) && same_paddings(&g, &f), what, g.readmarks[t]);
    expect(label_is(hv_process(e.facility, t).readmark, wanted.readmarks[t], wanted.readsets[t]), what, hv_process(e.facility, t).readmark.level);
}

/* Signals to a receiver whose owner is untrusted, trusted, and to itself; upward, and with MAC off. Process 0 has read a file of level 2; processes 1
 * to 3, of an untrusted and a trusted user, set their levels to 2, 2 and 3. */
static void signals(void)
{
    static const uint8_t setup[] = {
        3, 1, 0, 0, 0, 0, 0, 0,
        1, 3, HV_GENERAL, 0, 0, 0, 0, 0,
        1, 3, HV_GENERAL, 1, 0, 0, 0, 0,
        2, HV_FILE, 2, 0, 0, 0, 0, 0,
        2, HV_FILE, 3, 0, 0, 0, 0, 0,
    };
    static const uint8_t calls[][4] = {
        {HV_LOGIN, 0, 0, 0}, {HV_READ_OPEN, 0, 0, 0}, {HV_READ, 0, 0, 0},
        {HV_LOGIN, 1, 0, 0}, {HV_SET_LEVEL, 1, 0, 2},
        {HV_LOGIN, 2, 0, 1}, {HV_SET_LEVEL, 2, 0, 2},
        {HV_LOGIN, 3, 0, 0}, {HV_SET_LEVEL, 3, 0, 3},
    };
    hv_facility f = hv_read_setup(setup, sizeof setup).facility;
    for (size_t k = 0; k < sizeof calls / sizeof calls[0]; k++)
        expect(hv_enforce_at(&f, call_of(calls[k])).number == HV_ACCEPTED, "call before a signal", (int)k);
    expect(f.readmarks[0] == 2 && f.readmarks[1] == 0 && f.readmarks[2] == 0 && f.readmarks[3] == 0, "read marks before a signal", f.readmarks[1]);
    signal_to(f, 0, 1, HV_ACCEPTED, 1, "signal to an untrusted receiver");
    signal_to(f, 0, 2, HV_ACCEPTED, 0, "signal to a trusted receiver");
    signal_to(f, 2, 3, HV_ACCEPTED, 1, "signal of a trusted sender, to another level");
    signal_to(f, 1, 1, HV_ACCEPTED, 1, "signal to itself");
    signal_to(f, 2, 2, HV_ACCEPTED, 0, "signal of a trusted process to itself");
    signal_to(f, 0, 3, HV_DENIED, 0, "signal upward");
    signal_to(f, 3, 0, HV_DENIED, 0, "signal downward");
    signal_to(f, 0, 4, HV_NOT_RUNNING, 0, "signal to a process that does not run");
    f.mac = 0;
    signal_to(f, 0, 1, HV_ACCEPTED, 0, "signal with MAC off");
    /* Process 1 is signalled, goes up to level 3 and writes the second file, which then holds the matter of the first. */
    static const uint8_t carried[][4] = {{HV_SEND_SIGNAL, 0, 1, 0}, {HV_SET_LEVEL, 1, 0, 3}, {HV_WRITE_OPEN, 1, 1, 0}, {HV_WRITE, 1, 1, 0}};
    uint8_t list[sizeof calls + sizeof carried];
    memcpy(list, calls, sizeof calls);
    memcpy(list + sizeof calls, carried, sizeof carried);
    expect(hv_holds(setup, sizeof setup, list, sizeof list, 1, 0).holds, "matter carried by a signal", 1);
    list[sizeof calls + 2] = 3;
    expect(!hv_holds(setup, sizeof setup, list, sizeof list, 1, 0).holds, "matter of a refused signal", 1);
}

/* A call by value and where the facility is: both accept it, the number of moves of process p is then this one, and nobody else's has changed. */
static void move_of(hv_facility *f, uint8_t request, uint8_t p, uint8_t t, uint8_t e, uint8_t moves, const char *what)
{
    hv_facility before = *f;
    hv_enforced r = hv_enforce(*f, (hv_call){request, p, t, e, 0});
    hv_outcome o = hv_enforce_at(f, (hv_call){request, p, t, e, 0});
    uint8_t q = request == HV_CLONE ? t : p;
    before.moves[q] = moves;
    expect(o.number == HV_ACCEPTED && r.outcome.number == HV_ACCEPTED, what, o.number);
    expect(memcmp(f->moves, before.moves, sizeof before.moves) == 0, what, f->moves[q]);
    expect(memcmp(r.facility.moves, before.moves, sizeof before.moves) == 0, what, r.facility.moves[q]);
    expect(hv_process(*f, q).moves == moves && hv_process(r.facility, q).moves == moves, what, hv_process(*f, q).moves);
}

/* Moves of process 0, of an untrusted user of clearance 2, up to the bound, and what is no move; then the stop, which only bytes that C put in come
 * near. Files of levels 0 to 2 have the numbers 0 to 2; user 1 is trusted. */
static void moves(void)
{
    static const uint8_t setup[] = {
        3, 1, 0, 0, 0, 0, 0, 0,
        1, 2, HV_GENERAL, 0, 0, 0, 0, 0,
        1, 2, HV_GENERAL, 1, 0, 0, 0, 0,
        2, HV_FILE, 0, 0, 0, 0, 0, 0,
        2, HV_FILE, 1, 0, 0, 0, 0, 0,
        2, HV_FILE, 2, 0, 0, 0, 0, 0,
    };
    hv_facility f = hv_read_setup(setup, sizeof setup).facility;
    f.moves[0] = 9;
    move_of(&f, HV_LOGIN, 0, 0, 0, 0, "moves at login");
    move_of(&f, HV_WRITE_OPEN, 0, 2, 0, 1, "a move up");
    move_of(&f, HV_READ_OPEN, 0, 0, 0, 1, "a read that leaves the level");
    move_of(&f, HV_WRITE_OPEN, 0, 1, 0, 2, "a move down");
    move_of(&f, HV_CLONE, 0, 3, 0, 2, "moves of a clone");
    move_of(&f, HV_READ_WRITE_OPEN, 0, 0, 0, 3, "a move to the bound");
    move_of(&f, HV_READ_WRITE_OPEN, 0, 0, 0, 3, "a level that has settled");
    expect(hv_enforce_at(&f, (hv_call){HV_READ_OPEN, 0, 2, 0, 0}).number == HV_DENIED && f.moves[0] == 3, "a refused call at the bound", f.moves[0]);
    move_of(&f, HV_SET_LEVEL, 3, 0, 0, 2, "set-level");
    move_of(&f, HV_TERMINATE, 3, 0, 0, 0, "moves after terminate");
    move_of(&f, HV_LOGIN, 3, 0, 1, 0, "moves at a trusted user's login");
    move_of(&f, HV_READ_OPEN, 3, 2, 0, 0, "a trusted owner's read above its level");
    move_of(&f, HV_LOGIN, 4, 0, 0, 0, "moves at a second login");
    f.moves[4] = 254;
    move_of(&f, HV_READ_OPEN, 4, 1, 0, 255, "a move to the stop");
    move_of(&f, HV_READ_OPEN, 4, 2, 0, 255, "a move at the stop");
    f.mac = 0;
    move_of(&f, HV_LOGIN, 5, 0, 0, 0, "moves at a login with MAC off");
    move_of(&f, HV_READ_WRITE_OPEN, 5, 2, 0, 0, "a call with MAC off");
}

/* A call by value and where the facility is: both give the number, and process p then has these labels. */
static void labels_of(hv_facility *f, const uint8_t c[4], uint8_t number, hv_label current, hv_label readmark, hv_label writemark, const char *what)
{
    hv_enforced r = hv_enforce(*f, call_of(c));
    hv_outcome o = hv_enforce_at(f, call_of(c));
    hv_process_record p = hv_process(*f, c[1]);
    expect(o.number == number && r.outcome.number == number, what, o.number);
    expect(same_facility(f, &r.facility), what, c[1]);
    expect(label_is(p.current, current.level, current.set), what, p.current.set);
    expect(label_is(p.readmark, readmark.level, readmark.set), what, p.readmark.set);
    expect(label_is(p.writemark, writemark.level, writemark.set), what, p.writemark.set);
}

/* Two categories at level 1: files 0 to 3 have neither, the first, the second, both; user 0 is cleared for both, user 1 for the first. */
static const uint8_t projects[] = {
    3, 1, 0, 0, 0, 0, 0, 0,
    1, 2, HV_GENERAL, 0, 3, 0, 0, 0,
    1, 2, HV_GENERAL, 0, 1, 0, 0, 0,
    2, HV_FILE, 1, 0, 0, 0, 0, 0,
    2, HV_FILE, 1, 0, 0, 0, 0, 1,
    2, HV_FILE, 1, 0, 0, 0, 0, 2,
    2, HV_FILE, 1, 0, 0, 0, 0, 3,
    2, HV_FILE, HV_UNSET, 0, 0, 0, 0, 0,
};

/* The sets of a set-up, read and written, and one that an unset level may not have. */
static void sets_of_setups(void)
{
    uint8_t out[sizeof projects], damaged[sizeof projects];
    hv_reading r = hv_read_setup(projects, sizeof projects);
    expect(r.number == HV_ACCEPTED && r.facility.clearancesets[0] == 3 && r.facility.sets[3] == 3, "set-up with sets", r.number);
    hv_writing w = hv_write_setup(r.facility, out, sizeof out);
    expect(w.number == HV_ACCEPTED && memcmp(out, projects, sizeof projects) == 0, "set-up with sets, written", w.number);
    memcpy(damaged, projects, sizeof projects);
    damaged[sizeof projects - 1] = 1;
    r = hv_read_setup(damaged, sizeof damaged);
    expect(r.number == HV_SETUP_BYTE && r.index == 7, "a set with an unset level", r.number);
}

static void labels(void)
{
    const hv_label none = {0, 0}, whole = {15, HV_ALL_CATEGORIES}, first = {1, 1}, second = {1, 2}, both = {1, 3};
    hv_facility f = hv_read_setup(projects, sizeof projects).facility;
    labels_of(&f, (uint8_t[4]){HV_LOGIN, 0, 0, 0}, HV_ACCEPTED, none, none, whole, "labels at login");
    labels_of(&f, (uint8_t[4]){HV_READ_OPEN, 0, 1, 0}, HV_ACCEPTED, first, first, whole, "a read of the first category");
    labels_of(&f, (uint8_t[4]){HV_READ_OPEN, 0, 2, 0}, HV_ACCEPTED, both, both, whole, "a read of both categories");
    expect(f.moves[0] == 2 && hv_most_moves(f, 0) == 5 && hv_most_moves(f, 1) == 4, "moves of the set", f.moves[0]);
    labels_of(&f, (uint8_t[4]){HV_WRITE_OPEN, 0, 2, 0}, HV_DENIED, both, both, whole, "a write to one of both");
    labels_of(&f, (uint8_t[4]){HV_CREATE, 0, 0, HV_CHANNEL}, HV_ACCEPTED, both, both, whole, "a create");
    expect(label_is(hv_object(f, 5).label, 1, 3), "label of a created object", hv_object(f, 5).label.set);
    labels_of(&f, (uint8_t[4]){HV_WRITE_OPEN, 0, 3, 0}, HV_ACCEPTED, both, both, both, "a write to both");
    labels_of(&f, (uint8_t[4]){HV_LOGIN, 1, 0, 1}, HV_ACCEPTED, none, none, whole, "labels at a second login");
    labels_of(&f, (uint8_t[4]){HV_READ_OPEN, 1, 2, 0}, HV_DENIED, none, none, whole, "a category that is not in the clearance");
    labels_of(&f, (uint8_t[4]){HV_SET_LEVEL, 1, 2, 1}, HV_DENIED, none, none, whole, "set-level to a set that is not in the clearance");
    labels_of(&f, (uint8_t[4]){HV_SET_LEVEL, 1, 1, 1}, HV_ACCEPTED, first, none, whole, "set-level with a set");
    labels_of(&f, (uint8_t[4]){HV_SEND_SIGNAL, 1, 0, 0}, HV_DENIED, first, none, whole, "a signal at one level, of another set");
    labels_of(&f, (uint8_t[4]){HV_LOGIN, 2, 0, 0}, HV_ACCEPTED, none, none, whole, "labels at a third login");
    labels_of(&f, (uint8_t[4]){HV_WRITE_OPEN, 2, 3, 0}, HV_ACCEPTED, both, none, both, "a first write");
    labels_of(&f, (uint8_t[4]){HV_READ_WRITE_OPEN, 2, 2, 0}, HV_ACCEPTED, second, second, second, "both marks");
    signal_to(f, 1, 1, HV_ACCEPTED, 1, "signal to itself with a set");
    signal_to(f, 1, 0, HV_DENIED, 0, "signal to another set");
}

/* What is read of a facility where it is, against the same by value: records have no padding. */
static void getters(hv_facility f)
{
    hv_summary_record s = hv_summary(f), at = hv_summary_at(&f);
    expect(memcmp(&s, &at, sizeof s) == 0, "summary where it is", s.users);
    for (int n = 0; n < 256; n++) {
        uint8_t k = (uint8_t)n, other = below(256);
        hv_user_record u = hv_user(f, k), u_at = hv_user_at(&f, k);
        hv_process_record p = hv_process(f, k), p_at = hv_process_at(&f, k);
        hv_object_record o = hv_object(f, k), o_at = hv_object_at(&f, k);
        expect(memcmp(&u, &u_at, sizeof u) == 0, "user where it is", n);
        expect(memcmp(&p, &p_at, sizeof p) == 0, "process where it is", n);
        expect(memcmp(&o, &o_at, sizeof o) == 0, "object where it is", n);
        expect(hv_refusals(f, k) == hv_refusals_at(&f, k), "refusals where they are", n);
        expect(hv_most_moves(f, k) == hv_most_moves_at(&f, k), "most moves where it is", n);
        expect(hv_open_marks(f, k, other) == hv_open_marks_at(&f, k, other), "marks where they are", n);
        expect(hv_effective_flags(f, k) == hv_effective_flags_at(&f, k), "effective flags where they are", n);
        for (size_t i = 0; i < sizeof each_flag; i++)
            expect(hv_flag_source(f, k, each_flag[i]) == hv_flag_source_at(&f, k, each_flag[i]), "source where it is", n);
    }
}

/* Set-ups read where the facility is, by value and by replay of no call; the padding stays. */
static void read_both_ways(const uint8_t *setup, size_t length)
{
    hv_facility f = likely(), before = f;
    hv_reading r = hv_read_setup(setup, length), replayed = hv_replay(setup, length, setup, 0);
    hv_setup_numbers n = hv_read_setup_at(setup, length, &f);
    expect(n.number == r.number && n.index == r.index, "numbers of a set-up read where it is", n.number);
    expect(replayed.number == r.number && replayed.index == r.index, "numbers of a replay", replayed.number);
    expect(same_facility(&f, &r.facility) && same_paddings(&f, &before), "set-up read where it is", n.number);
    expect(same_facility(&replayed.facility, &r.facility), "replay of no call", n.number);
    expect(hv_holds(setup, length, setup, 0, 0, 0).number == r.number, "number of an account", n.number);
}

/* The account that is kept along, against the one that is worked out from all calls so far; objects hold more than their own matter. */
static void account(void)
{
    enum { CALLS = 600, GIVEN = 5, ASKED = 100, SOME = 16 };
    static uint8_t calls[CALLS][4] = {{HV_LOGIN, 0, 0, 0}, {HV_READ_OPEN, 0, 0, 0}, {HV_READ, 0, 0, 0}, {HV_WRITE_OPEN, 0, 1, 0}, {HV_WRITE, 0, 1, 0}};
    hv_facility f = hv_read_setup(projects, sizeof projects).facility;
    hv_account a = hv_account_start(f);
    int held = 0;
    for (size_t k = 0; k < CALLS; k++) {
        uint8_t *c = calls[k];
        if (k >= GIVEN) memcpy(c, (uint8_t[4]){below(22), below(3), below(6), below(4)}, sizeof calls[k]);
        a = hv_account_step(a, call_of(c), hv_enforce_at(&f, call_of(c)).number == HV_ACCEPTED);
        for (int i = 0; (k + 1 == GIVEN || (k + 1) % ASKED == 0) && i < SOME * SOME; i++) {
            uint8_t x = (uint8_t)(i / SOME), y = (uint8_t)(i % SOME);
            hv_held h = hv_holds(projects, sizeof projects, calls[0], (k + 1) * sizeof calls[k], x, y);
            expect(h.number == HV_ACCEPTED && h.holds == hv_account_holds(a, x, y), "account kept along", x);
            held += x != y && h.holds;
        }
    }
    expect(held > 0, "matter that came from another object", held);
}

typedef size_t words_of(uint8_t number, uint8_t *out, size_t length);

/* A word of the library, where there is room and where it is cut off. */
static void word_is(words_of *words, uint8_t n, const char *expected)
{
    uint8_t out[HV_WORD_MOST], cut[4] = "????";
    size_t length = words(n, out, sizeof out), part = strlen(expected) < 3 ? strlen(expected) : 3;
    expect(length == strlen(expected) && memcmp(out, expected, length) == 0, expected, n);
    expect(words(n, cut, 3) == part && memcmp(cut, expected, part) == 0 && cut[3] == '?', expected, n);
}

static void label_is_told(hv_label label, const char *expected)
{
    uint8_t out[HV_LABEL_MOST], cut[2] = "??";
    size_t length = hv_label_words(label, out, sizeof out);
    expect(length == strlen(expected) && memcmp(out, expected, length) == 0, expected, label.set);
    expect(hv_label_words(label, cut, 1) == 1 && cut[0] == (uint8_t)expected[0] && cut[1] == '?' && hv_label_words(label, NULL, 0) == 0, expected, label.set);
}

/* Classes, and which requests need an object. */
static void classes(void)
{
    expect(hv_class(HV_READ_OPEN, HV_FILE) == HV_CLASS_R && hv_class(HV_WRITE_OPEN, HV_FILE) == HV_CLASS_W
           && hv_class(HV_READ_WRITE_OPEN, HV_FILE) == HV_CLASS_B && hv_class(HV_CLOSE, HV_FILE) == HV_CLASS_N
           && hv_class(HV_EXECUTE, HV_DIRECTORY) == HV_CLASS_ABSENT, "classes", 0);
    for (int n = 0; n < 256; n++) {
        uint8_t k = (uint8_t)n, other = below(256);
        expect(k <= HV_LOGIN || (hv_class(k, below(4)) == HV_CLASS_ABSENT && !hv_needs_object(k, other)), "class of no request", n);
        expect(k <= HV_CONTROL_DATA || hv_class(below(22), k) == HV_CLASS_ABSENT, "class of no kind", n);
        expect(hv_needs_object(HV_READ, k) && !hv_needs_object(HV_LOGIN, k), "needs an object", n);
        expect(hv_needs_object(HV_CREATE, k) == (k != HV_CHANNEL && k != HV_CONTROL_DATA), "a create needs a directory", n);
    }
}

static void words(void)
{
    word_is(hv_request_words, HV_SET_LEVEL, "set-level");
    word_is(hv_request_words, 22, "no request");
    word_is(hv_kind_words, HV_CONTROL_DATA, "control data");
    word_is(hv_answer_words, HV_NOT_GRANTED, "not granted");
    word_is(hv_flag_words, HV_ADD_INHERITED, "add-inherited");
    word_is(hv_role_words, HV_SECURITY_OFFICER, "security officer");
    word_is(hv_role_words, 3, "no role");
    word_is(hv_category_words, HV_CATEGORY_SYSTEM, "system");
    word_is(hv_category_words, HV_UNSET, "unset");
    word_is(hv_category_words, 254, "no category");
    word_is(hv_data_type_words, HV_SECURITY_INFORMATION, "security information");
    word_is(hv_data_type_words, 2, "no data type");
    word_is(hv_number_words, HV_SETUP_PARENT, "parent is no earlier directory");
    word_is(hv_number_words, 9, "object is not open in that mode");
    label_is_told((hv_label){3, 3}, "3 ab");
    label_is_told((hv_label){15, HV_ALL_CATEGORIES}, "15 all");
    label_is_told((hv_label){HV_UNSET, 0}, "unset");
    label_is_told((hv_label){HV_UNSET, HV_ALL_CATEGORIES - 1}, "unset bcdefgh");
    label_is_told((hv_label){0, 0}, "0");
    expect(hv_version() == HV_VERSION && hv_facility_size() == HV_FACILITY_SIZE && sizeof(hv_facility) == HV_FACILITY_SIZE, "version", HV_VERSION);
}

/* Why a call is refused, by value and where the facility is, before the call and after it: some condition failed exactly with 12 and 13, and one of the
 * module that said no. The words are the same both ways, and are cut off where they do not fit. */
static void reasons(const hv_facility *before, const hv_facility *after, const uint8_t c[4], hv_outcome o)
{
    static const hv_failed none;
    uint8_t out[2][HV_WHY_MOST + 1], cut[HV_WHY_MOST + 1];
    hv_failed w = hv_why_at(before, call_of(c)), v = hv_why(*before, call_of(c)), later = hv_why_at(after, call_of(c));
    bool refused = o.number == HV_DENIED || o.number == HV_UNDEFINED_ANSWER, mac = w.fixed || w.clearance || w.writemark || w.readmark || w.receiver;
    expect(memcmp(&w, &v, sizeof w) == 0, "reasons both ways, request", c[0]);
    expect(!refused || memcmp(&w, &later, sizeof w) == 0, "reasons after the call, request", c[0]);
    expect(refused == (memcmp(&w, &none, sizeof w) != 0), "reasons of a refusal, request", c[0]);
    expect(!refused || (w.unset == (o.mac == HV_UNDEFINED) && mac == (o.mac == HV_NOT_GRANTED)), "reasons of MAC, request", c[0]);
    expect(!refused || (w.nocategory == (o.fc == HV_UNDEFINED) && w.category == (o.fc == HV_NOT_GRANTED)), "reasons of FC, request", c[0]);
    expect(!refused || (w.datatype == (o.sim == HV_NOT_GRANTED) && (w.flag != 0) == (o.ff == HV_NOT_GRANTED)), "reasons of SIM and FF, request", c[0]);
    size_t n = hv_why_words_at(before, call_of(c), out[0], sizeof out[0]), m = hv_why_words(*before, call_of(c), out[1], sizeof out[1]);
    expect(n == m && n <= HV_WHY_MOST && memcmp(out[0], out[1], n) == 0 && (n > 0) == refused, "reasons in words, request", c[0]);
    memset(cut, '?', sizeof cut);
    m = hv_why_words_at(before, call_of(c), cut, n / 2);
    expect(m == n / 2 && memcmp(cut, out[0], m) == 0 && cut[m] == '?', "reasons in words cut off, request", c[0]);
    expect(hv_why_words(*before, call_of(c), NULL, 0) == 0, "no buffer for reasons, request", c[0]);
}

/* The same calls by value and where the facility is: outcome and facility are the same, and the paddings stay. */
static void both_ways(hv_facility f)
{
    hv_facility g = f;
    for (int k = 0; k < 4000; k++) {
        uint8_t c[4] = {below(23), below(34), below(130), below(18)};
        if (c[0] == HV_SET_LEVEL && below(2)) c[2] = below(4);   /* a set that there is */
        hv_outcome q = hv_query_at(&g, call_of(c));
        hv_outcome o = hv_enforce_at(&g, call_of(c));
        hv_enforced e = hv_enforce(f, call_of(c));
        expect(memcmp(&o, &e.outcome, sizeof o) == 0 && memcmp(&q, &o, sizeof o) == 0, "outcome both ways, request", c[0]);
        expect(same_facility(&g, &e.facility), "facility both ways, request", c[0]);
        expect(same_paddings(&g, &f), "padding", c[0]);
        reasons(&f, &g, c, o);
        f = g;
    }
}

/* The lines of a block of calls by value and where the facility is, also where the buffer is too short for them. */
static void blocks(hv_facility f)
{
    enum { CALLS = 200 };
    static uint8_t calls[CALLS * 4 + 3], out[2][CALLS * HV_LINE_MOST + HV_SHORT_MOST];
    for (size_t k = 0; k < sizeof calls; k++) calls[k] = below(k % 4 == 2 ? 130 : 24);
    for (size_t room = sizeof out[0]; room > 0; room /= 7) {
        size_t length = sizeof calls - below(4);
        uint64_t first = below(2) ? 1 : (UINT64_C(1) << 63) - 1 + below(2);
        hv_facility g = f;
        memset(out, 0, sizeof out);
        hv_printed p = hv_put_block(f, first, calls, length, out[0], room);
        size_t n = hv_put_block_at(&g, first, calls, length, out[1], room);
        expect(n == p.length && memcmp(out[0], out[1], sizeof out[0]) == 0, "lines both ways, room", (int)room);
        expect(same_facility(&g, &p.facility), "facility after a block, room", (int)room);
    }
}

/* Both lines in words by value and where the facility is. */
static void lines_in_words(hv_facility f)
{
    static uint8_t out[2][HV_WORDS_ROOM];
    for (uint64_t k = 0; k < 300; k++) {
        uint8_t c[4] = {below(23), below(34), below(130), below(18)};
        hv_facility g = f, h = f;
        hv_printed p = hv_put_words(f, k, call_of(c), out[0]);
        size_t n = hv_put_words_at(&g, k, call_of(c), out[1]);
        expect(n == p.length && memcmp(out[0], out[1], n) == 0 && same_facility(&g, &p.facility), "words both ways, request", c[0]);
        p = hv_put_short_words(f, k, call_of(c), out[0]);
        n = hv_put_short_words_at(&h, k, call_of(c), out[1]);
        expect(n == p.length && memcmp(out[0], out[1], n) == 0 && same_facility(&h, &p.facility), "short words both ways, request", c[0]);
        expect(memcmp(&g, &h, sizeof g) == 0 && same_paddings(&g, &f), "facility after words, request", c[0]);
        f = g;
    }
}

/* Every function that takes a call, at a seat that has no process: one number, and nothing else of the call counts. */
static void at_no_seat(const hv_facility *f, hv_call c, hv_account a)
{
    static const hv_failed none;
    static uint8_t out[HV_WORDS_ROOM];
    uint8_t number = c.request > HV_LOGIN ? HV_NO_REQUEST : HV_NO_PROCESS_NUMBER;
    hv_facility g = *f;
    hv_outcome q = hv_query_at(f, c), o = hv_enforce_at(&g, c), v = hv_query(*f, c);
    hv_enforced e = hv_enforce(*f, c);
    hv_failed w = hv_why(*f, c), w_at = hv_why_at(f, c);
    hv_account b = hv_account_step(a, c, false);
    hv_printed p = hv_put_words(*f, 1, c, out), s = hv_put_short_words(*f, 1, c, out);
    size_t told = hv_put_words_at(&g, 1, c, out), short_told = hv_put_short_words_at(&g, 1, c, out);
    expect(told == p.length && short_told == s.length && same_facility(&s.facility, f), "words at a seat", c.seat);
    expect(q.number == number && o.number == number && v.number == number && e.outcome.number == number, "number at a seat", c.seat);
    expect(memcmp(&g, f, sizeof g) == 0 && same_facility(&e.facility, f) && same_facility(&p.facility, f), "facility at a seat", c.seat);
    expect(memcmp(&w, &none, sizeof w) == 0 && memcmp(&w_at, &none, sizeof w) == 0, "reasons at a seat", c.seat);
    expect(hv_why_words(*f, c, out, HV_WHY_MOST) == 0 && hv_why_words_at(f, c, out, HV_WHY_MOST) == 0, "reasons in words at a seat", c.seat);
    expect(a.next == b.next && memcmp(a.objects, b.objects, sizeof a.objects) == 0 && memcmp(a.processes, b.processes, sizeof a.processes) == 0,
           "account at a seat", c.seat);
}

/* Each field of a call through the library: a struct does what its four bytes do in a list, and at another seat nothing. */
static void call_fields(hv_facility f)
{
    uint8_t line[HV_LINE_MOST + 1];
    for (int k = 0; k < 2000; k++) {
        uint8_t c[4] = {below(23), below(34), below(130), below(18)};
        int number = -1;
        hv_facility g = f, h = f;
        line[hv_put_block_at(&g, 1, c, sizeof c, line, HV_LINE_MOST)] = 0;
        hv_outcome o = hv_enforce_at(&h, call_of(c));
        expect(sscanf((const char *)line, "%*d %*d %*d %*d %*d %d", &number) == 1 && number == o.number, "number of four bytes, request", c[0]);
        expect(memcmp(&g, &h, sizeof g) == 0, "facility after four bytes, request", c[0]);
        hv_call other = call_of(c);
        other.seat = (uint8_t)(1 + below(255));
        if (k % 20 == 0) at_no_seat(&f, other, hv_account_start(f));
        f = g;
    }
}

/* Set-ups and lists of calls with length 0 at a pointer that leads nowhere, against the same at one that does not. */
static void read_no_bytes(const uint8_t *nowhere)
{
    static const uint8_t calls[] = {HV_LOGIN, 0, 0, 0, HV_READ_OPEN, 0, 1, 0};
    hv_facility f = likely(), g = f;
    hv_reading r = hv_read_setup(calls, 0), none = hv_read_setup(nowhere, 0);
    hv_setup_numbers n = hv_read_setup_at(calls, 0, &f), none_at = hv_read_setup_at(nowhere, 0, &g);
    expect(none.number == r.number && none.index == r.index && same_facility(&none.facility, &r.facility), "a set-up of no bytes", none.number);
    expect(none_at.number == n.number && none_at.index == n.index && memcmp(&g, &f, sizeof f) == 0, "a set-up of no bytes where it is", none_at.number);
    r = hv_replay(calls, 0, calls, sizeof calls);
    none = hv_replay(nowhere, 0, calls, sizeof calls);
    expect(none.number == r.number && none.index == r.index && same_facility(&none.facility, &r.facility), "replay of no set-up", none.number);
    r = hv_replay(projects, sizeof projects, calls, 0);
    none = hv_replay(projects, sizeof projects, nowhere, 0);
    expect(none.number == r.number && none.index == r.index && same_facility(&none.facility, &r.facility), "replay of no bytes", none.number);
    for (uint8_t x = 0; x < 2; x++) {
        hv_held h = hv_holds(projects, sizeof projects, nowhere, 0, x, 1), none_set = hv_holds(nowhere, 0, calls, sizeof calls, x, 1);
        expect(h.number == HV_ACCEPTED && h.holds == (x == 1), "account of no bytes", x);
        expect(none_set.number == HV_SETUP_LENGTH && !none_set.holds, "account of no set-up", x);
    }
}

/* A buffer of length 0 at a pointer that leads nowhere, and no calls at one. */
static void write_no_bytes(uint8_t *nowhere)
{
    static words_of *const all_words[] = {hv_request_words, hv_kind_words, hv_answer_words, hv_flag_words, hv_number_words, hv_role_words,
                                         hv_category_words, hv_data_type_words};
    static const uint8_t calls[] = {HV_LOGIN, 0, 0, 0, HV_READ_OPEN, 0, 1, 0, 255};
    uint8_t out[2][sizeof calls * HV_LINE_MOST];
    hv_facility f = likely(), g = f;
    hv_writing w = hv_write_setup(f, nowhere, 0), w_at = hv_write_setup_at(&f, nowhere, 0);
    expect(w.number == HV_NO_ROOM && w.length == 0 && w_at.number == HV_NO_ROOM && w_at.length == 0, "no buffer for a set-up", w.number);
    hv_printed p = hv_put_block(f, 1, calls, sizeof calls, nowhere, 0), q = hv_put_block(f, 1, calls, sizeof calls, out[0], 0);
    expect(p.length == 0 && q.length == 0 && same_facility(&p.facility, &q.facility), "no buffer for lines", (int)p.length);
    expect(hv_put_block_at(&g, 1, calls, sizeof calls, nowhere, 0) == 0 && same_facility(&g, &q.facility), "no buffer for lines where it is", 0);
    expect(hv_put_block_at(&g, 1, nowhere, 0, out[0], sizeof out[0]) == 0 && same_facility(&g, &q.facility), "no calls where it is", 0);
    expect(hv_put_block(f, 1, nowhere, 0, out[0], sizeof out[0]).length == 0 && hv_put_block(f, 1, nowhere, 0, nowhere, 0).length == 0, "no calls", 0);
    for (size_t k = 0; k < sizeof all_words / sizeof *all_words; k++)
        for (int n = 0; n < 256; n++) expect(all_words[k]((uint8_t)n, nowhere, 0) == 0, "no buffer for a word", n);
}

int main(void)
{
    srand(1);
    for (int round = 0; round < 20; round++) {
        hv_facility f;
        for (size_t i = 0; i < sizeof f; i++)
            ((uint8_t *)&f)[i] = (uint8_t)(rand() >> 7);
        fields(f);
        handed_back(f);
        both_ways(likely());
        call_fields(likely());
        blocks(likely());
        lines_in_words(likely());
        flags(likely());
    }
    shield();
    signals();
    moves();
    sets_of_setups();
    labels();
    getters(likely());
    read_both_ways(projects, sizeof projects);
    read_both_ways(projects, sizeof projects - 1);
    account();
    words();
    classes();
    for (uintptr_t nowhere = 0; nowhere < 2; nowhere++) {    /* NULL, and an address that has no byte */
        read_no_bytes((const uint8_t *)nowhere);
        write_no_bytes((uint8_t *)nowhere);
    }
    printf("layout: %d checks, %d differ\n", checks, failures);
    return failures != 0;
}
