/* Checks the writer of set-ups, by value and where the facility is: over every length of the lent buffer each of its bytes, and that the writer
 * keeps no copy: the stack that it uses and the bytes that it copies are the same for a set-up of one record and for one of all records, and
 * where the facility is it copies none. The library is linked with memcpy and memmove renamed to the two functions below (check_writer), so
 * that the caller's own copies are not among them. */
#define _XOPEN_SOURCE 700
#include <stdio.h>
#include <stdlib.h>
#include <string.h>
#include <ucontext.h>

#include "hvozdalka.h"

enum { RECORD = 8, BEYOND = 8, GUARD = 16, LONGEST = RECORD * (1 + 255 + HV_OBJECTS) };

static size_t copied;

void *counted_memcpy(void *to, const void *from, size_t n)
{
    copied += n;
    return memcpy(to, from, n);
}

void *counted_memmove(void *to, const void *from, size_t n)
{
    copied += n;
    return memmove(to, from, n);
}

static int failures, checks;

static void expect(int holds, const char *what, const char *facility, size_t number)
{
    checks++;
    if (!holds) {
        failures++;
        printf("differs: %s, %s, %zu\n", facility, what, number);
    }
}

/* The set-up that is to be written, from the papers: switches, users, live objects in order, a live parent by its new number. What is behind the
 * arrays, which only C's own bytes reach, is 0. */
static size_t setup_of(const hv_facility *f, uint8_t *out)
{
    size_t n = 0;
    memset(out, 0, LONGEST);
    memcpy(out, (uint8_t[]){3, f->mac, f->fc, f->sim, f->ff}, 5);
    n += RECORD;
    for (int u = 0; u < f->users; u++, n += RECORD) {
        out[n] = 1;
        if (u < HV_USERS) memcpy(out + n + 1, (uint8_t[]){f->clearances[u], f->roles[u], f->trusts[u], f->clearancesets[u]}, 4);
    }
    for (int t = 0; t < f->entered && t < HV_OBJECTS; t++) {
        if (f->lives[t] != 1) continue;
        int parent = f->parents[t] - 1, number = 0;
        for (int k = 0; k < parent && k < HV_OBJECTS; k++) number += f->lives[k] == 1;
        int is = parent >= 0 && parent < HV_OBJECTS && f->lives[parent] == 1;
        uint8_t written = (uint8_t)(is ? number + 1 : 0);
        memcpy(out + n, (uint8_t[]){2, f->kinds[t], f->levels[t], f->categories[t], f->datatypes[t], f->flags[t], written, f->sets[t]}, RECORD);
        n += RECORD;
    }
    return n;
}

/* A byte for each place of the buffer, other in each round, so that no byte of a set-up is it in both. */
static uint8_t pattern(size_t i, int round)
{
    return (uint8_t)(i * 37 + (round ? 128 : 11));
}

/* One length of the buffer: number and length as they are to be, and each byte the set-up's or still the one that was there. */
static void one_length(const char *name, const hv_facility *f, const uint8_t *setup, size_t need, size_t room, int in_place, int round)
{
    static uint8_t out[LONGEST + BEYOND + GUARD];
    hv_facility before;
    memcpy(&before, f, sizeof before);
    for (size_t i = 0; i < sizeof out; i++) out[i] = pattern(i, round);
    hv_writing w = in_place ? hv_write_setup_at(f, out, room) : hv_write_setup(*f, out, room);
    int fits = need <= room;
    expect(w.number == (fits ? HV_ACCEPTED : HV_NO_ROOM) && w.length == (fits ? need : 0), "number and length", name, room);
    size_t same = 0;
    while (same < sizeof out && out[same] == (fits && same < need ? setup[same] : pattern(same, round))) same++;
    expect(same == sizeof out, "buffer", name, room);
    expect(memcmp(&before, f, sizeof before) == 0, "facility", name, room);
}

static size_t facilities, lengths;

/* Every length of the buffer, from 0 to a record beyond the need. */
static void every_length(const char *name, hv_facility f)
{
    static uint8_t setup[LONGEST];
    size_t need = setup_of(&f, setup);
    facilities++;
    for (size_t room = 0; room <= need + BEYOND; room++, lengths++)
        for (int k = 0; k < 4; k++) one_length(name, &f, setup, need, room, k % 2, k / 2);
}

static uint8_t below(int n)
{
    return (uint8_t)((rand() >> 7) % n);
}

/* A facility of a set-up with so many users and objects, each object in a directory before it, with sets of categories. */
static hv_facility fresh(int users, int objects)
{
    uint8_t setup[HV_SETUP_MOST] = {3, 1, 1, 1, 1};
    size_t n = RECORD;
    for (int u = 0; u < users; u++, n += RECORD) memcpy(setup + n, (uint8_t[]){1, (uint8_t)(u % 16), HV_GENERAL, (uint8_t)(u % 5 == 4), below(256)}, 5);
    for (int t = 0; t < objects; t++, n += RECORD) {
        uint8_t kind = t % 3 == 0 ? HV_DIRECTORY : t % 3 == 1 ? HV_FILE : HV_CHANNEL;
        uint8_t parent = (uint8_t)(t == 0 || kind == HV_CHANNEL ? 0 : 3 * below((t + 2) / 3) + 1);
        memcpy(setup + n, (uint8_t[]){2, kind, (uint8_t)(t % 16), HV_GENERAL, 0, (uint8_t)(t % 2 ? HV_ADD_INHERITED : 0), parent, below(256)}, RECORD);
    }
    hv_reading r = hv_read_setup(setup, n);
    expect(r.number == HV_ACCEPTED, "set-up", "fresh", r.number);
    return r.facility;
}

/* The facility after logins and calls of any request, among them creates and deletes. */
static hv_facility after_calls(hv_facility f, int calls)
{
    for (uint8_t p = 0; p < 4 && p < f.users; p++) hv_enforce_at(&f, (hv_call){HV_LOGIN, p, 0, p, 0});
    for (int k = 0; k < calls; k++) {
        uint8_t request = below(3) == 0 ? HV_DELETE : below(3) == 0 ? HV_CREATE : below(22);
        hv_enforce_at(&f, (hv_call){request, below(4), below(HV_OBJECTS), below(4), 0});
    }
    return f;
}

/* Only objects of these numbers live. */
static hv_facility living(hv_facility f, int step)
{
    for (int t = 0; t < HV_OBJECTS; t++) f.lives[t] = (uint8_t)(step != 0 && t < f.entered && t % step == 0);
    return f;
}

/* Any bytes, also counts that no set-up gives. */
static hv_facility any_bytes(int users, int entered)
{
    hv_facility f;
    for (size_t i = 0; i < sizeof f; i++) ((uint8_t *)&f)[i] = below(256);
    for (int t = 0; t < HV_OBJECTS; t++) f.lives[t] = below(3);
    f.users = (uint8_t)users;
    f.entered = (uint8_t)entered;
    return f;
}

static void trials(void)
{
    srand(1);
    every_length("switches alone", fresh(0, 0));
    every_length("users alone", fresh(HV_USERS, 0));
    every_length("one object", fresh(1, 1));
    every_length("all records", fresh(HV_USERS, HV_OBJECTS));
    every_length("after calls", after_calls(fresh(5, 20), 400));
    every_length("after calls on all records", after_calls(fresh(HV_USERS, HV_OBJECTS), 4000));
    every_length("all objects deleted", living(fresh(3, HV_OBJECTS), 0));
    every_length("directories alone live", living(fresh(3, HV_OBJECTS), 3));
    every_length("every other directory deleted", living(fresh(3, HV_OBJECTS), 2));
    every_length("any bytes", any_bytes(HV_USERS, HV_OBJECTS));
    every_length("any bytes with no user", any_bytes(0, 77));
    every_length("any bytes with more than 16 users", any_bytes(255, 3));
    every_length("any bytes with more than 128 objects", any_bytes(2, 255));
    every_length("any bytes with no object", any_bytes(17, 0));
}

/* What a call of the writer uses: the stack below its caller, which is painted before, and the bytes that the library copies. */
struct use { size_t stack, copied; };

enum { STACK = 1 << 17, PAINT = 165 };
static _Alignas(64) uint8_t stack[STACK];
static ucontext_t caller, called;
static hv_facility given;
static uint8_t buffer[HV_SETUP_MOST];
static size_t room;
static hv_writing result;

static void nothing(void) {}
static void by_value(void) { result = hv_write_setup(given, buffer, room); }
static void in_place(void) { result = hv_write_setup_at(&given, buffer, room); }

static size_t depth(void (*job)(void))
{
    memset(stack, PAINT, sizeof stack);
    getcontext(&called);
    called.uc_stack.ss_sp = stack;
    called.uc_stack.ss_size = sizeof stack;
    called.uc_link = &caller;
    makecontext(&called, job, 0);
    swapcontext(&caller, &called);
    size_t k = 0;
    while (k < sizeof stack && stack[k] == PAINT) k++;
    return sizeof stack - k;
}

static struct use use_of(void (*job)(void), hv_facility f, size_t length, uint8_t number)
{
    given = f;
    room = length;
    size_t none = depth(nothing);
    copied = 0;
    struct use u = {depth(job) - none, copied};
    expect(result.number == number, "number", "measured", result.number);
    return u;
}

/* The same figures for one record of each kind, for all of them, and for a buffer that is a byte too short for all. The switches alone need no more. */
static struct use measured(const char *name, void (*job)(void))
{
    hv_facility none = fresh(0, 0), few = fresh(1, 1), all = fresh(HV_USERS, HV_OBJECTS);
    struct use s = use_of(job, none, RECORD, HV_ACCEPTED);
    struct use a = use_of(job, few, 3 * RECORD, HV_ACCEPTED);
    struct use b = use_of(job, all, HV_SETUP_MOST, HV_ACCEPTED);
    struct use c = use_of(job, all, HV_SETUP_MOST - 1, HV_NO_ROOM);
    expect(s.stack <= a.stack && a.stack == b.stack && c.stack <= b.stack, "stack of few and of all records", name, b.stack);
    expect(s.copied == a.copied && a.copied == b.copied && c.copied == b.copied, "bytes copied of few and of all records", name, b.copied);
    printf("writer: %s: %zu bytes of stack for 3 records and %zu for %d; %zu bytes copied and %zu\n", name, a.stack, b.stack, HV_SETUP_MOST / RECORD,
           a.copied, b.copied);
    return b;
}

int main(void)
{
    trials();
    struct use value = measured("by value", by_value), place = measured("in place", in_place);
    /* In place nothing is copied, and no set-up has room on the stack. By value the caller makes one copy of the facility and the library
     * another, and beside them no set-up has room either. */
    expect(place.copied == 0, "bytes copied", "in place", place.copied);
    expect(place.stack < HV_SETUP_MOST, "stack", "in place", place.stack);
    expect(value.copied <= sizeof(hv_facility), "bytes copied", "by value", value.copied);
    expect(value.stack < 2 * sizeof(hv_facility) + HV_SETUP_MOST, "stack", "by value", value.stack);
    printf("writer: %zu facilities, %zu lengths of the buffer, %d checks, %d differ\n", facilities, lengths, checks, failures);
    return failures != 0;
}
