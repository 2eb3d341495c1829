/* Counts the copies of a facility that the library makes within a call by value. The library is linked with memcpy and memmove renamed to the
 * two functions below (bench/run), so that the caller's own copies are not among them. */
#include <stdio.h>
#include <string.h>

#include "hvozdalka.h"

static int copies;

/* More than the opens is a facility, but for fields that the compiler stores anew. */
static void count(size_t n)
{
    copies += n > sizeof((hv_facility *)0)->opens;
}

void *counted_memcpy(void *to, const void *from, size_t n)
{
    count(n);
    return memcpy(to, from, n);
}

void *counted_memmove(void *to, const void *from, size_t n)
{
    count(n);
    return memmove(to, from, n);
}

static const uint8_t setup[] = {
    3, 1, 0, 0, 1, 0, 0, 0,
    1, 2, HV_GENERAL, 0, 0, 0, 0, 0,
    2, HV_DIRECTORY, 0, 0, 0, HV_NO_EXECUTE, 0, 0,
    2, HV_FILE, 0, 0, 0, HV_ADD_INHERITED, 1, 0,
    2, HV_FILE, 2, 0, 0, 0, 0, 0,
};

/* Calls of one run, in this order. */
static const struct { const char *name; uint8_t call[4]; uint8_t number; } calls[] = {
    {"login", {HV_LOGIN, 0, 0, 0}, HV_ACCEPTED},
    {"refused", {HV_READ_OPEN, 0, 99, 0}, HV_NOT_LIVE},
    {"refused and counted", {HV_SET_LEVEL, 0, 0, 9}, HV_DENIED},
    {"refused by a flag", {HV_EXECUTE, 0, 1, 0}, HV_DENIED},
    {"open", {HV_READ_WRITE_OPEN, 0, 1, 0}, HV_ACCEPTED},
    {"read", {HV_READ, 0, 1, 0}, HV_ACCEPTED},
    {"write", {HV_WRITE, 0, 1, 0}, HV_ACCEPTED},
    {"close", {HV_CLOSE, 0, 1, 0}, HV_ACCEPTED},
    {"create", {HV_CREATE, 0, 0, HV_FILE}, HV_ACCEPTED},
    {"delete", {HV_DELETE, 0, 3, 0}, HV_ACCEPTED},
    {"clone", {HV_CLONE, 0, 1, 0}, HV_ACCEPTED},
    {"send-signal", {HV_SEND_SIGNAL, 0, 1, 0}, HV_ACCEPTED},
    {"set-level", {HV_SET_LEVEL, 0, 0, 0}, HV_ACCEPTED},
    {"terminate", {HV_TERMINATE, 1, 0, 0}, HV_ACCEPTED},
};

int main(void)
{
    copies = 0;
    hv_facility f = hv_read_setup(setup, sizeof setup).facility;
    printf("copies\treading a set-up of 5 records\t%d\n", copies);
    copies = 0;
    uint8_t out[sizeof setup];
    hv_write_setup(f, out, sizeof out);
    printf("copies\twriting a set-up out\t%d\n", copies);
    copies = 0;
    hv_query(f, (hv_call){HV_LOGIN, 0, 0, 0, 0});
    printf("copies\tquery\t%d\n", copies);
    copies = 0;
    hv_effective_flags(f, 1);
    printf("copies\teffective flags\t%d\n", copies);
    copies = 0;
    hv_flag_source(f, 1, HV_NO_EXECUTE);
    printf("copies\tsource of a flag\t%d\n", copies);
    copies = 0;
    hv_most_moves(f, 0);
    printf("copies\tmost moves of a user\t%d\n", copies);
    for (size_t k = 0; k < sizeof calls / sizeof calls[0]; k++) {
        const uint8_t *c = calls[k].call;
        copies = 0;
        hv_enforced e = hv_enforce(f, (hv_call){c[0], c[1], c[2], c[3], 0});
        printf("copies\t%s\t%d\n", calls[k].name, copies);
        if (e.outcome.number != calls[k].number) return printf("%s: number %d\n", calls[k].name, e.outcome.number), 1;
        f = e.facility;
    }
    return 0;
}
