/* A window of the station: reads a set-up, logs in, opens files, and says of each refusal why. `examples/c/build` builds and runs it. */
#include <stdio.h>

#include "hvozdalka.h"

/* The categories of two projects, as bits of a set. */
enum { FERRY = 1, TUG = 2 };

/* All four modules on. Users: 0 of clearance 2 with both projects, 1 of clearance 0, 2 of clearance 2 with the tug alone. Objects are below, in order. */
static const uint8_t setup[] = {
    HV_SWITCHES_RECORD, 1, 1, 1, 1, 0, 0, 0,
    HV_USER_RECORD, 2, HV_GENERAL, 0, FERRY | TUG, 0, 0, 0,
    HV_USER_RECORD, 0, HV_GENERAL, 0, 0, 0, 0, 0,
    HV_USER_RECORD, 2, HV_GENERAL, 0, TUG, 0, 0, 0,
    HV_OBJECT_RECORD, HV_DIRECTORY, 0, 0, 0, 0, 0, 0,
    HV_OBJECT_RECORD, HV_FILE, 0, 0, 0, 0, 0, 0,
    HV_OBJECT_RECORD, HV_FILE, 2, 0, 0, 0, 0, 0,
    HV_OBJECT_RECORD, HV_DIRECTORY, 0, 0, 0, HV_READ_ONLY, 0, 0,
    HV_OBJECT_RECORD, HV_FILE, 0, 0, 0, HV_ADD_INHERITED, 4, 0,
    HV_OBJECT_RECORD, HV_FILE, 1, 0, 0, 0, 0, FERRY,
    HV_OBJECT_RECORD, HV_FILE, 1, 0, 0, 0, 0, TUG,
    HV_OBJECT_RECORD, HV_FILE, 2, HV_CATEGORY_SECURITY, HV_SECURITY_INFORMATION, 0, 0, 0,
};

/* The sheet is in the released drawings, which are read-only, and inherits that. */
enum { YARD_FOLDER, NOTES, HULL_LINES, RELEASED_DRAWINGS, SHEET, FERRY_FRAMES, TUG_FRAMES, BADGE_LIST };

/* A label in words, as a string. */
typedef char label_text[HV_LABEL_MOST + 1];

static const char *told(hv_label label, label_text out)
{
    out[hv_label_words(label, (uint8_t *)out, HV_LABEL_MOST)] = 0;
    return out;
}

/* What a refusal was about: the conditions that failed, the object, and the clearance of the user who owns the process. The refused call has changed none
 * of them. Where they are of the process alone, its marks or its fixed level, a fresh window of the same user may do what this one may not. */
static void say_why(const hv_facility *f, hv_call c)
{
    label_text a;
    uint8_t why[HV_WHY_MOST], kind[HV_WORD_MOST];
    size_t n = hv_why_words_at(f, c, why, sizeof why);
    hv_failed failed = hv_why_at(f, c);
    uint8_t owner = hv_process_at(f, c.process).owner;
    printf("%.*s\n", (int)n, (const char *)why);
    if (hv_needs_object(c.request, c.extra)) {
        hv_object_record t = hv_object_at(f, c.target);
        size_t length = hv_kind_words(t.kind, kind, sizeof kind);
        printf("    object %d: %.*s, level %s\n", c.target, (int)length, (const char *)kind, told(t.label, a));
    }
    printf("    user %d: clearance %s\n", owner, told(hv_user_at(f, owner).clearance, a));
    if (!(failed.unset || failed.clearance || failed.receiver || failed.nocategory || failed.category || failed.datatype || failed.flag != 0))
        printf("    a fresh window of this user may do it\n");
}

/* Where a process is. */
static void say_process(const hv_facility *f, uint8_t process)
{
    label_text a, b, c;
    hv_process_record p = hv_process_at(f, process);
    printf("; process %d: current %s, marks %s to %s, moves %d of at most %lu\n", process, told(p.current, a), told(p.readmark, b),
           told(p.writemark, c), p.moves, (unsigned long)hv_most_moves_at(f, p.owner));
}

/* A call, and what it came to. Only where it is accepted may the window do what it asked for. */
static void call(hv_facility *f, const char *what, hv_call c)
{
    uint8_t number[HV_WORD_MOST];
    hv_outcome o = hv_enforce_at(f, c);
    size_t length = hv_number_words(o.number, number, sizeof number);
    printf("%s: %d %.*s", what, o.number, (int)length, (const char *)number);
    if (o.number == HV_ACCEPTED) say_process(f, c.process);
    else if (o.number == HV_DENIED || o.number == HV_UNDEFINED_ANSWER) say_why(f, c);
    else printf("\n");
}

/* The supervisor's table: refusals by user. */
static void supervisor(const hv_facility *f)
{
    label_text a;
    printf("user  clearance  refusals\n");
    for (uint8_t u = 0; u < hv_summary_at(f).users; u++)
        printf("%4d  %9s  %8lu\n", u, told(hv_user_at(f, u).clearance, a), (unsigned long)hv_refusals_at(f, u));
}

int main(void)
{
    static hv_facility f;
    if (hv_version() != HV_VERSION || hv_facility_size() != sizeof f) {
        printf("the library is not that of the header\n");
        return 1;
    }
    hv_setup_numbers r = hv_read_setup_at(setup, sizeof setup, &f);
    if (r.number != HV_ACCEPTED) {
        printf("set-up refused with %d at record %d\n", r.number, r.index);
        return 1;
    }
    call(&f, "user 0 logs in as process 0", (hv_call){HV_LOGIN, 0, 0, 0, 0});
    call(&f, "opens the hull lines for reading", (hv_call){HV_READ_OPEN, 0, HULL_LINES, 0, 0});
    call(&f, "opens the notes for writing", (hv_call){HV_WRITE_OPEN, 0, NOTES, 0, 0});
    call(&f, "makes a file in the yard folder", (hv_call){HV_CREATE, 0, YARD_FOLDER, HV_FILE, 0});
    call(&f, "opens the badge list for writing", (hv_call){HV_WRITE_OPEN, 0, BADGE_LIST, 0, 0});
    call(&f, "user 1 logs in as process 1", (hv_call){HV_LOGIN, 1, 0, 1, 0});
    call(&f, "opens the hull lines for reading", (hv_call){HV_READ_OPEN, 1, HULL_LINES, 0, 0});
    call(&f, "opens the released sheet for reading", (hv_call){HV_READ_OPEN, 1, SHEET, 0, 0});
    call(&f, "opens the released sheet for writing", (hv_call){HV_WRITE_OPEN, 1, SHEET, 0, 0});
    call(&f, "makes a file in the released drawings", (hv_call){HV_CREATE, 1, RELEASED_DRAWINGS, HV_FILE, 0});
    call(&f, "user 2 logs in as process 2", (hv_call){HV_LOGIN, 2, 0, 2, 0});
    call(&f, "opens the tug's frames for reading", (hv_call){HV_READ_OPEN, 2, TUG_FRAMES, 0, 0});
    call(&f, "opens the ferry's frames for reading", (hv_call){HV_READ_OPEN, 2, FERRY_FRAMES, 0, 0});
    call(&f, "signals process 0", (hv_call){HV_SEND_SIGNAL, 2, 0, 0, 0});
    supervisor(&f);
    return 0;
}
