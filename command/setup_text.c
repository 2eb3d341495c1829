/* Set-ups as text. A line is a record; only fields with another value than the usual one need be given, but for a kind, a clearance and a level. */
#include <stdio.h>
#include <stdlib.h>
#include <string.h>

#include "commands.h"
#include "lines.h"
#include "names.h"

enum { MODULES = 4, RECORDS_MOST = HV_SETUP_MOST / RECORD, EXPECTED = LISTED + 128 };
enum field { LEVEL = 1, SET = 2, ROLE = 4, TRUST = 8, CATEGORY = 16, DATA_TYPE = 32, PARENT = 64, FLAG = 256 };

static name_text module_names[MODULES] = {"mac", "fc", "sim", "ff"};

static void add_object(struct bytes *b, const uint8_t *r)
{
    add_text(b, "%s level ", kind_names[r[1]]);
    if (r[2] == HV_UNSET) add_text(b, "unset");
    else add_text(b, "%d", r[2]);
    add_letters(b, r[7]);
    if (r[3] != 0) add_text(b, " category %s", category_names[r[3] == HV_UNSET ? UNSET_CATEGORY : r[3]]);
    if (r[4] != 0) add_text(b, " data-type %s", data_type_names[r[4]]);
    for (int i = 0; i < FLAGS; i++)
        if (r[5] & flags[i]) add_text(b, " %s", flag_names[i]);
    if (r[6] != 0) add_text(b, " in %d", r[6] - 1);
}

static void add_user(struct bytes *b, const uint8_t *r)
{
    add_text(b, "clearance %d", r[1]);
    add_letters(b, r[4]);
    if (r[2] != 0) add_text(b, " role %s", role_names[r[2]]);
    if (r[3] != 0) add_text(b, " trusted");
}

/* The records are accepted ones, so that every byte of them has a name. */
static void add_records(struct bytes *b, const struct bytes *setup)
{
    int users = 0, objects = 0;
    for (size_t i = 0; i < setup->length; i += RECORD) {
        const uint8_t *r = setup->at + i;
        if (r[0] == HV_SWITCHES_RECORD) {
            add_text(b, "switches");
            for (int m = 0; m < MODULES; m++) add_text(b, " %s %s", module_names[m], r[m + 1] ? "on" : "off");
        } else if (r[0] == HV_USER_RECORD) {
            add_text(b, "user %d: ", users++);
            add_user(b, r);
        } else {
            add_text(b, "object %d: ", objects++);
            add_object(b, r);
        }
        add_text(b, "\n");
    }
}

enum status setup_to_text(const char *file, const char *into)
{
    struct bytes setup = {0}, text = {0};
    if (!read_whole(file, SETUP_READ, &setup)) return failed(name_of(file));
    hv_reading r = reading_of(&setup);
    enum status s = REFUSED;
    if (r.number == HV_ACCEPTED) {
        add_records(&text, &setup);
        s = write_into(into, text.at, text.length);
    } else {
        add_refusal(&text, &setup, setup.length == SETUP_READ, &r);
        tell("%s: %.*s", name_of(file), (int)text.length, (const char *)text.at);
    }
    free(text.at);
    free(setup.at);
    return s;
}

/* What is read so far: the records, the lines of those that may be refused, and how many users and objects there are. */
struct setup_text { struct bytes bytes; size_t lines[RECORDS_MOST + 1]; unsigned users, objects; };

/* A label in parts: `level 3 ab`, `clearance 3 ab`, `3 ab`, `unset`. */
static bool take_label(struct line *l, unsigned *given, uint8_t *level, uint8_t *set, bool is_object)
{
    const char *what = is_object ? "level" : "clearance";
    if (!give(l, given, LEVEL, what)) return false;
    if (is_object && accept(l, "unset")) *level = HV_UNSET;
    else if (is_object && !is_number_next(l)) return unexpected(l, "a level from 0 to 15 or unset");
    else if (!take_number(l, is_object ? "a level" : "a clearance", 15, level)) return false;
    if (!is_set_next(l)) return true;
    return give(l, given, SET, "the set of categories") && take_set(l, set);
}

static bool read_switches(struct line *l, uint8_t *r)
{
    const char *const expected = "mac, fc, sim, ff or none";
    unsigned given = 0;
    if (accept(l, "none")) return at_end(l) || unexpected(l, "nothing after none");
    if (at_end(l)) return unexpected(l, expected);
    while (!at_end(l)) {
        int m = accept_name(l, module_names, MODULES);
        if (m < 0) return unexpected(l, expected);
        if (!give(l, &given, 1u << m, module_names[m])) return false;
        r[m + 1] = !accept(l, "off");
        if (r[m + 1]) accept(l, "on");
    }
    return true;
}

/* A role or a category for FC, by number: both have a short name and, a role, the paper's. */
static bool take_role(struct line *l, uint8_t *out, bool may_be_unset)
{
    char all[LISTED], expected[EXPECTED];
    int n = accept_name(l, role_names, ROLES);
    if (n < 0) n = accept_name(l, category_names, may_be_unset ? CATEGORIES : ROLES);
    if (n < 0 && may_be_unset)
        snprintf(expected, sizeof expected, "a category for FC (%s; letters stand behind categories)", listed(category_names, CATEGORIES, all));
    else if (n < 0)
        snprintf(expected, sizeof expected, "a role (%s)", listed(role_names, ROLES, all));
    if (n < 0) return unexpected(l, expected);
    *out = n == UNSET_CATEGORY ? HV_UNSET : (uint8_t)n;
    return true;
}

static bool read_user_field(struct line *l, unsigned *given, uint8_t *r)
{
    if (accept(l, "clearance") || accept(l, "level") || is_number_next(l)) return take_label(l, given, &r[1], &r[4], false);
    if (accept(l, "categories")) return give(l, given, SET, "the set of categories") && take_set(l, &r[4]);
    if (accept(l, "role")) return give(l, given, ROLE, "role") && take_role(l, &r[2], false);
    if (accept(l, "untrusted")) return give(l, given, TRUST, "trusted or untrusted");
    if (!accept(l, "trusted")) return unexpected(l, "clearance, categories, role, trusted or untrusted");
    r[3] = 1;
    return give(l, given, TRUST, "trusted or untrusted");
}

static bool read_user(struct line *l, uint8_t *r)
{
    unsigned given = 0;
    while (!at_end(l))
        if (!read_user_field(l, &given, r)) return false;
    return given & LEVEL ? true : unexpected(l, "clearance with a level from 0 to 15");
}

static bool read_parent(struct line *l, unsigned *given, uint8_t *r)
{
    if (!give(l, given, PARENT, "in")) return false;
    if (accept(l, "none")) return true;
    accept(l, "object");
    if (!take_thing(l, OBJECT, "the number of a directory", 254, &r[6])) return false;
    r[6]++;
    return true;
}

static bool read_data_type(struct line *l, unsigned *given, uint8_t *r)
{
    char all[LISTED], expected[EXPECTED];
    int n = accept_name(l, data_type_names, DATA_TYPES);
    snprintf(expected, sizeof expected, "a data type (%s)", listed(data_type_names, DATA_TYPES, all));
    if (n < 0) return unexpected(l, expected);
    r[4] = (uint8_t)n;
    return give(l, given, DATA_TYPE, "data-type");
}

static bool read_object_field(struct line *l, unsigned *given, uint8_t *r)
{
    if (accept(l, "level") || is_number_next(l) || is_next(l, "unset")) return take_label(l, given, &r[2], &r[7], true);
    if (accept(l, "categories")) return give(l, given, SET, "the set of categories") && take_set(l, &r[7]);
    if (accept(l, "category")) return give(l, given, CATEGORY, "category") && take_role(l, &r[3], true);
    if (accept(l, "data-type")) return read_data_type(l, given, r);
    if (accept(l, "in")) return read_parent(l, given, r);
    char all[LISTED], expected[EXPECTED];
    int i = accept_name(l, flag_names, FLAGS);
    snprintf(expected, sizeof expected, "level, categories, category, data-type, in, or a flag (%s)", listed(flag_names, FLAGS, all));
    if (i < 0) return unexpected(l, expected);
    r[5] |= flags[i];
    return give(l, given, (unsigned)FLAG << i, flag_names[i]);
}

static bool read_object(struct line *l, uint8_t *r)
{
    unsigned given = 0;
    if (!take_kind(l, &r[1])) return false;
    while (!at_end(l))
        if (!read_object_field(l, &given, r)) return false;
    return given & LEVEL ? true : unexpected(l, "level with a level from 0 to 15 or unset");
}

static bool read_place(struct line *l, enum thing what, unsigned is)
{
    return is_place_next(l) ? take_place(l, what, is) : true;
}

static bool read_record(struct line *l, void *into)
{
    struct setup_text *t = into;
    uint8_t r[RECORD] = {0};
    bool is = false;
    if (accept(l, "switches")) {
        r[0] = HV_SWITCHES_RECORD;
        is = read_switches(l, r);
    } else if (accept(l, "user")) {
        r[0] = HV_USER_RECORD;
        is = read_place(l, USER, t->users++) && read_user(l, r);
    } else if (accept(l, "object")) {
        r[0] = HV_OBJECT_RECORD;
        is = read_place(l, OBJECT, t->objects++) && read_object(l, r);
    } else {
        return unexpected(l, "switches, user or object");
    }
    size_t index = t->bytes.length / RECORD;
    if (index <= RECORDS_MOST) t->lines[index] = l->number;
    add(&t->bytes, r, sizeof r);
    return is;
}

/* Tells the line of the record that is refused; where there are too many, of the first one too many. */
static enum status tell_refused(const char *file, const struct setup_text *t, const hv_reading *r)
{
    struct bytes why = {0};
    struct line l = {.file = file, .number = 1};
    size_t index = r->number != HV_SETUP_LENGTH ? r->index : RECORDS_MOST;
    if (t->bytes.length > RECORD * index) l.number = t->lines[index];
    add_refusal(&why, &t->bytes, false, r);
    mistake(&l, "%.*s", (int)why.length, (const char *)why.at);
    free(why.at);
    return REFUSED;
}

enum status setup_of_text(const char *name, struct bytes *text, struct given *given, struct bytes *setup)
{
    struct setup_text t = {0};
    enum status s = read_lines_of(name, text, given, read_record, &t);
    if (s == DONE) {
        hv_reading r = reading_of(&t.bytes);
        if (r.number != HV_ACCEPTED) s = tell_refused(name, &t, &r);
    }
    *setup = t.bytes;
    return s;
}

enum status read_setup_text(const char *file, struct given *given, struct bytes *setup)
{
    struct bytes text = {0};
    if (!read_whole(file, SIZE_MAX, &text)) return failed(name_of(file));
    enum status s = setup_of_text(name_of(file), &text, given, setup);
    free(text.at);
    return s;
}

enum status setup_from_text(const char *file, const char *into)
{
    struct given given = {0};
    struct bytes setup = {0};
    enum status s = read_setup_text(file, &given, &setup);
    if (s == DONE) s = write_into(into, setup.at, setup.length);
    free(setup.at);
    return s;
}
