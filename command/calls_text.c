/* Lists of calls as text, a call a line. Each request has its own words for the target and the extra; `target` and `extra` give these bytes as they
 * are, so that every four bytes have a text. */
#include <stdlib.h>
#include <string.h>

#include "commands.h"
#include "lines.h"
#include "names.h"

enum { REQUEST = 0, PROCESS = 1, TARGET = 2, EXTRA = 3, TEXT_BLOCK = 65536 };

/* What a request's target and extra are called, null where it has none, and what stands behind the request in its line. */
struct form { const char *target, *extra, *rest; };

static const struct form object_form = {"object", NULL, " object N"};
static const struct form to_form = {"to", NULL, " to N"};
static const struct form level_form = {"categories", "level", " level N CATEGORIES"};
static const struct form login_form = {NULL, "user", " user N"};
static const struct form bare_form = {NULL, NULL, ""};
static const struct form inside_form = {"in", "KIND", " KIND in N"};
static const struct form made_form = {NULL, "KIND", " KIND"};
static const struct form number_form = {"target", "extra", " target N extra N"};

/* Create of a file or a directory is in one; of a channel or control data it is not; with another extra it is as the first. */
static const struct form *form_of(uint8_t request, uint8_t extra)
{
    if (request >= REQUESTS) return &number_form;
    switch (request) {
    case HV_CLONE: case HV_SEND_SIGNAL: return &to_form;
    case HV_SET_LEVEL: return &level_form;
    case HV_LOGIN: return &login_form;
    case HV_TERMINATE: return &bare_form;
    case HV_CREATE: return extra == HV_CHANNEL || extra == HV_CONTROL_DATA ? &made_form : &inside_form;
    default: return &object_form;
    }
}

/* A byte by its number, where it is not the 0 that is meant by saying nothing. */
static void add_unusual(struct bytes *b, const char *key, uint8_t byte)
{
    if (byte != 0) add_text(b, " %s %d", key, byte);
}

static void add_call(struct bytes *b, const uint8_t *c)
{
    uint8_t t = c[TARGET], e = c[EXTRA];
    const struct form *form = form_of(c[REQUEST], e);
    if (form == &number_form) {
        add_text(b, "request %d process %d target %d extra %d\n", c[REQUEST], c[PROCESS], t, e);
        return;
    }
    add_text(b, "process %d %s", c[PROCESS], request_names[c[REQUEST]]);
    if (form == &level_form) {
        add_text(b, " level %d", e);
        add_letters(b, t);
    } else if (form == &inside_form && e >= KINDS) {
        add_text(b, " target %d extra %d", t, e);
    } else {
        if (c[REQUEST] == HV_CREATE) add_text(b, " %s", kind_names[e]);
        if (form == &login_form) add_text(b, " user %d", e);
        if (form->target != NULL) add_text(b, " %s %d", form->target, t);
        else add_unusual(b, "target", t);
        if (form->extra == NULL) add_unusual(b, "extra", e);
    }
    add_text(b, "\n");
}

enum status calls_to_text(const char *file, const char *into)
{
    struct bytes calls = {0}, text = {0};
    if (!read_whole(file, SIZE_MAX, &calls)) return failed(name_of(file));
    enum status s = REFUSED;
    if (calls.length % CALL == 0) {
        s = DONE;
        for (size_t i = 0; i < calls.length && s == DONE; i += CALL) {
            add_call(&text, calls.at + i);
            if (into != NULL || text.length < TEXT_BLOCK) continue;
            s = write_out(text.at, text.length);
            text.length = 0;
        }
        if (s == DONE && (into != NULL || text.length > 0)) s = write_into(into, text.at, text.length);
    } else {
        size_t left = calls.length % CALL;
        tell("%s: %zu byte%s left over after call %zu, and a call has %d", name_of(file), left, left == 1 ? "" : "s", calls.length / CALL, CALL);
    }
    free(text.at);
    free(calls.at);
    return s;
}

/* A call as it is read: its bytes, and by which words they are given, null where they are not yet. */
struct call_text { uint8_t bytes[CALL]; const char *by[CALL]; };

static bool put(const struct line *l, struct call_text *c, int place, const char *by)
{
    static const char *const names[CALL] = {"the request", "process", "the target", "the extra"};
    if (c->by[place] != NULL) return mistake(l, "%s is given twice", names[place]);
    c->by[place] = by;
    return true;
}

/* A key with a number, and one with a number or a name. */
static bool put_number(struct line *l, struct call_text *c, int place, const char *by, const char *what)
{
    return put(l, c, place, by) && take_number(l, what, 255, &c->bytes[place]);
}

static bool put_thing(struct line *l, struct call_text *c, int place, const char *by, enum thing thing, const char *what)
{
    return put(l, c, place, by) && take_thing(l, thing, what, 255, &c->bytes[place]);
}

static bool put_set(struct line *l, struct call_text *c)
{
    return put(l, c, TARGET, "categories") && take_set(l, &c->bytes[TARGET]);
}

static bool put_level(struct line *l, struct call_text *c)
{
    if (!put_number(l, c, EXTRA, "level", "a level")) return false;
    return is_set_next(l) ? put_set(l, c) : true;
}

/* A request by its name; behind `create` stands the kind, unless a key does, and behind `set-level` a label may. */
static bool put_request(struct line *l, struct call_text *c)
{
    int n = accept_name(l, request_names, REQUESTS);
    if (n < 0 && accept(l, "read-write-open")) n = HV_READ_WRITE_OPEN;
    if (n < 0) return unexpected(l, "a request such as read-open, or process, object, to, in, user, level, categories, request, target or extra");
    c->bytes[REQUEST] = (uint8_t)n;
    if (!put(l, c, REQUEST, request_names[n])) return false;
    if (n == HV_SET_LEVEL && is_number_next(l)) return put_level(l, c);
    if (n != HV_CREATE || is_next(l, "target") || is_next(l, "extra") || is_next(l, "process") || is_next(l, "in")) return true;
    return put(l, c, EXTRA, "KIND") && take_kind(l, &c->bytes[EXTRA]);
}

static bool read_part(struct line *l, struct call_text *c)
{
    if (accept(l, "process")) return put_thing(l, c, PROCESS, "process", PROCESS_NAME, "a process number");
    if (accept(l, "object")) return put_thing(l, c, TARGET, "object", OBJECT, "an object number");
    if (accept(l, "user")) return put_thing(l, c, EXTRA, "user", USER, "a user number");
    if (accept(l, "request")) return put_number(l, c, REQUEST, "request", "a request number");
    if (accept(l, "target")) return put_number(l, c, TARGET, "target", "a target");
    if (accept(l, "extra")) return put_number(l, c, EXTRA, "extra", "an extra");
    if (accept(l, "categories")) return put_set(l, c);
    if (accept(l, "to")) {
        accept(l, "process");
        return put_thing(l, c, TARGET, "to", PROCESS_NAME, "a process number");
    }
    if (accept(l, "in")) {
        accept(l, "object");
        return put_thing(l, c, TARGET, "in", OBJECT, "the number of a directory");
    }
    if (accept(l, "level")) return put_level(l, c);
    uint8_t object = 0;
    if (accept_object(l, &object)) {           /* an object by its name alone */
        c->bytes[TARGET] = object;
        return put(l, c, TARGET, "object");
    }
    return put_request(l, c);
}

/* Tells what is wrong with a word of a request, and the request's line. */
static bool wrong_word(const struct line *l, const struct call_text *c, const struct form *form, const char *what, const char *word)
{
    if (form == &number_form) return mistake(l, "request %d %s '%s' (request N process N%s)", c->bytes[REQUEST], what, word, form->rest);
    const char *request = request_names[c->bytes[REQUEST]];
    return mistake(l, "%s %s '%s' (process N %s%s)", request, what, word, request, form->rest);
}

/* Whether a byte is given by the request's own word or by number, or may be left out: then it is 0. */
static bool fits(const struct line *l, const struct call_text *c, const struct form *form, int place)
{
    const char *by = c->by[place], *own = place == TARGET ? form->target : form->extra;
    bool is_needed = own != NULL && !(place == TARGET && form == &level_form);
    if (by == NULL) return is_needed ? wrong_word(l, c, form, "needs", own) : true;
    if (own != NULL && strcmp(by, own) == 0) return true;
    return strcmp(by, place == TARGET ? "target" : "extra") == 0 ? true : wrong_word(l, c, form, "takes no", by);
}

bool read_call(struct line *l, uint8_t call[CALL])
{
    struct call_text c = {0};
    while (!at_end(l))
        if (!read_part(l, &c)) return false;
    if (c.by[REQUEST] == NULL) return mistake(l, "expected a request such as read-open, or request with a number");
    if (c.by[PROCESS] == NULL) return mistake(l, "expected process with its number");
    const struct form *form = form_of(c.bytes[REQUEST], c.bytes[EXTRA]);
    if (!fits(l, &c, form, EXTRA) || !fits(l, &c, form, TARGET)) return false;
    memcpy(call, c.bytes, CALL);
    return true;
}

static bool add_call_of(struct line *l, void *into)
{
    uint8_t call[CALL];
    if (!read_call(l, call)) return false;
    add(into, call, CALL);
    return true;
}

/* The names of users and objects are those of the text of a set-up, where one is named. */
enum status calls_from_text(const char *file, const char *setup, const char *into)
{
    struct given given = {0};
    struct bytes calls = {0}, names_of = {0};
    enum status s = setup != NULL ? read_setup_text(setup, &given, &names_of) : DONE;
    if (s == DONE) s = read_lines(file, &given, add_call_of, &calls);
    if (s == DONE) s = write_into(into, calls.at, calls.length);
    free(names_of.at);
    free(calls.at);
    return s;
}
