/* A set-up and calls as text: each call is made as soon as its line is read, and told in words, with the names that the texts give. */
#include <stdlib.h>
#include <string.h>

#include "commands.h"

struct trial { hv_facility facility; uint64_t index; bool full; enum status written; struct bytes line; };

bool is_text(const uint8_t *at, size_t length)
{
    size_t word = 0, i = 0;
    while (i < length && (at[i] == ' ' || (at[i] >= '\t' && at[i] <= '\r'))) i++;
    if (i < length && at[i] == '#') return true;
    while (i + word < length && (at[i + word] == '-' || at[i + word] == '&' || (at[i + word] >= 'a' && at[i + word] <= 'z'))) word++;
    return word > 1 && i + word < length && (at[i + word] == ' ' || at[i + word] == '\n' || at[i + word] == '\t' || at[i + word] == '\r')
        && !may_be_name((const char *)at + i, word);
}

static bool try_call(struct line *l, void *into)
{
    static uint8_t words[HV_WORDS_ROOM];
    struct trial *t = into;
    uint8_t c[CALL];
    if (!read_call(l, c)) return false;
    hv_call call = {c[0], c[1], c[2], c[3], 0};
    uint64_t index = t->index++;
    size_t length = t->full ? hv_put_words_at(&t->facility, index, call, words) : hv_put_short_words_at(&t->facility, index, call, words);
    t->line.length = 0;
    add_with_names(&t->line, l->given, words, length);
    if (t->written == DONE) t->written = write_out(t->line.at, t->line.length);
    return true;
}

/* The set-up is a text, or the bytes of one. */
static enum status read_either(const char *file, struct given *given, struct bytes *setup)
{
    struct bytes raw = {0}, why = {0};
    if (!read_whole(file, SIZE_MAX, &raw)) return failed(name_of(file));
    if (raw.length == 0 || raw.at[0] != HV_SWITCHES_RECORD) {
        enum status s = setup_of_text(name_of(file), &raw, given, setup);
        free(raw.at);
        return s;
    }
    *setup = raw;
    hv_reading r = reading_of(setup);
    if (r.number == HV_ACCEPTED) return DONE;
    add_refusal(&why, setup, false, &r);
    tell("%s: %.*s", name_of(file), (int)why.length, (const char *)why.at);
    free(why.at);
    return REFUSED;
}

enum status try_calls(const char *setup, const char *calls, bool full)
{
    static struct trial t;
    static struct given given;
    struct bytes bytes = {0};
    enum status s = read_either(setup, &given, &bytes);
    if (s == DONE) {
        t.index = 1;
        t.full = full;
        hv_read_setup_at(bytes.at, bytes.length, &t.facility);
        s = read_lines(calls, &given, try_call, &t);
        if (t.written != DONE) s = t.written;
    }
    free(t.line.at);
    free(bytes.at);
    return s;
}
