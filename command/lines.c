#include "lines.h"

#include <stdarg.h>
#include <stdio.h>
#include <stdlib.h>
#include <string.h>

bool mistake(const struct line *l, const char *format, ...)
{
    va_list arguments;
    va_start(arguments, format);
    fprintf(stderr, "%s:%zu: ", l->file, l->number);
    vfprintf(stderr, format, arguments);
    fputc('\n', stderr);
    va_end(arguments);
    return false;
}

/* A word as it is told: no byte of it may play with the terminal, and a long one is cut. */
static const char *quoted(struct word w, char out[256])
{
    enum { SHOWN = 40 };
    size_t n = 0;
    out[n++] = '\'';
    for (size_t i = 0; i < w.length && i < SHOWN; i++) {
        unsigned char c = (unsigned char)w.at[i];
        n += (size_t)sprintf(out + n, c > 32 && c < 127 ? "%c" : "\\x%02x", c);
    }
    sprintf(out + n, w.length > SHOWN ? "...'" : "'");
    return out;
}

bool unexpected(const struct line *l, const char *expected)
{
    char word[256];
    if (at_end(l)) return mistake(l, "expected %s, but the line ends", expected);
    return mistake(l, "expected %s, not %s", expected, quoted(l->words[l->next], word));
}

bool at_end(const struct line *l)
{
    return l->next == l->count;
}

static bool is_word(struct word w, const char *text)
{
    return w.length == strlen(text) && memcmp(w.at, text, w.length) == 0;
}

bool is_next(const struct line *l, const char *text)
{
    return !at_end(l) && is_word(l->words[l->next], text);
}

bool accept(struct line *l, const char *text)
{
    bool is = is_next(l, text);
    l->next += is;
    return is;
}

int accept_name(struct line *l, name_text *names, int count)
{
    for (int i = 0; i < count; i++)
        if (accept(l, names[i])) return i;
    return -1;
}

bool is_number_next(const struct line *l)
{
    return !at_end(l) && l->words[l->next].at[0] >= '0' && l->words[l->next].at[0] <= '9';
}

/* The number that the first bytes of a word are. */
static bool is_number(struct word w, size_t length, unsigned most, uint8_t *out)
{
    unsigned n = 0;
    for (size_t i = 0; i < length; i++) {
        if (w.at[i] < '0' || w.at[i] > '9') return false;
        n = 10 * n + (unsigned)(w.at[i] - '0');
        if (n > most) return false;
    }
    *out = (uint8_t)n;
    return length > 0;
}

bool take_number(struct line *l, const char *what, unsigned most, uint8_t *out)
{
    char expected[128];
    struct word w = at_end(l) ? (struct word){"", 0} : l->words[l->next];
    snprintf(expected, sizeof expected, "%s from 0 to %u", what, most);
    if (!is_number(w, w.length, most, out)) return unexpected(l, expected);
    l->next++;
    return true;
}

bool is_place_next(const struct line *l)
{
    return !at_end(l) && l->words[l->next].at[l->words[l->next].length - 1] == ':';
}

static const char *const things[THINGS] = {"user", "object", "process"};

/* `user 3:` says which one it is meant to be, so that a line put in between does not turn the later numbers into others; `user ann:` gives a name. */
bool take_place(struct line *l, enum thing what, unsigned is)
{
    char word[256];
    struct word w = l->words[l->next];
    uint8_t number = 0;
    w.length--;
    if (is_number_next(l)) {
        if (!is_number(w, w.length, 254, &number)) return unexpected(l, "a number from 0 to 254 or a name, with a colon");
        l->next++;
        return number == is ? true : mistake(l, "this is %s %u, not %u", things[what], is, number);
    }
    if (!may_be_name(w.at, w.length))
        return mistake(l, "%s is no name (a letter, then letters, digits, - or _, and no word of the text's own)", quoted(w, word));
    if (number_of(l->given, what, w.at, w.length) >= 0) return mistake(l, "%s %s is named twice", things[what], quoted(w, word));
    l->next++;
    if (is < NUMBERS) give_name(l->given, what, (uint8_t)is, w.at, w.length);
    return true;
}

bool take_thing(struct line *l, enum thing what, const char *expected, unsigned most, uint8_t *out)
{
    char word[256];
    if (at_end(l) || is_number_next(l)) {
        if (!take_number(l, expected, most, out)) return false;
        if (what == PROCESS_NAME) l->given->named_by_number[*out] = true;
        return true;
    }
    struct word w = l->words[l->next];
    int n = number_of(l->given, what, w.at, w.length);
    if (n < 0 && what == PROCESS_NAME && may_be_name(w.at, w.length)) {
        n = process_number_of(l->given, w.at, w.length);
        if (n < 0) return mistake(l, "no process number is left for %s", quoted(w, word));
    }
    if (n < 0) return mistake(l, "expected %s from 0 to %u, or the name of one, not %s", expected, most, quoted(w, word));
    *out = (uint8_t)n;
    l->next++;
    return true;
}

bool accept_object(struct line *l, uint8_t *out)
{
    int n = at_end(l) ? -1 : number_of(l->given, OBJECT, l->words[l->next].at, l->words[l->next].length);
    if (n < 0) return false;
    *out = (uint8_t)n;
    l->next++;
    return true;
}

/* Takes a name with a hyphen as two words. */
static bool accept_apart(struct line *l, const char *text)
{
    size_t first = strcspn(text, "-");
    if (text[first] == 0 || l->next + 1 >= l->count) return false;
    struct word w = l->words[l->next];
    if (w.length != first || memcmp(w.at, text, first) != 0 || !is_word(l->words[l->next + 1], text + first + 1)) return false;
    l->next += 2;
    return true;
}

bool take_kind(struct line *l, uint8_t *kind)
{
    char word[256], all[LISTED];
    int k = accept_name(l, kind_names, KINDS);
    for (int i = 0; k < 0 && i < KINDS; i++)
        if (accept_apart(l, kind_names[i])) k = i;
    if (k < 0 && at_end(l)) return mistake(l, "expected a kind (%s), but the line ends", listed(kind_names, KINDS, all));
    if (k < 0) return mistake(l, "unknown kind %s (%s)", quoted(l->words[l->next], word), listed(kind_names, KINDS, all));
    *kind = (uint8_t)k;
    return true;
}

bool is_set_next(const struct line *l)
{
    if (at_end(l)) return false;
    struct word w = l->words[l->next];
    size_t letters = 0;
    while (letters < w.length && w.at[letters] >= 'a' && w.at[letters] <= 'h') letters++;
    return letters == w.length || is_word(w, "all");
}

bool take_set(struct line *l, uint8_t *set)
{
    *set = 0;
    if (accept(l, "none")) return true;
    if (accept(l, "all")) {
        *set = HV_ALL_CATEGORIES;
        return true;
    }
    bool is = is_set_next(l);
    for (size_t i = 0; is && i < l->words[l->next].length; i++) {
        uint8_t bit = (uint8_t)(1 << (l->words[l->next].at[i] - 'a'));
        is = (*set & bit) == 0;
        *set |= bit;
    }
    if (!is) return unexpected(l, "categories (letters a to h, each once, or all, or none)");
    l->next++;
    return true;
}

bool give(const struct line *l, unsigned *given, unsigned field, const char *name)
{
    if (*given & field) return mistake(l, "%s is given twice", name);
    *given |= field;
    return true;
}

/* The words of a line without its comment; a carriage return is a blank, and a byte order mark in front of the text is left out. */
static bool split(struct line *l, const char *at, const char *end)
{
    static const char mark[] = "\xef\xbb\xbf";
    if (l->number == 1 && (size_t)(end - at) >= strlen(mark) && memcmp(at, mark, strlen(mark)) == 0) at += strlen(mark);
    const char *comment = memchr(at, '#', (size_t)(end - at));
    if (comment != NULL) end = comment;
    l->count = l->next = 0;
    while (at < end) {
        const char *from = at;
        while (at < end && *at != ' ' && (*at < '\t' || *at > '\r')) at++;
        if (at > from && l->count == WORDS_MOST) return mistake(l, "more than %d words", WORDS_MOST);
        if (at > from) l->words[l->count++] = (struct word){from, (size_t)(at - from)};
        at += at < end;
    }
    return true;
}

/* Reads the lines that are whole, at the end of the text the last one too, and keeps what is left; `seen` bytes of it have no line feed. */
static bool read_whole_lines(struct line *l, struct bytes *text, size_t *seen, bool is_end, line_reader *read, void *into)
{
    const char *at = (const char *)text->at, *end = at + text->length;
    bool is_good = true;
    for (;;) {
        const char *feed = memchr(at + *seen, '\n', (size_t)(end - at) - *seen);
        const char *stop = feed != NULL ? feed : end;
        if (feed == NULL && (!is_end || at == end)) break;
        l->number++;
        if (!split(l, at, stop) || (l->count > 0 && !read(l, into))) is_good = false;
        at = feed != NULL ? feed + 1 : end;
        *seen = 0;
    }
    *seen = text->length = (size_t)(end - at);
    memmove(text->at, at, text->length);
    return is_good;
}

enum status read_lines_of(const char *name, struct bytes *text, struct given *given, line_reader *read, void *into)
{
    struct line l = {.file = name, .given = given};
    size_t seen = 0;
    return text->length == 0 || read_whole_lines(&l, text, &seen, true, read, into) ? DONE : REFUSED;
}

enum status read_lines(const char *file, struct given *given, line_reader *read, void *into)
{
    struct line l = {.file = name_of(file), .given = given};
    struct bytes text = {0};
    size_t seen = 0;
    ssize_t got = 1;
    int fd = open_input(file);
    enum status s = fd < 0 ? failed(l.file) : DONE;
    while (s != FAILED && got > 0) {
        got = add_some(fd, &text);
        if (got < 0) s = failed(l.file);
        else if (!read_whole_lines(&l, &text, &seen, got == 0, read, into)) s = REFUSED;
    }
    close_input(file, fd);
    free(text.at);
    return s;
}
