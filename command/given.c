#include "given.h"

#include <string.h>

#include "names.h"

static bool is_letter(char c)
{
    return (c >= 'a' && c <= 'z') || (c >= 'A' && c <= 'Z');
}

static bool is_in(const char *at, size_t length, const char *const *words, size_t count)
{
    for (size_t i = 0; i < count; i++)
        if (strlen(words[i]) == length && memcmp(words[i], at, length) == 0) return true;
    return false;
}

static bool is_name_in(const char *at, size_t length, name_text *names, int count)
{
    for (int i = 0; i < count; i++)
        if (strlen(names[i]) == length && memcmp(names[i], at, length) == 0) return true;
    return false;
}

/* The words that texts have beside the library's. */
static bool is_own_word(const char *at, size_t length)
{
    static const char *const own[] = {"switches", "user", "object", "process", "clearance", "level", "categories", "category", "role", "trusted", "untrusted",
                                      "data-type", "in", "to", "request", "target", "extra", "unset", "none", "all", "on", "off", "mac", "fc", "sim", "ff",
                                      "control", "read-write-open"};
    return is_in(at, length, own, sizeof own / sizeof own[0]) || is_name_in(at, length, request_names, REQUESTS)
        || is_name_in(at, length, kind_names, KINDS) || is_name_in(at, length, role_names, ROLES) || is_name_in(at, length, category_names, CATEGORIES)
        || is_name_in(at, length, data_type_names, DATA_TYPES) || is_name_in(at, length, flag_names, FLAGS);
}

bool may_be_name(const char *at, size_t length)
{
    if (length == 0 || length > NAME_MOST || !is_letter(at[0])) return false;
    for (size_t i = 1; i < length; i++)
        if (!is_letter(at[i]) && !(at[i] >= '0' && at[i] <= '9') && at[i] != '-' && at[i] != '_') return false;
    return !is_own_word(at, length);
}

int number_of(const struct given *g, enum thing what, const char *at, size_t length)
{
    for (int n = 0; n < NUMBERS; n++)
        if (length > 0 && strlen(g->names[what][n]) == length && memcmp(g->names[what][n], at, length) == 0) return n;
    return -1;
}

void give_name(struct given *g, enum thing what, uint8_t number, const char *at, size_t length)
{
    memcpy(g->names[what][number], at, length);
    g->names[what][number][length] = 0;
}

int process_number_of(struct given *g, const char *at, size_t length)
{
    int n = number_of(g, PROCESS_NAME, at, length);
    if (n >= 0) return n;
    for (n = 0; n < HV_PROCESSES; n++)
        if (g->names[PROCESS_NAME][n][0] == 0 && !g->named_by_number[n]) {
            give_name(g, PROCESS_NAME, (uint8_t)n, at, length);
            return n;
        }
    return -1;
}

/* The name of the number that begins here, and how long the number is; null where it has none. */
static const char *name_at(const struct given *g, enum thing what, const uint8_t *at, size_t length, size_t *digits)
{
    unsigned n = 0;
    *digits = 0;
    while (*digits < length && *digits < 3 && at[*digits] >= '0' && at[*digits] <= '9') n = 10 * n + (unsigned)(at[(*digits)++] - '0');
    if (*digits == 0 || n >= NUMBERS || (*digits < length && at[*digits] >= '0' && at[*digits] <= '9')) return NULL;
    return g->names[what][n][0] != 0 ? g->names[what][n] : NULL;
}

void add_with_names(struct bytes *b, const struct given *g, const uint8_t *line, size_t length)
{
    static const char *const keys[THINGS] = {"user ", "object ", "process "};
    for (size_t i = 0; i < length;) {
        size_t step = 1;
        for (int what = 0; what < THINGS; what++) {
            size_t key = strlen(keys[what]), digits = 0;
            if ((i > 0 && is_letter((char)line[i - 1])) || length - i <= key || memcmp(line + i, keys[what], key) != 0) continue;
            const char *name = name_at(g, (enum thing)what, line + i + key, length - i - key, &digits);
            if (name == NULL) continue;
            add_text(b, "%s%s", keys[what], name);
            step = key + digits;
            break;
        }
        if (step == 1) add(b, line + i, 1);
        i += step;
    }
}
