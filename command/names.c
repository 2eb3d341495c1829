#include "names.h"

#include <string.h>

name_text request_names[REQUESTS], kind_names[KINDS], role_names[ROLES], category_names[CATEGORIES], data_type_names[DATA_TYPES], flag_names[FLAGS];

const uint8_t flags[FLAGS] = {HV_READ_ONLY, HV_NO_EXECUTE, HV_NO_DELETE, HV_SEARCH_ONLY, HV_ADD_INHERITED};

typedef size_t words_of(uint8_t number, uint8_t *out, size_t length);

static void take(words_of *words, uint8_t number, name_text into)
{
    size_t n = words(number, (uint8_t *)into, HV_WORD_MOST);
    into[n] = 0;
    for (size_t i = 0; i < n; i++)
        if (into[i] == ' ') into[i] = '-';
}

static void take_all(words_of *words, int count, name_text *into)
{
    for (int i = 0; i < count; i++) take(words, (uint8_t)i, into[i]);
}

void take_names(void)
{
    take_all(hv_request_words, REQUESTS, request_names);
    take_all(hv_kind_words, KINDS, kind_names);
    take_all(hv_role_words, ROLES, role_names);
    take_all(hv_category_words, UNSET_CATEGORY, category_names);
    take(hv_category_words, HV_UNSET, category_names[UNSET_CATEGORY]);
    take_all(hv_data_type_words, DATA_TYPES, data_type_names);
    for (int i = 0; i < FLAGS; i++) take(hv_flag_words, flags[i], flag_names[i]);
}

void add_number(struct bytes *b, uint8_t number)
{
    uint8_t words[HV_WORD_MOST];
    add(b, words, hv_number_words(number, words, sizeof words));
}

const char *listed(name_text *names, int count, char out[LISTED])
{
    out[0] = 0;
    for (int i = 0; i < count; i++) {
        if (i > 0) strcat(out, i < count - 1 ? ", " : " or ");
        strcat(out, names[i]);
    }
    return out;
}

void add_letters(struct bytes *b, uint8_t set)
{
    if (set == HV_ALL_CATEGORIES) {
        add_text(b, " all");
        return;
    }
    if (set != 0) add_text(b, " ");
    for (int bit = 0; bit < 8; bit++)
        if (set >> bit & 1) add_text(b, "%c", 'a' + bit);
}

void add_record(struct bytes *b, const struct bytes *setup, size_t index)
{
    for (size_t i = RECORD * index; i < RECORD * (index + 1) && i < setup->length; i++) add_text(b, i % RECORD == 0 ? "%d" : " %d", setup->at[i]);
}
