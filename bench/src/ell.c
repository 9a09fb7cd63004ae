/* ell, the parser inside iwd: loads a file and gets the value of each of its keys by the getter of its kind.
 *
 * Which keys the file has is found out before the measurement, so that the work asks for these by name, as iwd does, and
 * does not pay for listing them. The values got are freed, as their owner must. */
#include "harness.h"

#include <ell/ell.h>

enum { MOST = 64 };

static struct wanted {
    char *group;
    char *key;
    enum kind kind;
} wanted[MOST];

static size_t wanted_count;

static int list_keys(struct l_settings *settings)
{
    char **groups = l_settings_get_groups(settings);
    for (char **group = groups; *group; group++) {
        char **keys = l_settings_get_keys(settings, *group);
        for (char **key = keys; *key; key++) {
            if (wanted_count == MOST)
                return 0;
            wanted[wanted_count++] = (struct wanted){l_strdup(*group), l_strdup(*key), kind_of(*key)};
        }
        l_strv_free(keys);
    }
    l_strv_free(groups);
    return 1;
}

int prepare(const struct input *in, const char *task)
{
    struct l_settings *settings = l_settings_new();
    int loaded = !task && l_settings_load_from_data(settings, (const char *)in->bytes, in->len) && list_keys(settings);
    l_settings_free(settings);
    return loaded;
}

/* Gets one value and frees it: 1, or 0 where ell has none to give. */
static size_t get(struct l_settings *settings, const struct wanted *w)
{
    switch (w->kind) {
    case YES_NO: {
        bool yes;
        return l_settings_get_bool(settings, w->group, w->key, &yes);
    }
    case LIST: {
        char **list = l_settings_get_string_list(settings, w->group, w->key, ' ');
        l_strv_free(list);
        return list != NULL;
    }
    case HEX: {
        size_t len;
        uint8_t *bytes = l_settings_get_bytes(settings, w->group, w->key, &len);
        l_free(bytes);
        return bytes != NULL;
    }
    case STRING:
        break;
    }
    char *text = l_settings_get_string(settings, w->group, w->key);
    l_free(text);
    return text != NULL;
}

size_t work(const struct input *in)
{
    struct l_settings *settings = l_settings_new();
    size_t values = 0;
    if (l_settings_load_from_data(settings, (const char *)in->bytes, in->len))
        for (size_t i = 0; i < wanted_count; i++)
            values += get(settings, &wanted[i]);
    l_settings_free(settings);
    return values == wanted_count ? values : 0;
}
