/* GLib's key files, the parser inside ConnMan: loads a file, lists its groups and their keys, as ConnMan does to find its
 * services and unknown keys, and gets the value of each key by the getter of its kind.
 *
 * The kinds are found out before the measurement. The values got are freed, as their owner must. */
#include "harness.h"

#include <glib.h>

enum { MOST = 256 };

static enum kind kinds[MOST];
static size_t kinds_count;
static int is_iwd;

/* Gets one value and frees it: 1, or 0 where GLib has none to give. */
static size_t get(GKeyFile *file, const char *group, const char *key, enum kind kind)
{
    GError *error = NULL;
    if (kind == YES_NO) {
        (void)g_key_file_get_boolean(file, group, key, &error);
        return error == NULL;
    }
    if (kind == LIST) {
        gchar **list = g_key_file_get_string_list(file, group, key, NULL, &error);
        g_strfreev(list);
        return list != NULL;
    }
    gchar *text = g_key_file_get_string(file, group, key, &error);
    g_free(text);
    return text != NULL;
}

/* Gets every value of a group, the first of which has number `from` in the file: how many. */
static size_t get_group(GKeyFile *file, const char *group, size_t from)
{
    gchar **keys = g_key_file_get_keys(file, group, NULL, NULL);
    size_t values = 0;
    for (gchar **key = keys; *key; key++)
        values += get(file, group, *key, kinds[from + (size_t)(key - keys)]);
    g_strfreev(keys);
    return values;
}

static GKeyFile *loaded(const struct input *in)
{
    GKeyFile *file = g_key_file_new();
    g_key_file_set_list_separator(file, is_iwd ? ' ' : ',');
    if (g_key_file_load_from_data(file, (const char *)in->bytes, in->len, G_KEY_FILE_NONE, NULL))
        return file;
    g_key_file_free(file);
    return NULL;
}

int prepare(const struct input *in, const char *task)
{
    is_iwd = in->is_iwd;
    GKeyFile *file = task ? NULL : loaded(in);
    if (!file)
        return 0;
    gchar **groups = g_key_file_get_groups(file, NULL);
    for (gchar **group = groups; *group; group++) {
        gchar **keys = g_key_file_get_keys(file, *group, NULL, NULL);
        for (gchar **key = keys; *key && kinds_count < MOST; key++)
            kinds[kinds_count++] = kind_of(*key);
        g_strfreev(keys);
    }
    g_strfreev(groups);
    g_key_file_free(file);
    return kinds_count < MOST;
}

size_t work(const struct input *in)
{
    GKeyFile *file = loaded(in);
    if (!file)
        return 0;
    gchar **groups = g_key_file_get_groups(file, NULL);
    size_t values = 0;
    for (gchar **group = groups; *group; group++)
        values += get_group(file, *group, values);
    g_strfreev(groups);
    g_key_file_free(file);
    return values == kinds_count ? values : 0;
}
