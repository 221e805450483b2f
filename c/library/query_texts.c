/* Reads the comparisons in a query's text, one after another. */
#include "bestore.h"

#include <stdlib.h>

static void read_compared(const bes_compared *it, bes_comparison *read)
{
    read->at = (size_t)it->at;
    read->length = (size_t)(it->end - it->at);
    read->name_at = (size_t)it->name_at;
    read->name_length = (size_t)(it->name_end - it->name_at);
    read->kind = it->kind_in_text;
    read->value_at = (size_t)it->value_at;
    read->value_length = (size_t)(it->value_end - it->value_at);
}

/* Lists a query's comparisons in memory from malloc, because the list takes more stack than many threads have. The caller frees the list,
 * which is NULL after an error. */
static bes_comparison_list *listed(const char *text, size_t length, uint32_t *error)
{
    bes_comparison_list *list = malloc(sizeof *list);
    uint64_t place = 0;
    *error = list == NULL ? BES_NO_MEMORY : bes_list_comparisons(text, length, list, &place);
    if (*error == BES_OK)
        return list;
    free(list);
    return NULL;
}

/* Reads the first comparison at or after an offset. If indices are given, skips every comparison that a node could match. */
static bool next_of(const bes_index_list *indices, const char *text, size_t length, size_t *at, bes_comparison *found)
{
    uint32_t error = BES_OK;
    bes_comparison_list *list = listed(text, length, &error);
    bool is_found = false;
    for (uint64_t i = 0; list != NULL && !is_found && i < list->counts.operations; i++) {
        const bes_compared *it = &list->comparisons[i];
        is_found = it->at >= *at && (indices == NULL || bes_is_never_true(indices, list, it));
        if (is_found) {
            read_compared(it, found);
            *at = (size_t)it->end;
        }
    }
    free(list);
    return is_found;
}

bool bes_next_comparison(const char *text, size_t length, size_t *at, bes_comparison *found)
{
    return next_of(NULL, text, length, at, found);
}

bool bes_next_never_true(const bes_index_list *list, const char *text, size_t length, size_t *at, bes_comparison *found)
{
    return next_of(list, text, length, at, found);
}

uint32_t bes_uncovered(bes_pass *pass, const char *text, size_t length, size_t *at)
{
    bes_index_list indices;
    bes_comparison_list *list = NULL;
    uint32_t error = bes_list_indices(pass, &indices);
    *at = length;
    if (error == BES_OK)
        list = listed(text, length, &error);
    for (uint64_t i = 0; list != NULL && *at == length && i < list->counts.operations; i++)
        if (bes_index_of(&indices, list, &list->comparisons[i]) == NULL)
            *at = (size_t)list->comparisons[i].at;
    free(list);
    return error;
}
