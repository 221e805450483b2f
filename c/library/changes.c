/* What bes_change checks after a conflict: whether its function has written through the change's own pass. */
#include "bestore.h"

/* The maximum number of entries to look at. Nearly always there are only a few. */
#define ENTRIES 1024

bool bes_wrote_since_(bes_pass *pass, uint64_t snapshot, uint64_t length)
{
    uint64_t own = 0, by = 0, number = 0;
    if (bes_number(pass, &own) != BES_OK)
        return false;
    for (uint64_t entry = snapshot; entry < length && entry - snapshot < ENTRIES; entry++) {
        bes_counts counts = {0, 0};
        bes_operation operation;
        uint8_t byte = 0;
        if (bes_journal_from(pass, entry, &by, &counts, &operation, 0, &byte, 0, &number) == BES_OK && by == own)
            return true;
    }
    return false;
}
