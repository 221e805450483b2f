/* Reads a batch from bytes with the helpers. A valid batch must be encoded as the same bytes, and an error must have an offset
 * within the bytes. */
#include "fuzz.h"

enum { READ, PLACED, COUNTED };

int LLVMFuzzerTestOneInput(const uint8_t *input, size_t length)
{
    static bes_batch batch;
    static uint8_t written[BES_BATCH_BYTES + 1];
    uint8_t *bytes = (uint8_t *)copy_of(input, length);
    uint64_t place = 7, count = 7;
    uint32_t error = bes_batch_from_bytes(&batch, bytes, length, &place);
    saw(READ, error);
    saw(PLACED, size_of(place));
    saw(COUNTED, batch.count);
    if (error == BES_OK) {
        size_t room = length / 2;
        CHECK(place == 0 && batch.count >= 1 && batch.count <= 64 && batch.used <= sizeof batch.bytes);
        CHECK(bes_batch_to_bytes(&batch, written, sizeof written, &count) == BES_OK && count == length);
        CHECK(memcmp(written, bytes, length) == 0);
        memset(written, 0x5a, sizeof written);
        CHECK(bes_batch_to_bytes(&batch, written, room, &count) == BES_OK && count == length);
        CHECK(memcmp(written, bytes, room) == 0 && written[room] == 0x5a);
    } else {
        CHECK(place <= length && batch.count == 0);
    }
    free(bytes);
    return 0;
}
