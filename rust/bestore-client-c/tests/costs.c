/* Makes calls, so that callgrind can count what they cost: `costs SOCKET CASE COUNT`. ../examples/costs.rs makes the same calls through the
 * client for Rust. */
#include "tests.h"

int main(int argc, char **argv)
{
    bec_client *client = NULL;
    bes_attribute value;
    uint8_t bytes[255];
    uint64_t node = 0;
    CHECK(argc == 4);
    OK(bec_connect(argv[1], strlen(argv[1]), NULL, &client));
    OK(bec_new_node(client, &node));
    OK(bec_set_text(client, node, "name", "Ada Lovelace <ada@example.org>"));
    for (int64_t number = 0, count = atoll(argv[3]); number < count; number++) {
        if (strcmp(argv[2], "get") == 0)
            OK(bec_read(client, node, "name", &value, bytes, sizeof bytes));
        else
            OK(bec_set_int64(client, node, "size", number));
    }
    OK(bec_close(client));
    return 0;
}
