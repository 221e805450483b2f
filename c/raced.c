/* Two threads write to a store, each through its own pass, and both also write to an unguarded variable, which is a data race.
 * ThreadSanitizer must report this race and none in the library; test.sh checks its report. */
#include "tests.h"
#include <pthread.h>

static uint64_t made;

static void *maker(void *with)
{
    bes_pass *pass = with;
    uint64_t node = 0;
    for (int i = 0; i < 50; i++) {
        CHECK(bes_new_node(pass, &node) == BES_OK && bes_set_text(pass, node, "maker", "ann") == BES_OK);
        made++;
    }
    return NULL;
}

int main(void)
{
    bes_pass first = BES_PASS_INIT, second = BES_PASS_INIT;
    pthread_t thread;
    CHECK(bes_open(256, 2, 1000, &first) == BES_OK && bes_another(&first, &second) == BES_OK);
    CHECK(pthread_create(&thread, NULL, maker, &second) == 0);
    maker(&first);
    CHECK(pthread_join(thread, NULL) == 0);
    CHECK(bes_close(&first) == BES_OK && bes_close(&second) == BES_OK);
    return 0;
}
