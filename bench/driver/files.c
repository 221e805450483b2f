#include "files.h"

#include <stdio.h>

const char *word_of(uint64_t number) {
    static const char *const words[10] = {"report", "photo", "invoice", "letter", "holiday", "budget", "notes", "scan", "minutes", "recipe"};
    return words[number % 10];
}

const char *end_of(uint64_t number) {
    static const char *const ends[6] = {"jpg", "pdf", "txt", "png", "doc", "mp3"};
    return ends[number % 6];
}

size_t file_name(char *to, uint64_t number) {
    static const char *const joints[4] = {"_", "-draft-", " (copy) ", "-"};
    return snprintf(to, NAME_MOST, "%s%s%u%05u.%s", word_of(number), joints[number / 60 % 4], (unsigned)(2016 + number % 9), (unsigned)number,
                    end_of(number / 10));
}

const char *front_text(uint64_t length) {
    return length == 8 ? "document" : length == 16 ? "project-document" : "archive-project-document";
}

static struct text owner_of(uint64_t number) {
    static const struct text owners[4] = {{"anna", 4}, {"bernard", 7}, {"chen", 4}, {"dolores", 7}};
    return owners[number % 4];
}

struct store *open_files(int passes) {
    struct store *store = open_store(passes);
    must(make_index(store_pass(store, 0), MODIFIED, IS_NUMBER));
    return store;
}

/* Sets a node's five attributes to those of the file at this place in the lists. */
static void set_file(struct pass *pass, const struct data *data, uint64_t at, uint64_t node) {
    static const struct text names[ATTRIBUTES] = {NAME, SIZE, MODIFIED, KIND, OWNER};
    char name[NAME_MOST];
    uint64_t number = data->names[at];
    size_t length = file_name(name, number);
    struct value values[ATTRIBUTES] = {
        text_value((struct text){name, length}),
        number_value(10 * (int64_t)data->sizes[at]),
        number_value(1600000000 + 60 * (int64_t)number),
        text_value(kind_text(number)),
        text_value(owner_of(number)),
    };
    for (int i = 0; i < ATTRIBUTES; i++) must(set(pass, node, names[i], &values[i]));
}

void import_singly(struct pass *pass, const struct data *data) {
    for (uint64_t i = 0; i < data->nodes; i++) {
        uint64_t node;
        must(make_node(pass, &node));
        set_file(pass, data, i, node);
    }
}

/* Nodes are numbered from 1, so a batch can refer to the nodes that it makes. */
void import_in_lists(struct pass *pass, const struct data *data, uint64_t files) {
    uint64_t each = files ? files : data->nodes, node;
    for (uint64_t i = 0; i < data->nodes; i += each) {
        must(begin(pass));
        for (uint64_t j = i; j < i + each && j < data->nodes; j++) {
            must(make_node(pass, &node));
            set_file(pass, data, j, j + 1);
        }
        must(commit(pass));
    }
}
