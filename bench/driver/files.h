/* Files: nodes with realistic file names, and four more attributes. Name, size and modified are indexed. */
#ifndef FILES_H
#define FILES_H
#include "data.h"

#define MODIFIED TEXT("modified")
#define OWNER TEXT("owner")
#define NAME_MOST 64
#define ATTRIBUTES 5

/* Parts of names: one of ten words, and one of six suffixes. */
const char *word_of(uint64_t number);
const char *end_of(uint64_t number);

/* Writes the name of the file with this number, such as `report-draft-202200015.png`, and a zero byte. Returns its length. */
size_t file_name(char *to, uint64_t number);

/* Returns a prefix of 8, 16 or 24 bytes that names share. */
const char *front_text(uint64_t length);

/* Opens a store with the three indices. */
struct store *open_files(int passes);

/* Makes the files as nodes from 1 on, with one commit per operation, or with this many files per commit. 0 means all in one
 * commit. */
void import_singly(struct pass *pass, const struct data *data);
void import_in_lists(struct pass *pass, const struct data *data, uint64_t files);
#endif
