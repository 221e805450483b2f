/* The workloads. Each opens its own store and prints its cases. */
#ifndef WORKLOADS_H
#define WORKLOADS_H
#include "data.h"

void run_writes(const struct data *data);
void run_reads(const struct data *data);
void run_indices(const struct data *data);
void run_patterns(const struct data *data);
void run_order(const struct data *data);
void run_shared(const struct data *data);
void run_mixed(const struct data *data);
void run_writers(const struct data *data);
void run_import(const struct data *data);
void run_sets(const struct data *data, uint64_t indices);
void run_held(const struct data *data);
void run_threads(const struct data *data, double seconds);
void run_open(uint64_t pages);

/* Measures how much the process's memory grows per operation, over this many batches after as many
 * before. */
void run_journal(uint64_t lists, uint64_t operations);

/* Measures the median and the maximum of this many commits. They are made twice, and each one's
 * shorter time counts. */
void run_pauses(const struct data *data, uint64_t commits);
#endif
