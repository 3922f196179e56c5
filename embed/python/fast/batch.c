/* Searches that are done at once, and what they found. */
#include "fast.h"

#include <stdlib.h>

Batch *new_batch(void) {
    Batch *batch = malloc(sizeof *batch);
    if (batch) {
        batch->count = 0;
        batch->is_slow = false;
        begin_found(&batch->all);
    }
    return batch;
}

void free_batch(Batch *batch) {
    if (batch)
        end_found(&batch->all);
    free(batch);
}

/* Takes the next of the searches that were gathered, and returns the status. Without a match, or without memory for its
 * variables, the batch stays as it is. */
static uint8_t keep_next(Finder *self, Batch *batch) {
    Found *all = &batch->all;
    size_t first = all->count;
    uint8_t status = self->functions.take(&self->handle, &all->match);
    if (status == SNO_DONE)
        status = add_assignments(self, all);
    if (status == SNO_DONE)
        batch->kept[batch->count++] = (Kept){all->match, first, all->count - first};
    return status;
}

/* What is gathered stays with the pattern until it is taken. So all of it is taken in the same turn, or else the next
 * one who gathers drops it. */
static uint8_t seek_batch_within(Finder *self, Text *text, size_t from, uint32_t trials, Batch *batch) {
    uint8_t status = self->functions.gather(&self->handle, &text->handle, from, trials, SEARCHES_AT_ONCE);
    batch->count = 0;
    batch->all.count = 0;
    while (status == SNO_DONE)
        status = batch->count < SEARCHES_AT_ONCE ? keep_next(self, batch) : SNO_NOTHING_GATHERED;
    return status;
}

uint8_t seek_batch(Finder *self, Text *text, size_t from, Batch *batch) {
    uint8_t status = SNO_TOO_MANY_TRIALS;
    uint32_t tried = batch->is_slow ? 0 : tried_trials(self, text);
    if (tried)
        status = seek_batch_within(self, text, from, tried, batch);
    if (status == SNO_TOO_MANY_TRIALS && tried < self->trials) {
        batch->is_slow = true;
        Py_BEGIN_ALLOW_THREADS
        status = seek_batch_within(self, text, from, self->trials, batch);
        Py_END_ALLOW_THREADS
    }
    return status;
}

bool copy_kept(const Batch *batch, size_t place, Found *found) {
    const Kept *kept = &batch->kept[place];
    found->match = kept->match;
    found->count = 0;
    bool has_all = true;
    for (size_t number = 0; has_all && number < kept->count; number++)
        has_all = add_variable(found, batch->all.variables[kept->first + number]);
    return has_all;
}
