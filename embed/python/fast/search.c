/* Searches by the library, and what they assigned. */
#include "fast.h"

#include <stdlib.h>
#include <string.h>

void take_turn(Finder *self) {
    if (PyThread_acquire_lock(self->turn, NOWAIT_LOCK))
        return;
    Py_BEGIN_ALLOW_THREADS
    PyThread_acquire_lock(self->turn, WAIT_LOCK);
    Py_END_ALLOW_THREADS
}

void give_turn(Finder *self) {
    PyThread_release_lock(self->turn);
}

static Name *new_name(Finder *self, const uint8_t *bytes, size_t length) {
    if (self->name_count == self->name_room) {
        size_t room = 2 * self->name_room + 4;
        Name **names = realloc(self->names, room * sizeof *names);
        if (!names)
            return NULL;
        self->names = names;
        self->name_room = room;
    }
    Name *name = calloc(1, sizeof *name);
    if (!name)
        return NULL;
    memcpy(name->bytes, bytes, length);
    name->length = length;
    self->names[self->name_count++] = name;
    return name;
}

/* The name with these bytes, or null if there is no memory. The search begins after the name that was found before,
 * since the searches for a pattern mostly assign the same variables in turn. */
static Name *name_of(Finder *self, const uint8_t *bytes, size_t length) {
    for (size_t tried = 0; tried < self->name_count; tried++) {
        if (self->next_name >= self->name_count)
            self->next_name = 0;
        Name *name = self->names[self->next_name++];
        if (name->length == length && !memcmp(name->bytes, bytes, length))
            return name;
    }
    return new_name(self, bytes, length);
}

void begin_found(Found *found) {
    found->count = 0;
    found->room = FEW_VARIABLES;
    found->variables = found->few;
}

void end_found(Found *found) {
    if (found->variables != found->few)
        free(found->variables);
}

static bool has_room(Found *found) {
    if (found->count < found->room)
        return true;
    size_t room = 2 * found->room;
    bool was_few = found->variables == found->few;
    Variable *variables = realloc(was_few ? NULL : found->variables, room * sizeof *variables);
    if (!variables)
        return false;
    if (was_few)
        memcpy(variables, found->few, sizeof found->few);
    found->variables = variables;
    found->room = room;
    return true;
}

bool add_variable(Found *found, Variable variable) {
    if (!has_room(found))
        return false;
    found->variables[found->count++] = variable;
    return true;
}

static uint8_t add_assignment(Finder *self, size_t place, Found *found) {
    uint8_t bytes[SNO_LONGEST_NAME];
    sno_assignment one;
    uint8_t status = self->functions.assignment(&self->handle, place, bytes, sizeof bytes, &one);
    if (status != SNO_DONE)
        return status;
    Name *name = name_of(self, bytes, one.name_length);
    if (!name)
        return SNO_NO_MEMORY;
    Variable variable = {name, one.start, one.end, one.is_cursor};
    if (name->search == self->searches) {
        found->variables[name->place] = variable;
        return SNO_DONE;
    }
    name->search = self->searches;
    name->place = found->count;
    return add_variable(found, variable) ? SNO_DONE : SNO_NO_MEMORY;
}

uint8_t add_assignments(Finder *self, Found *found) {
    uint8_t status = SNO_DONE;
    self->searches++;
    for (size_t place = 0; status == SNO_DONE && place < found->match.assignments; place++)
        status = add_assignment(self, place, found);
    return status;
}

static uint8_t seek_within(Finder *self, Text *text, size_t from, uint32_t trials, Found *found) {
    uint8_t status = self->functions.next(&self->handle, &text->handle, from, trials, &found->match);
    found->count = 0;
    return status == SNO_DONE ? add_assignments(self, found) : status;
}

static uint32_t few_trials(const Finder *self) {
    return self->trials < FEW_TRIALS ? self->trials : FEW_TRIALS;
}

uint32_t tried_trials(const Finder *self, const Text *text) {
    return text->length < LONG_TEXT ? few_trials(self) : 0;
}

uint8_t seek(Finder *self, Text *text, size_t from, Found *found) {
    uint8_t status = SNO_TOO_MANY_TRIALS;
    uint32_t tried = tried_trials(self, text);
    if (tried)
        status = seek_within(self, text, from, tried, found);
    if (status == SNO_TOO_MANY_TRIALS && tried < self->trials) {
        Py_BEGIN_ALLOW_THREADS
        status = seek_within(self, text, from, self->trials, found);
        Py_END_ALLOW_THREADS
    }
    return status;
}

/* Puts what the rule makes of the text in a buffer that is long enough. */
static uint8_t replace_within(Finder *self, Text *text, uint32_t trials, uint8_t **buffer, sno_replaced *replaced) {
    size_t room = 2 * text->length + SPARE_ROOM;
    for (;;) {
        uint8_t *longer = realloc(*buffer, room);
        if (!longer)
            return SNO_NO_MEMORY;
        *buffer = longer;
        uint8_t status = self->functions.replace(&self->handle, &text->handle, trials, longer, room, replaced);
        if (status != SNO_TOO_SHORT)
            return status;
        room = replaced->length;
    }
}

uint8_t replace(Finder *self, Text *text, uint8_t **buffer, sno_replaced *replaced) {
    uint8_t status = SNO_TOO_MANY_TRIALS;
    uint32_t tried = text->length < LONG_TO_REPLACE ? few_trials(self) : 0;
    if (tried)
        status = replace_within(self, text, tried, buffer, replaced);
    if (status == SNO_TOO_MANY_TRIALS && tried < self->trials) {
        Py_BEGIN_ALLOW_THREADS
        status = replace_within(self, text, self->trials, buffer, replaced);
        Py_END_ALLOW_THREADS
    }
    return status;
}
