// SPDX-License-Identifier: Apache-2.0
// What SQLite asks of a column, as words of a filter. The rows that a filter gives are tested again by SQLite, so a filter may be
// wider than what is asked, and never narrower.
#ifndef DOQALLIN_CONDITIONS_H
#define DOQALLIN_CONDITIONS_H

#include <sqlite3ext.h>
#include <stdbool.h>

#include "source.h"

// A constraint that was taken: the column, and SQLite's operator. `is_list` says that the operand is a list of values.
struct constraint {
    size_t column;
    unsigned char operator;
    bool is_list;
};

// Whether constraints with this operator on such a column can be words.
bool can_push(const struct column *column, int operator, bool has_own_order);
// Adds the words of a constraint; false if this operand has none, and then nothing is added.
bool write_condition(sqlite3_str *words, const struct column *column, const struct constraint *constraint, sqlite3_value *operand);
// The constraint for people, as `"fare" >= ?`.
void write_constraint(sqlite3_str *words, const struct column *column, const struct constraint *constraint);

#endif
