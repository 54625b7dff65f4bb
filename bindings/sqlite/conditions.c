// SPDX-License-Identifier: Apache-2.0
#include "conditions.h"

#include <math.h>
#include <stdio.h>
#include <string.h>

SQLITE_EXTENSION_INIT3

enum { LONGEST = 1000, MOST_VALUES = 1000 };
// Integers up to here are floats, too.
static const double WHOLE_FLOATS = 9007199254740992.0;

static const char *operator_word(int operator) {
    switch (operator) {
    case SQLITE_INDEX_CONSTRAINT_EQ:
        return "=";
    case SQLITE_INDEX_CONSTRAINT_GT:
        return ">";
    case SQLITE_INDEX_CONSTRAINT_GE:
        return ">=";
    case SQLITE_INDEX_CONSTRAINT_LT:
        return "<";
    case SQLITE_INDEX_CONSTRAINT_LE:
        return "<=";
    case SQLITE_INDEX_CONSTRAINT_ISNULL:
        return "is null";
    case SQLITE_INDEX_CONSTRAINT_ISNOTNULL:
        return "is not null";
    case SQLITE_INDEX_CONSTRAINT_LIKE:
        return "like";
    case SQLITE_INDEX_CONSTRAINT_GLOB:
        return "glob";
    default:
        return NULL;
    }
}

static bool is_pattern(int operator) {
    return operator == SQLITE_INDEX_CONSTRAINT_LIKE || operator == SQLITE_INDEX_CONSTRAINT_GLOB;
}

static bool is_null_test(int operator) {
    return operator == SQLITE_INDEX_CONSTRAINT_ISNULL || operator == SQLITE_INDEX_CONSTRAINT_ISNOTNULL;
}

bool can_push(const struct column *column, int operator, bool has_own_order) {
    if (operator_word(operator) == NULL)
        return false;
    if (is_null_test(operator))
        return true;
    if (is_pattern(operator))
        return column->kind == TEXT && !has_own_order;
    return !(column->kind == TEXT && has_own_order);
}

static void write_name(sqlite3_str *words, const struct column *column) {
    // %w doubles the quotes inside.
    sqlite3_str_appendf(words, "\"%w\"", column->name);
}

void write_constraint(sqlite3_str *words, const struct column *column, const struct constraint *constraint) {
    if (sqlite3_str_length(words) > 0)
        sqlite3_str_appendall(words, " and ");
    write_name(words, column);
    const char *operand = is_null_test(constraint->operator) ? "" : constraint->is_list ? "in (?)" : " ?";
    sqlite3_str_appendf(words, " %s%s", constraint->is_list ? "" : operator_word(constraint->operator), operand);
}

// ---- literals

// A float that is read back as it is, whatever the locale has for a point.
static void write_float(sqlite3_str *words, double value) {
    char digits[64];
    snprintf(digits, sizeof digits, "%.17g", value);
    for (char *at = digits; *at != 0; at++)
        if (*at == ',')
            *at = '.';
    char *plus = strchr(digits, '+');
    if (plus != NULL)
        memmove(plus, plus + 1, strlen(plus));
    sqlite3_str_appendall(words, digits);
}

static const char DAY[] = "dddd-dd-dd", MINUTE[] = "dd:dd";

// Whether a text begins with this form, in which each d is a digit.
static bool begins_with(const char *form, sqlite3_value *operand) {
    if (sqlite3_value_type(operand) != SQLITE_TEXT)
        return false;
    const unsigned char *text = sqlite3_value_text(operand);
    for (; *form != 0; form++, text++)
        if (*form == 'd' ? *text < '0' || *text > '9' : *text != (unsigned char)*form)
            return false;
    return true;
}

// The words of a value, if the column has them as SQLite compares them.
static bool write_literal(sqlite3_str *words, const struct column *column, sqlite3_value *operand) {
    int type = sqlite3_value_type(operand), length = sqlite3_value_bytes(operand);
    switch (column->kind) {
    case INTEGER:
    case UNSIGNED:
        if (type != SQLITE_INTEGER)
            return false;
        sqlite3_str_appendf(words, "%lld", sqlite3_value_int64(operand));
        return true;
    case FLOAT:
        if ((type != SQLITE_FLOAT && type != SQLITE_INTEGER) || !isfinite(sqlite3_value_double(operand)))
            return false;
        write_float(words, sqlite3_value_double(operand));
        return true;
    case DATE:
        if (length != sizeof DAY - 1 || !begins_with(DAY, operand))
            return false;
        sqlite3_str_appendf(words, "'%s'", sqlite3_value_text(operand));
        return true;
    case TEXT:
        if (type != SQLITE_TEXT || length > LONGEST || memchr(sqlite3_value_text(operand), 0, (size_t)length) != NULL)
            return false;
        sqlite3_str_appendf(words, "%Q", sqlite3_value_text(operand));
        return true;
    case BYTES:
        if (type != SQLITE_BLOB || length > LONGEST)
            return false;
        sqlite3_str_appendall(words, "x'");
        for (int place = 0; place < length; place++)
            sqlite3_str_appendf(words, "%02x", ((const unsigned char *)sqlite3_value_blob(operand))[place]);
        sqlite3_str_appendall(words, "'");
        return true;
    default:
        return false;
    }
}

// ---- comparisons

static bool asks_from(int operator) {
    return operator == SQLITE_INDEX_CONSTRAINT_EQ || operator == SQLITE_INDEX_CONSTRAINT_GT || operator == SQLITE_INDEX_CONSTRAINT_GE;
}

static bool asks_to(int operator) {
    return operator == SQLITE_INDEX_CONSTRAINT_EQ || operator == SQLITE_INDEX_CONSTRAINT_LT || operator == SQLITE_INDEX_CONSTRAINT_LE;
}

static void write_end(sqlite3_str *words, const struct column *column, const char *operator, const char *literal) {
    if (sqlite3_str_length(words) > 0)
        sqlite3_str_appendall(words, " and ");
    write_name(words, column);
    sqlite3_str_appendf(words, " %s %s", operator, literal);
}

// Both ends of what is asked, each in words of its own.
static void write_ends(sqlite3_str *words, const struct column *column, int operator, const char *from, const char *to) {
    if (asks_from(operator))
        write_end(words, column, ">=", from);
    if (asks_to(operator))
        write_end(words, column, "<=", to);
}

// A decimal reaches SQLite as its nearest float, so the ends are a last place and some bits further apart.
static bool write_decimals(sqlite3_str *words, const struct column *column, int operator, sqlite3_value *operand) {
    double value = sqlite3_value_double(operand);
    int type = sqlite3_value_type(operand);
    if ((type != SQLITE_FLOAT && type != SQLITE_INTEGER) || !(fabs(value) < 1e17) || column->digits > 18)
        return false;
    double margin = fabs(value) * 1e-15 + pow(10, -column->digits);
    char ends[2][64];
    for (int side = 0; side < 2; side++) {
        snprintf(ends[side], sizeof ends[side], "%.*f", column->digits, value + (side == 0 ? -margin : margin));
        char *comma = strchr(ends[side], ',');
        if (comma != NULL)
            *comma = '.';
    }
    write_ends(words, column, operator, ends[0], ends[1]);
    return true;
}

// SQLite compares timestamps and times of day as the text that the file has: the day, or the minute, decides wherever it differs. The
// day is that of the text's own zone: what it is in UTC lies between those in the zones that are furthest apart.
static bool write_moments(sqlite3_str *words, const struct column *column, int operator, sqlite3_value *operand) {
    static const char NINES[] = ".999999999";
    const char *form = column->kind == CLOCK ? MINUTE : DAY, *last = column->kind == CLOCK ? ":59" : " 23:59:59";
    if (!begins_with(form, operand))
        return false;
    int shown = (int)strlen(form), nines = column->digits > 0 ? column->digits + 1 : 0;
    char from[48], to[48];
    snprintf(from, sizeof from, "'%.*s%s'", shown, sqlite3_value_text(operand), column->is_zoned ? " 00:00:00+25:59:59" : "");
    snprintf(to, sizeof to, "'%.*s%s%.*s%s'", shown, sqlite3_value_text(operand), last, nines, NINES, column->is_zoned ? "-25:59:59" : "");
    write_ends(words, column, operator, from, to);
    return true;
}

// An integer beside a float: the next integers on both sides.
static bool write_wholes(sqlite3_str *words, const struct column *column, int operator, double value) {
    if (!(fabs(value) < WHOLE_FLOATS))
        return false;
    char from[32], to[32];
    snprintf(from, sizeof from, "%lld", (long long)floor(value));
    snprintf(to, sizeof to, "%lld", (long long)ceil(value));
    write_ends(words, column, operator, from, to);
    return true;
}

// Floats of 32 bits and integers that are no floats are rounded, so an end that is left out is taken in.
static bool write_comparison(sqlite3_str *words, const struct column *column, int operator, sqlite3_value *operand) {
    if (column->kind == DECIMAL)
        return write_decimals(words, column, operator, operand);
    if (column->kind == TIMESTAMP || column->kind == CLOCK)
        return write_moments(words, column, operator, operand);
    if ((column->kind == INTEGER || column->kind == UNSIGNED) && sqlite3_value_type(operand) == SQLITE_FLOAT)
        return write_wholes(words, column, operator, sqlite3_value_double(operand));
    sqlite3_str *literal = sqlite3_str_new(NULL);
    bool is_written = write_literal(literal, column, operand);
    char *text = sqlite3_str_finish(literal);
    if (is_written && text != NULL && operator == SQLITE_INDEX_CONSTRAINT_EQ)
        write_end(words, column, "=", text);
    else if (is_written && text != NULL)
        write_ends(words, column, operator, text, text);
    sqlite3_free(text);
    return is_written && text != NULL;
}

// A value of a list as words: its literal, or else both ends of what it may be. NULL, if it has none.
static char *words_of_value(const struct column *column, bool has_ends, sqlite3_value *value) {
    sqlite3_str *words = sqlite3_str_new(NULL);
    bool is_written = has_ends ? write_comparison(words, column, SQLITE_INDEX_CONSTRAINT_EQ, value) : write_literal(words, column, value);
    char *text = sqlite3_str_finish(words);
    if (is_written)
        return text;
    sqlite3_free(text);
    return NULL;
}

// One of the words or another; by halves, so that few parentheses nest.
static void write_any(sqlite3_str *list, char **words, int count) {
    sqlite3_str_appendall(list, "(");
    if (count == 1) {
        sqlite3_str_appendall(list, words[0]);
    } else {
        write_any(list, words, count / 2);
        sqlite3_str_appendall(list, " or ");
        write_any(list, words + count / 2, count - count / 2);
    }
    sqlite3_str_appendall(list, ")");
}

static void write_values(sqlite3_str *words, const struct column *column, bool has_ends, char **values, int count) {
    sqlite3_str_appendall(words, sqlite3_str_length(words) > 0 ? " and " : "");
    if (has_ends) {
        write_any(words, values, count);
        return;
    }
    write_name(words, column);
    for (int place = 0; place < count; place++)
        sqlite3_str_appendf(words, "%s%s", place == 0 ? " in (" : ", ", values[place]);
    sqlite3_str_appendall(words, ")");
}

static bool write_list(sqlite3_str *words, const struct column *column, sqlite3_value *operand) {
    bool has_ends = column->kind == DECIMAL || column->kind == TIMESTAMP || column->kind == CLOCK;
    char **values = sqlite3_malloc64(MOST_VALUES * sizeof *values);
    sqlite3_value *value;
    int count = 0, status = sqlite3_vtab_in_first(operand, &value);
    while (values != NULL && status == SQLITE_OK && value != NULL && count < MOST_VALUES) {
        if ((values[count] = words_of_value(column, has_ends, value)) == NULL)
            break;
        count++;
        status = sqlite3_vtab_in_next(operand, &value);
    }
    bool are_written = count > 0 && status == SQLITE_DONE;
    if (are_written)
        write_values(words, column, has_ends, values, count);
    for (int place = 0; place < count; place++)
        sqlite3_free(values[place]);
    sqlite3_free(values);
    return are_written;
}

// ---- patterns

static unsigned char upper(unsigned char letter) {
    return letter >= 'a' && letter <= 'z' ? (unsigned char)(letter - 32) : letter;
}

static unsigned char lower(unsigned char letter) {
    return letter >= 'A' && letter <= 'Z' ? (unsigned char)(letter + 32) : letter;
}

// What matches begins with what stands before the first wildcard. SQLite's `like` takes letters of ASCII in either case, so it is
// not below the beginning in capitals; and below the one in small letters whose last one is the next.
static bool write_pattern(sqlite3_str *words, const struct column *column, bool has_case, sqlite3_value *operand) {
    if (sqlite3_value_type(operand) != SQLITE_TEXT)
        return false;
    const unsigned char *pattern = sqlite3_value_text(operand);
    size_t length = strcspn((const char *)pattern, has_case ? "*?[" : "%_");
    while (length > 0 && (pattern[length - 1] >= 0x7f || length > LONGEST))
        length--;
    if (length == 0)
        return false;
    sqlite3_str *least = sqlite3_str_new(NULL), *above = sqlite3_str_new(NULL);
    for (size_t place = 0; place < length; place++) {
        sqlite3_str_appendchar(least, 1, (char)(has_case ? pattern[place] : upper(pattern[place])));
        sqlite3_str_appendchar(above, 1, (char)((has_case ? pattern[place] : lower(pattern[place])) + (place + 1 == length)));
    }
    char *ends[] = {sqlite3_str_finish(least), sqlite3_str_finish(above)};
    bool are_made = ends[0] != NULL && ends[1] != NULL;
    if (are_made) {
        sqlite3_str_appendall(words, sqlite3_str_length(words) > 0 ? " and " : "");
        write_name(words, column);
        sqlite3_str_appendf(words, " >= %Q and ", ends[0]);
        write_name(words, column);
        sqlite3_str_appendf(words, " < %Q", ends[1]);
    }
    sqlite3_free(ends[0]);
    sqlite3_free(ends[1]);
    return are_made;
}

// A NaN is a null in SQLite.
static void write_null_test(sqlite3_str *words, const struct column *column, int operator) {
    sqlite3_str_appendall(words, sqlite3_str_length(words) > 0 ? " and (" : "(");
    write_name(words, column);
    sqlite3_str_appendf(words, " %s", operator_word(operator));
    if (column->kind == FLOAT && operator == SQLITE_INDEX_CONSTRAINT_ISNULL) {
        sqlite3_str_appendall(words, " or ");
        write_name(words, column);
        sqlite3_str_appendall(words, " = 'NaN'");
    }
    sqlite3_str_appendall(words, ")");
}

bool write_condition(sqlite3_str *words, const struct column *column, const struct constraint *constraint, sqlite3_value *operand) {
    if (is_null_test(constraint->operator)) {
        write_null_test(words, column, constraint->operator);
        return true;
    }
    if (constraint->is_list)
        return write_list(words, column, operand);
    if (is_pattern(constraint->operator))
        return write_pattern(words, column, constraint->operator == SQLITE_INDEX_CONSTRAINT_GLOB, operand);
    return write_comparison(words, column, constraint->operator, operand);
}
