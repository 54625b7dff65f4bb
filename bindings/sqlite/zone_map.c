// SPDX-License-Identifier: Apache-2.0
// An extension of SQLite: a CSV file as a table, searched by its index.
//
//     .load ./zone_map
//     create virtual table trips using zone_map('trips.csv');
//     select town, sum(fare) from trips where id between 1000 and 2000 group by town;
//
// Comparisons with values, `in`, `between`, `is null`, and beginnings by `like` and `glob` become a filter of libdoqallin, which is
// proved; SQLite tests each row again. What an index says is in docs/SEARCHES.md. Options come after the name of the file:
// columns='id i64, ..', header=1, delimiter=';', null='NA', whole=1, as those of `zone_map find`.
#include <sqlite3ext.h>
#include <stdlib.h>
#include <string.h>

#include "cells.h"
#include "conditions.h"
#include "source.h"

SQLITE_EXTENSION_INIT1

enum { MOST_CONSTRAINTS = 32 };

// The constraints that one plan of SQLite took, in the order of their operands.
struct plan {
    struct constraint constraints[MOST_CONSTRAINTS];
    int count;
    // The columns that the query uses, a bit for each.
    uint64_t used;
};

struct table {
    sqlite3_vtab base;
    struct source source;
    // Whether strings sort in this database otherwise than by their bytes in UTF-8.
    bool has_own_order;
    struct plan **plans;
    int plan_count;
};

struct cursor {
    sqlite3_vtab_cursor base;
    struct search search;
    struct cells cells;
    bool is_there;
};

static struct table *table_of(sqlite3_vtab *base) {
    return (struct table *)base;
}

static struct cursor *cursor_of(sqlite3_vtab_cursor *base) {
    return (struct cursor *)base;
}

// ---- a table is made

static char *unquoted(const char *word) {
    size_t length = strlen(word);
    char quote = length > 1 && (word[0] == '\'' || word[0] == '"') && word[length - 1] == word[0] ? word[0] : 0;
    sqlite3_str *text = sqlite3_str_new(NULL);
    for (size_t place = quote != 0; place < length - (quote != 0); place++) {
        sqlite3_str_appendchar(text, 1, word[place]);
        place += quote != 0 && word[place] == quote && word[place + 1] == quote;
    }
    char *made = sqlite3_str_finish(text);
    return made == NULL ? sqlite3_mprintf("") : made;
}

// Reads an option; *words are what its value is, to be freed.
static bool read_option(const char *option, struct reading *reading, char **words, char **message) {
    size_t length = strcspn(option, "= ");
    const char *value = option + length + strspn(option + length, "= ");
    *words = unquoted(value);
    const struct {
        const char *name;
        const char **text;
        bool *flag;
    } options[] = {{"columns", &reading->columns, NULL}, {"delimiter", &reading->delimiter, NULL}, {"null", &reading->null, NULL},
                   {"header", NULL, &reading->has_header}, {"whole", NULL, &reading->is_whole}};
    for (size_t place = 0; place < sizeof options / sizeof *options; place++)
        if (strlen(options[place].name) == length && sqlite3_strnicmp(options[place].name, option, (int)length) == 0) {
            if (options[place].text != NULL)
                *options[place].text = *words;
            else
                *options[place].flag = atoi(*words) != 0;
            reading->has_options = reading->has_options || options[place].flag != &reading->is_whole;
            return true;
        }
    *message = sqlite3_mprintf("zone_map: there is no option %s: columns, header, delimiter, null, whole", option);
    return false;
}

static const char *type_of(const struct column *column) {
    static const char *const TYPES[] = {"integer", "integer", "real", "real", "text", "text", "text", "text", "blob"};
    return TYPES[column->kind];
}

static int declare(sqlite3 *store, const struct source *source) {
    sqlite3_str *text = sqlite3_str_new(store);
    for (size_t place = 0; place < source->column_count; place++)
        sqlite3_str_appendf(text, "%s\"%w\" %s", place == 0 ? "create table found(" : ", ", source->columns[place].name, type_of(&source->columns[place]));
    sqlite3_str_appendall(text, ")");
    char *statement = sqlite3_str_finish(text);
    int status = statement == NULL ? SQLITE_NOMEM : sqlite3_declare_vtab(store, statement);
    sqlite3_free(statement);
    return status;
}

static bool has_own_order(sqlite3 *store) {
    sqlite3_stmt *statement = NULL;
    bool is_other = true;
    if (sqlite3_prepare_v2(store, "pragma encoding", -1, &statement, NULL) == SQLITE_OK && sqlite3_step(statement) == SQLITE_ROW)
        is_other = strcmp((const char *)sqlite3_column_text(statement, 0), "UTF-8") != 0;
    sqlite3_finalize(statement);
    return is_other;
}

static int disconnect(sqlite3_vtab *base) {
    struct table *table = table_of(base);
    for (int place = 0; place < table->plan_count; place++)
        sqlite3_free(table->plans[place]);
    sqlite3_free(table->plans);
    close_source(&table->source);
    sqlite3_free(table);
    return SQLITE_OK;
}

static int connect(sqlite3 *store, void *own, int count, const char *const *words, sqlite3_vtab **made, char **message) {
    (void)own;
    if (count < 4) {
        *message = sqlite3_mprintf("zone_map: the name of a file is wanted, as zone_map('trips.csv')");
        return SQLITE_ERROR;
    }
    struct reading reading = {0};
    char **values = calloc((size_t)count, sizeof *values);
    char *path = unquoted(words[3]);
    struct table *table = sqlite3_malloc(sizeof *table);
    bool is_read = values != NULL && path != NULL && table != NULL;
    if (table != NULL)
        memset(table, 0, sizeof *table);
    for (int place = 4; is_read && place < count; place++)
        is_read = read_option(words[place], &reading, &values[place], message);
    is_read = is_read && open_source(&table->source, path, &reading, message);
    if (is_read && table->source.is_lenient) {
        *message = sqlite3_mprintf("%s: its index takes words that do not fit as nulls (--lenient), which a table does not", path);
        is_read = false;
    }
    for (int place = 4; values != NULL && place < count; place++)
        sqlite3_free(values[place]);
    free(values);
    sqlite3_free(path);
    int status = is_read ? declare(store, &table->source) : SQLITE_ERROR;
    if (status != SQLITE_OK) {
        if (table != NULL)
            disconnect(&table->base);
        return status;
    }
    table->has_own_order = has_own_order(store);
    sqlite3_vtab_config(store, SQLITE_VTAB_DIRECTONLY);
    *made = &table->base;
    return SQLITE_OK;
}

// ---- a plan

// How many rows of a thousand such a constraint leaves, by guess.
static double share_of(const struct constraint *constraint) {
    if (constraint->is_list)
        return 0.05;
    return constraint->operator == SQLITE_INDEX_CONSTRAINT_EQ ? 0.01 : 0.3;
}

static bool is_binary(sqlite3_index_info *info, int place) {
    const char *collation = sqlite3_vtab_collation(info, place);
    return collation == NULL || sqlite3_stricmp(collation, "binary") == 0;
}

// Takes a constraint, if it can be words; returns whether it was taken.
static bool take(struct table *table, struct plan *plan, sqlite3_index_info *info, int place) {
    const struct sqlite3_index_constraint *asked = &info->aConstraint[place];
    if (!asked->usable || asked->iColumn < 0 || plan->count == MOST_CONSTRAINTS)
        return false;
    const struct column *column = &table->source.columns[asked->iColumn];
    bool is_pattern = asked->op == SQLITE_INDEX_CONSTRAINT_LIKE || asked->op == SQLITE_INDEX_CONSTRAINT_GLOB;
    if (!can_push(column, asked->op, table->has_own_order) || (column->kind == TEXT && !is_pattern && !is_binary(info, place)))
        return false;
    bool is_list = asked->op == SQLITE_INDEX_CONSTRAINT_EQ && sqlite3_vtab_in(info, place, -1);
    if (is_list)
        sqlite3_vtab_in(info, place, 1);
    plan->constraints[plan->count++] = (struct constraint){.column = (size_t)asked->iColumn, .operator = asked->op, .is_list = is_list};
    info->aConstraintUsage[place].argvIndex = plan->count;
    return true;
}

static int best_index(sqlite3_vtab *base, sqlite3_index_info *info) {
    struct table *table = table_of(base);
    struct plan *plan = sqlite3_malloc(sizeof *plan);
    struct plan **plans = sqlite3_realloc64(table->plans, (sqlite3_uint64)(table->plan_count + 1) * sizeof *plans);
    if (plans != NULL)
        table->plans = plans;
    if (plan == NULL || plans == NULL) {
        sqlite3_free(plan);
        return SQLITE_NOMEM;
    }
    memset(plan, 0, sizeof *plan);
    plan->used = info->colUsed;
    double rows = (double)table->source.row_count;
    sqlite3_str *words = sqlite3_str_new(NULL);
    for (int place = 0; place < info->nConstraint; place++)
        if (take(table, plan, info, place)) {
            const struct constraint *taken = &plan->constraints[plan->count - 1];
            write_constraint(words, &table->source.columns[taken->column], taken);
            rows *= share_of(taken);
        }
    info->idxStr = sqlite3_str_finish(words);
    info->needToFreeIdxStr = info->idxStr != NULL;
    info->idxNum = table->plan_count;
    info->estimatedRows = (sqlite3_int64)rows + 1;
    // A zone is read whole, and its records are looked at one by one.
    info->estimatedCost = rows * 2 + 1000;
    table->plans[table->plan_count++] = plan;
    return SQLITE_OK;
}

// ---- a search

static int open_cursor(sqlite3_vtab *base, sqlite3_vtab_cursor **made) {
    struct cursor *cursor = sqlite3_malloc(sizeof *cursor);
    if (cursor == NULL)
        return SQLITE_NOMEM;
    (void)base;
    memset(cursor, 0, sizeof *cursor);
    *made = &cursor->base;
    return SQLITE_OK;
}

static int close_cursor(sqlite3_vtab_cursor *base) {
    struct cursor *cursor = cursor_of(base);
    end_search(&cursor->search);
    end_cells(&cursor->cells);
    sqlite3_free(cursor);
    return SQLITE_OK;
}

static int answer(sqlite3_vtab_cursor *base, bool is_well, char *message) {
    if (is_well)
        return SQLITE_OK;
    sqlite3_free(base->pVtab->zErrMsg);
    base->pVtab->zErrMsg = message;
    return SQLITE_ERROR;
}

static int next(sqlite3_vtab_cursor *base) {
    struct cursor *cursor = cursor_of(base);
    char *message = NULL;
    bool is_well = next_record(&cursor->search, &cursor->is_there, &message);
    return answer(base, is_well, message);
}

static int filter(sqlite3_vtab_cursor *base, int number, const char *text, int count, sqlite3_value **operands) {
    (void)text;
    struct cursor *cursor = cursor_of(base);
    struct table *table = table_of(base->pVtab);
    const struct plan *plan = table->plans[number];
    sqlite3_str *conditions = sqlite3_str_new(NULL);
    for (int place = 0; place < count; place++)
        write_condition(conditions, &table->source.columns[plan->constraints[place].column], &plan->constraints[place], operands[place]);
    char *words = sqlite3_str_finish(conditions), *message = NULL;
    end_search(&cursor->search);
    bool is_begun = begin_search(&cursor->search, &table->source, words == NULL ? EVERY_ROW : words, &message) &&
                    begin_cells(&cursor->cells, &table->source, plan->used, &message);
    sqlite3_free(words);
    return is_begun ? next(base) : answer(base, false, message);
}

static int is_at_end(sqlite3_vtab_cursor *base) {
    return !cursor_of(base)->is_there;
}

static int row_number(sqlite3_vtab_cursor *base, sqlite3_int64 *number) {
    const struct search *search = &cursor_of(base)->search;
    *number = (sqlite3_int64)search->found[search->next_found].number;
    return SQLITE_OK;
}

static int column(sqlite3_vtab_cursor *base, sqlite3_context *context, int number) {
    struct cursor *cursor = cursor_of(base);
    char *message = NULL;
    bool is_given = give_cell(&cursor->cells, &cursor->search, (size_t)number, context, &message);
    if (!is_given)
        sqlite3_result_error(context, message == NULL ? "out of memory" : message, -1);
    sqlite3_free(message);
    return is_given ? SQLITE_OK : SQLITE_ERROR;
}

static const sqlite3_module MODULE = {
    .iVersion = 2,
    .xCreate = connect,
    .xConnect = connect,
    .xBestIndex = best_index,
    .xDisconnect = disconnect,
    .xDestroy = disconnect,
    .xOpen = open_cursor,
    .xClose = close_cursor,
    .xFilter = filter,
    .xNext = next,
    .xEof = is_at_end,
    .xColumn = column,
    .xRowid = row_number,
};

#ifdef _WIN32
__declspec(dllexport)
#else
__attribute__((visibility("default")))
#endif
int sqlite3_zonemap_init(sqlite3 *store, char **message, const sqlite3_api_routines *api) {
    (void)message;
    SQLITE_EXTENSION_INIT2(api);
    return sqlite3_create_module(store, "zone_map", &MODULE, NULL);
}
