/* Times the push of a run in SQLite, in memory: the push alone, its rows loaded before and nothing checked; and all that Sigma does, which is to take
 * the run's rows, check them and push them. The rows come from numbers in memory, by prepared statements with bound values. They are checked by
 * constraints (a link leads to a row that is there, a value is one of its kind) and by a question for each equation, which must give no row.
 * Everything is prepared once and runs in one transaction, into tables that the run before has filled and that were emptied since, outside the time.
 * The least times of 300 runs are printed. Then rows with a broken link, a value too small, one too large and a broken equation must be refused.
 * The argument is a folder with the files that `bench sql` writes. */
#define _POSIX_C_SOURCE 199309L
#include <sqlite3.h>
#include <stdio.h>
#include <stdlib.h>
#include <time.h>

enum { RUNS = 300, STATEMENTS = 64, BROKEN_EQUATION = -1 };

static sqlite3 *db;

static void fail(const char *what) {
    fprintf(stderr, "sqlite: %s\n", what);
    exit(1);
}

static char *text_of(const char *folder, const char *name) {
    char path[4096];
    snprintf(path, sizeof path, "%s/%s", folder, name);
    FILE *file = fopen(path, "rb");
    if (!file || fseek(file, 0, SEEK_END) != 0)
        fail(path);
    long length = ftell(file);
    rewind(file);
    char *text = malloc((size_t)length + 1);
    if (!text || fread(text, 1, (size_t)length, file) != (size_t)length)
        fail(path);
    text[length] = 0;
    fclose(file);
    return text;
}

/* Prepared statements. */
struct script {
    sqlite3_stmt *statements[STATEMENTS];
    int count;
};

static struct script prepare(const char *text) {
    struct script script = {{0}, 0};
    while (script.count < STATEMENTS) {
        if (sqlite3_prepare_v2(db, text, -1, &script.statements[script.count], &text) != SQLITE_OK)
            fail(sqlite3_errmsg(db));
        if (!script.statements[script.count])
            return script;
        script.count++;
    }
    fail("too many statements");
    return script;
}

/* Runs a script; SQLITE_OK, or BROKEN_EQUATION where a statement gives a row. */
static int run(const struct script *script) {
    int code = SQLITE_OK;
    for (int i = 0; i < script->count && code == SQLITE_OK; i++) {
        int step = sqlite3_step(script->statements[i]);
        if (step != SQLITE_DONE && step != SQLITE_ROW)
            fail(sqlite3_errmsg(db));
        if (step == SQLITE_ROW)
            code = BROKEN_EQUATION;
        sqlite3_reset(script->statements[i]);
    }
    return code;
}

/* The rows of each table, in the order of the statements that load them. */
struct rows {
    int counts[STATEMENTS];
    sqlite3_int64 *values[STATEMENTS];
};

static struct rows rows_of(char *text, const struct script *load) {
    struct rows rows;
    for (int i = 0; i < load->count; i++) {
        int columns = sqlite3_bind_parameter_count(load->statements[i]);
        rows.counts[i] = (int)strtol(text, &text, 10);
        size_t count = (size_t)rows.counts[i] * (size_t)columns;
        rows.values[i] = malloc(count * sizeof(sqlite3_int64) + 1);
        if (!rows.values[i])
            fail("no memory");
        for (size_t k = 0; k < count; k++)
            rows.values[i][k] = strtoll(text, &text, 10);
    }
    return rows;
}

/* Loads the rows; SQLITE_OK, or the code of the constraint that a row does not meet. */
static int load(const struct script *script, const struct rows *rows) {
    for (int i = 0; i < script->count; i++) {
        sqlite3_stmt *insert = script->statements[i];
        int columns = sqlite3_bind_parameter_count(insert);
        const sqlite3_int64 *value = rows->values[i];
        for (int row = 0; row < rows->counts[i]; row++) {
            for (int column = 1; column <= columns; column++)
                sqlite3_bind_int64(insert, column, *value++);
            int code = sqlite3_step(insert) == SQLITE_DONE ? SQLITE_OK : sqlite3_extended_errcode(db);
            sqlite3_reset(insert);
            if (code != SQLITE_OK)
                return code;
        }
    }
    return SQLITE_OK;
}

static double nanoseconds(void) {
    struct timespec now;
    clock_gettime(CLOCK_MONOTONIC, &now);
    return now.tv_sec * 1e9 + now.tv_nsec;
}

static void refused(const char *what, int code, int expected) {
    char text[200];
    snprintf(text, sizeof text, "%s: expected %d, found %d", what, expected, code);
    if (code != expected)
        fail(text);
}

int main(int argc, char **argv) {
    if (argc != 2)
        fail("usage: sqlite FOLDER");
    const char *folder = argv[1];
    if (sqlite3_open(":memory:", &db) != SQLITE_OK || sqlite3_exec(db, text_of(folder, "setup.sql"), 0, 0, 0) != SQLITE_OK)
        fail(sqlite3_errmsg(db));
    struct script begin = prepare("BEGIN;"), commit = prepare("COMMIT;"), rollback = prepare("ROLLBACK;");
    struct script loads = prepare(text_of(folder, "load.sql")), checks = prepare(text_of(folder, "check.sql"));
    struct script push = prepare(text_of(folder, "push.sql")), differing = prepare(text_of(folder, "differing.sql"));
    struct script clear = prepare(text_of(folder, "clear.sql")), unload = prepare(text_of(folder, "unload.sql"));
    struct rows rows = rows_of(text_of(folder, "run.rows"), &loads);

    double least[2] = {0, 0};
    for (int whole = 0; whole < 2; whole++) {
        if (!whole && load(&loads, &rows) != SQLITE_OK)
            fail(sqlite3_errmsg(db));
        for (int i = 0; i < RUNS; i++) {
            run(&clear);
            if (whole)
                run(&unload);
            double start = nanoseconds();
            run(&begin);
            if (whole && (load(&loads, &rows) != SQLITE_OK || run(&checks) != SQLITE_OK))
                fail("the run is refused");
            run(&push);
            run(&commit);
            double time = nanoseconds() - start;
            least[whole] = i == 0 || time < least[whole] ? time : least[whole];
        }
        if (sqlite3_step(differing.statements[0]) != SQLITE_ROW || sqlite3_column_int(differing.statements[0], 0) != 0)
            fail("the pushed rows are not Sigma's");
        sqlite3_reset(differing.statements[0]);
    }

    static const char *const mistakes[] = {"link.rows", "below.rows", "above.rows", "equation.rows"};
    static const int codes[] = {SQLITE_CONSTRAINT_FOREIGNKEY, SQLITE_CONSTRAINT_CHECK, SQLITE_CONSTRAINT_CHECK, BROKEN_EQUATION};
    run(&clear);
    run(&unload);
    for (int i = 0; i < 4; i++) {
        struct rows broken = rows_of(text_of(folder, mistakes[i]), &loads);
        run(&begin);
        int code = load(&loads, &broken);
        refused(mistakes[i], code == SQLITE_OK ? run(&checks) : code, codes[i]);
        run(&rollback);
    }
    printf("push %.0f ns; load, check and push %.0f ns; SQLite %s; the rows are Sigma's; a broken link, values out of range and a broken "
           "equation are refused\n",
           least[0], least[1], sqlite3_libversion());
    return 0;
}
