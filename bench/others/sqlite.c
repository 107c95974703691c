/* SQLite is asked who is authoritative: one recursive query, prepared once, on a database in memory. README.md says what is
 * read and printed. Keys are in the order in which the walk needs them, and the library is set up for speed: one thread, no
 * statistics, temporary tables in memory. */
#include <sqlite3.h>
#include <stdio.h>
#include <stdlib.h>
#include <string.h>
#include <time.h>

enum { MOST_QUESTIONS = 4096 };

struct question {
    int tag, principal;
};

static sqlite3 *db;
static struct question questions[MOST_QUESTIONS];
static int count;

static const char *const TABLES =
    "PRAGMA temp_store = MEMORY;"
    "CREATE TABLE tag (tag INTEGER PRIMARY KEY, root INTEGER NOT NULL, supertag INTEGER);"
    "CREATE TABLE link (p INTEGER, q INTEGER, PRIMARY KEY (p, q)) WITHOUT ROWID;"
    "CREATE TABLE tag_link (tag INTEGER, p INTEGER, q INTEGER, PRIMARY KEY (tag, p, q)) WITHOUT ROWID;";

/* Of those who were reached, the ones with a tag are its counted nodes; a principal link leads out of every tag. CROSS JOIN
 * keeps the order of the two tables, so that each step looks up the next links by their key. */
static const char *const AUTHORITATIVE =
    "WITH RECURSIVE"
    " asked (tag) AS (SELECT ?1 UNION ALL SELECT supertag FROM tag WHERE tag = ?1),"
    " reached (tag, p) AS ("
    "  SELECT tag, root FROM asked CROSS JOIN tag USING (tag)"
    "  UNION SELECT l.tag, l.q FROM reached CROSS JOIN tag_link AS l ON l.tag = reached.tag AND l.p = reached.p"
    "  UNION SELECT NULL, l.q FROM reached CROSS JOIN link AS l ON l.p = reached.p)"
    " SELECT EXISTS (SELECT 1 FROM reached WHERE p = ?2)";

static void fail(const char *what) {
    fprintf(stderr, "sqlite: %s\n", what);
    exit(1);
}

static void run(const char *sql) {
    if (sqlite3_exec(db, sql, NULL, NULL, NULL) != SQLITE_OK)
        fail(sqlite3_errmsg(db));
}

static void open_database(void) {
    sqlite3_config(SQLITE_CONFIG_SINGLETHREAD);
    sqlite3_config(SQLITE_CONFIG_MEMSTATUS, 0);
    if (sqlite3_open(":memory:", &db) != SQLITE_OK)
        fail("no database");
    run(TABLES);
}

static void take(const char *line) {
    char kind[16], sql[96];
    int a, b, c = 0;
    if (sscanf(line, "%15s %d %d %d", kind, &a, &b, &c) < 3)
        fail("a line cannot be read");
    if (strcmp(kind, "ask") == 0) {
        if (count == MOST_QUESTIONS)
            fail("too many questions");
        questions[count++] = (struct question){a, b};
        return;
    }
    if (strcmp(kind, "supertag") == 0)
        snprintf(sql, sizeof sql, "INSERT INTO tag VALUES (%d, %d, NULL)", a, b);
    else if (strcmp(kind, "subtag") == 0)
        snprintf(sql, sizeof sql, "INSERT INTO tag VALUES (%d, %d, %d)", a, b, c);
    else if (strcmp(kind, "link") == 0)
        snprintf(sql, sizeof sql, "INSERT INTO link VALUES (%d, %d)", a, b);
    else if (strcmp(kind, "tag_link") == 0)
        snprintf(sql, sizeof sql, "INSERT INTO tag_link VALUES (%d, %d, %d)", a, b, c);
    else
        fail("a line of an unknown kind");
    run(sql);
}

static void load(const char *name) {
    char line[64];
    FILE *file = fopen(name, "r");
    if (file == NULL)
        fail("the file cannot be read");
    while (fgets(line, sizeof line, file) != NULL)
        take(line);
    fclose(file);
    if (count == 0)
        fail("no questions");
}

static int answer(sqlite3_stmt *query, struct question asked) {
    sqlite3_bind_int(query, 1, asked.tag);
    sqlite3_bind_int(query, 2, asked.principal);
    if (sqlite3_step(query) != SQLITE_ROW)
        fail(sqlite3_errmsg(db));
    int yes = sqlite3_column_int(query, 0);
    sqlite3_reset(query);
    return yes;
}

static double now(void) {
    struct timespec time;
    clock_gettime(CLOCK_MONOTONIC, &time);
    return time.tv_sec * 1e9 + time.tv_nsec;
}

/* All questions so many times: how long that took, and how many were answered yes. */
static double took(sqlite3_stmt *query, long times, long *yes) {
    *yes = 0;
    double before = now();
    for (long time = 0; time < times; time++)
        for (int i = 0; i < count; i++)
            *yes += answer(query, questions[i]);
    return now() - before;
}

static void measure(sqlite3_stmt *query, int rounds, double least) {
    long times = 1, yes;
    while (took(query, times, &yes) < least)
        times *= 2;
    for (int round = 0; round < rounds; round++) {
        double nanoseconds = took(query, times, &yes);
        printf("round walk %.0f %ld %ld\n", nanoseconds, times * count, yes);
    }
}

int main(int argc, char **argv) {
    if (argc != 4)
        fail("wants: FILE ROUNDS MILLISECONDS");
    open_database();
    load(argv[1]);
    sqlite3_stmt *query;
    if (sqlite3_prepare_v3(db, AUTHORITATIVE, -1, SQLITE_PREPARE_PERSISTENT, &query, NULL) != SQLITE_OK)
        fail(sqlite3_errmsg(db));
    printf("version SQLite %s\nanswers walk ", sqlite3_libversion());
    for (int i = 0; i < count; i++)
        putchar(answer(query, questions[i]) ? '1' : '0');
    putchar('\n');
    measure(query, atoi(argv[2]), atof(argv[3]) * 1e6);
    sqlite3_finalize(query);
    sqlite3_close(db);
    return 0;
}
