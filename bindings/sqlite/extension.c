/* extension.c - jdoc documents in SQLite: a loadable extension
 *
 *   .load ./jdoc                                                                    in the shell
 *   connection.enable_load_extension(True); connection.load_extension("./jdoc")     in Python
 *
 * A document is a BLOB. A function that takes a document also takes JSON text and an integer. NULL as an argument
 * returns NULL. docs/SQL.md lists the functions.
 */
#include "extension.h"
SQLITE_EXTENSION_INIT1

#include <string.h>

void release_connection(void *it) {
    connection *own = it;
    if (--own->uses > 0) return;
    jdoc_tape_free(&own->tape);
    sqlite3_free(own->bytes);
    sqlite3_free(own->text.bytes);
    if (own->numbers) freelocale(own->numbers);
    sqlite3_free(own);
}

__attribute__((visibility("default"))) int sqlite3_jdoc_init(sqlite3 *db, char **error,
                                                             const sqlite3_api_routines *api);

int sqlite3_jdoc_init(sqlite3 *db, char **error, const sqlite3_api_routines *api) {
    SQLITE_EXTENSION_INIT2(api);
    (void)error;
    connection *own = sqlite3_malloc(sizeof *own);
    if (!own) return SQLITE_NOMEM;
    memset(own, 0, sizeof *own);
    own->uses = 1;
    own->text.heap = sqlite_heap;
    own->numbers = newlocale(LC_ALL_MASK, "C", (locale_t)0);
    jdoc_tape_init(&own->tape, sqlite_heap, 0);
    int rc = own->numbers ? add_functions(db, own) : SQLITE_NOMEM;
    if (rc == SQLITE_OK) rc = add_aggregates(db, own);
    if (rc == SQLITE_OK) rc = add_rows(db, own);
    release_connection(own);
    return rc;
}
