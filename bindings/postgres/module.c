/* module.c - the magic block of a module of PostgreSQL, and the setting jdoc.path_limit */
#include "jdoc_pg.h"

#include "utils/guc.h"

#include <limits.h>

PG_MODULE_MAGIC;

int path_limit_setting = 0;

void _PG_init(void);
void _PG_init(void) {
    DefineCustomIntVariable("jdoc.path_limit", "Limits the items that a path may list and compare.",
                            "A path whose bound on a document is above the limit is an error. 0 is no limit.",
                            &path_limit_setting, 0, 0, INT_MAX, PGC_USERSET, 0, NULL, NULL, NULL);
#if PG_VERSION_NUM >= 150000
    MarkGUCPrefixReserved("jdoc");
#endif
}
