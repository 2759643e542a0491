/* gdbm; compiled with -lgdbm */
#include "kv.h"
#include <gdbm.h>

int kv_is_single = 1;
static GDBM_FILE db;

static datum of(const char *bytes, long size)
{
	return (datum){ (char *)bytes, size };
}

/* The mode NOMMAP has it without a mapping. */
int kv_open(const char *folder, const char *mode)
{
	db = gdbm_open(kv_path(folder, "db"), 512, GDBM_WRCREAT | (strcmp(mode, "NOMMAP") ? 0 : GDBM_NOMMAP), 0644, NULL);
	return !db;
}

long kv_get(const char *key, char *value, long room)
{
	datum found = gdbm_fetch(db, of(key, strlen(key)));

	if (!found.dptr)
		return gdbm_errno == GDBM_ITEM_NOT_FOUND ? -1 : -2;
	return kv_copy(found.dptr, found.dsize, value, room);
}

int kv_put(const char *key, const char *value, long size)
{
	return gdbm_store(db, of(key, strlen(key)), of(value, size), GDBM_REPLACE);
}

int kv_remove(const char *key) { return gdbm_delete(db, of(key, strlen(key))); }
int kv_commit(void) { return gdbm_sync(db); }
int kv_close(void) { return gdbm_close(db); }
