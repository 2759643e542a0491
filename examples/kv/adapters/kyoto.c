/* Kyoto Cabinet, a hash database with hard transactions; compiled with -lkyotocabinet */
#include "kv.h"
#include <kclangc.h>

static KCDB *db;

/* The mode NOMMAP has it without a mapping. */
int kv_open(const char *folder, const char *mode)
{
	char path[4096];

	snprintf(path, sizeof path, "%s/db.kch#bnum=100%s", folder, strcmp(mode, "NOMMAP") ? "" : "#msiz=0");
	db = kcdbnew();
	return !kcdbopen(db, path, KCOWRITER | KCOCREATE);
}

long kv_get(const char *key, char *value, long room)
{
	size_t size;
	char *found = kcdbget(db, key, strlen(key), &size);

	if (!found)
		return kcdbecode(db) == KCENOREC ? -1 : -2;
	kv_copy(found, size, value, room);
	kcfree(found);
	return size;
}

int kv_put(const char *key, const char *value, long size)
{
	return !kcdbset(db, key, strlen(key), value, size);
}

int kv_remove(const char *key) { return !kcdbremove(db, key, strlen(key)); }
int kv_begin(void) { return !kcdbbegintran(db, 1); }
int kv_commit(void) { return !kcdbendtran(db, 1); }
int kv_close(void) { return !kcdbclose(db); }
