/* Tokyo Cabinet, a hash database with synchronised transactions; compiled with -ltokyocabinet */
#include "kv.h"
#include <tchdb.h>

static TCHDB *db;

int kv_open(const char *folder, const char *mode)
{
	(void)mode;
	db = tchdbnew();
	return !tchdbtune(db, 100, -1, -1, 0) ||
		!tchdbopen(db, kv_path(folder, "db.tch"), HDBOWRITER | HDBOCREAT | HDBOTSYNC);
}

long kv_get(const char *key, char *value, long room)
{
	int size;
	char *found = tchdbget(db, key, strlen(key), &size);

	if (!found)
		return tchdbecode(db) == TCENOREC ? -1 : -2;
	kv_copy(found, size, value, room);
	free(found);
	return size;
}

int kv_put(const char *key, const char *value, long size)
{
	return !tchdbput(db, key, strlen(key), value, size);
}

int kv_remove(const char *key) { return !tchdbout(db, key, strlen(key)); }
int kv_begin(void) { return !tchdbtranbegin(db); }
int kv_commit(void) { return !tchdbtrancommit(db); }
int kv_close(void) { return !tchdbclose(db); }
