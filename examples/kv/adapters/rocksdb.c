/* RocksDB; compiled with -lrocksdb */
#include "kv.h"
#include <rocksdb/c.h>

static rocksdb_t *db;
static rocksdb_writebatch_t *batch;
static rocksdb_writeoptions_t *how;
static char *error;

/* In the mode sync each commit is synced. */
int kv_open(const char *folder, const char *mode)
{
	rocksdb_options_t *options = rocksdb_options_create();

	rocksdb_options_set_create_if_missing(options, 1);
	rocksdb_options_set_info_log_level(options, 4);
	db = rocksdb_open(options, folder, &error);
	how = rocksdb_writeoptions_create();
	rocksdb_writeoptions_set_sync(how, !strcmp(mode, "sync"));
	batch = rocksdb_writebatch_create();
	return error != NULL;
}

long kv_get(const char *key, char *value, long room)
{
	size_t size;
	char *found = rocksdb_get(db, rocksdb_readoptions_create(), key, strlen(key), &size, &error);

	return error ? -2 : found ? kv_copy(found, size, value, room) : -1;
}

int kv_put(const char *key, const char *value, long size) { rocksdb_writebatch_put(batch, key, strlen(key), value, size); return 0; }
int kv_remove(const char *key) { rocksdb_writebatch_delete(batch, key, strlen(key)); return 0; }
int kv_commit(void) { rocksdb_write(db, how, batch, &error); rocksdb_writebatch_clear(batch); return error != NULL; }
int kv_checkpoint(void) { rocksdb_flush(db, rocksdb_flushoptions_create(), &error); return error != NULL; }
int kv_close(void) { rocksdb_close(db); return 0; }
