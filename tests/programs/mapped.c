/*
 * A database that maps its file: `write FOLDER COUNT` makes commits, each acknowledged by a mark, and `read FOLDER MARKS` says with its
 * status what is there: 0 each commit that a mark acknowledged, 1 no database that can be read, 2 a commit is lost, 3 one is there in
 * part or has another value. For tests/by_hand/mapped_programs.py and tests/by_hand/names_in_guest.py; compiled with the name of
 * one database:
 *
 *     cc -DGDBM mapped.c -lgdbm      cc -DTDB mapped.c -ltdb      cc -DBERKELEY mapped.c -ldb-5.3
 *     cc -DKYOTO mapped.c -lkyotocabinet      cc -DTOKYO mapped.c -ltokyocabinet      cc -DLMDB mapped.c -llmdb
 *
 * $MODE has a word for another mode than the usual one. A commit is two keys where the database has transactions, else one.
 */
#include <stdlib.h>
#include <string.h>

#include "mark.h"

#define SIZE 600
#define OR_FAIL(call) do { if (!(call)) { printf("%s\n", #call); exit(1); } } while (0)

__attribute__((unused)) static int has_mode(const char *word)
{
	const char *mode = getenv("MODE");

	return mode && !strcmp(mode, word);
}

/* Each database: open it, put a key, make durable what was put since the last time, get a key. */

#ifdef GDBM
#include <gdbm.h>
#define KEYS 1
static GDBM_FILE db;

static void open_it(const char *path, int is_new)
{
	(void)is_new;
	OR_FAIL(db = gdbm_open(path, 512, GDBM_WRCREAT | (has_mode("NOMMAP") ? GDBM_NOMMAP : 0), 0644, NULL));
}

static void begin(void) { }

static void put(char *key, char *value)
{
	OR_FAIL(!gdbm_store(db, (datum){ key, strlen(key) }, (datum){ value, SIZE }, GDBM_REPLACE));
}

static void commit(void) { OR_FAIL(!gdbm_sync(db)); }

static int get(char *key, char *value)
{
	datum found = gdbm_fetch(db, (datum){ key, strlen(key) });

	if (!found.dptr) {
		OR_FAIL(gdbm_errno == GDBM_ITEM_NOT_FOUND);
		return -1;
	}
	memcpy(value, found.dptr, found.dsize < SIZE ? found.dsize : SIZE);
	return found.dsize;
}

static void close_it(void) { gdbm_close(db); }
#endif

#ifdef TDB
#include <tdb.h>
#define KEYS 2
static TDB_CONTEXT *db;

static void open_it(const char *path, int is_new)
{
	(void)is_new;
	OR_FAIL(db = tdb_open(path, 0, has_mode("NOMMAP") ? TDB_NOMMAP : TDB_DEFAULT, O_RDWR | O_CREAT, 0644));
}

static void begin(void) { OR_FAIL(!tdb_transaction_start(db)); }

static void put(char *key, char *value)
{
	OR_FAIL(!tdb_store(db, (TDB_DATA){ (unsigned char *)key, strlen(key) }, (TDB_DATA){ (unsigned char *)value, SIZE }, TDB_REPLACE));
}

static void commit(void) { OR_FAIL(!tdb_transaction_commit(db)); }

static int get(char *key, char *value)
{
	TDB_DATA found = tdb_fetch(db, (TDB_DATA){ (unsigned char *)key, strlen(key) });

	if (!found.dptr) {
		OR_FAIL(tdb_error(db) == TDB_ERR_NOEXIST);
		return -1;
	}
	memcpy(value, found.dptr, found.dsize < SIZE ? found.dsize : SIZE);
	return found.dsize;
}

static void close_it(void) { tdb_close(db); }
#endif

#ifdef BERKELEY
#include <db.h>
#define KEYS 2
static DB_ENV *env;
static DB *db;
static DB_TXN *txn;

static void open_it(const char *path, int is_new)
{
	char folder[4096];

	snprintf(folder, sizeof folder, "%s", path);
	*strrchr(folder, '/') = 0;
	OR_FAIL(!db_env_create(&env, 0));
	OR_FAIL(!env->set_lg_max(env, 1 << 16) && !env->set_lg_bsize(env, 1 << 14));
	OR_FAIL(!env->open(env, folder, DB_CREATE | DB_INIT_MPOOL | DB_INIT_LOG | DB_INIT_TXN | DB_INIT_LOCK | (is_new ? 0 : DB_RECOVER), 0644));
	OR_FAIL(!db_create(&db, env, 0));
	OR_FAIL(!db->open(db, NULL, "db", NULL, DB_BTREE, DB_CREATE | DB_AUTO_COMMIT, 0644));
}

static void begin(void) { OR_FAIL(!env->txn_begin(env, NULL, &txn, 0)); }

static void put(char *key, char *value)
{
	DBT k = { .data = key, .size = strlen(key) }, v = { .data = value, .size = SIZE };

	OR_FAIL(!db->put(db, txn, &k, &v, 0));
}

static void commit(void) { OR_FAIL(!txn->commit(txn, 0)); }

static int get(char *key, char *value)
{
	DBT k = { .data = key, .size = strlen(key) }, v = { .data = value, .ulen = SIZE, .flags = DB_DBT_USERMEM };
	int status = db->get(db, NULL, &k, &v, 0);

	OR_FAIL(!status || status == DB_NOTFOUND);
	return status ? -1 : (int)v.size;
}

static void close_it(void) { db->close(db, 0); env->close(env, 0); }
#endif

#ifdef KYOTO
#include <kclangc.h>
#define KEYS 2
static KCDB *db;

static void open_it(const char *path, int is_new)
{
	char text[4096];

	(void)is_new;
	snprintf(text, sizeof text, "%s.kch#bnum=100%s", path, has_mode("NOMMAP") ? "#msiz=0" : "");
	db = kcdbnew();
	OR_FAIL(kcdbopen(db, text, KCOWRITER | KCOCREATE));
}

static void begin(void) { OR_FAIL(kcdbbegintran(db, 1)); }

static void put(char *key, char *value) { OR_FAIL(kcdbset(db, key, strlen(key), value, SIZE)); }

static void commit(void) { OR_FAIL(kcdbendtran(db, 1)); }

static int get(char *key, char *value)
{
	size_t size;
	char *found = kcdbget(db, key, strlen(key), &size);

	if (!found) {
		OR_FAIL(kcdbecode(db) == KCENOREC);
		return -1;
	}
	memcpy(value, found, size < SIZE ? size : SIZE);
	return size;
}

static void close_it(void) { kcdbclose(db); }
#endif

#ifdef TOKYO
#include <tchdb.h>
#define KEYS 2
static TCHDB *db;

static void open_it(const char *path, int is_new)
{
	(void)is_new;
	db = tchdbnew();
	OR_FAIL(tchdbtune(db, 100, -1, -1, 0));
	if (has_mode("NOMMAP"))
		OR_FAIL(tchdbsetxmsiz(db, 0));
	OR_FAIL(tchdbopen(db, path, HDBOWRITER | HDBOCREAT | HDBOTSYNC));
}

static void begin(void) { OR_FAIL(tchdbtranbegin(db)); }

static void put(char *key, char *value) { OR_FAIL(tchdbput(db, key, strlen(key), value, SIZE)); }

static void commit(void) { OR_FAIL(tchdbtrancommit(db)); }

static int get(char *key, char *value)
{
	int size;
	char *found = tchdbget(db, key, strlen(key), &size);

	if (!found) {
		OR_FAIL(tchdbecode(db) == TCENOREC);
		return -1;
	}
	memcpy(value, found, size < SIZE ? size : SIZE);
	return size;
}

static void close_it(void) { tchdbclose(db); }
#endif

#ifdef LMDB
#include <lmdb.h>
#define KEYS 2
static MDB_env *env;
static MDB_txn *txn;
static MDB_dbi db;

static void begin_with(unsigned flags) { OR_FAIL(!mdb_txn_begin(env, NULL, flags, &txn) && !mdb_dbi_open(txn, NULL, 0, &db)); }

static void begin(void) { begin_with(0); }

static void open_it(const char *path, int is_new)
{
	unsigned flags = MDB_NOSUBDIR | (has_mode("NOMMAP") ? 0 : MDB_WRITEMAP);

	flags |= has_mode("MAPASYNC") ? MDB_MAPASYNC : has_mode("NOSYNC") ? MDB_NOSYNC : 0;
	OR_FAIL(!mdb_env_create(&env) && !mdb_env_set_mapsize(env, 1 << 20) && !mdb_env_open(env, path, flags, 0644));
	if (!is_new)
		begin_with(MDB_RDONLY);
}

static void put(char *key, char *value)
{
	MDB_val k = { strlen(key), key }, v = { SIZE, value };

	OR_FAIL(!mdb_put(txn, db, &k, &v, 0));
}

static void commit(void) { OR_FAIL(!mdb_txn_commit(txn)); }

static int get(char *key, char *value)
{
	MDB_val k = { strlen(key), key }, v;
	int status = mdb_get(txn, db, &k, &v);

	OR_FAIL(!status || status == MDB_NOTFOUND);
	if (status)
		return -1;
	memcpy(value, v.mv_data, v.mv_size < SIZE ? v.mv_size : SIZE);
	return v.mv_size;
}

static void close_it(void) { mdb_env_close(env); }
#endif

static void name(char *key, int number, int which) { sprintf(key, "%d-%d", number, which); }

static int was_written(const char *path, int count)
{
	char key[32], value[SIZE];

	open_it(path, 1);
	for (int i = 1; i <= count; i++) {
		begin();
		for (int which = 0; which < KEYS; which++) {
			memset(value, 'a' + i % 26, SIZE);
			name(key, i, which);
			put(key, value);
		}
		commit();
		mark(i);
	}
	close_it();
	return 0;
}

/* Whether a commit is there: all of its keys, each with its value, or none of them. */
static int is_there(int number)
{
	char key[32], value[SIZE], wanted[SIZE];
	int found = 0;

	memset(wanted, 'a' + number % 26, SIZE);
	for (int which = 0; which < KEYS; which++) {
		int size;

		name(key, number, which);
		size = get(key, value);
		if (size >= 0 && (size != SIZE || memcmp(value, wanted, SIZE)))
			exit(3);
		found += size >= 0;
	}
	if (found && found != KEYS)
		exit(3);
	return found == KEYS;
}

static int was_read(const char *path, int marks)
{
	int found = 0, number = 1;

	open_it(path, 0);
	for (; number <= marks + 1; number++)
		found += is_there(number);
	return found < marks ? 2 : 0;
}

int main(int count, char **words)
{
	char path[4096];

	if (count != 4)
		return 4;
	snprintf(path, sizeof path, "%s/db", words[2]);
	return !strcmp(words[1], "write") ? was_written(path, atoi(words[3])) : was_read(path, atoi(words[3]));
}
