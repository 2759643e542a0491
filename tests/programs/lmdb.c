/* An LMDB of tests/by_hand/real_programs.py: `write FOLDER FLAGS COUNT` makes commits, each acknowledged by a mark; `read FOLDER` says
 * what is there. */
#include <lmdb.h>
#include <stdio.h>
#include <stdlib.h>
#include <string.h>

#include "mark.h"

#define OR_FAIL(call) do { int status_ = (call); if (status_) { printf("%s: %s\n", #call, mdb_strerror(status_)); exit(1); } } while (0)

static MDB_env *env;
static MDB_dbi dbi;

static MDB_txn *begun(const char *folder, unsigned flags, unsigned txn_flags)
{
	MDB_txn *txn;

	if (!env) {
		OR_FAIL(mdb_env_create(&env));
		OR_FAIL(mdb_env_set_mapsize(env, 1 << 20));
		OR_FAIL(mdb_env_open(env, folder, flags, 0644));
	}
	OR_FAIL(mdb_txn_begin(env, NULL, txn_flags, &txn));
	OR_FAIL(mdb_dbi_open(txn, NULL, 0, &dbi));
	return txn;
}

static unsigned flags_of(const char *text)
{
	return !strcmp(text, "NOSYNC") ? MDB_NOSYNC : !strcmp(text, "NOMETASYNC") ? MDB_NOMETASYNC
		: !strcmp(text, "WRITEMAP") ? MDB_WRITEMAP : 0;
}

static void put(MDB_txn *txn, int number)
{
	char key[16], value[600];
	MDB_val k = { 4, key }, v = { sizeof value, value };

	snprintf(key, sizeof key, "%04d", number);
	memset(value, 'a' + number % 26, sizeof value);
	OR_FAIL(mdb_put(txn, dbi, &k, &v, 0));
}

static int wrote(const char *folder, const char *flags, int first, int count)
{
	for (int i = first; i < first + count; i++) {
		MDB_txn *txn = begun(folder, flags_of(flags), 0);

		put(txn, i);
		put(txn, 1000 + i);
		OR_FAIL(mdb_txn_commit(txn));
		mark(i);
	}
	mdb_env_close(env);
	return 0;
}

static int was_read(const char *folder)
{
	MDB_txn *txn = begun(folder, 0, MDB_RDONLY);
	MDB_cursor *cursor;
	MDB_val k, v;
	int low = 0, high = 0, status;

	OR_FAIL(mdb_cursor_open(txn, dbi, &cursor));
	while (!(status = mdb_cursor_get(cursor, &k, &v, MDB_NEXT))) {
		int number = k.mv_size == 4 ? atoi(strndup(k.mv_data, 4)) : -1;

		if (v.mv_size != 600)
			return printf("a value of %zu bytes\n", v.mv_size), 1;
		for (size_t i = 0; i < v.mv_size; i++)
			if (((char *)v.mv_data)[i] != 'a' + number % 26)
				return printf("key %d has another value\n", number), 1;
		if (number != (number < 1000 ? low : 1000 + high))
			return printf("key %d comes after %d and %d\n", number, low, high), 1;
		*(number < 1000 ? &low : &high) += 1;
	}
	if (status != MDB_NOTFOUND || low != high)
		return printf("status %d, %d and %d keys\n", status, low, high), 1;
	printf("%d\n", low);
	return 0;
}

int main(int count, char **words)
{
	if (count == 6 && !strcmp(words[1], "write"))
		return wrote(words[2], words[3], atoi(words[4]), atoi(words[5]));
	return count == 3 && !strcmp(words[1], "read") ? was_read(words[2]) : 2;
}
