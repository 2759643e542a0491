/*
 * Makes three commits to an LMDB in one file, each acknowledged by a mark. For crashbpf-record:
 *
 *     cc write.c -o write -llmdb
 *     crashbpf-record recorded -- $PWD/write sync
 *
 * The word is sync, nosync (MDB_NOSYNC) or nometasync (MDB_NOMETASYNC).
 */
#include <lmdb.h>
#include <stdio.h>
#include <stdlib.h>
#include <string.h>

static void must(int status)
{
	if (status) {
		fprintf(stderr, "%s\n", mdb_strerror(status));
		exit(1);
	}
}

static void mark(int number)
{
	char path[4096];
	FILE *file;

	snprintf(path, sizeof path, "%s/marks", getenv("RECORDING"));
	file = fopen(path, "a");
	if (!file)
		exit(1);
	fprintf(file, "0 commit-%d\n", number);
	fclose(file);
}

static void put(MDB_txn *txn, MDB_dbi database, int number)
{
	char name[32], content[1200];
	MDB_val key = { sprintf(name, "key-%03d", number), name }, data = { sizeof content, content };

	memset(content, number, sizeof content);
	must(mdb_put(txn, database, &key, &data, 0));
}

int main(int count, char **words)
{
	unsigned flags = MDB_NOSUBDIR | MDB_NOLOCK;
	char path[4096];
	MDB_env *env;

	if (count != 2)
		return 2;
	flags |= strcmp(words[1], "nosync") == 0 ? MDB_NOSYNC : strcmp(words[1], "nometasync") == 0 ? MDB_NOMETASYNC : 0;
	snprintf(path, sizeof path, "%s/data.mdb", getenv("FILES"));
	must(mdb_env_create(&env));
	must(mdb_env_set_mapsize(env, 4096 * 64));
	must(mdb_env_open(env, path, flags, 0644));
	for (int commit = 1; commit <= 3; commit++) {
		MDB_txn *txn;
		MDB_dbi database;

		must(mdb_txn_begin(env, 0, 0, &txn));
		must(mdb_dbi_open(txn, 0, 0, &database));
		for (int n = 0; n < (commit == 1 ? 3 : 1); n++)
			put(txn, database, 10 * n + commit);
		must(mdb_txn_commit(txn));
		mark(commit);
	}
	mdb_env_close(env);
	return 0;
}
