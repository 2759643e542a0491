/* A LevelDB of tests/by_hand/real_programs.py: `write FOLDER sync|loose COUNT..` makes commits of these numbers, each of two keys and
 * acknowledged by a mark; `read FOLDER` says which is the last. */
#include <leveldb/c.h>
#include <stdio.h>
#include <stdlib.h>
#include <string.h>

#include "mark.h"

static char *wrong;

static void or_fail(const char *what)
{
	if (wrong) {
		printf("%s: %s\n", what, wrong);
		exit(1);
	}
}

static leveldb_t *opened(const char *folder, int made)
{
	leveldb_options_t *options = leveldb_options_create();
	leveldb_t *db;

	leveldb_options_set_create_if_missing(options, made);
	leveldb_options_set_paranoid_checks(options, 1);
	leveldb_options_set_compression(options, leveldb_no_compression);
	db = leveldb_open(options, folder, &wrong);
	or_fail("open");
	return db;
}

static void commit(leveldb_t *db, int number, int sync)
{
	leveldb_writeoptions_t *options = leveldb_writeoptions_create();
	leveldb_writebatch_t *batch = leveldb_writebatch_create();
	char key[16], value[300];

	snprintf(key, sizeof key, "t%04d", number);
	memset(value, 'a' + number % 26, sizeof value);
	leveldb_writebatch_put(batch, key, 5, value, sizeof value);
	leveldb_writebatch_put(batch, "u", 1, key, 5);
	leveldb_writeoptions_set_sync(options, sync);
	leveldb_write(db, options, batch, &wrong);
	or_fail("write");
}

static void read_all(leveldb_t *db)
{
	leveldb_readoptions_t *options = leveldb_readoptions_create();
	leveldb_iterator_t *at;
	char last[16] = "", told[16] = "none";
	int count = 0;

	leveldb_readoptions_set_verify_checksums(options, 1);
	at = leveldb_create_iterator(db, options);
	for (leveldb_iter_seek_to_first(at); leveldb_iter_valid(at); leveldb_iter_next(at)) {
		size_t key_length, length;
		const char *key = leveldb_iter_key(at, &key_length), *value = leveldb_iter_value(at, &length);

		if (*key == 'u') {
			snprintf(told, sizeof told, "%.*s", (int)length, value);
			continue;
		}
		snprintf(last, sizeof last, "%.*s", (int)key_length, key);
		for (size_t it = 0; it < length; it++)
			if (length != 300 || value[it] != 'a' + atoi(last + 1) % 26)
				wrong = "a value is another";
		if (atoi(last + 1) != count++)
			wrong = "a key isn't there";
	}
	if (!wrong)
		leveldb_iter_get_error(at, &wrong);
	or_fail("read");
	if (strcmp(last, told)) {
		printf("the last key is %s, and told is %s\n", last, told);
		exit(1);
	}
	printf("%d\n", count - 1);
}

int main(int count, char **words)
{
	leveldb_t *db = opened(words[2], !strcmp(words[1], "write"));

	if (!strcmp(words[1], "read")) {
		read_all(db);
		return 0;
	}
	for (int it = 4; it < count; it++) {
		commit(db, atoi(words[it]), !strcmp(words[3], "sync"));
		mark(atoi(words[it]));
	}
	leveldb_close(db);
	return 0;
}
