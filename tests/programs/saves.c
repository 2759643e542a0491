/* Programs of tests/by_hand/taken_syncs.py that make all their syncs. `append`, `threads` and `chain` save three records in the folder $FILES,
 * each acknowledged by a mark. `check HOW` says whether what is in the current folder is right after $CRASH_MARKS marks: of `log` and
 * `index` (append), of `kept` (save), of `cur` and those that it had before (chain). */
#include <pthread.h>

#include "mark.h"

#define RECORDS 3
#define SIZE 600

static int file_log, file_index, written, done;
static pthread_mutex_t lock = PTHREAD_MUTEX_INITIALIZER;
static pthread_cond_t changed = PTHREAD_COND_INITIALIZER;

static void or_fail(int holds, const char *what)
{
	if (!holds) {
		printf("%s\n", what);
		exit(1);
	}
}

static int opened(const char *name, int flags)
{
	int file = open(name, flags, 0644);

	or_fail(file >= 0, name);
	return file;
}

static void put(int file, int number, off_t at)
{
	char record[SIZE];

	memset(record, 'a' + number, SIZE);
	or_fail(pwrite(file, record, SIZE, at) == SIZE, "pwrite");
}

static void sync_data(int file)
{
	or_fail(!fdatasync(file), "fdatasync");
}

static void sync_folder(void)
{
	int folder = opened(".", O_RDONLY);

	or_fail(!fsync(folder), "fsync");
	close(folder);
}

static void count(int number)
{
	char text = '0' + number;

	or_fail(pwrite(file_index, &text, 1, 0) == 1, "pwrite");
}

static void begin(void)
{
	file_log = opened("log", O_RDWR | O_CREAT);
	file_index = opened("index", O_RDWR | O_CREAT);
	sync_folder();
}

static void commit(int number)
{
	sync_data(file_log);
	count(number);
	sync_data(file_index);
	mark(number);
}

static void append(void)
{
	begin();
	for (int number = 1; number <= RECORDS; number++) {
		put(file_log, number, SIZE * number);
		commit(number);
	}
}

static void *committer(void *unused)
{
	for (int number = 1; number <= RECORDS; number++) {
		pthread_mutex_lock(&lock);
		while (written < number)
			pthread_cond_wait(&changed, &lock);
		pthread_mutex_unlock(&lock);
		commit(number);
		pthread_mutex_lock(&lock);
		done = number;
		pthread_cond_signal(&changed);
		pthread_mutex_unlock(&lock);
	}
	return unused;
}

/* One thread writes, and is a record ahead of the other one, which syncs and counts. */
static void threads(void)
{
	pthread_t thread;

	begin();
	or_fail(!pthread_create(&thread, NULL, committer, NULL), "pthread_create");
	for (int number = 1; number <= RECORDS; number++) {
		pthread_mutex_lock(&lock);
		while (done < number - 2)
			pthread_cond_wait(&changed, &lock);
		pthread_mutex_unlock(&lock);
		put(file_log, number, SIZE * number);
		pthread_mutex_lock(&lock);
		written = number;
		pthread_cond_signal(&changed);
		pthread_mutex_unlock(&lock);
	}
	pthread_join(thread, NULL);
}

/* A new version, and the two before it; there is a `cur` at each moment after the first. */
static void chain(void)
{
	for (int number = 1; number <= RECORDS; number++) {
		int file = opened("new", O_RDWR | O_CREAT | O_TRUNC);

		put(file, number, 0);
		or_fail(!fsync(file), "fsync");
		close(file);
		or_fail(number < 3 || !rename("prev", "older"), "rename");
		or_fail(number < 2 || !link("cur", "prev"), "link");
		or_fail(!rename("new", "cur"), "rename");
		sync_folder();
		mark(number);
	}
}

/* Which record stands there, 0 where there is none; it has to be whole. */
static int record_at(int file, off_t at, const char *what)
{
	char record[SIZE];
	ssize_t length = pread(file, record, SIZE, at);

	or_fail(length == SIZE && record[0] > 'a' && record[0] <= 'a' + RECORDS, what);
	for (int it = 1; it < SIZE; it++)
		or_fail(record[it] == record[0], what);
	return record[0] - 'a';
}

static int record_of(const char *name)
{
	int file = open(name, O_RDONLY), found = 0;

	if (file >= 0) {
		found = record_at(file, 0, name);
		close(file);
	}
	return found;
}

static void check_append(int marks)
{
	char text = '0';
	int file = open("index", O_RDONLY), log = open("log", O_RDONLY);

	if (file >= 0)
		or_fail(read(file, &text, 1) >= 0, "index");
	/* (its size may be there without its byte) */
	text = text ? text : '0';
	or_fail(text - '0' >= marks, "an acknowledged record isn't counted");
	for (int number = 1; number <= text - '0'; number++)
		or_fail(record_at(log, SIZE * number, "a counted record isn't there") == number, "a record is another one");
}

static void check_chain(int marks)
{
	int cur = record_of("cur"), prev = record_of("prev"), older = record_of("older");

	or_fail(cur >= marks, "an acknowledged version is gone");
	or_fail(marks < 2 || prev >= marks - 1 || older >= marks - 1, "the version before is gone");
}

int main(int words_count, char **words)
{
	const char *how = words[words_count - 1], *files = getenv("FILES"), *marks = getenv("CRASH_MARKS");

	if (words_count == 3) {
		if (!strcmp(how, "append"))
			check_append(atoi(marks));
		else if (!strcmp(how, "chain"))
			check_chain(atoi(marks));
		else
			or_fail(record_of("kept") >= atoi(marks), "an acknowledged version is gone");
		return 0;
	}
	or_fail(!chdir(files), files);
	if (!strcmp(how, "append"))
		append();
	else if (!strcmp(how, "threads"))
		threads();
	else
		chain();
	return 0;
}
