/* Makes the calls on files that its lines say, in a folder: a program of tests/by_hand/names_in_guest.py.
 *
 *     names FOLDER <LINES
 *     names list FOLDER
 *
 * The second prints what is in a folder and below it: `D PATH` for a folder, and for a file `F PATH` and its bytes, in rows of one
 * byte, as `65x600`, which is 600 times A.
 *
 * open NAME, close NAME, append NAME LENGTH BYTE, write NAME PLACE LENGTH BYTE, truncate NAME SIZE, fsync NAME, fdatasync NAME,
 * through NAME PLACE LENGTH BYTE (a write with RWF_DSYNC), reserve NAME PLACE LENGTH (fallocate), part NAME PLACE LENGTH
 * (sync_file_range, which waits), range NAME (sync_file_range, which only begins to write), folder NAME (fsync of a folder), rename NAME NAME, exchange NAME NAME, link NAME NAME, unlink NAME,
 * mkdir NAME, rmdir NAME, sync, sleep MILLISECONDS, mark TEXT. */
#define _GNU_SOURCE
#include <dirent.h>
#include <fcntl.h>
#include <stdio.h>
#include <stdlib.h>
#include <string.h>
#include <sys/stat.h>
#include <sys/uio.h>
#include <unistd.h>

static struct file {
	char name[64];
	int at;
} files[64];
static int count;

static int opened(const char *name)
{
	snprintf(files[count].name, sizeof files[count].name, "%s", name);
	return files[count++].at = open(name, O_RDWR | O_CREAT, 0644);
}

/* The file that was opened last by this name; it is opened where none was. */
static int of(const char *name)
{
	for (int it = count - 1; it >= 0; it--)
		if (!strcmp(files[it].name, name))
			return files[it].at;
	return opened(name);
}

/* Closes the file that was opened last by this name: only then its blocks are free where it has no name any more. */
static int closed(const char *name)
{
	for (int it = count - 1; it >= 0; it--)
		if (!strcmp(files[it].name, name)) {
			int at = files[it].at;

			files[it] = files[--count];
			return close(at);
		}
	return -1;
}

static void or_fail(int answer, const char *line)
{
	if (answer < 0) {
		perror(line);
		exit(1);
	}
}

static int put(int file, long place, long length, char byte)
{
	char *data = malloc(length);

	memset(data, byte, length);
	return (place < 0 ? write(file, data, length) : pwrite(file, data, length, place)) == length ? 0 : -1;
}

static int put_through(int file, long place, long length, char byte)
{
	struct iovec data = {malloc(length), length};

	memset(data.iov_base, byte, length);
	return pwritev2(file, &data, 1, place, RWF_DSYNC) == length ? 0 : -1;
}

static int written_out(int file, long place, long length)
{
	return sync_file_range(file, place, length, SYNC_FILE_RANGE_WAIT_BEFORE | SYNC_FILE_RANGE_WRITE | SYNC_FILE_RANGE_WAIT_AFTER);
}

static int synced(const char *folder)
{
	int at = open(folder, O_RDONLY | O_DIRECTORY), answer = at < 0 ? at : fsync(at);

	close(at);
	return answer;
}

static int marked(const char *text)
{
	char command[128];

	snprintf(command, sizeof command, "mark %s", text);
	return system(command) ? -1 : 0;
}

static int done(const char *call, const char *a, const char *b, const char *c, const char *d)
{
	if (!strcmp(call, "open"))
		return opened(a);
	if (!strcmp(call, "close"))
		return closed(a);
	if (!strcmp(call, "range"))
		return sync_file_range(of(a), 0, 0, SYNC_FILE_RANGE_WRITE);
	if (!strcmp(call, "append"))
		return lseek(of(a), 0, SEEK_END) < 0 ? -1 : put(of(a), -1, atol(b), *c);
	if (!strcmp(call, "write"))
		return put(of(a), atol(b), atol(c), *d);
	if (!strcmp(call, "through"))
		return put_through(of(a), atol(b), atol(c), *d);
	if (!strcmp(call, "part"))
		return written_out(of(a), atol(b), atol(c));
	if (!strcmp(call, "reserve"))
		return fallocate(of(a), 0, atol(b), atol(c));
	if (!strcmp(call, "truncate"))
		return ftruncate(of(a), atol(b));
	if (!strcmp(call, "fsync"))
		return fsync(of(a));
	if (!strcmp(call, "fdatasync"))
		return fdatasync(of(a));
	if (!strcmp(call, "folder"))
		return synced(a);
	if (!strcmp(call, "rename"))
		return rename(a, b);
	if (!strcmp(call, "exchange"))
		return renameat2(AT_FDCWD, a, AT_FDCWD, b, RENAME_EXCHANGE);
	if (!strcmp(call, "link"))
		return link(a, b);
	if (!strcmp(call, "unlink"))
		return unlink(a);
	if (!strcmp(call, "mkdir"))
		return mkdir(a, 0755);
	if (!strcmp(call, "rmdir"))
		return rmdir(a);
	if (!strcmp(call, "sync"))
		return sync(), 0;
	if (!strcmp(call, "sleep"))
		return usleep(1000 * atol(a));
	if (!strcmp(call, "mark"))
		return marked(a);
	return -1;
}

static void put_content(const char *path)
{
	FILE *file = fopen(path, "rb");
	int byte, last = -1;
	long count = 0;

	or_fail(file ? 0 : -1, path);
	do {
		byte = fgetc(file);
		if (byte != last && count)
			printf(" %dx%ld", last, count);
		count = byte == last ? count + 1 : 1;
		last = byte;
	} while (byte != EOF);
	or_fail(ferror(file) ? -1 : 0, path);
	fclose(file);
}

/* Prints what is in the folder in which this process is, `before` standing in front of each name. */
static void list(const char *before)
{
	DIR *folder = opendir(".");
	struct dirent *it;

	or_fail(folder ? 0 : -1, before);
	while ((it = readdir(folder))) {
		char path[512];
		struct stat found;

		if (!strcmp(it->d_name, ".") || !strcmp(it->d_name, ".."))
			continue;
		snprintf(path, sizeof path, "%s%s", before, it->d_name);
		or_fail(lstat(it->d_name, &found), path);
		printf("%c %s", S_ISDIR(found.st_mode) ? 'D' : 'F', path);
		if (!S_ISDIR(found.st_mode))
			put_content(it->d_name);
		putchar('\n');
		if (S_ISDIR(found.st_mode)) {
			strcat(path, "/");
			or_fail(chdir(it->d_name), path);
			list(path);
			or_fail(chdir(".."), path);
		}
	}
	closedir(folder);
}

int main(int words, char **word)
{
	char line[256], call[32], a[64], b[64], c[64], d[64];

	if (words == 3 && !strcmp(word[1], "list")) {
		or_fail(chdir(word[2]), word[2]);
		list("");
		return 0;
	}
	or_fail(words == 2 ? chdir(word[1]) : -1, "names FOLDER");
	while (fgets(line, sizeof line, stdin)) {
		*a = *b = *c = *d = 0;
		if (sscanf(line, "%31s %63s %63s %63s %63s", call, a, b, c, d) > 0)
			or_fail(done(call, a, b, c, d), line);
	}
	return 0;
}
