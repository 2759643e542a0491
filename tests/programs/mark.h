/* A mark of a recording, as leveldb.c and lmdb.c make it after each commit: a line in the file `marks` of $RECORDING, where that is set. */
#include <fcntl.h>
#include <stdio.h>
#include <stdlib.h>
#include <string.h>
#include <unistd.h>

static void mark(int number)
{
	char path[4096], line[64];
	const char *recording = getenv("RECORDING");
	int file;

	if (!recording)
		return;
	snprintf(path, sizeof path, "%s/marks", recording);
	file = open(path, O_WRONLY | O_APPEND);
	snprintf(line, sizeof line, "0 commit-%d\n", number);
	if (write(file, line, strlen(line)) != (ssize_t)strlen(line))
		exit(1);
	close(file);
}
