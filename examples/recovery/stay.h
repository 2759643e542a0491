/* Lets a program of crashbpf-each stay: it is started once, and `check` judges each image that it is told, as 0 to 255.
 * Each image has the same path, and is another file: it is to be opened anew, and closed before the answer. */
#include <stdio.h>
#include <stdlib.h>
#include <string.h>

static int stay(int (*check)(const char *path, long marks))
{
	static char line[1 << 16];
	char *space;

	while (fgets(line, sizeof line, stdin) && (space = strrchr(line, ' '))) {
		*space = 0;
		printf("%d\n", check(line, atol(space + 1)));
		fflush(stdout);
	}
	return 0;
}
