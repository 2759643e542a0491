/* Programs that store in a mapped file, $FILES/db, for tests/gate/mapped.py: the word says which. Compiled statically. */
#define _GNU_SOURCE
#include <fcntl.h>
#include <pthread.h>
#include <stdio.h>
#include <stdlib.h>
#include <string.h>
#include <sys/mman.h>
#include <sys/wait.h>
#include <unistd.h>

static int file;
static volatile char *map;

static void sync_page(int page) { msync((char *)map + 4096 * page, 4096, MS_SYNC); }

/* Two threads, each with a page; then a child, which has one, and one that it doesn't sync. */
static void *other(void *page)
{
	for (int i = 0; i < 10; i++) {
		map[4096 * *(int *)page + i] = 'a' + i;
		sync_page(*(int *)page);
	}
	return NULL;
}

static void threads(void)
{
	pthread_t thread;
	int pages[2] = { 0, 1 };

	pthread_create(&thread, NULL, other, &pages[1]);
	other(&pages[0]);
	pthread_join(thread, NULL);
	if (!fork()) {
		map[8192] = 'c';
		map[12288] = 'd';
		sync_page(2);
		_exit(0);
	}
	wait(NULL);
	fsync(file);
	map[4000] = 'e';
}

/* A number is 1, and then 2, without a call in between. */
static void orders(void)
{
	map[0] = 1;
	map[4096] = 1;
	map[0] = 2;
	sync_page(0);
}

/* The file gets shorter and longer while it is mapped, and is stored to and written at once. */
static void sizes(void)
{
	memset((char *)map, 'a', 16384);
	ftruncate(file, 5000);
	map[4999] = 'b';
	ftruncate(file, 16384);
	map[9000] = 'c';
	pwrite(file, "dddd", 4, 9100);
	map[9102] = 'e';
	fdatasync(file);
}

/* What --mapped has for itself. */
static void taken(void)
{
	dup2(file, 4000);
	if (write(4000, "hello, hello", 12) != 12)
		_exit(1);
}

int main(int count, char **words)
{
	char path[4096];

	snprintf(path, sizeof path, "%s/db", getenv("FILES"));
	file = open(path, O_RDWR | O_CREAT, 0644);
	if (count < 2 || ftruncate(file, 16384))
		return 1;
	map = mmap(NULL, 16384, PROT_READ | PROT_WRITE, MAP_SHARED, file, 0);
	if (map == MAP_FAILED)
		return 1;
	*words[1] == 't' && words[1][1] == 'h' ? threads() : *words[1] == 'o' ? orders() : *words[1] == 's' ? sizes() : taken();
	return 0;
}
