/*
 * What an adapter in C has. Each function returns 0, and another number where it failed; `kv_get` copies at most `room` bytes, and
 * returns how many the value has, -1 where the key isn't there, and -2 where it failed. Keys are strings.
 */
#include <stdio.h>
#include <stdlib.h>
#include <string.h>

int kv_open(const char *folder, const char *mode);
long kv_get(const char *key, char *value, long room);
int kv_put(const char *key, const char *value, long size);
int kv_remove(const char *key);
int kv_commit(void);
int kv_close(void);

/* These may lack: what begins a transaction; a checkpoint; and that a commit changes one key. */
int kv_begin(void);
int kv_checkpoint(void);
extern int kv_is_single;

/* The path of a file in the folder of the store. */
static inline const char *kv_path(const char *folder, const char *name)
{
	static char path[4096];

	snprintf(path, sizeof path, "%s/%s", folder, name);
	return path;
}

/* Copies a value out, and returns its size. */
static inline long kv_copy(const void *found, long size, char *value, long room)
{
	memcpy(value, found, size < room ? size : room);
	return size;
}
