/* Blocks by a hash table with chains: each block that a record names has to be named once. */
#include "checker.h"
#include <stdint.h>
#include <string.h>

#define BUCKETS 64
#define NODES 256

struct node { uint32_t key; uint32_t count; int16_t next; };

struct table {
	int16_t heads[BUCKETS];
	struct node nodes[NODES];
	int used;
};

static unsigned hash(uint32_t key)
{
	return key * 2654435761u >> 26;
}

static struct node *find(struct table *t, uint32_t key)
{
	for (int at = t->heads[hash(key)]; at >= 0; at = t->nodes[at].next)
		if (t->nodes[at].key == key)
			return &t->nodes[at];
	return NULL;
}

static int add(struct table *t, uint32_t key)
{
	struct node *n = find(t, key);

	if (n) {
		n->count++;
		return 0;
	}
	if (t->used == NODES)
		return -1;
	t->nodes[t->used] = (struct node){ .key = key, .count = 1, .next = t->heads[hash(key)] };
	t->heads[hash(key)] = t->used++;
	return 1;
}

u64 check(const struct context *context)
{
	struct table t;
	int twice = 0;

	memset(&t, 0, sizeof t);
	for (int i = 0; i < BUCKETS; i++)
		t.heads[i] = -1;
	for (u64 i = 0; i < 400; i++)
		if (add(&t, u32_at(4 * i) % 300) < 0)
			return 9;
	for (int i = 0; i < t.used; i++)
		if (t.nodes[i].count > 1)
			twice++;
	return t.used * 1000 + twice;
}
