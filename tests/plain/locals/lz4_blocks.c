/* Blocks that are compressed by LZ4: token, literals, offset, match. The sum of what they decompress to stands in front. */
#include "checker.h"
#include <stdint.h>

static int decompress(const uint8_t *in, int size, uint8_t *out, int room)
{
	int at = 0, to = 0;

	while (at < size) {
		int token = in[at++];
		int length = token >> 4;

		if (length == 15) {
			int more;
			do {
				if (at >= size)
					return -1;
				more = in[at++];
				length += more;
			} while (more == 255);
		}
		if (at + length > size || to + length > room)
			return -2;
		for (int i = 0; i < length; i++)
			out[to++] = in[at++];
		if (at >= size)
			break;
		if (at + 2 > size)
			return -3;
		int offset = in[at] | in[at + 1] << 8;
		at += 2;
		if (offset == 0 || offset > to)
			return -4;
		length = (token & 15) + 4;
		if ((token & 15) == 15) {
			int more;
			do {
				if (at >= size)
					return -5;
				more = in[at++];
				length += more;
			} while (more == 255);
		}
		if (to + length > room)
			return -6;
		for (int i = 0; i < length; i++, to++)
			out[to] = out[to - offset];
	}
	return to;
}

u64 check(const struct context *context)
{
	uint8_t packed[1024], window[4096];
	uint64_t total = 0;

	for (int block = 0; block < 3; block++) {
		for (int i = 0; i < 2; i++)
			copy(4096 * block + 512 * i + 16, packed + 512 * i, 512);
		int size = u16_at(4096 * block + 2) % 1024;
		int n = decompress(packed, size, window, sizeof window);

		report(n < 0 ? -n : n);
		if (n < 0) {
			total += n;
			continue;
		}
		for (int i = 0; i < n; i++)
			total = total * 31 + window[i];
	}
	return total;
}
