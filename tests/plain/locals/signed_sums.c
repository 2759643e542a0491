/* Fletcher sums over signed numbers, as an old controller's firmware has them; the mean and the drift of samples. */
#include "checker.h"
#include <stdint.h>

struct sums { int32_t a, b; };

static struct sums fletcher(const int8_t *data, int n)
{
	struct sums s = { 1, 0 };

	for (int i = 0; i < n; i++) {
		s.a = (s.a + data[i]) % 255;
		s.b = (s.b + s.a) % 255;
	}
	return s;
}

static int64_t mean(const int16_t *samples, int n)
{
	int64_t total = 0;

	for (int i = 0; i < n; i++)
		total += samples[i];
	return total / n;
}

u64 check(const struct context *context)
{
	int8_t bytes[768];
	int16_t samples[256];
	int64_t drift = 0, m;
	int worst = 0;

	copy(0, bytes, 512);
	copy(512, bytes + 512, 256);
	copy(1024, samples, 512);
	struct sums s = fletcher(bytes, sizeof bytes);
	m = mean(samples, 256);
	for (int i = 1; i < 256; i++) {
		int d = samples[i] - samples[i - 1];

		drift += d / 3 - d % 7;
		if (d < worst)
			worst = d;
	}
	report((u64)m);
	report((u64)(int64_t)worst / 2);
	return (u64)(s.a * 100000ll + s.b * 300ll + drift / -4 + (m - worst) % (int64_t)(context->epoch + 2));
}
