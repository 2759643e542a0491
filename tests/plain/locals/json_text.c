/* A text of JSON at sector 0, as LUKS2 has it: brackets that match, strings that end, and its keys counted. */
#include "checker.h"
#include <stdint.h>
#include <stdbool.h>
#include <string.h>

#define MAX_DEPTH 32

struct scanner {
	const char *text;
	int at, end;
	char stack[MAX_DEPTH];
	int depth;
	int keys, numbers;
};

static int skip_string(struct scanner *s)
{
	s->at++;
	while (s->at < s->end) {
		char c = s->text[s->at++];

		if (c == '\\')
			s->at++;
		else if (c == '"')
			return 0;
	}
	return -1;
}

static bool is_digit(char c)
{
	return c >= '0' && c <= '9';
}

static int scan(struct scanner *s)
{
	while (s->at < s->end) {
		char c = s->text[s->at];

		switch (c) {
		case '{':
		case '[':
			if (s->depth >= MAX_DEPTH)
				return 1;
			s->stack[s->depth++] = c;
			s->at++;
			break;
		case '}':
		case ']':
			if (s->depth == 0 || s->stack[s->depth - 1] != (c == '}' ? '{' : '['))
				return 2;
			s->depth--;
			s->at++;
			if (s->depth == 0)
				return 0;
			break;
		case '"':
			if (skip_string(s))
				return 3;
			if (s->at < s->end && s->text[s->at] == ':')
				s->keys++;
			break;
		case 0:
			return 4;
		default:
			if (is_digit(c)) {
				long value = 0;
				while (s->at < s->end && is_digit(s->text[s->at]))
					value = (value * 10 + (s->text[s->at++] - '0')) % 1000000;
				s->numbers += value % 1000;
			} else
				s->at++;
		}
	}
	return 5;
}

static const char sample[] = "{\"keyslots\":{\"0\":{\"type\":\"luks2\",\"size\":64,\"af\":[1,22,333]}},\"q\\\"x\":{}}";

u64 check(const struct context *context)
{
	char text[2048];
	struct scanner s = { .text = text, .end = sizeof text };
	int bad, other;

	for (int i = 0; i < 4; i++)
		copy(512 * i, text + 512 * i, 512);
	bad = scan(&s);
	report(s.at);
	memcpy(text, sample, sizeof sample);
	struct scanner again = { .text = text, .end = sizeof sample };
	other = scan(&again);
	return bad * 1000000 + other * 100000 + again.keys * 1000 + again.numbers + s.keys;
}
