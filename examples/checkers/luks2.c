/*
 * The header of LUKS2, on a device that begins with it.
 *
 *     crashbpf-cc luks2.c check luks2.bpf --sectors 2048
 *     trace_log.py luks2/no_flush.trace no_flush.log --sectors 2048
 *     crashbpf explore no_flush.log luks2.bpf --sectors 2048 --from 6 --bound 2 --by write --cuts flush --guards
 *
 * The rules are those of the 'LUKS2 On-Disk Format Specification', version 1.1.1, sections 2 to 4, as cryptsetup 2.6.1 has them. There are
 * two copies, each a binary header of 4,096 bytes and a text of JSON. A copy is whole where the SHA-256 of both, with zeros in the place of
 * the sum, is the one that the header has. It is good where its text is right, too. Who reads takes the copy that is good, of two that are
 * the one with the greater sequence number, of two with the same one the first.
 *
 * It tests that a copy is good, and that the device has room for the key slots of the one that is taken. Of a text it tests that it is JSON
 * as json-c reads it, with zeros behind it, and what cryptsetup tests: that tokens, digests, segments, key slots and the config have what
 * they have to have, name one another, and that segments and key material lie where they may, and don't overlap.
 *
 * What it doesn't look at: whether a passphrase opens a slot. Key material has no sum, so that it is the one of its slot takes a
 * passphrase: crashbpf-each with cryptsetup judges that. It takes headers of 16 KiB, as cryptsetup makes them, with sums of SHA-256, at most
 * 64 key slots, 64 segments and 1,024 values, and no text with comments. It takes none whose data is being encrypted anew. Its answers:
 *
 *     1    no copy is whole
 *     2    not taken: another sum or version or size, a header with more, or one that is being encrypted anew
 *     3    the text isn't JSON
 *     4    what has to stand in an object isn't there, or isn't as it has to be
 *     5    segments or key material don't lie where they may, or overlap
 *     6    the device is too small for the key slots
 *     255  a loop had too few turns
 *
 * Where no copy is good, the answer is that of the first one, or of the second one if the first isn't whole. The code of 4 and 5 is the byte
 * of the device at which the object or value begins.
 *
 * Compared with cryptsetup luksDump of 2.6.1, on a header with pbkdf2, and on one with argon2id and a token:
 *
 *     300 mutants and both, by crashbpf-cc --against                     both pass 277, both fail 25
 *     300 mutants and both, of each one copy alone, the same way         both pass 115, both fail 187
 *     149 changes of the text of both copies by hand, with right sums    no difference (natively)
 */
#include "checker.h"

#define SIZE 16384	/* of a copy */
#define BINARY 4096	/* of which that many bytes are no text */
#define TEXT (SIZE - BINARY)

enum answer { NO_COPY = 1, NOT_TAKEN, NOT_JSON, RULES, PLACE, TOO_SMALL };

#define BLOCKS (SIZE / 64 + 1)	/* of the sum of a copy, with the one of its length */

/* SHA-256, as FIPS 180-4 has it. Words are the low halves of 64 bits; of `state` the high ones are zeros. */
static u64 state[8], word[64];
static const u32 constants[64] = {
	0x428a2f98, 0x71374491, 0xb5c0fbcf, 0xe9b5dba5, 0x3956c25b, 0x59f111f1, 0x923f82a4, 0xab1c5ed5,
	0xd807aa98, 0x12835b01, 0x243185be, 0x550c7dc3, 0x72be5d74, 0x80deb1fe, 0x9bdc06a7, 0xc19bf174,
	0xe49b69c1, 0xefbe4786, 0x0fc19dc6, 0x240ca1cc, 0x2de92c6f, 0x4a7484aa, 0x5cb0a9dc, 0x76f988da,
	0x983e5152, 0xa831c66d, 0xb00327c8, 0xbf597fc7, 0xc6e00bf3, 0xd5a79147, 0x06ca6351, 0x14292967,
	0x27b70a85, 0x2e1b2138, 0x4d2c6dfc, 0x53380d13, 0x650a7354, 0x766a0abb, 0x81c2c92e, 0x92722c85,
	0xa2bfe8a1, 0xa81a664b, 0xc24b8b70, 0xc76c51a3, 0xd192e819, 0xd6990624, 0xf40e3585, 0x106aa070,
	0x19a4c116, 0x1e376c08, 0x2748774c, 0x34b0bcb5, 0x391c0cb3, 0x4ed8aa4a, 0x5b9cca4f, 0x682e6ff3,
	0x748f82ee, 0x78a5636f, 0x84c87814, 0x8cc70208, 0x90befffa, 0xa4506ceb, 0xbef9a3f7, 0xc67178f2,
};

#define LOW(x) ((x) & 0xffffffff)
/* x turned by a, b and c, which are xored; of the answer only the low half counts. */
#define TURNED(x, a, b, c) ({ u64 twice_ = (x) | (x) << 32; twice_ >> (a) ^ twice_ >> (b) ^ twice_ >> (c); })
#define SHIFTED(x, a, b, c) ({ u64 x_ = (x), twice_ = x_ | x_ << 32; twice_ >> (a) ^ twice_ >> (b) ^ x_ >> (c); })
#define ROUND(a, b, c, d, e, f, g, h, i)									\
	do {													\
		u64 one_ = h + TURNED(e, 6, 11, 25) + (g ^ (e & (f ^ g))) + constants[i] + word[i];		\
		d = LOW(d + one_);										\
		h = LOW(one_ + TURNED(a, 2, 13, 22) + ((a & b) | (c & (a | b))));				\
	} while (0)
#define NEXT(i) word[i] = LOW(word[i - 16] + word[i - 7] + SHIFTED(word[i - 15], 7, 18, 3) + SHIFTED(word[i - 2], 17, 19, 10))

/* Takes the block whose words are the first sixteen of `word`. Answers TURNS_SPENT, or 0. */
LOCAL(check) u64 take_block(void)
{
	u64 a = state[0], b = state[1], c = state[2], d = state[3], e = state[4], f = state[5], g = state[6], h = state[7];

	for (u64 i = 16; i < 64; i += 4) {
		TURN(2 * BLOCKS * 12, return TURNS_SPENT);
		NEXT(i); NEXT(i + 1); NEXT(i + 2); NEXT(i + 3);
	}
	for (u64 i = 0; i < 64; i += 8) {
		TURN(2 * BLOCKS * 8, return TURNS_SPENT);
		ROUND(a, b, c, d, e, f, g, h, i); ROUND(h, a, b, c, d, e, f, g, i + 1);
		ROUND(g, h, a, b, c, d, e, f, i + 2); ROUND(f, g, h, a, b, c, d, e, i + 3);
		ROUND(e, f, g, h, a, b, c, d, i + 4); ROUND(d, e, f, g, h, a, b, c, i + 5);
		ROUND(c, d, e, f, g, h, a, b, i + 6); ROUND(b, c, d, e, f, g, h, a, i + 7);
	}
	state[0] = LOW(state[0] + a); state[1] = LOW(state[1] + b); state[2] = LOW(state[2] + c); state[3] = LOW(state[3] + d);
	state[4] = LOW(state[4] + e); state[5] = LOW(state[5] + f); state[6] = LOW(state[6] + g); state[7] = LOW(state[7] + h);
	return 0;
}

/* The sum of the copy at byte `at`. Its block 7 holds the sum itself, and counts as zeros. */
INLINED u64 sum_copy(u64 at)
{
	state[0] = 0x6a09e667; state[1] = 0xbb67ae85; state[2] = 0x3c6ef372; state[3] = 0xa54ff53a;
	state[4] = 0x510e527f; state[5] = 0x9b05688c; state[6] = 0x1f83d9ab; state[7] = 0x5be0cd19;
	for (u64 block = 0; block < BLOCKS; block++) {
		TURN(2 * BLOCKS, return TURNS_SPENT);
		for (u64 i = 0; i < 16; i++) {
			TURN(2 * BLOCKS * 16, return TURNS_SPENT);
			word[i] = block == 7 || block == BLOCKS - 1 ? 0 : u32_at_be(at + 64 * block + 4 * i);
		}
		if (block == BLOCKS - 1) {
			word[0] = 0x80000000;
			word[15] = 8 * SIZE;
		}
		if (take_block())
			return TURNS_SPENT;
	}
	return 0;
}

/*
 * The text, which is parsed in its place: a string ends with a zero where its closing quote was. Its values are nodes, an object or an
 * array in front of what it has.
 */
enum type { OBJECT = 1, ARRAY, STRING, WHOLE, OTHER };
enum word {
	TYPE = 1, KEYSLOTS, SEGMENTS, DIGESTS, TOKENS, CONFIG, KEY_SIZE, AREA, KDF, AF, OFFSET, BYTES, HASH, SALT, ITERATIONS, TIME, MEMORY, CPUS,
	STRIPES, ENCRYPTION, IV_TWEAK, SECTOR_SIZE, INTEGRITY, JOURNAL_ENCRYPTION, JOURNAL_INTEGRITY, FLAGS, JSON_SIZE, KEYSLOTS_SIZE,
	REQUIREMENTS, MANDATORY, LUKS2, REENCRYPT, PBKDF2, ARGON2I, ARGON2ID, LUKS1, RAW, CRYPT, DYNAMIC,
};
struct node {
	u16 end;	/* the node after it and all that it has */
	u16 name, value;	/* where in the text its name and its string or number begin */
	u8 type, named, valued;	/* which of the words these are, or 0 */
	u8 gone;	/* another one of its object has its name, and came later */
};

#define NODES 1024
#define DEPTH 32
/* Turns of the run: for nodes of one object, for pairs of them, for bytes of names, and for digits. */
#define EACH_NODE (4 * NODES)
#define LOOKS 20000
#define COMPARED 30000
#define DIGITS_READ 10000

static u8 text[TEXT + 32];
static struct node node[NODES];
static u64 count, kind;
static u16 within[DEPTH];

/* Whether turns were spent, and which node is wrong. */
static u64 spent, wrong;

/* Eight bytes of a word from byte n on, with the zero that ends it, and which of their bits count. */
#define BYTE_OF(it, n) ((n) < sizeof it ? (u64)it[(n) < sizeof it ? (n) : 0] << (n) % 8 * 8 : 0)
#define EIGHT_OF(it, n)													\
	(BYTE_OF(it, n) | BYTE_OF(it, n + 1) | BYTE_OF(it, n + 2) | BYTE_OF(it, n + 3) | BYTE_OF(it, n + 4) | BYTE_OF(it, n + 5)	\
	 | BYTE_OF(it, n + 6) | BYTE_OF(it, n + 7))
#define BITS_OF(it, n) (sizeof it >= n + 8 ? ~0ull : sizeof it <= n ? 0 : (1ull << (sizeof it - n) % 8 * 8) - 1)
#define WORD(it, word)													\
	do {														\
		if ((one & BITS_OF(it, 0)) == EIGHT_OF(it, 0) && (sizeof it <= 8 || (two & BITS_OF(it, 8)) == EIGHT_OF(it, 8))		\
		    && (sizeof it <= 16 || (three & BITS_OF(it, 16)) == EIGHT_OF(it, 16)))					\
			return word;												\
	} while (0)

/* Which word the string is that begins there. */
LOCAL(check) u64 word_at(u64 at)
{
	u64 one = u64_in(text + at), two = u64_in(text + at + 8), three = u64_in(text + at + 16);

	WORD("type", TYPE); WORD("keyslots", KEYSLOTS); WORD("segments", SEGMENTS); WORD("digests", DIGESTS); WORD("tokens", TOKENS);
	WORD("config", CONFIG); WORD("key_size", KEY_SIZE); WORD("area", AREA); WORD("kdf", KDF); WORD("af", AF); WORD("offset", OFFSET);
	WORD("size", BYTES); WORD("hash", HASH); WORD("salt", SALT); WORD("iterations", ITERATIONS); WORD("time", TIME);
	WORD("memory", MEMORY); WORD("cpus", CPUS); WORD("stripes", STRIPES); WORD("encryption", ENCRYPTION); WORD("iv_tweak", IV_TWEAK);
	WORD("sector_size", SECTOR_SIZE); WORD("integrity", INTEGRITY); WORD("journal_encryption", JOURNAL_ENCRYPTION);
	WORD("journal_integrity", JOURNAL_INTEGRITY); WORD("flags", FLAGS); WORD("json_size", JSON_SIZE);
	WORD("keyslots_size", KEYSLOTS_SIZE); WORD("requirements", REQUIREMENTS); WORD("mandatory", MANDATORY); WORD("luks2", LUKS2);
	WORD("reencrypt", REENCRYPT); WORD("pbkdf2", PBKDF2); WORD("argon2i", ARGON2I); WORD("argon2id", ARGON2ID); WORD("luks1", LUKS1);
	WORD("raw", RAW); WORD("crypt", CRYPT); WORD("dynamic", DYNAMIC);
	return 0;
}

/* Whether two strings are the same. */
LOCAL(check) u64 same_strings(u64 a, u64 b)
{
	for (;; a++, b++) {
		TURN(COMPARED, spent = 1; return 0);
		if (text[a] != text[b])
			return 0;
		if (!text[a])
			return 1;
	}
}

/* The value of four hexadecimal digits, or 65536. */
INLINED u64 digits_at(u64 at)
{
	u64 value = 0;

	for (u64 i = 0; i < 4; i++) {
		u64 c = text[at + i], letter = (c | 0x20) - 'a';

		TURN(DIGITS_READ, spent = 1; return 65536);
		if (c - '0' > 9 && letter > 5)
			return 65536;
		value = 16 * value + (c - '0' > 9 ? letter + 10 : c - '0');
	}
	return value;
}

/* Where the text goes on after the string from there on, or 0. Escapes are put in; of those past ASCII it is only told that they are. */
LOCAL(check) u64 after_string(u64 at, u64 quote)
{
	u64 to = at;

	for (;;) {
		u64 c = text[at++];

		TURN(2 * TEXT, return 0);
		if (!c)
			return 0;
		if (c == quote) {
			text[to] = 0;
			return at;
		}
		if (c == '\\') {
			c = text[at++];
			if (c == 'u') {
				c = digits_at(at);
				at += 4;
				if (c > 65535)
					return 0;
				c = c < 128 ? c : 128;
			} else if (c == 'b' || c == 'f' || c == 'n' || c == 'r' || c == 't')
				c = '\t';
			else if (c != '"' && c != '\\' && c != '/')
				return 0;
		}
		text[to++] = c;
	}
}

/* Where the text goes on after the number or the word from there on, or 0; `kind` is which of them it is. */
LOCAL(check) u64 after_other(u64 at)
{
	u64 digits = 0, phase = 0, minus = text[at] == '-', four;

	kind = OTHER;
	at += minus;
	four = u32_in(text + at) | 0x20202020;
	if (four == 0x69666e69 && (u32_in(text + at + 4) | 0x20202020) == 0x7974696e)	/* infinity */
		return at + 8;
	if (!minus) {
		if (four == 0x65757274 || four == 0x6c6c756e)				/* true, null */
			return at + 4;
		if (four == 0x736c6166 && (text[at + 4] | 0x20) == 'e')			/* fals, e */
			return at + 5;
		if ((four & 0xffffff) == 0x6e616e)					/* nan */
			return at + 3;
	}
	for (;; at++) {
		u64 c = text[at];

		TURN(DIGITS_READ, spent = 1; return 0);
		if (c - '0' <= 9)
			digits++;
		else if (c == '.' && !phase)
			phase = 1;
		else if ((c | 0x20) == 'e' && phase < 2 && digits)
			phase = 2;
		else if ((c != '-' && c != '+') || (text[at - 1] | 0x20) != 'e' || phase != 2)
			break;
	}
	if (!phase)
		kind = WHOLE;
	return digits ? at : 0;
}

/* Marks the nodes of an object that had the name of its last one. */
INLINED void mark_gone(u64 parent, u64 last)
{
	for (u64 i = parent + 1; i < last; i = node[i].end) {
		TURN(LOOKS, spent = 1; return);
		if (node[i].named == node[last].named && (node[i].named || same_strings(node[i].name, node[last].name)))
			node[i].gone = 1;
	}
}

enum place { IN_OBJECT, IN_ARRAY, AT_COLON, AT_VALUE, AFTER };

/* Parses the text, and answers a fault of it or 0. It has to be one object, with zeros behind it, and no comments. */
LOCAL(check) u64 fault_of_json(void)
{
	u64 at = 0, depth = 0, place = AT_VALUE, name = 0, in = 0;

	count = 0;
	if (text[0] != '{')
		return NOT_JSON;
	for (;;) {
		u64 c = text[at];

		TURN(2 * (TEXT + 1), return TURNS_SPENT);
		if (c == ' ' || c == '\t' || c == '\n' || c == '\r') {
			at++;
			continue;
		}
		if ((place == AFTER || place == IN_OBJECT || place == IN_ARRAY) && c == (node[in].type == OBJECT ? '}' : ']')) {
			at++;
			node[in].end = count;
			if (--depth == 0)
				break;
			in = within[depth - 1];
			place = AFTER;
		} else if (place == AFTER) {
			if (c != ',')
				return NOT_JSON;
			at++;
			place = node[in].type == OBJECT ? IN_OBJECT : IN_ARRAY;
		} else if (place == AT_COLON) {
			if (c != ':')
				return NOT_JSON;
			at++;
			place = AT_VALUE;
		} else if (place == IN_OBJECT) {
			if (c != '"' && c != '\'')
				return NOT_JSON;
			name = at + 1;
			at = after_string(name, c);
			if (!at)
				return NOT_JSON;
			place = AT_COLON;
		} else {
			if (depth == DEPTH)
				return NOT_JSON;
			if (count == NODES)
				return NOT_TAKEN;
			node[count].gone = 0;
			node[count].name = name;
			node[count].named = place == AT_VALUE && depth ? word_at(name) : 0;
			node[count].value = at;
			node[count].valued = 0;
			node[count].type = STRING;
			if (place == AT_VALUE && depth)
				mark_gone(in, count);
			place = AFTER;
			if (c == '{' || c == '[') {
				node[count].type = c == '{' ? OBJECT : ARRAY;
				at++;
				place = c == '{' ? IN_OBJECT : IN_ARRAY;
				within[depth++] = in = count;
			} else if (c == '"' || c == '\'') {
				node[count].value = at + 1;
				at = after_string(at + 1, c);
				node[count].valued = word_at(node[count].value);
			} else {
				at = after_other(at);
				node[count].type = kind;
			}
			if (!at)
				return NOT_JSON;
			count++;
			node[count - 1].end = count;
		}
	}
	for (;; at++) {
		u64 c = text[at];

		TURN(2 * TEXT, return TURNS_SPENT);
		if (c != ' ' && c != '\t' && c != '\n' && c != '\r')
			break;
	}
	if (at >= TEXT)
		return NOT_JSON;
	while (at < TEXT) {
		TURN(2 * (TEXT / 8 + 8), return TURNS_SPENT);
		if (at % 8 ? text[at] : u64_in(text + at))
			return NOT_JSON;
		at += at % 8 ? 1 : 8;
	}
	return 0;
}

/* The value of an object that has that name, and that type if one is given; 0 if there is none, or if it is an empty string. */
LOCAL(check) u64 value_of(u64 parent, u64 word, u64 type)
{
	for (u64 i = parent + 1; i < node[parent].end; i = node[i].end) {
		TURN(LOOKS, spent = 1; return 0);
		if (node[i].named == word && !node[i].gone)
			return (!type || node[i].type == type) && (type != STRING || text[node[i].value]) ? i : 0;
	}
	return 0;
}

#define NO_NUMBER (~0ull)

/* The number whose digits begin there, up to a zero, or `whole` up to another byte. */
LOCAL(check) u64 number_at(u64 at, u64 whole)
{
	u64 number = 0, begin = at;

	for (;; at++) {
		u64 digit = (u64)text[at] - '0';

		TURN(DIGITS_READ, spent = 1; return NO_NUMBER);
		if (digit > 9)
			return whole ? at > begin ? number : NO_NUMBER : text[at] ? NO_NUMBER : number;
		if (number > (NO_NUMBER - digit) / 10)
			return NO_NUMBER;
		number = 10 * number + digit;
	}
}

/* Whether all of an array are strings, and each the name of an object in `parent`, if there is one. */
LOCAL(check) u64 all_named(u64 array, u64 parent)
{
	if (node[array].type != ARRAY)
		return 0;
	for (u64 i = array + 1; i < node[array].end; i = node[i].end) {
		u64 found = !parent;

		TURN(EACH_NODE, spent = 1; return 0);
		if (node[i].type != STRING)
			return 0;
		for (u64 j = parent + 1; parent && j < node[parent].end; j = node[j].end) {
			TURN(LOOKS, spent = 1; return 0);
			found |= !node[j].gone && node[j].type == OBJECT && same_strings(node[i].value, node[j].name);
		}
		if (!found)
			return 0;
	}
	return 1;
}

/* How many digests have that name in their array that is called so. */
LOCAL(check) u64 digests_of(u64 digests, u64 word, u64 name)
{
	u64 found = 0;

	for (u64 i = digests + 1; i < node[digests].end; i = node[i].end) {
		u64 array = value_of(i, word, ARRAY), has = 0;

		TURN(EACH_NODE, spent = 1; return 0);
		for (u64 j = array + 1; array && j < node[array].end; j = node[j].end) {
			TURN(LOOKS, spent = 1; return 0);
			has |= same_strings(node[j].value, name);
		}
		found += has && !node[i].gone;
	}
	return found;
}

/* Whether one of an array's strings begins with these eight bytes, or those of the mask. */
LOCAL(check) u64 one_begins(u64 array, u64 bytes, u64 mask)
{
	for (u64 i = array + 1; i < node[array].end; i = node[i].end) {
		TURN(EACH_NODE, spent = 1; return 1);
		if ((u64_in(text + node[i].value) & mask) == bytes)
			return 1;
	}
	return 0;
}

/* Parts of the device, each with a number; one without a length goes on to the end. */
#define PARTS 64
static u64 first_of[PARTS], length_of[PARTS];

/* Whether two of the first `parts` parts share a byte. */
LOCAL(check) u64 overlap(u64 parts)
{
	for (u64 i = 0; i < parts; i++) {
		TURN(4 * PARTS, spent = 1; return 1);
		for (u64 j = 0; j < parts; j++) {
			TURN(4 * PARTS * PARTS, spent = 1; return 1);
			if (i != j && first_of[i] >= first_of[j] && (!length_of[j] || first_of[i] - first_of[j] < length_of[j]))
				return 1;
		}
	}
	return 0;
}

#define WRONG(it, fault)				\
	do {						\
		wrong = node[it].value;			\
		return fault;				\
	} while (0)
#define NEED(name, parent, word, type)			\
	u64 name = value_of(parent, word, type);	\
	if (!name)					\
		WRONG(parent, RULES)
#define MUST(parent, word, type)				\
	do {						\
		if (!value_of(parent, word, type))	\
			WRONG(parent, RULES);		\
	} while (0)
#define NUMBER(it) number_at(node[it].value, node[it].type == WHOLE)
/* The named objects of one. */
#define EACH(i, parent) u64 i = parent + 1; i < node[parent].end; i = node[i].end

/* How large the key slots are altogether, and where the first segment begins. */
static u64 keyslots_size, first_segment;

INLINED u64 fault_of_config(u64 config)
{
	NEED(json, config, JSON_SIZE, STRING);
	NEED(size, config, KEYSLOTS_SIZE, STRING);
	u64 flags = value_of(config, FLAGS, 0), requirements = value_of(config, REQUIREMENTS, 0), mandatory;

	keyslots_size = NUMBER(size);
	if (NUMBER(json) != TEXT || keyslots_size % 4096 || keyslots_size > 1 << 27 || (flags && !all_named(flags, 0)))
		WRONG(config, RULES);
	if (!requirements)
		return 0;
	if (node[requirements].type != OBJECT)
		WRONG(requirements, RULES);
	mandatory = value_of(requirements, MANDATORY, 0);
	if (mandatory && !all_named(mandatory, 0))
		WRONG(mandatory, RULES);
	/* "online-r" */
	if (mandatory && one_begins(mandatory, 0x722d656e696c6e6f, NO_NUMBER))
		WRONG(mandatory, NOT_TAKEN);
	return 0;
}

INLINED u64 fault_of_tokens(u64 tokens, u64 keyslots)
{
	for (EACH(i, tokens)) {
		TURN(EACH_NODE, return TURNS_SPENT);
		if (node[i].gone)
			continue;
		MUST(i, TYPE, STRING);
		NEED(slots, i, KEYSLOTS, ARRAY);
		if (number_at(node[i].name, 0) == NO_NUMBER || !all_named(slots, keyslots))
			WRONG(i, RULES);
	}
	return 0;
}

INLINED u64 fault_of_digests(u64 digests, u64 keyslots, u64 segments)
{
	for (EACH(i, digests)) {
		TURN(EACH_NODE, return TURNS_SPENT);
		if (node[i].gone)
			continue;
		MUST(i, TYPE, STRING);
		NEED(slots, i, KEYSLOTS, ARRAY);
		NEED(parts, i, SEGMENTS, ARRAY);
		if (number_at(node[i].name, 0) == NO_NUMBER || !all_named(slots, keyslots) || !all_named(parts, segments))
			WRONG(i, RULES);
	}
	return 0;
}

/* A segment that is encrypted. */
LOCAL(check) u64 fault_of_crypt(u64 i, u64 size, u64 digests)
{
	NEED(tweak, i, IV_TWEAK, STRING);
	MUST(i, ENCRYPTION, STRING);
	NEED(sector_size, i, SECTOR_SIZE, WHOLE);
	u64 bytes = NUMBER(sector_size), integrity = value_of(i, INTEGRITY, 0);

	if (integrity) {
		MUST(integrity, TYPE, STRING);
		MUST(integrity, JOURNAL_ENCRYPTION, STRING);
		MUST(integrity, JOURNAL_INTEGRITY, STRING);
	}
	if (NUMBER(tweak) == NO_NUMBER || !bytes || bytes % 512 || bytes >> 32 || size % bytes || !digests_of(digests, SEGMENTS, node[i].name))
		WRONG(i, RULES);
	return 0;
}

INLINED u64 fault_of_segments(u64 segments, u64 digests)
{
	u64 parts = 0;

	first_segment = NO_NUMBER;
	for (EACH(i, segments)) {
		TURN(EACH_NODE, return TURNS_SPENT);
		parts += !node[i].gone;
	}
	if (!parts)
		WRONG(segments, RULES);
	if (parts > PARTS)
		WRONG(segments, NOT_TAKEN);
	for (EACH(i, segments)) {
		TURN(EACH_NODE, return TURNS_SPENT);
		if (node[i].gone)
			continue;
		NEED(type, i, TYPE, STRING);
		NEED(offset, i, OFFSET, STRING);
		NEED(size, i, BYTES, STRING);
		u64 number = number_at(node[i].name, 0), first = NUMBER(offset), length = node[size].valued == DYNAMIC ? 0 : NUMBER(size);
		u64 flags = value_of(i, FLAGS, 0), fault;

		/* They are called 0, 1, and so on. */
		if (number >= parts || (number > 0 ? text[node[i].name] == '0' : !text[node[i].name] || text[node[i].name + 1]))
			WRONG(i, RULES);
		if (first % 512 || length % 512 || (!length && node[size].valued != DYNAMIC) || (flags && !all_named(flags, 0)))
			WRONG(i, RULES);
		if (flags && one_begins(flags, 0x2d70756b636162, 0xffffffffffffff))	/* "backup-" */
			WRONG(i, NOT_TAKEN);
		if (!length && number != parts - 1)
			WRONG(i, RULES);
		fault = node[type].valued == CRYPT ? fault_of_crypt(i, length, digests) : 0;
		if (fault)
			return fault;
		first_of[number] = first;
		length_of[number] = length;
		if (first + length < first)
			WRONG(i, RULES);
		if (first < first_segment)
			first_segment = first;
	}
	if (overlap(parts))
		WRONG(segments, PLACE);
	return 0;
}

/* A key slot of type luks2. */
LOCAL(check) u64 fault_of_luks2(u64 i, u64 digests)
{
	NEED(kdf, i, KDF, OBJECT);
	NEED(af, i, AF, OBJECT);
	NEED(area, i, AREA, OBJECT);
	NEED(kdf_type, kdf, TYPE, STRING);
	NEED(af_type, af, TYPE, STRING);
	MUST(af, HASH, STRING);
	MUST(af, STRIPES, WHOLE);
	NEED(area_type, area, TYPE, STRING);
	MUST(area, ENCRYPTION, STRING);
	MUST(area, KEY_SIZE, WHOLE);
	u64 valued = node[kdf_type].valued;

	if (valued == PBKDF2) {
		MUST(kdf, HASH, STRING);
		MUST(kdf, ITERATIONS, WHOLE);
	} else if (valued == ARGON2I || valued == ARGON2ID) {
		MUST(kdf, TIME, WHOLE);
		MUST(kdf, MEMORY, WHOLE);
		MUST(kdf, CPUS, WHOLE);
	}
	if (valued == PBKDF2 || valued == ARGON2I || valued == ARGON2ID)
		MUST(kdf, SALT, STRING);
	if (node[af_type].valued != LUKS1 || node[area_type].valued != RAW || digests_of(digests, KEYSLOTS, node[i].name) != 1)
		WRONG(i, RULES);
	return 0;
}

INLINED u64 fault_of_keyslots(u64 keyslots, u64 digests)
{
	u64 parts = 0;

	for (EACH(i, keyslots)) {
		TURN(EACH_NODE, return TURNS_SPENT);
		if (node[i].gone)
			continue;
		NEED(type, i, TYPE, STRING);
		NEED(key_size, i, KEY_SIZE, WHOLE);
		NEED(area, i, AREA, OBJECT);
		MUST(area, TYPE, STRING);
		NEED(offset, area, OFFSET, STRING);
		NEED(size, area, BYTES, STRING);
		u64 first = NUMBER(offset), length = NUMBER(size), fault;

		if (number_at(node[i].name, 0) == NO_NUMBER || NUMBER(key_size) >> 32)
			WRONG(i, RULES);
		if (node[type].valued == REENCRYPT || parts == PARTS)
			WRONG(i, NOT_TAKEN);
		fault = node[type].valued == LUKS2 ? fault_of_luks2(i, digests) : 0;
		if (fault)
			return fault;
		if (first < 2 * SIZE || !length || first + length < first || first + length > 2 * SIZE + keyslots_size)
			WRONG(area, PLACE);
		first_of[parts] = first;
		length_of[parts++] = length;
	}
	if (overlap(parts))
		WRONG(keyslots, PLACE);
	return 0;
}

/* The text that was parsed. */
INLINED u64 fault_of_objects(void)
{
	NEED(config, 0, CONFIG, OBJECT);
	NEED(keyslots, 0, KEYSLOTS, OBJECT);
	NEED(digests, 0, DIGESTS, OBJECT);
	NEED(segments, 0, SEGMENTS, OBJECT);
	NEED(tokens, 0, TOKENS, OBJECT);
	u64 fault = fault_of_config(config);

	if (!fault)
		fault = fault_of_tokens(tokens, keyslots);
	if (!fault)
		fault = fault_of_digests(digests, keyslots, segments);
	if (!fault)
		fault = fault_of_segments(segments, digests);
	if (!fault)
		fault = fault_of_keyslots(keyslots, digests);
	if (!fault && first_segment && (first_segment < keyslots_size || first_segment - keyslots_size < 2 * SIZE))
		WRONG(segments, PLACE);
	return fault;
}

/* The copy of the header at byte `at`. */
INLINED u64 fault_of_copy(u64 at)
{
	u64 size = u64_at_be(at + 8), fault;

	/* The magic is LUKS or SKUL, and 0xbabe. */
	if (u32_at_be(at) != (at ? 0x534b554c : 0x4c554b53) || u16_at_be(at + 4) != 0xbabe || u64_at_be(at + 256) != at)
		return NO_COPY;
	/* The sum is called sha256, in letters of any case. */
	if (u16_at_be(at + 6) != 2 || size != SIZE || (u64_at(at + 72) | 0x2020202020) != (0x363532616873 | 0x2020202020))
		return NOT_TAKEN;
	if (sum_copy(at))
		return TURNS_SPENT;
	for (u64 i = 0; i < 8; i++) {
		TURN(2 * 8, return TURNS_SPENT);
		if (state[i] != u32_at_be(at + 448 + 4 * i))
			return NO_COPY;
	}
	read_bytes(at + BINARY, text, TEXT);
	fault = fault_of_json();
	return fault ? fault : fault_of_objects();
}

u64 check(const struct context *context)
{
	u64 fault = 0, first_fault = 0, first_id = 0, first_end = 0, first_wrong = 0, end = 0;

	/* No other copy is looked for where the first one is of another version, as LUKS1. */
	if (u32_at_be(0) == 0x4c554b53 && u16_at_be(4) == 0xbabe && u16_at_be(6) && u16_at_be(6) != 2)
		return NOT_TAKEN;
	for (u64 copy = 0; copy < 2; copy++) {
		TURN(2, return TURNS_SPENT);
		wrong = 0;
		fault = fault_of_copy(SIZE * copy);
		if (fault == TURNS_SPENT || spent)
			return TURNS_SPENT;
		end = 2 * SIZE + keyslots_size;
		if (copy == 0) {
			first_fault = fault;
			first_id = u64_at_be(16);
			first_end = end;
			first_wrong = wrong;
		}
	}
	if (first_fault && fault) {
		u64 told = first_fault == NO_COPY ? fault : first_fault, where = told == first_fault ? first_wrong : SIZE + wrong;

		if (told == RULES || told == PLACE)
			report(BINARY + where);
		return told;
	}
	if (!first_fault && (fault || u64_at_be(SIZE + 16) <= first_id))
		end = first_end;
	return end > 512 * context->sectors ? TOO_SMALL : 0;
}

#ifdef CHECKER_NATIVE
/* The sums of both copies. */
void mend_sums(u8 *image, u64 bytes)
{
	for (u64 at = 0; at < 2 * SIZE && at + SIZE <= bytes; at += SIZE) {
		sum_copy(at);
		for (u64 i = 0; i < 8; i++) {
			u32 word_of_sum = __builtin_bswap32(state[i]);

			memcpy(image + at + 448 + 4 * i, &word_of_sum, 4);
		}
	}
}
#endif
