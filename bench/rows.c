/*
 * What a row of a listing costs at least: a walk over entries of about the size that they have in a site, which stand in 255 queues in turn, and
 * a line of text for each, queue by queue. No search, no names to compare, nothing asked.
 *
 *   rows WAY COUNT
 *
 * COUNT entries are listed over and over, about a million rows in all. WAY is how their rows are made before they are printed: `copy`,
 * as rows of their own; `pack`, as such rows with names in 16 bytes each; `share`, as pointers with a count in the entry; `none`,
 * printed where the entries are. Prints the nanoseconds
 * of a row in the quickest listing and on an average. Build it with -O2.
 */
#include <stdatomic.h>
#include <stdint.h>
#include <stdio.h>
#include <stdlib.h>
#include <string.h>
#include <time.h>

enum { QUEUES = 255, LINE = 80, ROWS = 1000000 };
enum way { COPY, PACK, SHARE, NONE };

struct name {
	uint8_t length;
	char bytes[31];
};

/* What of an entry a row keeps. */
struct job {
	uint32_t number, size;
	struct name home, name, user;
	char file[48];
	uint64_t state[12];
	uint64_t others[8];
};

struct short_name {
	uint8_t length;
	char bytes[15];
};

/* The same in less room. */
struct packed {
	uint32_t number, size;
	struct short_name home, name, user, file, form;
	uint64_t state[3];
	uint64_t others[5];
};

struct entry {
	_Atomic uint64_t rows;
	struct job job;
	uint8_t mark[256];
};

/* The entries of a queue. */
struct group {
	struct entry **entries;
	size_t count;
};

static void *got(void *memory)
{
	if (memory == NULL) {
		perror("rows");
		exit(1);
	}
	return memory;
}

static double now(void)
{
	struct timespec time;

	clock_gettime(CLOCK_MONOTONIC, &time);
	return time.tv_sec * 1e9 + time.tv_nsec;
}

static char *put_number(char *at, uint32_t number, int width)
{
	char digits[10];
	int count = 0;

	do
		digits[count++] = '0' + number % 10;
	while ((number /= 10) != 0);
	for (int blanks = width - count; blanks > 0; blanks--)
		*at++ = ' ';
	while (count > 0)
		*at++ = digits[--count];
	*at++ = ' ';
	return at;
}

static char *put_name(char *at, const char *bytes, int length, int width)
{
	memcpy(at, bytes, length);
	memset(at + length, ' ', width - length + 1);
	return at + width + 1;
}

/* A line of a row of any form that has these fields. */
#define PUT_LINE(at, row) \
	do { \
		memcpy(at, "A 1: ", 5); \
		at = put_number(at + 5, (row)->number, 6); \
		at = put_name(at, (row)->name.bytes, (row)->name.length, 16); \
		at = put_name(at, (row)->user.bytes, (row)->user.length, 12); \
		at = put_number(at, (row)->size, 8); \
		memcpy(at, (row)->state[0] == 0 ? "pending\n" : "holding\n", 8); \
		at += 8; \
	} while (0)

static struct short_name shortened(const struct name *name)
{
	struct short_name result = { .length = name->length };

	memcpy(result.bytes, name->bytes, sizeof result.bytes);
	return result;
}

static struct packed pack(const struct job *job)
{
	struct packed packed = { .number = job->number, .size = job->size, .home = shortened(&job->home), .name = shortened(&job->name), .user = shortened(&job->user) };

	memcpy(&packed.file, job->file, sizeof packed.file);
	memcpy(packed.state, job->state, sizeof packed.state);
	memcpy(packed.others, job->others, sizeof packed.others);
	return packed;
}

/* Puts each entry into the group of its queue. */
static void fill(struct group *groups, struct entry **entries, size_t count)
{
	for (size_t i = 0; i < count; i++) {
		struct group *group = &groups[entries[i]->job.home.length];

		if ((group->count & (group->count + 1)) == 0)
			group->entries = got(realloc(group->entries, (2 * group->count + 2) * sizeof *group->entries));
		group->entries[group->count++] = entries[i];
	}
}

/* Lists the groups into a text, and gives its end. */
static char *list(enum way way, const struct group *groups, size_t count, char *at)
{
	struct job *rows = way == COPY ? got(malloc(count * sizeof *rows)) : NULL;
	struct packed *packed = way == PACK ? got(malloc(count * sizeof *packed)) : NULL;
	struct entry **shared = way == SHARE ? got(malloc(count * sizeof *shared)) : NULL;
	size_t made = 0;

	for (int queue = 0; queue < QUEUES; queue++)
		for (size_t i = 0; i < groups[queue].count; i++) {
			struct entry *entry = groups[queue].entries[i];

			if (way == COPY) {
				rows[made++] = entry->job;
			} else if (way == PACK) {
				packed[made++] = pack(&entry->job);
			} else if (way == SHARE) {
				entry->rows++;
				shared[made++] = entry;
			} else {
				PUT_LINE(at, &entry->job);
			}
		}
	for (size_t i = 0; way == COPY && i < made; i++)
		PUT_LINE(at, &rows[i]);
	for (size_t i = 0; way == PACK && i < made; i++)
		PUT_LINE(at, &packed[i]);
	for (size_t i = 0; way == SHARE && i < made; i++)
		PUT_LINE(at, &shared[i]->job);
	for (size_t i = 0; way == SHARE && i < made; i++)
		shared[i]->rows--;
	free(rows);
	free(packed);
	free(shared);
	return at;
}

int main(int words, char **word)
{
	static const char *const ways[] = { "copy", "pack", "share", "none" };
	enum way way = COPY;
	size_t count = words == 3 ? strtoul(word[2], NULL, 10) : 0;

	while (words == 3 && way <= NONE && strcmp(word[1], ways[way]) != 0)
		way++;
	if (words != 3 || way > NONE || count == 0 || count > ROWS) {
		fputs("rows copy|pack|share|none COUNT\n", stderr);
		return 2;
	}
	struct entry **entries = got(malloc(count * sizeof *entries));
	for (size_t i = 0; i < count; i++) {
		struct entry *entry = got(calloc(1, sizeof *entry));

		entry->job = (struct job){ .number = i + 1, .size = 1, .home.length = i % QUEUES, .name = { 1, "J" }, .user = { 6, "SYSTEM" } };
		entries[i] = entry;
	}
	double least = 1e18, sum = 0;
	size_t times = ROWS / count;
	for (size_t i = 0; i < times; i++) {
		double begun = now();
		struct group groups[QUEUES] = { 0 };
		char *text = got(malloc(count * LINE));

		fill(groups, entries, count);
		char *end = list(way, groups, count, text);
		double took = (now() - begun) / count;
		least = took < least ? took : least;
		sum += took;
		if (end == text)
			return 1;
		free(text);
		for (int queue = 0; queue < QUEUES; queue++)
			free(groups[queue].entries);
	}
	printf("%s, %zu entries of %zu bytes: %.0f ns a row, %.0f on an average\n", word[1], count, sizeof **entries, least, sum / times);
	return 0;
}
