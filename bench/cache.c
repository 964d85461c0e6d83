/*
 * What a disk holds beside what the system's cache shows: a library that is preloaded into a program (LD_PRELOAD).
 *
 * It follows the regular files that the program opens for writing by names without a slash, and the folder that it runs
 * in. The folder $SHADOW, on the same file system, keeps for each, by the number N of its inode:
 *
 *   held.N     the bytes that the disk holds
 *   dirty.N    the ranges that were written and not yet synced: lines "W place count" and "T size"
 *   kept.N     another name of the file, so that N isn't given to another one
 *   name.NAME  the number of the file that this name has on the disk
 *   names      the names that were made, given and taken away since the last sync of the folder: lines "NAME N", N 0 for none
 *   failed     a line for each sync that failed
 *
 * A file that was there before counts as on the disk when it is opened first. A sync that succeeds carries the ranges,
 * or the names, over. The syncs whose numbers $FAIL_SYNC lists, with commas between, fail with EIO, and what they would
 * have carried over counts as clean from then on: the cache shows it, and no later sync carries it over. So Linux has it.
 * In front of the sync with number $STOP_SYNC the process stops, as by SIGSTOP. The syncs of this process on the folder and on
 * files that are followed are counted, from 1.
 *
 * What a loss of power leaves is the names, each with its bytes: of what wasn't synced nothing.
 */
#define _GNU_SOURCE
#include <dlfcn.h>
#include <errno.h>
#include <fcntl.h>
#include <limits.h>
#include <signal.h>
#include <stdarg.h>
#include <stdio.h>
#include <stdlib.h>
#include <string.h>
#include <sys/stat.h>
#include <unistd.h>

#define REAL(type, name, ...) ((type (*)(__VA_ARGS__))dlsym(RTLD_NEXT, name))

static const char *shadow, *failing;
static long stopping, syncs;

__attribute__((constructor)) static void begin(void)
{
	const char *number = getenv("STOP_SYNC");

	shadow = getenv("SHADOW");
	failing = getenv("FAIL_SYNC");
	stopping = number ? atol(number) : 0;
}

/* Whether the sync that comes is one of those that fail. */
static int fails_now(void)
{
	const char *at = failing;

	while (at != NULL && *at != '\0') {
		if (atol(at) == syncs)
			return 1;
		at = strchr(at, ',');
		if (at != NULL)
			at++;
	}
	return 0;
}

static void broken(const char *what)
{
	perror(what);
	abort();
}

static void path_of(char *path, const char *kind, const char *name)
{
	snprintf(path, PATH_MAX, "%s/%s%s", shadow, kind, name);
}

static void path_of_number(char *path, const char *kind, ino_t number)
{
	snprintf(path, PATH_MAX, "%s/%s%llu", shadow, kind, (unsigned long long)number);
}

static int open_real(const char *path, int flags)
{
	return REAL(int, "open", const char *, int, ...)(path, flags, 0600);
}

static void append_line(const char *path, const char *line)
{
	int file = open_real(path, O_WRONLY | O_CREAT | O_APPEND);

	if (file < 0 || REAL(ssize_t, "write", int, const void *, size_t)(file, line, strlen(line)) < 0)
		broken(path);
	close(file);
}

/* Copies a range of one open file to the same place of another. */
static void carry(int from, int to, long long place, long long count)
{
	static char bytes[1 << 16];

	while (count > 0) {
		ssize_t got = pread(from, bytes, count < (long long)sizeof bytes ? count : (long long)sizeof bytes, place);

		if (got <= 0)
			return;
		if (REAL(ssize_t, "pwrite", int, const void *, size_t, off_t)(to, bytes, got, place) != got)
			broken("pwrite");
		place += got;
		count -= got;
	}
}

/* Whether this open file is followed, and its number. */
static int is_followed(int file, ino_t *number)
{
	struct stat about;
	char path[PATH_MAX];

	if (shadow == NULL || fstat(file, &about) != 0 || !S_ISREG(about.st_mode))
		return 0;
	path_of_number(path, "held.", about.st_ino);
	*number = about.st_ino;
	return access(path, F_OK) == 0;
}

static void note(int file, const char *format, long long a, long long b)
{
	char path[PATH_MAX], line[80];
	ino_t number;
	int saved = errno;

	if (is_followed(file, &number)) {
		path_of_number(path, "dirty.", number);
		snprintf(line, sizeof line, format, a, b);
		append_line(path, line);
	}
	errno = saved;
}

static void note_name(const char *name, ino_t number)
{
	char path[PATH_MAX], line[NAME_MAX + 40];

	path_of(path, "names", "");
	snprintf(line, sizeof line, "%s %llu\n", name, (unsigned long long)number);
	append_line(path, line);
}

static void set_name(const char *name, unsigned long long number)
{
	char path[PATH_MAX], line[40];

	path_of(path, "name.", name);
	unlink(path);
	if (number != 0) {
		snprintf(line, sizeof line, "%llu\n", number);
		append_line(path, line);
	}
}

/* Begins to follow a file that was opened for writing. */
static void follow(int file, const char *name, int is_new, int flags)
{
	char held[PATH_MAX], kept[PATH_MAX];
	struct stat about;

	if (fstat(file, &about) != 0 || !S_ISREG(about.st_mode))
		return;
	path_of_number(held, "held.", about.st_ino);
	if (access(held, F_OK) != 0) {
		int copy = open_real(held, O_WRONLY | O_CREAT);

		path_of_number(kept, "kept.", about.st_ino);
		if (copy < 0 || link(name, kept) != 0)
			broken(name);
		if (!is_new) {
			int whole = open_real(name, O_RDONLY);

			carry(whole, copy, 0, about.st_size);
			close(whole);
			set_name(name, about.st_ino);
		}
		close(copy);
	}
	if (is_new)
		note_name(name, about.st_ino);
	else if (flags & O_TRUNC)
		note(file, "T %lld\n", 0, 0);
}

static int open_any(const char *which, const char *name, int flags, int mode)
{
	struct stat about;
	int is_ours = shadow != NULL && strchr(name, '/') == NULL && (flags & O_ACCMODE) != O_RDONLY;
	int is_new = is_ours && stat(name, &about) != 0;
	int file = REAL(int, which, const char *, int, ...)(name, flags, mode);

	if (file >= 0 && is_ours)
		follow(file, name, is_new, flags);
	return file;
}

#define OPEN(which) \
	int which(const char *name, int flags, ...) \
	{ \
		va_list rest; \
		va_start(rest, flags); \
		int mode = flags & O_CREAT ? va_arg(rest, int) : 0; \
		va_end(rest); \
		return open_any(#which, name, flags, mode); \
	}
OPEN(open)
OPEN(open64)

ssize_t pwrite(int file, const void *bytes, size_t count, off_t place)
{
	ssize_t put = REAL(ssize_t, "pwrite", int, const void *, size_t, off_t)(file, bytes, count, place);

	if (put > 0)
		note(file, "W %lld %lld\n", place, put);
	return put;
}

ssize_t pwrite64(int file, const void *bytes, size_t count, off_t place)
{
	return pwrite(file, bytes, count, place);
}

ssize_t write(int file, const void *bytes, size_t count)
{
	off_t place = lseek(file, 0, SEEK_CUR);
	ssize_t put = REAL(ssize_t, "write", int, const void *, size_t)(file, bytes, count);

	if (put > 0)
		note(file, "W %lld %lld\n", place, put);
	return put;
}

int ftruncate(int file, off_t size)
{
	int status = REAL(int, "ftruncate", int, off_t)(file, size);

	if (status == 0)
		note(file, "T %lld\n", size, 0);
	return status;
}

int ftruncate64(int file, off_t size)
{
	return ftruncate(file, size);
}

int rename(const char *from, const char *to)
{
	struct stat about;
	int is_ours = shadow != NULL && strchr(from, '/') == NULL && stat(from, &about) == 0;
	int status = REAL(int, "rename", const char *, const char *)(from, to);

	if (status == 0 && is_ours) {
		note_name(to, about.st_ino);
		note_name(from, 0);
	}
	return status;
}

/* The ranges of a file that was synced go to what the disk holds. */
static void sync_bytes(int file, ino_t number)
{
	char held[PATH_MAX], dirty[PATH_MAX], self[40], kind;
	long long place, count;

	path_of_number(held, "held.", number);
	path_of_number(dirty, "dirty.", number);
	snprintf(self, sizeof self, "/proc/self/fd/%d", file);
	FILE *ranges = fopen(dirty, "r");
	if (ranges == NULL)
		return;
	int from = open_real(self, O_RDONLY), to = open_real(held, O_WRONLY);
	if (from < 0 || to < 0)
		broken(held);
	while (fscanf(ranges, " %c %lld", &kind, &place) == 2) {
		if (kind == 'T') {
			struct stat about;

			if (fstat(to, &about) == 0 && about.st_size > place)
				REAL(int, "ftruncate", int, off_t)(to, place);
		} else if (fscanf(ranges, "%lld", &count) == 1) {
			carry(from, to, place, count);
		}
	}
	fclose(ranges);
	close(from);
	close(to);
	unlink(dirty);
}

static void sync_names(void)
{
	char names[PATH_MAX], name[NAME_MAX + 1];
	unsigned long long number;

	path_of(names, "names", "");
	FILE *lines = fopen(names, "r");
	if (lines == NULL)
		return;
	while (fscanf(lines, "%255s %llu", name, &number) == 2)
		set_name(name, number);
	fclose(lines);
	unlink(names);
}

static int sync_any(const char *which, int file)
{
	char path[PATH_MAX];
	struct stat about;
	ino_t number = 0;
	int is_folder = shadow != NULL && fstat(file, &about) == 0 && S_ISDIR(about.st_mode);

	if (!is_folder && !is_followed(file, &number))
		return REAL(int, which, int)(file);
	if (++syncs == stopping)
		raise(SIGSTOP);
	if (fails_now()) {
		path_of(path, "failed", "");
		append_line(path, "failed\n");
		if (is_folder)
			path_of(path, "names", "");
		else
			path_of_number(path, "dirty.", number);
		unlink(path);
		errno = EIO;
		return -1;
	}
	if (is_folder)
		sync_names();
	else
		sync_bytes(file, number);
	return 0;
}

int fsync(int file) { return sync_any("fsync", file); }
int fdatasync(int file) { return sync_any("fdatasync", file); }
