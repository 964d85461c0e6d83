/*
 * What a disk can do for a log that syncs twice a record: the calls of an append and nothing else.
 *
 *   sync_limit FILE COUNT BYTES
 *
 * FILE is made anew, of one closed gate. Then COUNT records of BYTES bytes are added: the record is written behind the
 * gate, the next closed gate as its last byte, and synced; then the gate is opened, and synced. Prints the seconds that
 * the records took.
 */
#include <fcntl.h>
#include <stdio.h>
#include <stdlib.h>
#include <string.h>
#include <time.h>
#include <unistd.h>

static void fail(const char *what)
{
	perror(what);
	exit(1);
}

static double seconds(void)
{
	struct timespec now;

	if (clock_gettime(CLOCK_MONOTONIC, &now) != 0)
		fail("clock_gettime");
	return now.tv_sec + now.tv_nsec / 1e9;
}

static void write_through(int file, const void *bytes, size_t count, off_t at)
{
	if (pwrite(file, bytes, count, at) != (ssize_t)count)
		fail("pwrite");
	if (fdatasync(file) != 0)
		fail("fdatasync");
}

int main(int argc, char **argv)
{
	static const char closed = 0, open_gate = 1;
	long count = argc == 4 ? atol(argv[2]) : 0;
	long bytes = argc == 4 ? atol(argv[3]) : 0;

	if (count < 1 || bytes < 1) {
		fprintf(stderr, "usage: sync_limit FILE COUNT BYTES\n");
		return 2;
	}
	char *record = malloc((size_t)bytes);
	if (record == NULL)
		fail("malloc");
	memset(record, 'r', (size_t)bytes);
	record[bytes - 1] = closed;

	int file = open(argv[1], O_RDWR | O_CREAT | O_TRUNC, 0600);
	if (file < 0)
		fail(argv[1]);
	write_through(file, &closed, 1, 0);

	off_t gate = 0;
	double begin = seconds();
	for (long i = 0; i < count; i++) {
		write_through(file, record, (size_t)bytes, gate + 1);
		write_through(file, &open_gate, 1, gate);
		gate += bytes;
	}
	printf("%.6f\n", seconds() - begin);
	return close(file) != 0;
}
