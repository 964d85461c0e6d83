/*
 * What reading a file takes whoever keeps it: it is read into memory, and its bytes are added up.
 *
 *   add_up FILE COUNT
 *
 * FILE is read COUNT times, each time into memory that is taken anew. Prints the seconds that a reading took on an average, and
 * the sum of the bytes.
 */
#include <fcntl.h>
#include <stdio.h>
#include <stdlib.h>
#include <sys/stat.h>
#include <time.h>
#include <unistd.h>

static void fail(const char *what)
{
	perror(what);
	exit(1);
}

static double seconds(void)
{
	struct timespec now;

	if (clock_gettime(CLOCK_MONOTONIC, &now) != 0)
		fail("clock_gettime");
	return now.tv_sec + now.tv_nsec / 1e9;
}

static unsigned long long sum_of(int file)
{
	struct stat about;
	unsigned long long sum = 0;
	off_t count = 0;
	ssize_t got;

	if (fstat(file, &about) != 0)
		fail("fstat");
	unsigned char *bytes = malloc((size_t)about.st_size);
	if (bytes == NULL)
		fail("malloc");
	while ((got = pread(file, bytes + count, (size_t)(about.st_size - count), count)) > 0)
		count += got;
	if (got < 0)
		fail("pread");
	for (off_t i = 0; i < count; i++)
		sum += bytes[i];
	free(bytes);
	return sum;
}

int main(int argc, char **argv)
{
	long count = argc == 3 ? atol(argv[2]) : 0;

	if (count < 1) {
		fprintf(stderr, "usage: add_up FILE COUNT\n");
		return 2;
	}
	int file = open(argv[1], O_RDONLY);
	if (file < 0)
		fail(argv[1]);

	unsigned long long sum = 0;
	double begin = seconds();
	for (long i = 0; i < count; i++)
		sum = sum_of(file);
	printf("%.6f %llu\n", (seconds() - begin) / count, sum);
	return close(file) != 0;
}
