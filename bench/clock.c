/*
 * A clock that tells a list of moments in place of the system's: a library that is preloaded into a program (LD_PRELOAD).
 *
 * The file $MOMENTS has a moment a line, in UTC and as the program prints it: " 1-JAN-2030 15:00:00.00". Each reading of
 * CLOCK_REALTIME tells the next one, and behind the last one tells that for ever; other clocks go on. A moment before 1970
 * is told as seconds below 0, which the program takes for a clock that tells no time.
 *
 * The file $READINGS, where it is named, gets a byte for each reading.
 */
#define _GNU_SOURCE
#include <fcntl.h>
#include <stdio.h>
#include <stdlib.h>
#include <string.h>
#include <sys/syscall.h>
#include <time.h>
#include <unistd.h>

static struct timespec *moments;
static size_t count, told;
static const char *readings;

static void broken(const char *what)
{
	perror(what);
	abort();
}

/* What a line names, if that is a moment. */
static int read_moment(const char *line, struct timespec *moment)
{
	static const char names[] = "JANFEBMARAPRMAYJUNJULAUGSEPOCTNOVDEC";
	char month[4];
	int hundredths;
	struct tm date = { 0 };

	if (sscanf(line, " %2d-%3s-%4d %2d:%2d:%2d.%2d", &date.tm_mday, month, &date.tm_year, &date.tm_hour, &date.tm_min,
		   &date.tm_sec, &hundredths) != 7)
		return 0;
	const char *at = strstr(names, month);
	if (at == NULL || (at - names) % 3 != 0)
		return 0;
	date.tm_mon = (at - names) / 3;
	date.tm_year -= 1900;
	moment->tv_sec = timegm(&date);
	moment->tv_nsec = hundredths * 10000000L;
	return 1;
}

__attribute__((constructor)) static void begin(void)
{
	const char *path = getenv("MOMENTS");
	char line[80];

	readings = getenv("READINGS");
	if (path == NULL)
		return;
	FILE *lines = fopen(path, "r");
	if (lines == NULL)
		broken(path);
	while (fgets(line, sizeof line, lines) != NULL) {
		moments = realloc(moments, (count + 1) * sizeof *moments);
		if (moments == NULL || !read_moment(line, &moments[count]))
			broken(line);
		count++;
	}
	fclose(lines);
}

static void note_reading(void)
{
	int file = open(readings, O_WRONLY | O_CREAT | O_APPEND, 0600);

	if (file < 0 || write(file, ".", 1) != 1)
		broken(readings);
	close(file);
}

int clock_gettime(clockid_t clock, struct timespec *time)
{
	if (clock != CLOCK_REALTIME || count == 0)
		return syscall(SYS_clock_gettime, clock, time);
	if (readings != NULL)
		note_reading();
	*time = moments[told];
	if (told + 1 < count)
		told++;
	return 0;
}
