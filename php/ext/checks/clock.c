/* SPDX-License-Identifier: MIT */
/* A clock that does not advance: loaded before a program (LD_PRELOAD), it returns as the time the seconds
 * in the file CLOCK_FILE, eight bytes, lowest first. So rows age when a script writes that file, and two
 * runs meet the same moments. Without the file the clock is the system's. For checks only. */
#define _GNU_SOURCE
#include <dlfcn.h>
#include <fcntl.h>
#include <stdint.h>
#include <stdlib.h>
#include <sys/mman.h>
#include <sys/syscall.h>
#include <sys/time.h>
#include <time.h>
#include <unistd.h>

static const volatile int64_t *seconds;

__attribute__((constructor)) static void open_clock(void)
{
	const char *name = getenv("CLOCK_FILE");
	int file = name ? open(name, O_RDONLY | O_CLOEXEC) : -1;

	if (file < 0) {
		return;
	}
	void *at = mmap(NULL, sizeof(int64_t), PROT_READ, MAP_SHARED, file, 0);
	if (at != MAP_FAILED) {
		seconds = at;
	}
	close(file);
}

int clock_gettime(clockid_t id, struct timespec *out)
{
	/* Clocks of processor time go on. */
	if (!seconds || id == CLOCK_PROCESS_CPUTIME_ID || id == CLOCK_THREAD_CPUTIME_ID) {
		return (int)syscall(SYS_clock_gettime, id, out);
	}
	*out = (struct timespec){.tv_sec = *seconds};
	return 0;
}

time_t time(time_t *out)
{
	struct timespec now;

	clock_gettime(CLOCK_REALTIME, &now);
	if (out) {
		*out = now.tv_sec;
	}
	return now.tv_sec;
}

int gettimeofday(struct timeval *restrict out, void *restrict zone)
{
	struct timespec now;

	(void)zone;
	clock_gettime(CLOCK_REALTIME, &now);
	*out = (struct timeval){.tv_sec = now.tv_sec, .tv_usec = now.tv_nsec / 1000};
	return 0;
}

/* PHP opens an extension so that the C library's own names go before these; here they don't. */
void *dlopen(const char *name, int mode)
{
	void *(*next)(const char *, int) = (void *(*)(const char *, int))dlsym(RTLD_NEXT, "dlopen");

	return next(name, mode & ~RTLD_DEEPBIND);
}
