/* SPDX-License-Identifier: MIT */
/* Lets a stopped process run for COUNT instructions and kills it: steps PROCESS COUNT
 * If it stops itself again before (SIGSTOP), or ends, the number of instructions that it made is printed. */
#include <errno.h>
#include <signal.h>
#include <stdio.h>
#include <stdlib.h>
#include <sys/ptrace.h>
#include <sys/wait.h>

int main(int count, char **words)
{
	if (count != 3) {
		fprintf(stderr, "usage: steps PROCESS COUNT\n");
		return 2;
	}
	pid_t process = (pid_t)atoi(words[1]);
	long wanted = atol(words[2]), made = 0;
	int status, signal = 0;

	if (ptrace(PTRACE_ATTACH, process, NULL, NULL) != 0 || waitpid(process, &status, __WALL) != process) {
		perror("steps: attach");
		return 1;
	}
	while (made < wanted) {
		if (ptrace(PTRACE_SINGLESTEP, process, NULL, (void *)(long)signal) != 0) {
			perror("steps: step");
			return 1;
		}
		if (waitpid(process, &status, __WALL) != process || !WIFSTOPPED(status)) {
			printf("%ld\n", made);
			return 0;
		}
		signal = WSTOPSIG(status);
		if (signal == SIGSTOP) {
			/* The one of the attachment comes first, before an instruction was made. */
			if (made > 0) {
				printf("%ld\n", made);
				break;
			}
			signal = 0;
			continue;
		}
		if (signal == SIGTRAP || signal == SIGCONT) {
			signal = 0;
		}
		made++;
	}
	kill(process, SIGKILL);
	waitpid(process, &status, __WALL);
	return 0;
}
