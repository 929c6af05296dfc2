/* Runs a program once, and prints its status, microseconds of processor time and KiB of peak memory: slowest SECONDS INPUT PROGRAM WORD ..
 *
 * A run has so many seconds and 8 GiB, and reads INPUT; what it writes is thrown away. This program is small, since the peak of
 * a run begins with that of the program that started it. */
#include <fcntl.h>
#include <stdio.h>
#include <stdlib.h>
#include <sys/resource.h>
#include <sys/wait.h>
#include <unistd.h>

int main(int count, char **words) {
  if (count < 4)
    return 2;
  pid_t child = fork();
  if (child == 0) {
    rlim_t seconds = strtoul(words[1], NULL, 10), room = (rlim_t)8 << 30;
    setrlimit(RLIMIT_CPU, &(struct rlimit){seconds, seconds});
    setrlimit(RLIMIT_AS, &(struct rlimit){room, room});
    int in = open(words[2], O_RDONLY), out = open("/dev/null", O_WRONLY);
    if (in < 0 || dup2(in, 0) < 0 || dup2(out, 1) < 0 || dup2(out, 2) < 0)
      _exit(127);
    execv(words[3], words + 3);
    _exit(127);
  }
  int status;
  struct rusage used;
  if (child < 0 || wait4(child, &status, 0, &used) < 0)
    return 2;
  long micro = 1000000L * (used.ru_utime.tv_sec + used.ru_stime.tv_sec) + used.ru_utime.tv_usec + used.ru_stime.tv_usec;
  printf("%d %ld %ld\n", WIFEXITED(status) ? WEXITSTATUS(status) : -WTERMSIG(status), micro, used.ru_maxrss);
  return 0;
}
