/* The words and files of a run under bench/afl, from the one input that afl-fuzz writes; linked in place of the kit's words.
 *
 * The program is called as PROGRAM INPUT ONE TWO WORD .. ++ WORD .. ++ .. Under afl-fuzz one process does many runs.
 *
 * The input's first byte picks one of the lists of words. The next two are the size of the file ONE, which follows; the rest is
 * the file TWO. The current folder is emptied before, so that all runs are alike. The word `<NAME` makes a file standard input,
 * `@NAME` is the lines of a file, of which none may lead out of the folder. */
#include <dirent.h>
#include <fcntl.h>
#include <stdlib.h>
#include <string.h>
#include <unistd.h>

enum { LONGEST = 1 << 20, MOST = 4096 };

static int many;
static char **given;
static const char *words[MOST];
static long count = -1;
static char input[LONGEST + 1], lines[LONGEST + 1];

__attribute__((constructor)) static void keep(int argc, char **argv) {
  many = argc;
  given = argv;
}

static size_t read_all(const char *name, char *into) {
  int from = open(name, O_RDONLY);
  size_t size = 0;
  for (ssize_t got; from >= 0 && size < LONGEST && (got = read(from, into + size, LONGEST - size)) > 0;)
    size += (size_t)got;
  close(from);
  return size;
}

static void write_all(const char *name, const char *from, size_t size) {
  int to = open(name, O_WRONLY | O_CREAT | O_TRUNC, 0644);
  if (to < 0 || write(to, from, size) != (ssize_t)size)
    abort();
  close(to);
}

static void empty(void) {
  DIR *here = opendir(".");
  for (struct dirent *it; here && (it = readdir(here));)
    unlink(it->d_name);
  closedir(here);
}

static void add(const char *word) {
  if (count < MOST)
    words[count++] = word;
}

static void add_lines(const char *name) {
  lines[read_all(name, lines)] = '\0';
  if (strchr(lines, '/'))
    _exit(0);
  for (char *at = lines; at;)
    add(strsep(&at, "\n"));
}

/* The words of the list that the input picks. */
static void prepare(void) {
  size_t size = read_all(given[1], input), head = size < 3 ? size : 3;
  size_t one = head < 3 ? 0 : (size_t)(unsigned char)input[1] << 8 | (unsigned char)input[2];
  if (one > size - head)
    one = size - head;
  empty();
  write_all(given[2], input + head, one);
  write_all(given[3], input + head + one, size - head - one);
  int lists = 1, at = 4;
  for (int k = 4; k < many; k++)
    lists += !strcmp(given[k], "++");
  for (int left = size ? (unsigned char)input[0] % lists : 0; left; at++)
    left -= !strcmp(given[at], "++");
  count = 0;
  add(given[0]);
  for (; at < many && strcmp(given[at], "++"); at++) {
    if (given[at][0] == '<')
      dup2(open(given[at] + 1, O_RDONLY), 0);
    else if (given[at][0] == '@')
      add_lines(given[at] + 1);
    else
      add(given[at]);
  }
}

/* What the kit's `args` gives: the number of words, and the bytes of one, -1 where there is none, -2 where it is too long. */
long rattle_arg_count(void) {
  if (count < 0)
    prepare();
  return count;
}

long rattle_arg(unsigned long at, char *into, unsigned long room) {
  if (at >= (unsigned long)rattle_arg_count())
    return -1;
  size_t size = strlen(words[at]);
  if (size > room)
    return -2;
  memcpy(into, words[at], size);
  return (long)size;
}

/* What afl-fuzz looks for in a program that does so, and what the runtime of AFL++ has for it. */
static const char *volatile persistent = "##SIG_AFL_PERSISTENT##";
int __afl_persistent_loop(unsigned int most);
int __real_main(int count, char **at);

int __wrap_main(int count_of, char **at) {
  int status = 0;
  while (persistent && __afl_persistent_loop(1000)) {
    count = -1;
    status = __real_main(count_of, at);
  }
  return status;
}
