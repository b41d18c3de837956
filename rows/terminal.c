/* Runs a program with its standard error on a terminal of its own, and writes what stands there to standard output.
 * Usage: terminal FILE PROGRAM WORD ..: the program's standard output is the file; where it is `-`, the terminal too. */
#define _GNU_SOURCE
#include <fcntl.h>
#include <stdio.h>
#include <stdlib.h>
#include <string.h>
#include <sys/wait.h>
#include <termios.h>
#include <unistd.h>

static void fail(const char *what) {
  perror(what);
  exit(1);
}

int main(int count, char **words) {
  if (count < 3) return 2;
  int master = posix_openpt(O_RDWR | O_NOCTTY);
  if (master < 0 || grantpt(master) != 0 || unlockpt(master) != 0) fail("terminal");
  int terminal = open(ptsname(master), O_RDWR | O_NOCTTY);
  if (terminal < 0) fail("terminal");
  struct termios raw;
  if (tcgetattr(terminal, &raw) != 0) fail("terminal");
  cfmakeraw(&raw);
  if (tcsetattr(terminal, TCSANOW, &raw) != 0) fail("terminal");
  pid_t child = fork();
  if (child < 0) fail("fork");
  if (child == 0) {
    int out = strcmp(words[1], "-") == 0 ? terminal : open(words[1], O_WRONLY | O_CREAT | O_TRUNC, 0600);
    if (out < 0 || dup2(out, 1) < 0 || dup2(terminal, 2) < 0) fail("file");
    execv(words[2], words + 2);
    _exit(127);
  }
  close(terminal);
  char bytes[4096];
  ssize_t taken;
  /* Where nobody has the terminal open any more, reading fails. */
  while ((taken = read(master, bytes, sizeof bytes)) > 0)
    if (fwrite(bytes, 1, (size_t)taken, stdout) != (size_t)taken) fail("write");
  int status;
  if (waitpid(child, &status, 0) != child || !WIFEXITED(status)) return 1;
  return fflush(stdout) == 0 ? WEXITSTATUS(status) : 1;
}
