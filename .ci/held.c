// Runs a program, and tells how much memory it has touched at the most, in kB, and its status: held PRINTED PROGRAM WORD..
// What it prints goes to the file PRINTED. It is small itself, since what a process holds counts from where it was forked.
#include <fcntl.h>
#include <stdio.h>
#include <sys/resource.h>
#include <sys/wait.h>
#include <unistd.h>

int main(int count, char **words) {
  int status;
  struct rusage used;
  if (count < 3) return 2;
  pid_t child = fork();
  if (child == 0) {
    int out = open(words[1], O_WRONLY | O_CREAT | O_TRUNC, 0600);
    if (out < 0 || dup2(out, 1) < 0) return 2;
    execv(words[2], words + 2);
    return 127;
  }
  if (child < 0 || wait4(child, &status, 0, &used) < 0) return 2;
  printf("%ld %d\n", used.ru_maxrss, WIFEXITED(status) ? WEXITSTATUS(status) : 128);
  return 0;
}
