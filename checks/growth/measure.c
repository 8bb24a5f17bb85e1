/* measure PROGRAM WORD .. : runs a program over this one's standard input and output, and writes to descriptor 3 its status, its
   processor time, user and system, in microseconds, and its peak memory in KB. This program is small, so that what it leaves in the
   child's peak before the child begins is less than any program takes. */
#include <stdio.h>
#include <sys/resource.h>
#include <sys/wait.h>
#include <unistd.h>

int main(int count, char **words)
{
    struct rusage used;
    int status = 0;
    pid_t child = count > 1 ? fork() : -1;
    if (child == 0) {
        close(3);
        execv(words[1], words + 1);
        _exit(127);
    }
    if (child < 0 || wait4(child, &status, 0, &used) != child)
        return 1;
    long micros = (used.ru_utime.tv_sec + used.ru_stime.tv_sec) * 1000000L + used.ru_utime.tv_usec + used.ru_stime.tv_usec;
    dprintf(3, "%d %ld %ld\n", WIFEXITED(status) ? WEXITSTATUS(status) : 128 + WTERMSIG(status), micros, used.ru_maxrss);
    return 0;
}
