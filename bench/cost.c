/* Runs a command, and writes what it took into a file: cost FILE SECONDS COMMAND [WORD ..]

   The file gets one line: how the command ended (its status, or minus the signal), its processor seconds, and the peak of its memory
   in KB. A command that takes more than SECONDS of processor time is ended by a signal.

   Linux counts for a process the peak of the one that began it, too. So a large one, as Python is, can't measure a small one; this
   one can, since it has less than 2 MB itself. */
#include <stdio.h>
#include <stdlib.h>
#include <sys/resource.h>
#include <sys/wait.h>
#include <unistd.h>

static double seconds(struct timeval it) { return (double)it.tv_sec + (double)it.tv_usec / 1e6; }

static void become(rlim_t limit, char **command) {
    struct rlimit processor = {limit, limit + 1};
    setrlimit(RLIMIT_CPU, &processor);
    execvp(command[0], command);
    perror(command[0]);
    _exit(127);
}

int main(int count, char **words) {
    if (count < 4) {
        fprintf(stderr, "cost FILE SECONDS COMMAND [WORD ..]\n");
        return 2;
    }
    pid_t child = fork();
    if (child == 0) become((rlim_t)atol(words[2]), words + 3);
    int status = 0;
    struct rusage used;
    if (child < 0 || wait4(child, &status, 0, &used) < 0) {
        perror("cost");
        return 1;
    }
    FILE *file = fopen(words[1], "w");
    if (!file) {
        perror(words[1]);
        return 1;
    }
    int ended = WIFSIGNALED(status) ? -WTERMSIG(status) : WEXITSTATUS(status);
    fprintf(file, "%d %.6f %ld\n", ended, seconds(used.ru_utime) + seconds(used.ru_stime), used.ru_maxrss);
    return fclose(file) != 0;
}
