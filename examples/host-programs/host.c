/* The pedal of brakes.toml, in C over two pipes: it tells its position in each cycle, and what the brake received last.
   Payloads are bytes here: a position of 10 % is 100 tenths, x0064.

       cc -o host host.c && ./host ../../fr_world brakes.toml
*/
#include <stdio.h>
#include <stdlib.h>
#include <string.h>
#include <sys/wait.h>
#include <unistd.h>

enum { CYCLES = 8, LINE = 1300 };

static FILE *requests, *replies;

/* Starts the world, with a pipe to its input and one from its output. */
static pid_t start(const char *program, const char *cluster)
{
    int to[2], from[2];
    if (pipe(to) != 0 || pipe(from) != 0) exit(1);
    pid_t child = fork();
    if (child < 0) exit(1);
    if (child == 0) {
        dup2(to[0], 0);
        dup2(from[1], 1);
        close(to[0]); close(to[1]); close(from[0]); close(from[1]);
        execl(program, program, cluster, "--cycles", "8", (char *)0);
        _exit(127);
    }
    close(to[0]);
    close(from[1]);
    requests = fdopen(to[1], "w");
    replies = fdopen(from[0], "r");
    return child;
}

/* The reply to a request, without its line feed. */
static char *ask(const char *request)
{
    static char reply[LINE];
    fprintf(requests, "%s\n", request);
    fflush(requests);
    if (!fgets(reply, sizeof reply, replies)) exit(1);
    reply[strcspn(reply, "\n")] = 0;
    return reply;
}

int main(int count, char **words)
{
    char line[LINE];
    if (count != 3) { fprintf(stderr, "usage: host PROGRAM CLUSTER\n"); return 2; }
    pid_t child = start(words[1], words[2]);
    if (!fgets(line, sizeof line, replies) || strcmp(line, "frworld 1\n") != 0) return 1;
    for (int cycle = 0; cycle < CYCLES; cycle++) {
        snprintf(line, sizeof line, "commit 0 0 0 x%04x0000", 100 * cycle);
        ask(line);
        ask("cycle");
        printf("%s\n", ask("read 1 0 1"));
    }
    fclose(requests);
    int status;
    return waitpid(child, &status, 0) == child && WIFEXITED(status) ? WEXITSTATUS(status) : 1;
}
