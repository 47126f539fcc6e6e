/* Runs a program instruction by instruction, and prints the address of each that ran, once, in hexadecimal digits: in
   the program's own file, counted from where that was loaded. Words: the program's path, and its words. What the
   program prints is dropped. */
#define _GNU_SOURCE
#include <stdio.h>
#include <stdlib.h>
#include <string.h>
#include <sys/user.h>
#include <sys/wait.h>

#include "../tests/lib/watched.h"

static unsigned long first, end; /* where the program was loaded */

/* Reads from the list of the child's memory where the program was loaded. */
static void find_program(pid_t child, const char *program)
{
    char path[64], line[4096];
    unsigned long from, to;
    snprintf(path, sizeof path, "/proc/%d/maps", (int)child);
    FILE *maps = fopen(path, "r");
    while (maps != NULL && fgets(line, sizeof line, maps) != NULL) {
        if (strstr(line, program) != NULL && sscanf(line, "%lx-%lx", &from, &to) == 2) {
            first = end == 0 ? from : first;
            end = to;
        }
    }
    if (maps != NULL)
        fclose(maps);
}

/* Takes steps until the child ends, and marks each address. Returns the child's status. */
static int step(pid_t child, unsigned char *ran)
{
    struct user_regs_struct registers;
    int status;
    do {
        if (ptrace(PTRACE_GETREGS, child, NULL, &registers) == 0 && registers.rip >= first && registers.rip < end)
            ran[registers.rip - first] = 1;
        if (ptrace(PTRACE_SINGLESTEP, child, NULL, NULL) != 0 || waitpid(child, &status, 0) != child)
            return 1;
    } while (!WIFEXITED(status) && !WIFSIGNALED(status));
    return status;
}

int main(int count, char **words)
{
    int status;
    pid_t child = count > 1 ? watched(words + 1) : -1;
    if (child < 0 || waitpid(child, &status, 0) != child || !WIFSTOPPED(status))
        return 1;
    find_program(child, words[1]);
    unsigned char *ran = calloc(end - first + 1, 1);
    if (ran == NULL || step(child, ran) != 0)
        return 1;
    for (unsigned long at = 0; at < end - first; at++)
        if (ran[at])
            printf("%lx\n", at);
    return 0;
}
