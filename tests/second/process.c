#define _POSIX_C_SOURCE 200809L
#include "process.h"

#include <fcntl.h>
#include <sys/wait.h>
#include <unistd.h>

/* The child's side of the pipes; does not return. */
static void become(char *const command[], int input, int output)
{
    dup2(input, STDIN_FILENO);
    dup2(output, STDOUT_FILENO);
    close(input);
    close(output);
    execvp(command[0], command);
    perror(command[0]);
    _exit(127);
}

/* A pipe of which the ends that stay here are not passed on to programs started later. */
static bool make_pipe(int ends[2])
{
    return pipe(ends) == 0 && fcntl(ends[0], F_SETFD, FD_CLOEXEC) == 0 && fcntl(ends[1], F_SETFD, FD_CLOEXEC) == 0;
}

bool process_start(struct process *process, char *const command[])
{
    int input[2], output[2];
    if (!make_pipe(input) || !make_pipe(output)) return false;
    process->id = fork();
    if (process->id < 0) return false;
    if (process->id == 0) become(command, input[0], output[1]);
    close(input[0]);
    close(output[1]);
    process->to = fdopen(input[1], "wb");
    process->from = fdopen(output[0], "rb");
    return process->to && process->from;
}

bool process_end(struct process *process)
{
    int status;
    if (process->to) fclose(process->to);
    if (process->from) fclose(process->from);
    return waitpid(process->id, &status, 0) == process->id && WIFEXITED(status);
}
