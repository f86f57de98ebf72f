/* Another program started with pipes to its standard input and from its standard output. */
#ifndef PROCESS_H
#define PROCESS_H

#include <stdbool.h>
#include <stdio.h>
#include <sys/types.h>

struct process {
    pid_t id;
    FILE *to, *from;
};

bool process_start(struct process *process, char *const command[]);

/* Waits for the end; true when the program ended by itself, whatever its exit status. */
bool process_end(struct process *process);

#endif
