// drip PROGRAM < SCRIPT: feeds SCRIPT to PROGRAM through a pipe, each byte only when the one before it has been read.
#include <sched.h>
#include <signal.h>
#include <stdio.h>
#include <sys/ioctl.h>
#include <sys/wait.h>
#include <unistd.h>

int main(int count, char **words) {
    int ends[2], c, status, waiting;
    if (count < 2 || pipe(ends) != 0) return 2;
    pid_t child = fork();
    if (child < 0) return 2;
    if (child == 0) {
        dup2(ends[0], 0);
        close(ends[0]);
        close(ends[1]);
        execvp(words[1], words + 1);
        _exit(127);
    }
    // a program may end before it has read what follows its script
    signal(SIGPIPE, SIG_IGN);
    while ((c = getchar()) != EOF) {
        char byte = (char)c;
        if (write(ends[1], &byte, 1) != 1) break;
        for (;;) {
            if (ioctl(ends[1], FIONREAD, &waiting) != 0 || waiting == 0) break;
            if (waitpid(child, &status, WNOHANG) == child) return status != 0;
            sched_yield();
        }
    }
    close(ends[0]);
    close(ends[1]);
    return waitpid(child, &status, 0) == child ? status != 0 : 2;
}
