/* A child exits with code 3, and its parent waits for it. */
#include "jobk.h"

int main(void)
{
    int status = 0;
    pid_t child = fork();
    if (child < 0)
        return 1;
    if (child == 0)
        _exit(3);
    waitpid(child, &status, 0);
    note(WEXITSTATUS(status));
    return 0;
}
