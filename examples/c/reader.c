/* A job that reads one line, and shows how many bytes it has. */
#include "jobk.h"

int main(void)
{
    char line[16];
    note(read(0, line, sizeof line));
    return 0;
}
