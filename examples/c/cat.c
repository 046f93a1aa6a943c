/* A job that reads lines from the terminal, and writes each. */
#include "jobk.h"

int main(void)
{
    char line[16];
    for (;;) {
        int count = read(0, line, sizeof line);
        if (count == 0)
            return 0;
        if (count < 0)
            return 1;
        write(1, line, count);
    }
}
