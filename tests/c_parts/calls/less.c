/* A program that gets -5 and -1. */
#include "jobk.h"

int main(int argc, char **argv)
{
    (void)argc;
    note(atoi(argv[1]) == -1);
    note(atoi(argv[1]) != -1);
    note(atoi(argv[2]) == -1);
    note(atoi(argv[1]) < -1);
    return 0;
}
