/* The program that exec.c runs. It exits with its argument. */
#include "jobk.h"

int main(int argc, char **argv)
{
    (void)argc;
    return atoi(argv[1]);
}
