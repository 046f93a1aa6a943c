/* Bytes that come from the terminal, as char, which has a sign. */
#include "jobk.h"

static char line[8];
static char last;

int main(void)
{
    char first = 0;
    int count, sum = 0;
    setctty(1);
    while ((count = read(0, line, sizeof line)) > 0) {
        note(count);
        for (int i = 0; i < count; i++) {
            note(line[i]);
            sum += line[i];
            if (line[i] == 'A' || line[i] < 0)
                line[i]++;
        }
        first = line[0];
        last = line[count - 1];
        note(first == line[0]);
        note(last == '\n');
        note(line[0] == -60);
        write(1, line, count);
    }
    sum += 300;
    first = sum;
    note(first);
    count = 200;
    first = count;
    note(first);
    note(first += 100);
    note(sum);
    read(0, &last, 1);
    note(last);
    note(sizeof line + sizeof first);
    return 0;
}
