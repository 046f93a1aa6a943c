/* What random programs don't have of C: static variables, enums, strings, copies, and jumps within each other. */
#include "jobk.h"

#define WIDTH 3
#define LAST (WIDTH * 2 - 1)
#define LETTER 'x'
#define LESS -7

enum color { RED, GREEN = 5, BLUE };
enum { HIDDEN = BLUE + LAST };

static const int table[] = { 3, 1, 4, 1, 5 };
static char word[] = "ab\n\x41";
static struct sigaction kept = { .sa_flags = SA_RESTART };
static enum color chosen = GREEN;
static int total = HIDDEN;

static int count_up(void)
{
    static int times = 10;
    times += 1;
    return times;
}

static int five(int a, char b, int c, int d, int e)
{
    return a + b * 2 + c * 3 + d * 4 + e * 5;
}

static int find(int value)
{
    for (int i = 0, last = sizeof table / sizeof table[0]; i < last; i++) {
        if (table[i] != value)
            continue;
        return i;
    }
    return -1;
}

static int jumps(int from)
{
    int sum = 0;
    do {
        switch (from) {
        case 0:
            continue;
        case 3:
            sum += 100;
            /* fall through */
        case LAST: {
            int i = 0;
            while (1) {
                if (i++ == 2)
                    break;
                sum += i;
            }
            break;
        }
        default:
            sum += 1000;
        }
        sum += 7;
    } while (from-- > 0);
    return sum;
}

static void on_usr1(int signal_number)
{
    note(signal_number + count_up());
}

static void copies(void)
{
    sigset_t some, other;
    struct sigaction old;
    memset(&old, 0, sizeof old);
    sigemptyset(&some);
    sigaddset(&some, SIGUSR1);
    other = some;
    sigdelset(&some, SIGUSR1);
    note(sigismember(&other, SIGUSR1) * 10 + sigismember(&some, SIGUSR1));
    kept.sa_handler = on_usr1;
    kept.sa_mask = other;
    sigaction(SIGUSR1, &kept, &old);
    note(old.sa_handler == SIG_DFL && (old.sa_flags & SA_RESTART) == 0);
    kill(getpid(), SIGUSR1);
    sigaction(SIGUSR1, NULL, &old);
    note(old.sa_handler == kept.sa_handler);
    note(sigismember(&old.sa_mask, SIGUSR1));
}

int main(void)
{
    int a = 5, b = -5, row[LAST] = { 1, 2 };
    note(table[2] + word[0] + word[3] + (int)sizeof word + LETTER + LESS + HIDDEN + total);
    note(count_up() + count_up() * 2);
    note(five(1, 2, 3, 4, 5));
    note(five(five(1, 2, 3, 4, 5), 300 - 45, count_up(), -a, a < b ? 1 : row[1]));
    note(find(4) * 10 + find(5));
    note(find(9));
    for (int i = 0; i < 7; i++)
        note(jumps(i));
    note(a / 2 + b / 2 * 10 + a % -3 * 100 + b % 3 * 1000);
    note((b >> 1) * 100 + (a << 3) + (~b & 12) + (a ^ b) + (a | 8));
    note(chosen == GREEN ? BLUE : RED);
    chosen = BLUE;
    note(chosen);
    note(-a - -b - (- -a) + !a + !!b);
    row[a - 1] = row[0]++ + ++row[1] * 10;
    note(row[4] + row[3] + row[0] * 100 + row[1] * 1000);
    row[2] = row[3] = a -= b += 2;
    note(row[2] * 100 + row[3] * 10 + b);
    a ? (void)count_up() : note(99);
    for (a = 0, b = 10; a < b; a++, b--)
        ;
    note(a * 100 + b);
    copies();
    return 0;
}
