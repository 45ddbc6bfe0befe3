/* Writes a log of mixed calls for the bench: make_log SEED LINES BENCH. The log's calls come from the task that is elected at that point,
   so that few are refused and the state goes deep; who is elected is read from the answers of the bench, which runs beside it. */
#include <stdint.h>
#include <stdio.h>
#include <stdlib.h>
#include <sys/types.h>
#include <sys/wait.h>
#include <unistd.h>

enum { TASKS = 32, REGIONS = 16, QUEUES = 8, BOUND = 64, ANSWER = 17, OUTSIDE = 255 };
enum { START, STOP, END, SIGNAL, WAIT, CLEAR, ENTER, EXIT, SEND, RETRIEVE };

static uint32_t state;

/* Marsaglia's xorshift, 32 bits wide. */
static uint32_t drawn(uint32_t below)
{
    state ^= state << 13;
    state ^= state >> 17;
    state ^= state << 5;
    return state % below;
}

static FILE *to_bench;
static FILE *from_bench;

static void start_bench(const char *path)
{
    int in[2], out[2];
    if (pipe(in) || pipe(out)) {
        perror("pipe");
        exit(1);
    }
    if (fork() == 0) {
        dup2(in[0], 0);
        dup2(out[1], 1);
        close(in[1]);
        close(out[0]);
        execl(path, path, (char *)NULL);
        perror(path);
        _exit(1);
    }
    close(in[0]);
    close(out[1]);
    to_bench = fdopen(in[1], "w");
    from_bench = fdopen(out[0], "r");
}

static unsigned status, elected;

/* One line: into the log, to the bench, and its answer read. */
static void line(const char *text)
{
    char answer[ANSWER + 1];
    fputs(text, stdout);
    fputs(text, to_bench);
    fflush(to_bench);
    if (fread(answer, 1, ANSWER, from_bench) != ANSWER) {
        fprintf(stderr, "no answer to %s", text);
        exit(1);
    }
    answer[ANSWER] = 0;
    sscanf(answer, "%2X", &status);
    sscanf(answer + 12, "%2X", &elected);
}

/* 32 tasks of 16 priorities, 16 closed regions, 8 queues. */
static void first_line(void)
{
    char text[2 * (3 + TASKS + QUEUES + REGIONS) + 2];
    int n = sprintf(text, "%02X%02X%02X", TASKS, REGIONS, QUEUES);
    for (int i = 0; i < TASKS; i++)
        n += sprintf(text + n, "%02X", (unsigned)drawn(16));
    for (int i = 0; i < QUEUES; i++)
        n += sprintf(text + n, "%02X", BOUND);
    for (int i = 0; i < REGIONS; i++)
        n += sprintf(text + n, "00");
    sprintf(text + n, "\n");
    line(text);
}

static int started[TASKS] = {1};

/* Of 64 draws 3 are STOP, 3 END, 15 SIGNAL, 7 WAIT, 4 CLEAR, 5 ENTER, 9 EXIT, 8 SEND, 10 RETRIEVE. A stopped task is started instead of
   stopped or signalled, and task 0 does not end, so that somebody is left to start the others. */
static unsigned operation(unsigned caller, unsigned task)
{
    static const unsigned last[] = {3, 6, 21, 28, 32, 37, 46, 54, 64};
    unsigned d = drawn(64), o = STOP;
    while (d >= last[o - 1])
        o++;
    if (caller == OUTSIDE)
        return SIGNAL;
    if ((o == STOP || o == SIGNAL) && !started[task])
        return START;
    if (caller == 0 && (o == END || (o == STOP && task == 0)))
        return CLEAR;
    return o;
}

static void call(void)
{
    char text[30];
    unsigned caller = elected == OUTSIDE || drawn(16) == 0 ? OUTSIDE : elected;
    unsigned task = drawn(TASKS);
    unsigned o = operation(caller, task);
    uint32_t a = task, b = 0, c = 0;
    switch (o) {
    case SIGNAL: a = drawn(16); b = task; break;
    case WAIT: a = drawn(65535) + 1; b = drawn(4) != 0; break;
    case CLEAR: a = drawn(65535) + 1; break;
    case ENTER: case EXIT: a = caller % REGIONS; break;
    case SEND: a = drawn(QUEUES); b = drawn(4294967295u); c = drawn(16); break;
    case RETRIEVE: a = drawn(QUEUES); c = drawn(17); break;
    default: break;
    }
    sprintf(text, "%02X%02X%08X%08X%08X\n", caller, o, (unsigned)a, (unsigned)b, (unsigned)c);
    line(text);
    if (status == 0 && o == START)
        started[task] = 1;
    if (status == 0 && o == STOP)
        started[task] = 0;
    if (status == 0 && o == END)
        started[caller] = 0;
}

int main(int argc, char **argv)
{
    if (argc != 4 || (state = (uint32_t)strtoul(argv[1], NULL, 10)) == 0) {
        fprintf(stderr, "usage: %s SEED LINES BENCH, the seed not 0\n", argv[0]);
        return 2;
    }
    start_bench(argv[3]);
    first_line();
    for (long i = strtol(argv[2], NULL, 10); i > 0; i--)
        call();
    fclose(to_bench);
    wait(NULL);
    return 0;
}
