/* Processes that compute beside a test, and the time that a call may take beside them. For C and C++. */
#ifndef COMPUTING_H
#define COMPUTING_H

#include <signal.h>
#include <stdbool.h>
#include <stdlib.h>
#include <sys/prctl.h>
#include <sys/types.h>
#include <time.h>
#include <unistd.h>

#define COMPUTING 30
#define GIVEN .3 /* seconds, as BES_WITHIN and BES_CHANGE_WITHIN say in milliseconds */
#define SPARE 5. /* for a busy machine. BES_TRIES tries would take longer */

static pid_t computing[COMPUTING];

/* Starts processes that compute until they are killed, or this process ends, or a minute has passed. */
static void start_computing(void)
{
    for (int i = 0; i < COMPUTING; i++) {
        computing[i] = fork();
        if (computing[i] < 0)
            abort();
        if (computing[i] > 0)
            continue;
        prctl(PR_SET_PDEATHSIG, SIGKILL);
        alarm(60);
        for (volatile int turn = nice(19); turn < 100;)
            turn = 0;
    }
}

/* Doesn't wait until they have ended, because each has to be given a processor first. */
static void stop_computing(void)
{
    for (int i = 0; i < COMPUTING; i++)
        kill(computing[i], SIGKILL);
}

static double seconds(void)
{
    struct timespec now = {0, 0};
    if (clock_gettime(CLOCK_MONOTONIC, &now) != 0)
        abort();
    return (double)now.tv_sec + (double)now.tv_nsec / 1e9;
}

/* Returns whether a call that began then has taken the time that it was given, and not much more. */
static bool is_in_time(double begin)
{
    const double spent = seconds() - begin;
    return spent >= GIVEN && spent < GIVEN + SPARE;
}

#endif
