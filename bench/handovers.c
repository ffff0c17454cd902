/* What it costs that threads hand a call over to each other, and do nothing else.
 *
 * A thread makes CALLS calls, one after another, as the thread of a VPE does. Each call goes to the
 * dispatcher of its kernel, on to one of FAR other dispatchers in turn, back, and to the caller.
 * Every thread sleeps on a word of its own until the one before it wakes it. No kernel steps, and
 * nothing is locked or written.
 *
 * Usage: handovers FAR CALLS. Prints the elapsed and the processor time, in milliseconds, and both
 * for one hand-over, in microseconds.
 */
#include <linux/futex.h>
#include <pthread.h>
#include <stdatomic.h>
#include <stdio.h>
#include <stdlib.h>
#include <sys/resource.h>
#include <sys/syscall.h>
#include <time.h>
#include <unistd.h>

enum { CALLER, NEAR, FIRST_FAR, THREADS = 64 };

struct bell {
    _Alignas(64) atomic_int rung;
};

static struct bell bells[THREADS];
static atomic_int stopped;
static atomic_int answered;
static atomic_int called;
static long far_count;
static long calls;

static void ring(int thread)
{
    atomic_store(&bells[thread].rung, 1);
    syscall(SYS_futex, &bells[thread].rung, FUTEX_WAKE_PRIVATE, 1, NULL, NULL, 0);
}

static void sleep_until_rung(int thread)
{
    while (!atomic_load(&bells[thread].rung))
        syscall(SYS_futex, &bells[thread].rung, FUTEX_WAIT_PRIVATE, 0, NULL, NULL, 0);
    atomic_store(&bells[thread].rung, 0);
}

static void *call(void *unused)
{
    for (long n = 0; n < calls; n++) {
        atomic_store(&called, FIRST_FAR + n % far_count);
        atomic_store(&answered, 0);
        ring(NEAR);
        sleep_until_rung(CALLER);
    }
    atomic_store(&stopped, 1);
    for (int thread = NEAR; thread < FIRST_FAR + far_count; thread++)
        ring(thread);
    return unused;
}

static void *dispatch_near(void *unused)
{
    for (sleep_until_rung(NEAR); !atomic_load(&stopped); sleep_until_rung(NEAR))
        ring(atomic_load(&answered) ? CALLER : atomic_load(&called));
    return unused;
}

static void *dispatch_far(void *thread)
{
    int own = (int)(long)thread;
    for (sleep_until_rung(own); !atomic_load(&stopped); sleep_until_rung(own)) {
        atomic_store(&answered, 1);
        ring(NEAR);
    }
    return NULL;
}

static double milliseconds(struct timespec time)
{
    return time.tv_sec * 1e3 + time.tv_nsec / 1e6;
}

static double now(clockid_t clock)
{
    struct timespec time;
    clock_gettime(clock, &time);
    return milliseconds(time);
}

int main(int count, char **words)
{
    pthread_t threads[THREADS];
    far_count = count == 3 ? atol(words[1]) : 0;
    calls = count == 3 ? atol(words[2]) : 0;
    if (far_count < 1 || far_count > THREADS - FIRST_FAR || calls < 1) {
        fprintf(stderr, "usage: handovers FAR CALLS\n");
        return 1;
    }
    double start = now(CLOCK_MONOTONIC);
    pthread_create(&threads[NEAR], NULL, dispatch_near, NULL);
    for (long thread = FIRST_FAR; thread < FIRST_FAR + far_count; thread++)
        pthread_create(&threads[thread], NULL, dispatch_far, (void *)thread);
    pthread_create(&threads[CALLER], NULL, call, NULL);
    for (int thread = CALLER; thread < FIRST_FAR + far_count; thread++)
        pthread_join(threads[thread], NULL);
    double elapsed = now(CLOCK_MONOTONIC) - start;
    double used = now(CLOCK_PROCESS_CPUTIME_ID);
    printf("%.0f %.0f %.2f %.2f\n", elapsed, used, elapsed * 250 / calls, used * 250 / calls);
    return 0;
}
