// locks THREADS TURNS: two locks of C over the same work, a pthread_mutex and a ticket lock that spins and then yields.
// Prints, for each, its name, the threads, the turns of each and the nanoseconds.
#define _GNU_SOURCE
#include <pthread.h>
#include <sched.h>
#include <stdatomic.h>
#include <stdint.h>
#include <stdio.h>
#include <stdlib.h>
#include <time.h>

static uint64_t turns_of_each;

// what the lock keeps: the same count that the Rattle side has
static uint64_t count;

static pthread_mutex_t mutex = PTHREAD_MUTEX_INITIALIZER;

static _Alignas(64) _Atomic uint64_t next_ticket;
static _Alignas(64) _Atomic uint64_t serving;

static void step(void) {
    if (count < UINT64_MAX) {
        count++;
        __asm__ volatile("" : "+m"(count));
    }
}

static void *with_mutex(void *unused) {
    for (uint64_t i = 0; i < turns_of_each; i++) {
        pthread_mutex_lock(&mutex);
        step();
        pthread_mutex_unlock(&mutex);
    }
    return unused;
}

static void wait_for(uint64_t ticket) {
    for (unsigned tries = 0; atomic_load(&serving) != ticket; tries++) {
        if (tries < 128) {
            __asm__ volatile("pause" ::: "memory");
        } else {
            sched_yield();
        }
    }
}

static void *with_tickets(void *unused) {
    for (uint64_t i = 0; i < turns_of_each; i++) {
        uint64_t ticket = atomic_fetch_add(&next_ticket, 1);
        wait_for(ticket);
        step();
        atomic_store(&serving, ticket + 1);
    }
    return unused;
}

static uint64_t now(void) {
    struct timespec t;
    clock_gettime(CLOCK_MONOTONIC, &t);
    return (uint64_t)t.tv_sec * 1000000000u + (uint64_t)t.tv_nsec;
}

static int run(const char *name, void *(*work)(void *), unsigned threads) {
    pthread_t others[16];
    count = 0;
    uint64_t start = now();
    for (unsigned i = 1; i < threads; i++) {
        if (pthread_create(&others[i], NULL, work, NULL)) {
            return 1;
        }
    }
    work(NULL);
    for (unsigned i = 1; i < threads; i++) {
        pthread_join(others[i], NULL);
    }
    uint64_t spent = now() - start;
    if (count != threads * turns_of_each) {
        fprintf(stderr, "%s: lost turns\n", name);
        return 1;
    }
    printf("%s %u %llu %llu\n", name, threads, (unsigned long long)turns_of_each, (unsigned long long)spent);
    return 0;
}

int main(int argc, char **argv) {
    unsigned threads = argc > 1 ? (unsigned)atoi(argv[1]) : 1;
    turns_of_each = argc > 2 ? strtoull(argv[2], NULL, 10) : 1000000;
    if (threads < 1 || threads > 16) {
        return 2;
    }
    return run("pthread_mutex", with_mutex, threads) || run("ticket_lock", with_tickets, threads);
}
