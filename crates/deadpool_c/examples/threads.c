/* A whole pool for threads, in C11 that is C++17 as well: four workers share two counters.
 *
 * `run` does what an order says is next, and has no other rule. A step is made under the lock, with its reply and whoever is due by
 * it. A ticket is a small number that is used again, below the number of those that wait, so that what wakes a get lies in a table. */
#include <inttypes.h>
#include <pthread.h>
#include <sched.h>
#include <stdio.h>
#include <stdlib.h>

#include "deadpool.h"

enum { LIMIT = 2, WORKERS = 4, TIMES = 100, MOST_USES = 50 };

struct counter {
    size_t number;
    int uses;
};

static const deadpool_hooks no_hooks = {0, 0, 0};
static deadpool_managed_pool pool = {NULL};
static pthread_mutex_t lock = PTHREAD_MUTEX_INITIALIZER;
static struct {
    pthread_cond_t turn;
    bool has_come;
} waiting[WORKERS];
static int alive, most_alive, most_uses, total;

/* Makes the step of an order, and wakes whoever is due by it. An object that comes back is in the hand. */
static deadpool_reply advance(deadpool_order *order, const struct counter *hand) {
    size_t number = hand != NULL ? hand->number : 0;
    pthread_mutex_lock(&lock);
    deadpool_reply reply = deadpool_managed_advance(&pool, order, no_hooks, number, (uint64_t)(uintptr_t)hand);
    if (order->command == DEADPOOL_COMMAND_WAIT)
        waiting[order->number].has_come = false;
    for (deadpool_reply due; (due = deadpool_managed_take_wake(&pool)).kind == DEADPOOL_REPLY_DONE;) {
        waiting[due.number].has_come = true;
        pthread_cond_signal(&waiting[due.number].turn);
    }
    pthread_mutex_unlock(&lock);
    return reply;
}

static void wait_for_turn(size_t ticket) {
    pthread_mutex_lock(&lock);
    while (!waiting[ticket].has_come)
        pthread_cond_wait(&waiting[ticket].turn, &lock);
    pthread_mutex_unlock(&lock);
}

static struct counter *create(void) {
    struct counter *counter = (struct counter *)calloc(1, sizeof *counter);
    pthread_mutex_lock(&lock);
    if (counter != NULL && ++alive > most_alive)
        most_alive = alive;
    pthread_mutex_unlock(&lock);
    return counter;
}

static void release(struct counter *old) {
    pthread_mutex_lock(&lock);
    alive--;
    if (old->uses > most_uses)
        most_uses = old->uses;
    pthread_mutex_unlock(&lock);
    free(old);
}

/* Runs an order to its end. Gives the counter that it gives out, or none. */
static struct counter *run(deadpool_order order, struct counter *hand) {
    for (;;) {
        switch (order.command) {
        case DEADPOOL_COMMAND_ADVANCE: {
            deadpool_reply reply = advance(&order, NULL);
            if (reply.kind == DEADPOOL_REPLY_OBJECT)
                hand = (struct counter *)(uintptr_t)reply.key;
            if (reply.kind == DEADPOOL_REPLY_CREATED)
                hand->number = reply.number;
            break;
        }
        case DEADPOOL_COMMAND_BACK:
            if (advance(&order, hand).kind == DEADPOOL_REPLY_KEPT)
                hand = NULL;
            break;
        case DEADPOOL_COMMAND_WAIT:
            wait_for_turn(order.number);
            deadpool_order_polled(&order, false);
            break;
        case DEADPOOL_COMMAND_PAUSE:
            sched_yield();
            deadpool_order_polled(&order, false);
            break;
        case DEADPOOL_COMMAND_CREATE:
            hand = create();
            if (hand != NULL)
                deadpool_order_ready(&order, no_hooks);
            else
                deadpool_order_failed(&order, DEADPOOL_CAUSE_OUT_OF_MEMORY);
            break;
        case DEADPOOL_COMMAND_RECYCLE:
            if (hand->uses < MOST_USES)
                deadpool_order_ready(&order, no_hooks);
            else
                deadpool_order_failed(&order, DEADPOOL_CAUSE_FAILED);
            break;
        case DEADPOOL_COMMAND_DETACH: /* nothing is kept beside a counter */
        case DEADPOOL_COMMAND_TELL:   /* nobody waits for the pool's end */
            deadpool_order_begins(&order);
            break;
        case DEADPOOL_COMMAND_RELEASE:
            deadpool_order_begins(&order);
            if (hand != NULL)
                release(hand);
            hand = NULL;
            break;
        case DEADPOOL_COMMAND_GIVE:
            deadpool_order_gives(&order);
            return hand;
        default:
            return NULL;
        }
    }
}

static void *work(void *unused) {
    (void)unused;
    for (int at = 0; at < TIMES; at++) {
        struct counter *mine = run(deadpool_order_get(true), NULL);
        if (mine == NULL)
            abort();
        mine->uses++;
        sched_yield(); /* meanwhile others wait */
        pthread_mutex_lock(&lock);
        total++;
        pthread_mutex_unlock(&lock);
        run(deadpool_order_return(), mine);
    }
    return NULL;
}

/* Closes the pool. What was idle goes. */
static void close_all(void) {
    uint64_t keys[LIMIT];
    size_t count = deadpool_managed_make_for_owner(&pool, DEADPOOL_STEP_CLOSE, 0, keys, LIMIT).number;
    for (size_t at = 0; at < count; at++)
        release((struct counter *)(uintptr_t)keys[at]);
}

int main(void) {
    pthread_t workers[WORKERS];
    deadpool_managed_end(&pool); /* there is none yet */
    if (!deadpool_managed_new(&pool, LIMIT, false, 0, 0, WORKERS))
        return 1;
    for (int at = 0; at < WORKERS; at++)
        pthread_cond_init(&waiting[at].turn, NULL);
    for (int at = 0; at < WORKERS; at++)
        if (pthread_create(&workers[at], NULL, work, NULL) != 0)
            return 1;
    for (int at = 0; at < WORKERS; at++)
        pthread_join(workers[at], NULL);
    close_all();
    if (most_alive > LIMIT)
        return 1;
    printf("%d uses by %d workers, of counters with %d uses at most\n", total, WORKERS, most_uses);
    printf("%d are left\n", alive);
    deadpool_managed_end(&pool);
    return 0;
}
