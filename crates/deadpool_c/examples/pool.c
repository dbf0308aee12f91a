/* A pool of two tools over the steps of a managed pool, in C11 that is C++17 as well.
 *
 * The program keeps the tools in a table, and a tool's place there is its key. It has one thread. With several, each
 * call would be made under a lock of the program's, and one that waits would sleep until its ticket is due. */
#include <inttypes.h>
#include <stdio.h>
#include <stdlib.h>

#include "deadpool.h"

enum { LIMIT = 2, ENTRIES = 64, MOST_WAITING = 1 };

/* A tool, with the number that the pool has given it. */
struct tool {
    bool exists;
    size_t number;
    int uses;
};

static struct tool tools[LIMIT];
static deadpool_managed_pool pool = {NULL};

/* Ends the program unless something is as it has to be. */
static void check(bool is_so, const char *what) {
    if (!is_so) {
        fprintf(stderr, "pool: %s\n", what);
        exit(1);
    }
}

/* Ends the program unless a reply is of the kind that is wanted. */
static deadpool_reply want(uint64_t kind, deadpool_reply reply, const char *call) {
    if (reply.kind != kind) {
        fprintf(stderr, "pool: %s: the reply is of kind %" PRIu64 " and not %" PRIu64 "\n", call, reply.kind, kind);
        exit(1);
    }
    return reply;
}

/* Makes a step that names no object. */
static deadpool_reply make(uint64_t step, bool is_set, size_t number) {
    return deadpool_managed_make(&pool, step, is_set, number, 0);
}

static deadpool_reply enter(bool may_wait) {
    return make(DEADPOOL_STEP_ENTER, may_wait, 0);
}

/* Asks once more for a get in the queue, which has time left. */
static deadpool_reply ask(size_t ticket) {
    return make(DEADPOOL_STEP_ASK, false, ticket);
}

static deadpool_reply back(size_t number, uint64_t key) {
    return deadpool_managed_make(&pool, DEADPOOL_STEP_BACK, false, number, key);
}

/* Makes a tool for a get that has been told to create one, and gives its key. */
static uint64_t create(void) {
    uint64_t key = 0;
    while (key < LIMIT && tools[key].exists)
        key++;
    check(key < LIMIT, "a place in the table is free");
    tools[key].exists = true;
    tools[key].uses = 0;
    tools[key].number = want(DEADPOOL_REPLY_CREATED, make(DEADPOOL_STEP_NEW_OBJECT, false, 0), "created").number;
    return key;
}

/* Ends a get that is served, by an idle tool or a new one. Gives its key. */
static uint64_t served(deadpool_reply reply) {
    uint64_t key = reply.kind == DEADPOOL_REPLY_CREATE ? create() : want(DEADPOOL_REPLY_OBJECT, reply, "get").key;
    check(key < LIMIT && tools[key].exists, "the key is that of a tool");
    check(reply.kind == DEADPOOL_REPLY_CREATE || tools[key].number == reply.number, "the number is that of the tool");
    tools[key].uses++;
    return key;
}

static void drop(uint64_t key) {
    check(key < LIMIT && tools[key].exists, "what goes is a tool");
    printf("  tool %" PRIu64 " goes, uses %d\n", key, tools[key].uses);
    tools[key].exists = false;
}

/* Drops the tools that the pool has given up. */
static void drop_all(const uint64_t *keys, size_t count) {
    for (size_t at = 0; at < count; at++)
        drop(keys[at]);
}

/* Brings a tool back, which the pool keeps if it is open and has room. */
static void bring_back(uint64_t key) {
    deadpool_reply reply = back(tools[key].number, key);
    if (reply.kind == DEADPOOL_REPLY_DETACH || reply.kind == DEADPOOL_REPLY_DROPPED)
        drop(reply.key);
    else
        want(DEADPOOL_REPLY_KEPT, reply, "back");
}

static void show(const char *when) {
    deadpool_standing it = deadpool_managed_status(&pool);
    printf("%s: max %zu, size %zu, available %zu, waiting %zu\n", when, it.max_size, it.size, it.available, it.waiting);
}

/* Brings what is not out. The pool gives it back whole, also its largest number and key. */
static void bring_a_stranger(void) {
    deadpool_reply reply = back(SIZE_MAX, UINT64_MAX);
    want(DEADPOOL_REPLY_UNKNOWN, reply, "back, when nothing is out");
    check(reply.number == SIZE_MAX && reply.key == UINT64_MAX, "it comes back as it was");
}

/* A get joins the queue, and is given up. */
static void give_up_a_wait(void) {
    want(DEADPOOL_REPLY_FULL, enter(false), "a get that does not wait");
    size_t ticket = want(DEADPOOL_REPLY_WAITING, enter(true), "a get that waits").number;
    want(DEADPOOL_REPLY_WAITING, ask(ticket), "ask");
    want(DEADPOOL_REPLY_CROWDED, enter(true), "a get that finds as many waiting as may");
    show("a get waits");
    want(DEADPOOL_REPLY_DONE, make(DEADPOOL_STEP_WITHDRAW, false, ticket), "leave the queue");
    want(DEADPOOL_REPLY_UNKNOWN, ask(ticket), "ask once more");
    show("it is given up");
}

/* A get waits until a tool comes back, and is woken. Gives the tool's key. */
static uint64_t wait_for(uint64_t back) {
    size_t ticket = want(DEADPOOL_REPLY_WAITING, enter(true), "a second get that waits").number;
    want(DEADPOOL_REPLY_UNKNOWN, deadpool_managed_take_wake(&pool), "nobody is due");
    bring_back(back);
    size_t due = want(DEADPOOL_REPLY_DONE, deadpool_managed_take_wake(&pool), "wake").number;
    check(due == ticket, "the get that waits is due");
    uint64_t key = served(ask(ticket));
    printf("one that waited has tool %" PRIu64 ", uses %d\n", key, tools[key].uses);
    return key;
}

/* Tells of the journal, which has each step with its reply. */
static void tell(void) {
    size_t count = 0;
    for (deadpool_noted_step it; (it = deadpool_managed_entry(&pool, count)).step != DEADPOOL_STEP_NO_ENTRY; count++) {
        if (it.step == DEADPOOL_STEP_RESIZE)
            printf("entry %zu: a resize to %zu\n", count, it.number);
        if (it.step == DEADPOOL_STEP_STATUS)
            printf("entry %zu: size %zu, waiting %zu\n", count, it.standing.size, it.standing.waiting);
        if (it.step == DEADPOOL_STEP_ENTER && it.reply.kind == DEADPOOL_REPLY_WAITING)
            check(it.is_set, "a get that waits may wait");
    }
    printf("%zu entries, and the journal %s\n", count, deadpool_managed_is_full(&pool) ? "is full" : "has room");
}

/* Makes a step of the owner, which is to be done, and gives how many idle objects go. The keys of the first `room` are written. */
static size_t make_for_owner(uint64_t step, size_t number, uint64_t *keys, size_t room, const char *call) {
    return want(DEADPOOL_REPLY_DONE, deadpool_managed_make_for_owner(&pool, step, number, keys, room), call).number;
}

static void resize(size_t limit) {
    uint64_t keys[LIMIT];
    drop_all(keys, make_for_owner(DEADPOOL_STEP_RESIZE, limit, keys, LIMIT, "resize"));
    show("it is resized");
}

/* Closes the pool and drops its last handle. The keys are read beforehand, so the close is given no room for them. */
static void close_all(void) {
    size_t idle = 0;
    for (deadpool_reply it; (it = deadpool_managed_key(&pool, idle)).kind == DEADPOOL_REPLY_DONE; idle++)
        drop(it.key);
    check(make_for_owner(DEADPOOL_STEP_CLOSE, 0, NULL, 0, "close") == idle, "what was idle goes");
    want(DEADPOOL_REPLY_CLOSED, enter(true), "a get at a closed pool");
    show("it is closed");
    check(make_for_owner(DEADPOOL_STEP_DROP_HANDLE, 0, NULL, 0, "drop_handle") == 0, "nothing was idle any more");
}

int main(void) {
    check(deadpool_managed_new(&pool, LIMIT, false, ENTRIES, 0, MOST_WAITING), "there is memory");
    bring_a_stranger();
    uint64_t first = served(enter(false));
    uint64_t second = served(enter(false));
    show("two are out");
    give_up_a_wait();
    first = wait_for(first);
    bring_back(first);
    bring_back(second);
    show("both are back");
    resize(1);
    resize(2);
    first = served(enter(false));
    second = served(enter(false));
    printf("tool %" PRIu64 " was idle, tool %" PRIu64 " is new\n", first, second);
    bring_back(first);
    close_all();
    bring_back(second);
    tell();
    deadpool_managed_end(&pool);
    return 0;
}
