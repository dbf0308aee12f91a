/* deadpool.h: made by .ci/c-header of the sources in crates/deadpool_c/src, and not by hand.
 *
 * The steps of both pools for programs that are not Rattle, each a call on a pool behind a pointer.
 *
 * An object is a key of the caller's, any `uint64_t`, and in a managed pool its number too. The caller
 * keeps the values by key, the wakers by ticket, and a lock: it makes one call at a time on a pool.
 * `deadpool_managed_new` and `deadpool_unmanaged_new` make a pool in a block whose pointer is null; each
 * other call wants a block in which a pool was made.
 *
 * NAME_len is how many values lie at NAME, which may be null if there are none. No other pointer that is
 * passed is null. */
#ifndef DEADPOOL_H
#define DEADPOOL_H

#include <stdbool.h>
#include <stddef.h>
#include <stdint.h>

#ifdef __cplusplus
extern "C" {
#endif

/* A managed pool, which the caller passes back unchanged. It owns its state, which lies where `at` points.
 * With a null pointer it is no pool, and owns nothing. */
typedef struct deadpool_managed_pool {
    /* Where its state lies, or null. */
    void *at;
} deadpool_managed_pool;

/* A reply: its kind, and what comes with it, else 0. */
typedef struct deadpool_reply {
    /* One of the constants `DEADPOOL_REPLY_..`. */
    uint64_t kind;
    /* The number of an object or of a ticket, or how many idle objects went. */
    size_t number;
    /* The key of an object. */
    uint64_t key;
    /* How many more idle objects this poll may take, or how many stay. */
    size_t left;
} deadpool_reply;

/* What the call names is not there, and nothing has changed: no such step, ticket, object or key, nothing
 * held, nobody to wake. With it comes the object that was brought. */
#define DEADPOOL_REPLY_UNKNOWN UINT64_C(0)

/* The step is made. With it comes what the call says. */
#define DEADPOOL_REPLY_DONE UINT64_C(1)

/* The get is given an idle object: its key, and of a managed pool its number and how many more this poll
 * may take. */
#define DEADPOOL_REPLY_OBJECT UINT64_C(2)

/* The get has begun a creation, which is counted. */
#define DEADPOOL_REPLY_CREATE UINT64_C(3)

/* Objects are idle, but this poll may take no more. The get keeps its place. */
#define DEADPOOL_REPLY_GOING UINT64_C(4)

/* No object number is left. The get has no place any more. */
#define DEADPOOL_REPLY_EXHAUSTED UINT64_C(5)

/* The pool is closed. With it comes the key that an add brought. */
#define DEADPOOL_REPLY_CLOSED UINT64_C(6)

/* Nothing is free, and the get or the add does not wait. With it comes the key that an add brought. */
#define DEADPOOL_REPLY_FULL UINT64_C(7)

/* The get or the add is in the queue. With it comes its ticket, and the key that an add brought. */
#define DEADPOOL_REPLY_WAITING UINT64_C(8)

/* There was no memory, and nothing has changed. With it comes the key that an add brought. */
#define DEADPOOL_REPLY_OUT_OF_MEMORY UINT64_C(9)

/* The get has waited long enough, and left the queue. */
#define DEADPOOL_REPLY_EXPIRED UINT64_C(10)

/* The creation has ended well: the new object has this number. */
#define DEADPOOL_REPLY_CREATED UINT64_C(11)

/* The pool keeps the object. */
#define DEADPOOL_REPLY_KEPT UINT64_C(12)

/* The object leaves the pool, and has to be detached. */
#define DEADPOOL_REPLY_DETACH UINT64_C(13)

/* The pool gives the object up, and it is not detached. */
#define DEADPOOL_REPLY_DROPPED UINT64_C(14)

/* The object has left for good, and is not detached. */
#define DEADPOOL_REPLY_TAKEN UINT64_C(15)

/* The pool has the object that the add brought. */
#define DEADPOOL_REPLY_STORED UINT64_C(16)

/* No handle is left, and nothing has changed. */
#define DEADPOOL_REPLY_NO_HANDLE UINT64_C(17)

/* As many gets wait as may, or as many adds. With it comes the key that an add brought. */
#define DEADPOOL_REPLY_CROWDED UINT64_C(18)

/* A get, a return or a take on its way. The caller reads what is next, and passes it back unchanged. One
 * of zeros has nothing to do. */
typedef struct deadpool_order {
    /* What is next: one of the constants from `DEADPOOL_COMMAND_END` to `DEADPOOL_COMMAND_GIVE`. */
    uint64_t command;
    /* How far it is. */
    uint64_t state;
    /* Of `DEADPOOL_COMMAND_WAIT` the ticket, of a hook its place in its list. */
    size_t number;
    /* Of `DEADPOOL_COMMAND_GIVE` whether the object was recycled. */
    bool is_set;
    /* Of `DEADPOOL_COMMAND_END` why: one of the constants from `DEADPOOL_CAUSE_DONE` to
     * `DEADPOOL_CAUSE_DROPPED`. */
    uint64_t cause;
    /* Whether its get may take only so many more idle objects in this poll. */
    bool is_limited;
    /* How many these are. */
    size_t left;
} deadpool_order;

/* How many hooks see an object. It is the same for all calls of an order. */
typedef struct deadpool_hooks {
    /* Before it is recycled. */
    size_t pre_recycle;
    /* Once it was recycled. */
    size_t post_recycle;
    /* As it is new. */
    size_t post_create;
} deadpool_hooks;

/* How a pool stands. Each is a number of objects or, for `waiting`, of gets. */
typedef struct deadpool_standing {
    /* How many objects there may be. */
    size_t max_size;
    /* How many there are: idle, under preparation or out. */
    size_t size;
    /* How many are idle, in a managed pool less the gets that have no object yet. */
    size_t available;
    /* How many gets wait, in a managed pool less the idle objects. */
    size_t waiting;
} deadpool_standing;

/* A step of a pool as its journal has it. */
typedef struct deadpool_noted_step {
    /* One of the constants from `DEADPOOL_STEP_NO_ENTRY` to `DEADPOOL_STEP_UPGRADE`. */
    uint64_t step;
    /* As the step was asked for. */
    bool is_set;
    /* As the step was asked for, or the limit of a resize. */
    size_t number;
    /* The reply that the step had. */
    deadpool_reply reply;
    /* Of `DEADPOOL_STEP_STATUS` how the pool stood. */
    deadpool_standing standing;
} deadpool_noted_step;

/* An unmanaged pool, which the caller passes back unchanged. It owns its state, which lies where `at`
 * points. With a null pointer it is no pool, and owns nothing. */
typedef struct deadpool_unmanaged_pool {
    /* Where its state lies, or null. */
    void *at;
} deadpool_unmanaged_pool;

/* The object is out, is back, or was taken. */
#define DEADPOOL_CAUSE_DONE UINT64_C(0)

/* The pool is closed, or does not know what the get holds. */
#define DEADPOOL_CAUSE_CLOSED UINT64_C(1)

/* No place came in time. */
#define DEADPOOL_CAUSE_NO_PLACE UINT64_C(2)

/* As many wait as may. */
#define DEADPOOL_CAUSE_CROWDED UINT64_C(3)

/* There was no memory for the entry in the queue, for what is to wake the get, or for a new object. */
#define DEADPOOL_CAUSE_OUT_OF_MEMORY UINT64_C(4)

/* No object number is left. */
#define DEADPOOL_CAUSE_NUMBERS_EXHAUSTED UINT64_C(5)

/* Nothing is there that could tell the time. */
#define DEADPOOL_CAUSE_NO_RUNTIME UINT64_C(6)

/* The creation took too long. */
#define DEADPOOL_CAUSE_LATE UINT64_C(7)

/* No object was made. */
#define DEADPOOL_CAUSE_FAILED UINT64_C(8)

/* A hook has refused the new object. */
#define DEADPOOL_CAUSE_REFUSED UINT64_C(9)

/* It was given up. */
#define DEADPOOL_CAUSE_DROPPED UINT64_C(10)

/* Nothing is left to do, and nothing is held. `cause` says why. */
#define DEADPOOL_COMMAND_END UINT64_C(0)

/* Make a step by `deadpool_managed_advance`, then wake whoever is due. */
#define DEADPOOL_COMMAND_ADVANCE UINT64_C(1)

/* The same, with the `number` and `key` of the object that comes back. */
#define DEADPOOL_COMMAND_BACK UINT64_C(2)

/* Wait until the ticket `number` is due, or for too long, then tell `deadpool_order_polled` which. */
#define DEADPOOL_COMMAND_WAIT UINT64_C(3)

/* Let others have their turn, then tell `deadpool_order_polled`. */
#define DEADPOOL_COMMAND_PAUSE UINT64_C(4)

/* Make an object, then tell `deadpool_order_ready` or `deadpool_order_failed`. */
#define DEADPOOL_COMMAND_CREATE UINT64_C(5)

/* The hook `number` of those before a recycling sees the object, and the same is told. */
#define DEADPOOL_COMMAND_PRE_RECYCLE UINT64_C(6)

/* The object is recycled, and the same is told. */
#define DEADPOOL_COMMAND_RECYCLE UINT64_C(7)

/* The hook `number` of those after a recycling sees it, and the same is told. */
#define DEADPOOL_COMMAND_POST_RECYCLE UINT64_C(8)

/* The hook `number` of those of a new object sees it, and the same is told. */
#define DEADPOOL_COMMAND_POST_CREATE UINT64_C(9)

/* Tell `deadpool_order_begins`, then detach the object. */
#define DEADPOOL_COMMAND_DETACH UINT64_C(10)

/* Tell `deadpool_order_begins`, then drop the object, if there is one. */
#define DEADPOOL_COMMAND_RELEASE UINT64_C(11)

/* Tell `deadpool_order_begins`, then tell those that wait for the pool's end, if it has come. */
#define DEADPOOL_COMMAND_TELL UINT64_C(12)

/* Tell `deadpool_order_gives`: the object is the caller's. `is_set` says whether it was recycled. */
#define DEADPOOL_COMMAND_GIVE UINT64_C(13)

/* No step: there is no entry at this position. */
#define DEADPOOL_STEP_NO_ENTRY UINT64_C(0)

/* A new get asks for a place. `is_set` says whether it joins the queue if none is free. The reply is
 * `DEADPOOL_REPLY_OBJECT`, `DEADPOOL_REPLY_CREATE`, `DEADPOOL_REPLY_EXHAUSTED`, `DEADPOOL_REPLY_CLOSED`,
 * `DEADPOOL_REPLY_FULL`, `DEADPOOL_REPLY_CROWDED`, `DEADPOOL_REPLY_WAITING` or
 * `DEADPOOL_REPLY_OUT_OF_MEMORY`. */
#define DEADPOOL_STEP_ENTER UINT64_C(1)

/* A get in the queue asks for its place, by its ticket as `number`. `is_set` says whether it has waited
 * long enough. The reply is `DEADPOOL_REPLY_OBJECT`, `DEADPOOL_REPLY_CREATE`, `DEADPOOL_REPLY_EXHAUSTED`,
 * `DEADPOOL_REPLY_CLOSED`, `DEADPOOL_REPLY_EXPIRED`, `DEADPOOL_REPLY_WAITING` or `DEADPOOL_REPLY_UNKNOWN`. */
#define DEADPOOL_STEP_ASK UINT64_C(2)

/* A get that holds a place goes on. It may take `number` idle objects, or as many as are idle if `is_set`
 * is false. The reply is `DEADPOOL_REPLY_OBJECT`, `DEADPOOL_REPLY_CREATE`, `DEADPOOL_REPLY_GOING`,
 * `DEADPOOL_REPLY_EXHAUSTED` or `DEADPOOL_REPLY_UNKNOWN`. */
#define DEADPOOL_STEP_AGAIN UINT64_C(3)

/* A get gives up an object that was idle, and keeps its place: `DEADPOOL_REPLY_DONE` or
 * `DEADPOOL_REPLY_UNKNOWN`. */
#define DEADPOOL_STEP_DISCARD UINT64_C(4)

/* A creation under way has ended well: `DEADPOOL_REPLY_CREATED` or `DEADPOOL_REPLY_UNKNOWN`. */
#define DEADPOOL_STEP_NEW_OBJECT UINT64_C(5)

/* A creation under way has ended without an object: `DEADPOOL_REPLY_DONE` or `DEADPOOL_REPLY_UNKNOWN`. */
#define DEADPOOL_STEP_FAILED UINT64_C(6)

/* A get gives up a new object: `DEADPOOL_REPLY_DONE` or `DEADPOOL_REPLY_UNKNOWN`. */
#define DEADPOOL_STEP_REFUSED UINT64_C(7)

/* An object comes back under its `number` and `key`: `DEADPOOL_REPLY_KEPT`, or with both
 * `DEADPOOL_REPLY_DETACH`, `DEADPOOL_REPLY_DROPPED` or `DEADPOOL_REPLY_UNKNOWN`. */
#define DEADPOOL_STEP_BACK UINT64_C(8)

/* A get leaves the queue, by its ticket as `number`: `DEADPOOL_REPLY_DONE` or `DEADPOOL_REPLY_UNKNOWN`. */
#define DEADPOOL_STEP_WITHDRAW UINT64_C(9)

/* A get gives back a place, and held nothing else: `DEADPOOL_REPLY_DONE` or `DEADPOOL_REPLY_UNKNOWN`. */
#define DEADPOOL_STEP_CANCEL_PLACE UINT64_C(10)

/* A get gives up a creation under way: `DEADPOOL_REPLY_DONE` or `DEADPOOL_REPLY_UNKNOWN`. */
#define DEADPOOL_STEP_CANCEL_CREATION UINT64_C(11)

/* A get gives up an object under preparation: `DEADPOOL_REPLY_DONE` or `DEADPOOL_REPLY_UNKNOWN`. */
#define DEADPOOL_STEP_CANCEL_OBJECT UINT64_C(12)

/* An object that is out leaves the pool for good, and its place is free: `DEADPOOL_REPLY_DETACH`,
 * `DEADPOOL_REPLY_TAKEN` or `DEADPOOL_REPLY_UNKNOWN`. */
#define DEADPOOL_STEP_TAKE UINT64_C(13)

/* The owner asks how the pool stands. It is made by `deadpool_managed_status`. */
#define DEADPOOL_STEP_STATUS UINT64_C(14)

/* The pool gets another limit, which is `number`, and the idle objects above it go, but for those that are
 * to stay: `DEADPOOL_REPLY_DONE` or `DEADPOOL_REPLY_OUT_OF_MEMORY`. */
#define DEADPOOL_STEP_RESIZE UINT64_C(15)

/* Each idle object is asked about. It is made by `deadpool_managed_retain`. */
#define DEADPOOL_STEP_RETAIN UINT64_C(16)

/* The pool closes for good, and all that is idle goes: `DEADPOOL_REPLY_DONE`. */
#define DEADPOOL_STEP_CLOSE UINT64_C(17)

/* There is one handle more: `DEADPOOL_REPLY_DONE` or `DEADPOOL_REPLY_NO_HANDLE`. */
#define DEADPOOL_STEP_CLONE_HANDLE UINT64_C(18)

/* There is one handle less, and the last one takes all that is idle with it: `DEADPOOL_REPLY_DONE` or
 * `DEADPOOL_REPLY_NO_HANDLE`. */
#define DEADPOOL_STEP_DROP_HANDLE UINT64_C(19)

/* There is one handle more, for an owner that has none: `DEADPOOL_REPLY_DONE`, or
 * `DEADPOOL_REPLY_NO_HANDLE` if none is left. */
#define DEADPOOL_STEP_UPGRADE UINT64_C(20)

/* A new get asks for an object. `is_set` says whether it joins the queue if none is free. The reply is
 * `DEADPOOL_REPLY_OBJECT` with its key, `DEADPOOL_REPLY_CLOSED`, `DEADPOOL_REPLY_FULL`,
 * `DEADPOOL_REPLY_CROWDED`, `DEADPOOL_REPLY_WAITING` or `DEADPOOL_REPLY_OUT_OF_MEMORY`. */
#define DEADPOOL_UNMANAGED_STEP_GET_ENTER UINT64_C(1)

/* A get in the queue asks for its object, by its ticket as `number`. `is_set` says whether it has waited
 * long enough. The reply is `DEADPOOL_REPLY_OBJECT` with its key, `DEADPOOL_REPLY_CLOSED`,
 * `DEADPOOL_REPLY_EXPIRED`, `DEADPOOL_REPLY_WAITING` or `DEADPOOL_REPLY_UNKNOWN`. */
#define DEADPOOL_UNMANAGED_STEP_GET_ASK UINT64_C(2)

/* A get leaves the queue, by its ticket as `number`, and what it was granted is free again:
 * `DEADPOOL_REPLY_DONE` or `DEADPOOL_REPLY_UNKNOWN`. */
#define DEADPOOL_UNMANAGED_STEP_GET_CANCEL UINT64_C(3)

/* A new add brings an object by its `key`. `is_set` says whether it joins the queue if there is no room.
 * The reply is `DEADPOOL_REPLY_STORED`, or with the key `DEADPOOL_REPLY_CLOSED`, `DEADPOOL_REPLY_FULL`,
 * `DEADPOOL_REPLY_CROWDED`, `DEADPOOL_REPLY_WAITING` or `DEADPOOL_REPLY_OUT_OF_MEMORY`. */
#define DEADPOOL_UNMANAGED_STEP_ADD_ENTER UINT64_C(4)

/* An add in the queue asks for its room, by its ticket as `number`, and brings its object by its `key`:
 * `DEADPOOL_REPLY_STORED`, or with the key `DEADPOOL_REPLY_CLOSED`, `DEADPOOL_REPLY_WAITING` or
 * `DEADPOOL_REPLY_UNKNOWN`. */
#define DEADPOOL_UNMANAGED_STEP_ADD_ASK UINT64_C(5)

/* An add leaves the queue, by its ticket as `number`, and the room that it was granted is free again:
 * `DEADPOOL_REPLY_DONE` or `DEADPOOL_REPLY_UNKNOWN`. */
#define DEADPOOL_UNMANAGED_STEP_ADD_CANCEL UINT64_C(6)

/* An object comes back by its `key`: `DEADPOOL_REPLY_KEPT`, or with the key `DEADPOOL_REPLY_DROPPED` or
 * `DEADPOOL_REPLY_UNKNOWN`. */
#define DEADPOOL_UNMANAGED_STEP_BACK UINT64_C(7)

/* An object that is out leaves the pool for good, and its room is free: `DEADPOOL_REPLY_TAKEN` or
 * `DEADPOOL_REPLY_UNKNOWN`. */
#define DEADPOOL_UNMANAGED_STEP_TAKE UINT64_C(8)

/* A managed pool: how it is made and ended, the steps that gets and objects make, and who is to be woken. */

/* Makes a pool of so many objects at most, with one handle and room for so many entries of its journal:
 * `false` if memory is wanting. `min_idle` is how many objects a resize and a retain leave idle, and
 * `max_waiting` how many gets may wait, by the greatest number any. The block has to be empty, with a null
 * pointer: what it led to before is forgotten. */
bool deadpool_managed_new(deadpool_managed_pool *pool, size_t limit, bool is_lifo, size_t most_entries,
    size_t min_idle, size_t max_waiting);

/* Ends a pool. The keys of what is idle are forgotten. */
void deadpool_managed_free(deadpool_managed_pool pool);

/* Makes a step of a get or an object: `step` is one of the constants from `DEADPOOL_STEP_ENTER` to
 * `DEADPOOL_STEP_TAKE`. Each of them says what `is_set`, `number` and `key` are to it, and which replies
 * it has; what it does not name is not looked at. Another `step` is none: the reply is
 * `DEADPOOL_REPLY_UNKNOWN`, and nothing has changed. */
deadpool_reply deadpool_managed_make(deadpool_managed_pool *pool, uint64_t step, bool is_set, size_t number,
    uint64_t key);

/* Makes the step of an order whose command is `DEADPOOL_COMMAND_ADVANCE` or `DEADPOOL_COMMAND_BACK`, and
 * tells the order its reply, so that no step is made that its order does not know. `number` and `key` are
 * those of an object that comes back. With the reply comes the object that the get is given, or that is
 * given back. At another command nothing changes: `DEADPOOL_REPLY_UNKNOWN`. */
deadpool_reply deadpool_managed_advance(deadpool_managed_pool *pool, deadpool_order *order,
    deadpool_hooks hooks, size_t number, uint64_t key);

/* How the pool stands. */
deadpool_standing deadpool_managed_status(deadpool_managed_pool *pool);

/* The next get in the queue that is due to be woken, and counts as told from then on:
 * `DEADPOOL_REPLY_DONE` with its ticket, `DEADPOOL_REPLY_UNKNOWN`. It is no step. */
deadpool_reply deadpool_managed_take_wake(deadpool_managed_pool *pool);

/* The steps of a managed pool's owner, and what is read without a step. A step that gives idle objects up
 * writes their keys, in the order in which they stood, to the front of `keys`, as far as it reaches, and
 * tells how many these are. Room for as many keys as are idle is enough; of those that find none nothing
 * more is told. */

/* Makes a step of the pool's owner: `step` is `DEADPOOL_STEP_RESIZE`, `DEADPOOL_STEP_CLOSE`,
 * `DEADPOOL_STEP_CLONE_HANDLE`, `DEADPOOL_STEP_DROP_HANDLE` or `DEADPOOL_STEP_UPGRADE`. Each of them says
 * what `number` is to it, which replies it has, and which idle objects go: with `DEADPOOL_REPLY_DONE`
 * comes how many went, more than `keys` has room for if some of their keys were not written. Another
 * `step` is none: the reply is `DEADPOOL_REPLY_UNKNOWN`, and nothing has changed. */
deadpool_reply deadpool_managed_make_for_owner(deadpool_managed_pool *pool, uint64_t step, size_t number,
    uint64_t *keys, size_t keys_len);

/* Asks about each idle object once, front to back: those go whose byte of `keep` is 0, if more are idle
 * than are to stay, and the others stay, also those beyond it. `DEADPOOL_REPLY_DONE` with how many went
 * and in `left` how many stay, or `DEADPOOL_REPLY_OUT_OF_MEMORY`, and nothing has changed. */
deadpool_reply deadpool_managed_retain(deadpool_managed_pool *pool, const uint8_t *keep, size_t keep_len,
    uint64_t *keys, size_t keys_len);

/* Whether the pool has closed. It is no step. */
bool deadpool_managed_is_closed(deadpool_managed_pool *pool);

/* The key of the idle object at this position, front to back: `DEADPOOL_REPLY_DONE` with it,
 * `DEADPOOL_REPLY_UNKNOWN`. It is no step. */
deadpool_reply deadpool_managed_key(deadpool_managed_pool *pool, size_t at);

/* Whether the journal has found no room for a step. It is no step. */
bool deadpool_managed_is_full(deadpool_managed_pool *pool);

/* The entry of the journal at this position, or the step `DEADPOOL_STEP_NO_ENTRY`. It is no step of the
 * pool. */
deadpool_noted_step deadpool_managed_entry(deadpool_managed_pool *pool, size_t at);

/* Of the entry at a position, that of a retain, the object that was removed at an index:
 * `DEADPOOL_REPLY_DONE`, its number and in `left` where it stood. `DEADPOOL_REPLY_UNKNOWN` if there is
 * none. It is no step. */
deadpool_reply deadpool_managed_removal(deadpool_managed_pool *pool, size_t at, size_t index);

/* The order of what a get does, and a return and a take of an object. An order says what is next, in
 * `command`. The caller does that, and tells what has come of it by the call that the command names. A
 * call that does not fit where the order is says `false`, and changes nothing. An order is one get's, or
 * one object's, and is told by one thread at a time. It has no memory of its own, and needs no lock. */

/* That of a new get, which may wait for its place or not. */
deadpool_order deadpool_order_get(bool may_wait);

/* That of an object which comes back. */
deadpool_order deadpool_order_return(void);

/* That of an object which is taken out of the pool, for good. */
deadpool_order deadpool_order_take(void);

/* Behind `DEADPOOL_COMMAND_WAIT` or `DEADPOOL_COMMAND_PAUSE`: its turn has come, or it has waited for too
 * long. */
bool deadpool_order_polled(deadpool_order *order, bool has_waited_long_enough);

/* Behind `DEADPOOL_COMMAND_WAIT`: there is no memory for what would wake it. It leaves the queue. */
bool deadpool_order_unheard(deadpool_order *order);

/* The task ends its poll within a call, and begins another one later: that one has an allowance of its
 * own. Whoever has no polls, but a thread that waits, needs none of it. */
void deadpool_order_pauses(deadpool_order *order);

/* Behind `DEADPOOL_COMMAND_CREATE`, `DEADPOOL_COMMAND_RECYCLE` or a hook: it has ended well. */
bool deadpool_order_ready(deadpool_order *order, deadpool_hooks hooks);

/* Behind `DEADPOOL_COMMAND_CREATE`, `DEADPOOL_COMMAND_RECYCLE` or a hook: it has not, or took too long. Of
 * a creation `cause` is why its get ends: `DEADPOOL_CAUSE_OUT_OF_MEMORY`, `DEADPOOL_CAUSE_NO_RUNTIME`,
 * `DEADPOOL_CAUSE_LATE` or `DEADPOOL_CAUSE_FAILED`. */
bool deadpool_order_failed(deadpool_order *order, uint64_t cause);

/* Before what `DEADPOOL_COMMAND_DETACH`, `DEADPOOL_COMMAND_RELEASE` or `DEADPOOL_COMMAND_TELL` asks for is
 * done. */
bool deadpool_order_begins(deadpool_order *order);

/* At `DEADPOOL_COMMAND_GIVE`: the object is out, or its taker's. */
bool deadpool_order_gives(deadpool_order *order);

/* It is given up, wherever it is. Until its end at most four commands are left, which give back what it
 * holds. */
void deadpool_order_dropped(deadpool_order *order);

/* The steps of an unmanaged pool. A step that gives idle objects up writes their keys, in the order in
 * which they stood, to the front of `keys`, as far as it reaches, and tells how many these are. Room for
 * as many keys as are idle is enough; of those that find none nothing more is told. */

/* Makes an open pool of so many objects at most, with one handle: `false` if memory is wanting.
 * `max_waiting` is how many gets may wait, and how many adds, by the greatest number any. The block has to
 * be empty, with a null pointer: what it led to before is forgotten. */
bool deadpool_unmanaged_new(deadpool_unmanaged_pool *pool, size_t limit, size_t max_waiting);

/* Ends a pool. The keys of what is idle are forgotten. */
void deadpool_unmanaged_free(deadpool_unmanaged_pool pool);

/* Makes a step of a get, an add or an object: `step` is one of the eight constants from
 * `DEADPOOL_UNMANAGED_STEP_GET_ENTER` on. Each of them says what `is_set`, `number` and `key` are to it,
 * and which replies it has; what it does not name is not looked at. Another `step` is none: the reply is
 * `DEADPOOL_REPLY_UNKNOWN`, and nothing has changed. */
deadpool_reply deadpool_unmanaged_make(deadpool_unmanaged_pool *pool, uint64_t step, bool is_set,
    size_t number, uint64_t key);

/* The pool closes for good, and all that is idle goes. Gives how many went, more than `keys` has room for
 * if some of their keys were not written. */
size_t deadpool_unmanaged_close(deadpool_unmanaged_pool *pool, uint64_t *keys, size_t keys_len);

/* There is one handle more: `DEADPOOL_REPLY_DONE`, `DEADPOOL_REPLY_NO_HANDLE`. */
deadpool_reply deadpool_unmanaged_clone_handle(deadpool_unmanaged_pool *pool);

/* There is one handle less: `DEADPOOL_REPLY_DONE`, `DEADPOOL_REPLY_NO_HANDLE`. The last one takes all that
 * is idle with it, and `gone` is how many went, more than `keys` has room for if some of their keys were
 * not written. */
deadpool_reply deadpool_unmanaged_drop_handle(deadpool_unmanaged_pool *pool, uint64_t *keys, size_t keys_len,
    size_t *gone);

/* There is one handle more, for an owner that has none, if one is left. */
bool deadpool_unmanaged_upgrade(deadpool_unmanaged_pool *pool);

/* The next get in the queue that is due to be woken, and counts as told from then on:
 * `DEADPOOL_REPLY_DONE` with its ticket, `DEADPOOL_REPLY_UNKNOWN`. Nothing else changes. */
deadpool_reply deadpool_unmanaged_take_get_wake(deadpool_unmanaged_pool *pool);

/* The next add in the queue that is due to be woken, and counts as told from then on:
 * `DEADPOOL_REPLY_DONE` with its ticket, `DEADPOOL_REPLY_UNKNOWN`. Nothing else changes. */
deadpool_reply deadpool_unmanaged_take_add_wake(deadpool_unmanaged_pool *pool);

/* How the pool stands. */
deadpool_standing deadpool_unmanaged_status(deadpool_unmanaged_pool *pool);

/* Whether the pool has closed. */
bool deadpool_unmanaged_is_closed(deadpool_unmanaged_pool *pool);

/* Ends the managed pool of a block, if one was made there and has not ended, and leaves the block empty. */
static inline void deadpool_managed_end(deadpool_managed_pool *pool) {
    if (pool->at != NULL)
        deadpool_managed_free(*pool);
    pool->at = NULL;
}

/* Ends the unmanaged pool of a block, if one was made there and has not ended, and leaves the block empty. */
static inline void deadpool_unmanaged_end(deadpool_unmanaged_pool *pool) {
    if (pool->at != NULL)
        deadpool_unmanaged_free(*pool);
    pool->at = NULL;
}

#ifdef __cplusplus
}
#endif

#endif
