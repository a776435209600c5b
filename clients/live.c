/* Two threads of the system at one live service. They count to 2000000 under one monitor; they hand
 * 100000 items on by wait and notify; and one thread drives both seats turn by turn, through waits
 * that a tick and an interrupt end, and through each mistake that has a status. Each request for
 * memory is refused, one at a time. The services of the two threads are closed, and their ends are
 * read. With the argument `time` it prints what a pair of enter and exit costs, too. */
#define _POSIX_C_SOURCE 200809L
#include "host_memory.h"
#include "nadkhoy.h"
#include "want.h"

#include <pthread.h>
#include <sched.h>
#include <string.h>
#include <sys/resource.h>
#include <time.h>

#ifdef __cplusplus
#include <atomic>
typedef std::atomic<uint32_t> shared_word;
#else
#include <stdatomic.h>
typedef _Atomic uint32_t shared_word;
#endif

/* A record has places for one round, so each round has a service of its own. A count uses three
 * places at most: its enter, the collect where that parked, and its exit. An item uses twelve: on
 * each side an enter and its collect, a wait and its collect, a notify and an exit. Some more are
 * for the bind, and for the three that an enter or a wait needs free. */
enum {
    COUNTING_ROUNDS = 8,
    COUNTS = 125000,
    COUNTING_PLACES = 3 * 2 * COUNTS + 16,
    BUFFER_ROUNDS = 2,
    ITEMS = 50000,
    BUFFER_PLACES = 12 * ITEMS + 16
};

static const uint8_t lows[1] = {0xA5};

static nadkhoy_call call_of(uint32_t kind, uint32_t target) {
    nadkhoy_call call = {0, 0, kind, target};
    return call;
}

/* The bell of a thread. A ring that comes before the sleep is kept until the sleeper looks. */
typedef struct bell {
    pthread_mutex_t lock;
    pthread_cond_t heard;
    shared_word rung;
} bell;

static bell bells[3]; /* by the number of the thread */

static void make_bells(void) {
    pthread_condattr_t by_clock;
    WANT(pthread_condattr_init(&by_clock), 0);
    WANT(pthread_condattr_setclock(&by_clock, CLOCK_MONOTONIC), 0);
    for (int thread = 1; thread <= 2; thread++) {
        WANT(pthread_mutex_init(&bells[thread].lock, NULL), 0);
        WANT(pthread_cond_init(&bells[thread].heard, &by_clock), 0);
    }
    WANT(pthread_condattr_destroy(&by_clock), 0);
}

static void ring(uint32_t thread) {
    bell *its = &bells[thread];
    WANT(pthread_mutex_lock(&its->lock), 0);
    atomic_store(&its->rung, 1u);
    WANT(pthread_cond_signal(&its->heard), 0);
    WANT(pthread_mutex_unlock(&its->lock), 0);
}

/* Looks at the bell of the thread some times, and then sleeps by it, 10 milliseconds at most. */
static void sleep_until_rung(uint32_t thread) {
    bell *its = &bells[thread];
    struct timespec until;
    for (int looks = 0; looks < 1000; looks++)
        if (atomic_load(&its->rung) != 0) break;
    clock_gettime(CLOCK_MONOTONIC, &until);
    until.tv_nsec += 10000000;
    until.tv_sec += until.tv_nsec / 1000000000;
    until.tv_nsec %= 1000000000;
    WANT(pthread_mutex_lock(&its->lock), 0);
    while (atomic_exchange(&its->rung, 0u) == 0 &&
           pthread_cond_timedwait(&its->heard, &its->lock, &until) == 0) {
    }
    WANT(pthread_mutex_unlock(&its->lock), 0);
}

/* Before the next turn of a call that met another: turns at once, then yields, then sleeps. */
static void back_off(int tries) {
    static const struct timespec moment = {0, 50000};
    if (tries < 8) return;
    if (tries < 28)
        sched_yield();
    else
        nanosleep(&moment, NULL);
}

/* A thread of the system, with its seat and the number that this has. */
typedef struct player {
    nadkhoy_live_slot seat;
    uint32_t thread;
    uint32_t first_item;
} player;

/* Makes a call, and answers its reply. Whoever a turn makes an owner has its bell rung, also where
 * that is the thread itself. */
static uint32_t make_call(player *me, nadkhoy_call call) {
    nadkhoy_turned turned;
    uint32_t status = nadkhoy_live_begin(&me->seat, &call, &turned);
    for (int tries = 0;; tries++) {
        WANT(status, NADKHOY_DONE);
        if (turned.granted != 0) ring(turned.granted);
        if (turned.standing == NADKHOY_STANDING_SAID) return turned.reply;
        if (turned.standing == NADKHOY_STANDING_PARKED)
            sleep_until_rung(me->thread);
        else
            back_off(tries);
        status = nadkhoy_live_turn(&me->seat, &turned);
    }
}

/* Reads the end of a service of two passes and one object that nobody owns any more: each pass did
 * as many deeds as the record has of its thread, and the moment was never told. */
static void read_end(nadkhoy_end_slot *end) {
    nadkhoy_end_shown sizes;
    nadkhoy_deed deed;
    nadkhoy_pass pass;
    uint64_t counts[3] = {0, 0, 0};
    uint32_t word, threads = 0;
    WANT(nadkhoy_end_sizes(end, &sizes), NADKHOY_DONE);
    WANT(sizes.objects, 1);
    WANT(sizes.passes, 2);
    for (uint32_t i = 0; i < sizes.deeds; i++) {
        WANT(nadkhoy_end_deed(end, i, &deed), NADKHOY_DONE);
        WANT(deed.kind == NADKHOY_DEED_BOUND || deed.kind == NADKHOY_DEED_ACTED, 1);
        WANT(deed.kind == NADKHOY_DEED_BOUND, i == 0);
        WANT(deed.monitor, 0);
        counts[deed.thread]++;
    }
    for (uint32_t i = 0; i < 2; i++) {
        WANT(nadkhoy_end_pass(end, i, &pass), NADKHOY_DONE);
        WANT(pass.deeds, counts[pass.thread]);
        threads += pass.thread;
    }
    WANT(threads, 3);
    WANT(counts[0] + counts[1] + counts[2], sizes.deeds);
    WANT(nadkhoy_end_word(end, 0, &word), NADKHOY_DONE);
    WANT(word, sizes.deeds == 0 ? 0xA5 : 0x800000A5); /* free, or the fat monitor 0 */
    WANT(nadkhoy_end_word(end, 1, &word), NADKHOY_NO_OBJECT);
    WANT(nadkhoy_end_deed(end, (uint32_t)sizes.deeds, &deed), NADKHOY_NO_DEED);
    WANT(nadkhoy_end_pass(end, 2, &pass), NADKHOY_NO_PASS);
    WANT(nadkhoy_end_free(end), NADKHOY_DONE);
}

/* Runs two threads to their ends, each with a seat at one new service, and closes it. */
static void play(void *(*first)(void *), void *(*second)(void *), uint32_t places, uint32_t item) {
    player players[2] = {{NADKHOY_EMPTY, 0, item}, {NADKHOY_EMPTY, 0, item}};
    nadkhoy_end_slot end = NADKHOY_EMPTY;
    pthread_t threads[2];
    WANT(nadkhoy_live_open(lows, 1, 1, 2, places, &players[0].seat), NADKHOY_DONE);
    WANT(nadkhoy_live_share(&players[0].seat, &players[1].seat), NADKHOY_DONE);
    for (int i = 0; i < 2; i++) {
        WANT(nadkhoy_live_thread(&players[i].seat, &players[i].thread), NADKHOY_DONE);
        WANT(players[i].thread, 2 - i);
    }
    WANT(pthread_create(&threads[0], NULL, first, &players[0]), 0);
    WANT(pthread_create(&threads[1], NULL, second, &players[1]), 0);
    WANT(pthread_join(threads[0], NULL), 0);
    WANT(pthread_join(threads[1], NULL), 0);
    WANT(nadkhoy_live_close(&players[0].seat, &end), NADKHOY_OTHER_SEATS);
    WANT(nadkhoy_live_leave(&players[0].seat), NADKHOY_DONE);
    WANT(nadkhoy_live_close(&players[1].seat, &end), NADKHOY_DONE);
    WANT(nadkhoy_live_close(&players[1].seat, &end), NADKHOY_CLOSED);
    read_end(&end);
}

/* What the owner of the object alone reads and writes, by plain loads and stores. */
static uint64_t counted;
static bool is_there;
static uint32_t item_there;

static void *count_up(void *mine) {
    player *me = (player *)mine;
    for (int i = 0; i < COUNTS; i++) {
        WANT(make_call(me, call_of(NADKHOY_CALL_ENTER, 0)), NADKHOY_REPLY_ENTERED);
        counted = counted + 1;
        WANT(make_call(me, call_of(NADKHOY_CALL_EXIT, 0)), NADKHOY_REPLY_EXITED);
    }
    return NULL;
}

/* Waits as the owner until there is an item, or none; there is no wait more than one. */
static void wait_until(player *me, bool there) {
    int waits = 0;
    while (is_there != there) {
        waits++;
        WANT(make_call(me, call_of(NADKHOY_CALL_WAIT, 0)), NADKHOY_REPLY_WAIT_OVER);
    }
    WANT(waits > 1, 0);
}

static void *produce(void *mine) {
    player *me = (player *)mine;
    for (uint32_t i = 0; i < ITEMS; i++) {
        WANT(make_call(me, call_of(NADKHOY_CALL_ENTER, 0)), NADKHOY_REPLY_ENTERED);
        wait_until(me, false);
        item_there = me->first_item + i;
        is_there = true;
        WANT(make_call(me, call_of(NADKHOY_CALL_NOTIFY, 0)), NADKHOY_REPLY_NOTIFIED);
        WANT(make_call(me, call_of(NADKHOY_CALL_EXIT, 0)), NADKHOY_REPLY_EXITED);
    }
    return NULL;
}

static void *consume(void *mine) {
    player *me = (player *)mine;
    for (uint32_t i = 0; i < ITEMS; i++) {
        WANT(make_call(me, call_of(NADKHOY_CALL_ENTER, 0)), NADKHOY_REPLY_ENTERED);
        wait_until(me, true);
        WANT(item_there, me->first_item + i);
        is_there = false;
        WANT(make_call(me, call_of(NADKHOY_CALL_NOTIFY, 0)), NADKHOY_REPLY_NOTIFIED);
        WANT(make_call(me, call_of(NADKHOY_CALL_EXIT, 0)), NADKHOY_REPLY_EXITED);
    }
    return NULL;
}

static void run_threads(void) {
    for (int round = 0; round < COUNTING_ROUNDS; round++)
        play(count_up, count_up, COUNTING_PLACES, 0);
    WANT(counted, 2000000);
    printf("%lu counted\n", (unsigned long)counted);
    for (uint32_t round = 0; round < BUFFER_ROUNDS; round++)
        play(produce, consume, BUFFER_PLACES, round * ITEMS);
    WANT(is_there, false);
    printf("%d items handed on\n", BUFFER_ROUNDS * ITEMS);
}

/* Here one thread of the system drives both seats: thread 2 waits, and thread 1 does not. */
static nadkhoy_live_slot waiter = NADKHOY_EMPTY;
static nadkhoy_live_slot other = NADKHOY_EMPTY;
static nadkhoy_turned turned;

static void open_both(uint32_t places) {
    WANT(nadkhoy_live_open(lows, 1, 1, 2, places, &waiter), NADKHOY_DONE);
    WANT(nadkhoy_live_share(&waiter, &other), NADKHOY_DONE);
}

/* The last of them gives all memory back, wherever their calls stand. */
static void leave_both(void) {
    WANT(nadkhoy_live_leave(&waiter), NADKHOY_DONE);
    WANT(nadkhoy_live_leave(&other), NADKHOY_DONE);
    WANT(blocks, 0);
}

static uint32_t begin(nadkhoy_live_slot *seat, uint32_t kind, uint32_t target) {
    nadkhoy_call call = call_of(kind, target);
    return nadkhoy_live_begin(seat, &call, &turned);
}

/* A call that has its reply at its first turn. */
static void says(nadkhoy_live_slot *seat, uint32_t kind, uint32_t target, uint32_t reply) {
    WANT(begin(seat, kind, target), NADKHOY_DONE);
    WANT(turned.standing, NADKHOY_STANDING_SAID);
    WANT(turned.reply, reply);
}

static void parks(nadkhoy_live_slot *seat, const nadkhoy_call *call) {
    WANT(nadkhoy_live_begin(seat, call, &turned), NADKHOY_DONE);
    WANT(turned.standing, NADKHOY_STANDING_PARKED);
    WANT(turned.reply, 0);
}

static void tells(nadkhoy_live_slot *seat, uint64_t now) {
    uint32_t told = 77;
    WANT(nadkhoy_live_tick(seat, now, &told), NADKHOY_DONE);
    WANT(told, 1);
}

static void turns_to(nadkhoy_live_slot *seat, uint32_t standing, uint32_t reply, uint32_t granted) {
    WANT(nadkhoy_live_turn(seat, &turned), NADKHOY_DONE);
    WANT(turned.standing, standing);
    WANT(turned.reply, reply);
    WANT(turned.granted, granted);
}

static void a_tick_ends_a_wait(void) {
    nadkhoy_call wait = {5, 7, NADKHOY_CALL_WAIT, 0};
    uint32_t told = 77;
    open_both(32);
    tells(&other, 1000);
    says(&waiter, NADKHOY_CALL_ENTER, 0, NADKHOY_REPLY_ENTERED);
    parks(&waiter, &wait);
    WANT(nadkhoy_live_tick(&waiter, 5001007, &told), NADKHOY_IN_CALL);
    WANT(told, 77);
    tells(&other, 5001006);
    turns_to(&waiter, NADKHOY_STANDING_PARKED, 0, 0);
    tells(&other, 5001007);
    /* The wait is over and the monitor free, so the thread has it again; then it has its reply. */
    turns_to(&waiter, NADKHOY_STANDING_PARKED, 0, 2);
    turns_to(&waiter, NADKHOY_STANDING_SAID, NADKHOY_REPLY_WAIT_OVER, 0);
    says(&waiter, NADKHOY_CALL_HOLDS, 0, NADKHOY_REPLY_YES);
    says(&other, NADKHOY_CALL_HOLDS, 0, NADKHOY_REPLY_NO);
    says(&waiter, NADKHOY_CALL_EXIT, 0, NADKHOY_REPLY_EXITED);
    WANT(nadkhoy_live_tick(&other, 5001006, &told), NADKHOY_BACKWARDS);
    WANT(told, 77);
    leave_both();
}

static void an_interrupt_ends_a_wait(void) {
    nadkhoy_call wait = call_of(NADKHOY_CALL_WAIT, 0);
    open_both(32);
    says(&waiter, NADKHOY_CALL_ENTER, 0, NADKHOY_REPLY_ENTERED);
    parks(&waiter, &wait);
    says(&other, NADKHOY_CALL_ENTER, 0, NADKHOY_REPLY_ENTERED);
    says(&other, NADKHOY_CALL_INTERRUPT, 2, NADKHOY_REPLY_DONE);
    WANT(turned.granted, 0);
    turns_to(&waiter, NADKHOY_STANDING_PARKED, 0, 0);
    says(&other, NADKHOY_CALL_EXIT, 0, NADKHOY_REPLY_EXITED);
    WANT(turned.granted, 2);
    turns_to(&waiter, NADKHOY_STANDING_SAID, NADKHOY_REPLY_INTERRUPTED, 0);
    says(&other, NADKHOY_CALL_IS_INTERRUPTED, 2, NADKHOY_REPLY_NO);
    /* A flag that nobody has taken is told, and cleared, by its own thread. */
    says(&other, NADKHOY_CALL_INTERRUPT, 2, NADKHOY_REPLY_DONE);
    says(&waiter, NADKHOY_CALL_INTERRUPTED, 0, NADKHOY_REPLY_YES);
    says(&waiter, NADKHOY_CALL_INTERRUPTED, 0, NADKHOY_REPLY_NO);
    says(&waiter, NADKHOY_CALL_EXIT, 0, NADKHOY_REPLY_EXITED);
    says(&waiter, NADKHOY_CALL_EXIT, 0, NADKHOY_REPLY_ILLEGAL_MONITOR_STATE);
    leave_both();
}

/* A wait that inflates and parks, and a notify that ends it. Then the word, and the deeds of each
 * pass: a bind, a wait, a collect and an exit, and an enter, a notify and an exit. */
static void a_notify_ends_a_wait(void) {
    nadkhoy_call wait = call_of(NADKHOY_CALL_WAIT, 0);
    nadkhoy_end_slot end = NADKHOY_EMPTY;
    nadkhoy_end_shown sizes;
    nadkhoy_pass pass;
    uint32_t word;
    open_both(20);
    says(&waiter, NADKHOY_CALL_ENTER, 0, NADKHOY_REPLY_ENTERED);
    WANT(begin(&other, NADKHOY_CALL_ENTER, 0), NADKHOY_DONE);
    WANT(turned.standing, NADKHOY_STANDING_CONTENDED);
    turns_to(&other, NADKHOY_STANDING_CONTENDED, 0, 0);
    parks(&waiter, &wait);
    turns_to(&other, NADKHOY_STANDING_SAID, NADKHOY_REPLY_ENTERED, 0);
    turns_to(&waiter, NADKHOY_STANDING_PARKED, 0, 0);
    says(&other, NADKHOY_CALL_NOTIFY, 0, NADKHOY_REPLY_NOTIFIED);
    turns_to(&waiter, NADKHOY_STANDING_PARKED, 0, 0);
    says(&other, NADKHOY_CALL_EXIT, 0, NADKHOY_REPLY_EXITED);
    WANT(turned.granted, 2);
    turns_to(&waiter, NADKHOY_STANDING_SAID, NADKHOY_REPLY_WAIT_OVER, 0);
    says(&waiter, NADKHOY_CALL_EXIT, 0, NADKHOY_REPLY_EXITED);
    WANT(nadkhoy_live_leave(&other), NADKHOY_DONE);
    WANT(nadkhoy_live_close(&waiter, &end), NADKHOY_DONE);
    WANT(nadkhoy_end_word(&end, 0, &word), NADKHOY_DONE);
    WANT(word, 0x800000A5);
    WANT(nadkhoy_end_sizes(&end, &sizes), NADKHOY_DONE);
    WANT(sizes.deeds, 7);
    for (uint32_t i = 0; i < 2; i++) {
        WANT(nadkhoy_end_pass(&end, i, &pass), NADKHOY_DONE);
        WANT(pass.deeds, pass.thread == 2 ? 4 : 3);
    }
    WANT(nadkhoy_end_free(&end), NADKHOY_DONE);
}

/* A thin word that another thread owns, and the inflation by the one that met it. */
static void a_thread_meets_another(void) {
    open_both(32);
    says(&other, NADKHOY_CALL_ENTER, 0, NADKHOY_REPLY_ENTERED);
    WANT(begin(&waiter, NADKHOY_CALL_ENTER, 0), NADKHOY_DONE);
    WANT(turned.standing, NADKHOY_STANDING_CONTENDED);
    turns_to(&waiter, NADKHOY_STANDING_CONTENDED, 0, 0);
    says(&other, NADKHOY_CALL_EXIT, 0, NADKHOY_REPLY_EXITED);
    turns_to(&waiter, NADKHOY_STANDING_SAID, NADKHOY_REPLY_ENTERED, 0);
    WANT(begin(&other, NADKHOY_CALL_ENTER, 0), NADKHOY_DONE);
    WANT(turned.standing, NADKHOY_STANDING_PARKED);
    says(&waiter, NADKHOY_CALL_EXIT, 0, NADKHOY_REPLY_EXITED);
    WANT(turned.granted, 1);
    turns_to(&other, NADKHOY_STANDING_SAID, NADKHOY_REPLY_ENTERED, 0);
    leave_both();
}

static void an_empty_slot(void) {
    nadkhoy_end_slot end = NADKHOY_EMPTY;
    nadkhoy_end_shown sizes;
    nadkhoy_deed deed;
    nadkhoy_pass pass;
    uint32_t number = 77;
    turned.reply = 99;
    WANT(begin(&waiter, NADKHOY_CALL_ENTER, 0), NADKHOY_CLOSED);
    WANT(begin(&waiter, 0, 0), NADKHOY_CLOSED);
    WANT(nadkhoy_live_turn(&waiter, &turned), NADKHOY_CLOSED);
    WANT(turned.reply, 99);
    WANT(nadkhoy_live_tick(&waiter, 1, &number), NADKHOY_CLOSED);
    WANT(nadkhoy_live_thread(&waiter, &number), NADKHOY_CLOSED);
    WANT(number, 77);
    WANT(nadkhoy_live_share(&waiter, &other), NADKHOY_CLOSED);
    WANT(nadkhoy_live_leave(&waiter), NADKHOY_CLOSED);
    WANT(nadkhoy_live_close(&waiter, &end), NADKHOY_CLOSED);
    WANT(nadkhoy_end_sizes(&end, &sizes), NADKHOY_CLOSED);
    WANT(nadkhoy_end_word(&end, 0, &number), NADKHOY_CLOSED);
    WANT(nadkhoy_end_deed(&end, 0, &deed), NADKHOY_CLOSED);
    WANT(nadkhoy_end_pass(&end, 0, &pass), NADKHOY_CLOSED);
    WANT(nadkhoy_end_free(&end), NADKHOY_CLOSED);
    WANT(number, 77);
}

static void sizes_out_of_range(void) {
    static const uint8_t many[65536] = {0};
    WANT(nadkhoy_live_open(many, 65536, 1, 2, 9, &waiter), NADKHOY_RANGE);
    WANT(nadkhoy_live_open(lows, 1, 8388609, 2, 9, &waiter), NADKHOY_RANGE);
    WANT(nadkhoy_live_open(lows, 1, 1, 0, 9, &waiter), NADKHOY_RANGE);
    WANT(nadkhoy_live_open(lows, 1, 1, 65, 9, &waiter), NADKHOY_RANGE);
    WANT(nadkhoy_live_open(lows, 1, 1, 2, 1048577, &waiter), NADKHOY_RANGE);
    WANT(nadkhoy_live_leave(&waiter), NADKHOY_CLOSED);
    WANT(nadkhoy_live_open(many, 65535, 1, 64, 0, &waiter), NADKHOY_DONE);
    says(&waiter, NADKHOY_CALL_HOLDS, 65534, NADKHOY_REPLY_NO);
    WANT(nadkhoy_live_leave(&waiter), NADKHOY_DONE);
}

/* The largest service asks for more than the address space that is left. */
static void no_memory(void) {
    struct rlimit before, small;
    WANT(getrlimit(RLIMIT_AS, &before), 0);
    small = before;
    small.rlim_cur = 1u << 28;
    WANT(setrlimit(RLIMIT_AS, &small), 0);
    WANT(nadkhoy_live_open(lows, 1, 1, 64, 1048576, &waiter), NADKHOY_MEMORY);
    WANT(setrlimit(RLIMIT_AS, &before), 0);
    WANT(nadkhoy_live_leave(&waiter), NADKHOY_CLOSED);
}

/* Each request for memory of an opening is refused, one at a time: the slot stays empty, and what
 * was granted is given back. */
static void openings_without_memory(void) {
    uint32_t status = NADKHOY_MEMORY;
    for (row = 0; status == NADKHOY_MEMORY; row++) {
        WANT(blocks, 0);
        WANT(nadkhoy_live_leave(&waiter), NADKHOY_CLOSED);
        refuse_after((long)row);
        status = nadkhoy_live_open(lows, 1, 1, 3, 9, &waiter);
        WANT(has_refused(), status == NADKHOY_MEMORY);
    }
    WANT(status, NADKHOY_DONE);
    WANT(row > 1 && blocks > 0, 1);
    WANT(nadkhoy_live_leave(&waiter), NADKHOY_DONE);
    WANT(blocks, 0);
}

/* The same of a share: the pass stays with the seat that was to give it. */
static void shares_without_memory(void) {
    uint32_t status = NADKHOY_MEMORY, thread = 77;
    WANT(nadkhoy_live_open(lows, 1, 1, 2, 9, &waiter), NADKHOY_DONE);
    long held = blocks;
    for (row = 0; status == NADKHOY_MEMORY; row++) {
        WANT(blocks, held);
        WANT(nadkhoy_live_leave(&other), NADKHOY_CLOSED);
        refuse_after((long)row);
        status = nadkhoy_live_share(&waiter, &other);
        WANT(has_refused(), status == NADKHOY_MEMORY);
    }
    WANT(status, NADKHOY_DONE);
    WANT(row > 1, 1);
    WANT(nadkhoy_live_thread(&waiter, &thread), NADKHOY_DONE);
    WANT(thread, 2);
    WANT(nadkhoy_live_thread(&other, &thread), NADKHOY_DONE);
    WANT(thread, 1);
    leave_both();
}

/* A seat that was refused memory for a close makes calls, and shares a pass if one came back: how
 * many did. */
static int goes_on_unclosed(nadkhoy_end_slot *end) {
    nadkhoy_end_shown sizes;
    uint32_t status;
    WANT(nadkhoy_end_sizes(end, &sizes), NADKHOY_CLOSED);
    says(&waiter, NADKHOY_CALL_HOLDS, 0, NADKHOY_REPLY_NO);
    status = nadkhoy_live_share(&waiter, &other);
    if (status == NADKHOY_NO_PASS) return 0;
    WANT(status, NADKHOY_DONE);
    says(&other, NADKHOY_CALL_HOLDS, 0, NADKHOY_REPLY_NO);
    WANT(nadkhoy_live_leave(&other), NADKHOY_DONE);
    return 1;
}

static int shared_again;

/* Makes a close with a request for memory refused, and makes it again where one was. */
static bool close_meets_refusal(long granted) {
    nadkhoy_end_slot end = NADKHOY_EMPTY;
    nadkhoy_end_shown sizes;
    open_both(9);
    tells(&other, 7);
    WANT(nadkhoy_live_leave(&other), NADKHOY_DONE);
    refuse_after(granted);
    uint32_t status = nadkhoy_live_close(&waiter, &end);
    bool refused = has_refused();
    if (refused) {
        WANT(status, NADKHOY_MEMORY);
        shared_again += goes_on_unclosed(&end);
        status = nadkhoy_live_close(&waiter, &end);
    }
    WANT(status, NADKHOY_DONE);
    WANT(nadkhoy_live_leave(&waiter), NADKHOY_CLOSED);
    WANT(nadkhoy_end_sizes(&end, &sizes), NADKHOY_DONE);
    WANT(sizes.deeds, 1);
    WANT(sizes.passes, 2);
    WANT(nadkhoy_end_free(&end), NADKHOY_DONE);
    WANT(blocks, 0);
    return refused;
}

static void closes_without_memory(void) {
    row = 0;
    while (close_meets_refusal((long)row)) row++;
    WANT(row > 0 && shared_again > 0, 1);
}

static void slots_and_passes(void) {
    nadkhoy_live_slot third = NADKHOY_EMPTY;
    uint32_t thread;
    open_both(9);
    WANT(nadkhoy_live_open(lows, 1, 1, 0, 9, &waiter), NADKHOY_IN_USE);
    WANT(nadkhoy_live_share(&waiter, &other), NADKHOY_IN_USE);
    WANT(nadkhoy_live_share(&waiter, &third), NADKHOY_NO_PASS);
    WANT(nadkhoy_live_share(&other, &third), NADKHOY_NO_PASS);
    WANT(nadkhoy_live_leave(&third), NADKHOY_CLOSED);
    WANT(nadkhoy_live_thread(&waiter, &thread), NADKHOY_DONE);
    WANT(thread, 2);
    /* The service lasts until the last seat leaves it. */
    WANT(nadkhoy_live_leave(&waiter), NADKHOY_DONE);
    WANT(nadkhoy_live_leave(&waiter), NADKHOY_CLOSED);
    says(&other, NADKHOY_CALL_ENTER, 0, NADKHOY_REPLY_ENTERED);
    WANT(nadkhoy_live_thread(&other, &thread), NADKHOY_DONE);
    WANT(thread, 1);
    WANT(nadkhoy_live_leave(&other), NADKHOY_DONE);
}

/* A service is closed by its last seat alone, into a slot that is empty; passes that came back are
 * all there, also those that had no seat. */
static void a_close(void) {
    nadkhoy_end_slot end = NADKHOY_EMPTY, full = NADKHOY_EMPTY;
    nadkhoy_end_shown sizes;
    nadkhoy_deed deed;
    nadkhoy_pass pass;
    uint32_t word;
    WANT(nadkhoy_live_open(lows, 1, 1, 1, 0, &other), NADKHOY_DONE);
    WANT(nadkhoy_live_close(&other, &full), NADKHOY_DONE);
    WANT(nadkhoy_live_open(lows, 1, 1, 64, 9, &waiter), NADKHOY_DONE);
    WANT(nadkhoy_live_share(&waiter, &other), NADKHOY_DONE);
    WANT(nadkhoy_live_close(&waiter, &full), NADKHOY_IN_USE);
    WANT(nadkhoy_live_close(&waiter, &end), NADKHOY_OTHER_SEATS);
    tells(&other, 7);
    says(&other, NADKHOY_CALL_ENTER, 0, NADKHOY_REPLY_ENTERED);
    WANT(nadkhoy_live_leave(&waiter), NADKHOY_DONE);
    WANT(nadkhoy_live_close(&other, &end), NADKHOY_DONE);
    WANT(nadkhoy_live_leave(&other), NADKHOY_CLOSED);
    WANT(nadkhoy_end_sizes(&end, &sizes), NADKHOY_DONE);
    WANT(sizes.objects, 1);
    WANT(sizes.deeds, 1);
    WANT(sizes.passes, 64);
    WANT(nadkhoy_end_deed(&end, 0, &deed), NADKHOY_DONE);
    WANT(deed.kind, NADKHOY_DEED_TICKED);
    WANT(deed.thread, 63);
    WANT(deed.moment, 7);
    WANT(nadkhoy_end_deed(&end, 1, &deed), NADKHOY_NO_DEED);
    WANT(deed.kind, NADKHOY_DEED_TICKED);
    WANT(deed.moment, 7);
    WANT(nadkhoy_end_word(&end, 0, &word), NADKHOY_DONE);
    WANT(word, 0x3F00A5); /* held once by the thread 63 */
    for (uint32_t i = 0; i < 64; i++) {
        WANT(nadkhoy_end_pass(&end, i, &pass), NADKHOY_DONE);
        WANT(pass.deeds, pass.thread == 63);
    }
    WANT(nadkhoy_end_free(&end), NADKHOY_DONE);
    WANT(nadkhoy_end_free(&full), NADKHOY_DONE);
}

static void calls_that_are_refused(void) {
    nadkhoy_call wait = call_of(NADKHOY_CALL_WAIT, 0);
    open_both(32);
    says(&waiter, NADKHOY_CALL_ENTER, 0, NADKHOY_REPLY_ENTERED);
    turned.reply = 99;
    WANT(nadkhoy_live_turn(&waiter, &turned), NADKHOY_NOT_CALLING);
    WANT(begin(&waiter, 0, 0), NADKHOY_NO_STEP);
    WANT(begin(&waiter, NADKHOY_CALL_END, 0), NADKHOY_NO_STEP);
    WANT(begin(&waiter, 11, 0), NADKHOY_NO_STEP);
    WANT(begin(&waiter, NADKHOY_CALL_ENTER, 1), NADKHOY_LIVE_NO_OBJECT);
    WANT(begin(&waiter, NADKHOY_CALL_INTERRUPT, 0), NADKHOY_LIVE_NO_THREAD);
    WANT(begin(&waiter, NADKHOY_CALL_IS_INTERRUPTED, 3), NADKHOY_LIVE_NO_THREAD);
    WANT(turned.reply, 99);
    wait.millis = -1;
    WANT(nadkhoy_live_begin(&waiter, &wait, &turned), NADKHOY_DONE);
    WANT(turned.reply, NADKHOY_REPLY_ILLEGAL_ARGUMENT);
    wait.millis = 0;
    parks(&waiter, &wait);
    turned.reply = 99;
    WANT(begin(&waiter, NADKHOY_CALL_NOTIFY, 0), NADKHOY_IN_CALL);
    WANT(begin(&waiter, NADKHOY_CALL_INTERRUPTED, 0), NADKHOY_IN_CALL);
    WANT(turned.reply, 99);
    turns_to(&waiter, NADKHOY_STANDING_PARKED, 0, 0);
    leave_both();
}

/* A wait finds places for its bind, and none for its action; the owner leaves all the same. */
static void a_small_record(void) {
    nadkhoy_call wait = call_of(NADKHOY_CALL_WAIT, 0);
    uint32_t told = 77;
    open_both(2);
    says(&waiter, NADKHOY_CALL_ENTER, 0, NADKHOY_REPLY_ENTERED);
    turned.reply = 99;
    WANT(nadkhoy_live_begin(&waiter, &wait, &turned), NADKHOY_RECORD_FULL);
    WANT(begin(&waiter, NADKHOY_CALL_NOTIFY, 0), NADKHOY_RECORD_FULL);
    WANT(begin(&other, NADKHOY_CALL_ENTER, 0), NADKHOY_RECORD_FULL);
    WANT(nadkhoy_live_tick(&other, 1, &told), NADKHOY_RECORD_FULL);
    WANT(turned.reply, 99);
    WANT(told, 77);
    says(&waiter, NADKHOY_CALL_EXIT, 0, NADKHOY_REPLY_EXITED);
    leave_both();
}

static double seconds(void) {
    struct timespec now;
    clock_gettime(CLOCK_MONOTONIC, &now);
    return (double)now.tv_sec + (double)now.tv_nsec / 1e9;
}

static void pairs_by_calls(long rounds) {
    const nadkhoy_call enter = {0, 0, NADKHOY_CALL_ENTER, 0};
    const nadkhoy_call leave = {0, 0, NADKHOY_CALL_EXIT, 0};
    long said = 0;
    for (long i = 0; i < rounds; i++) {
        nadkhoy_live_begin(&waiter, &enter, &turned);
        said += turned.reply == NADKHOY_REPLY_ENTERED;
        nadkhoy_live_begin(&waiter, &leave, &turned);
        said += turned.reply == NADKHOY_REPLY_EXITED;
    }
    WANT(said, 2 * rounds);
}

static shared_word bare;

static void bare_firsts(long rounds) {
    long won = 0;
    for (long i = 0; i < rounds; i++) {
        uint32_t free_word = 0;
        won += atomic_compare_exchange_strong(&bare, &free_word, 0x10000u);
        atomic_store(&bare, 0u);
    }
    WANT(won, rounds);
}

static void bare_nests(long rounds) {
    for (long i = 0; i < rounds; i++) {
        atomic_store(&bare, 0x10100u);
        atomic_store(&bare, 0x10000u);
    }
    atomic_store(&bare, 0u);
}

/* The least that calls can do which load the word before they change it: each finds the word by one
 * pointer, loads it, and makes one atomic operation on it. Nothing of the service is in them. */
struct words {
    shared_word *at;
};

static int lock_word(struct words *words, uint32_t object) {
    uint32_t found = atomic_load(&words->at[object]);
    return found == 0u && atomic_compare_exchange_strong(&words->at[object], &found, 0x10000u);
}

static int unlock_word(struct words *words, uint32_t object) {
    if (atomic_load(&words->at[object]) != 0x10000u) return 0;
    atomic_store(&words->at[object], 0u);
    return 1;
}

static int nest_word(struct words *words, uint32_t object) {
    if (atomic_load(&words->at[object]) != 0x10000u) return 0;
    atomic_store(&words->at[object], 0x10100u);
    return 1;
}

static int unnest_word(struct words *words, uint32_t object) {
    if (atomic_load(&words->at[object]) != 0x10100u) return 0;
    atomic_store(&words->at[object], 0x10000u);
    return 1;
}

typedef int word_call(struct words *, uint32_t);

static void pairs_by_hand(word_call *volatile first, word_call *volatile second, long rounds) {
    struct words words = {&bare};
    long done = 0;
    for (long i = 0; i < rounds; i++) done += first(&words, 0) + second(&words, 0);
    WANT(done, 2 * rounds);
}

static void hand_firsts(long rounds) { pairs_by_hand(lock_word, unlock_word, rounds); }

static void hand_nests(long rounds) {
    atomic_store(&bare, 0x10000u);
    pairs_by_hand(nest_word, unnest_word, rounds);
    atomic_store(&bare, 0u);
}

static double faster(double before, void (*work)(long), long rounds) {
    double start = seconds();
    work(rounds);
    double took = (seconds() - start) * 1e9 / (double)rounds;
    return took < before ? took : before;
}

static void print_pair(const char *name, void (*plain)(long), void (*hand)(long)) {
    const long rounds = 1000000;
    double calls = 1e9, atomics = 1e9, least = 1e9;
    for (int run = 0; run < 9; run++) {
        calls = faster(calls, pairs_by_calls, rounds);
        atomics = faster(atomics, plain, rounds);
        least = faster(least, hand, rounds);
    }
    printf("a pair of enter and exit, %s: %.1f ns by calls; %.1f ns bare, %.2f times; %.1f ns by "
           "calls by hand that load the word, %.2f times\n",
           name, calls, atomics, calls / atomics, least, calls / least);
}

static void time_pairs(void) {
    open_both(0);
    print_pair("first", bare_firsts, hand_firsts);
    says(&waiter, NADKHOY_CALL_ENTER, 0, NADKHOY_REPLY_ENTERED);
    print_pair("nested", bare_nests, hand_nests);
    says(&waiter, NADKHOY_CALL_EXIT, 0, NADKHOY_REPLY_EXITED);
    leave_both();
}

int main(int count, char **arguments) {
    an_empty_slot();
    sizes_out_of_range();
    no_memory();
    openings_without_memory();
    shares_without_memory();
    closes_without_memory();
    slots_and_passes();
    a_close();
    calls_that_are_refused();
    a_small_record();
    a_thread_meets_another();
    a_notify_ends_a_wait();
    a_tick_ends_a_wait();
    an_interrupt_ends_a_wait();
    make_bells();
    run_threads();
    if (count > 1 && strcmp(arguments[1], "time") == 0) time_pairs();
    WANT(blocks, 0);
    puts("as wanted");
    return 0;
}
