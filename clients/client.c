/* Plays a scenario over the core: two threads enter, contend, wait, notify; one holds 257 times.
 * With the argument `time` it prints what a step costs, too. */
#define _POSIX_C_SOURCE 200809L
#include "host_memory.h"
#include "world.h"

#include <time.h>

static void attach_two(void) {
    static const uint8_t lows[1] = {0xA5};
    nadkhoy_object_shown shown;
    nadkhoy_thread_shown thread;
    uint32_t answer;
    WANT(nadkhoy_open(lows, 1, 1, 2, NADKHOY_SPLIT_WIDE, &slot), NADKHOY_DONE);
    WANT(step(NADKHOY_STEP_ATTACH, 10), NADKHOY_DONE);
    WANT(did.moves[0].kind, NADKHOY_MOVE_ATTACH);
    WANT(step(NADKHOY_STEP_ATTACH, 10), NADKHOY_KNOWN);
    WANT(step(NADKHOY_STEP_ATTACH, 20), NADKHOY_DONE);
    WANT(step(NADKHOY_STEP_ATTACH, 30), NADKHOY_NO_INDEX);
    WANT(nadkhoy_holder(&slot, 2, &answer), NADKHOY_DONE);
    WANT(answer, 20);
    WANT(nadkhoy_object(&slot, 0, &shown), NADKHOY_DONE);
    WANT(shown.word, 0x000000A5);
    WANT(shown.is_owned, 0);
    WANT(shown.holds, 0);
    WANT(nadkhoy_waiting(&slot, 0, 10, &answer), NADKHOY_DONE);
    WANT(answer, 0);
    WANT(nadkhoy_thread(&slot, 10, &thread), NADKHOY_DONE);
    WANT(thread.index, 1);
    WANT(thread.is_interrupted, 0);
    WANT(thread.doing.kind, NADKHOY_DOING_IDLE);
    WANT(begin(10, NADKHOY_CALL_ENTER, 1), NADKHOY_MISSING_OBJECT);
}

static void contend(void) {
    WANT(call(10, NADKHOY_CALL_ENTER, 0), NADKHOY_REPLY_ENTERED);
    WANT(did.atomic.kind, NADKHOY_ATOMIC_WON);
    WANT(did.atomic.before, 0x000000A5);
    WANT(did.atomic.after, 0x000100A5);
    WANT(did.moves[0].kind, NADKHOY_MOVE_LOCK);
    WANT(did.moves[1].kind, NADKHOY_MOVE_RETURN);
    WANT(did.moves[1].reply, NADKHOY_REPLY_ENTERED);
    WANT(did.moves[2].kind, 0);
    /* The other thread meets a thin word, and spins. */
    WANT(call(20, NADKHOY_CALL_ENTER, 0), 0);
    WANT(did.atomic.kind, NADKHOY_ATOMIC_LOAD);
    WANT(step(NADKHOY_STEP_TICK, 0), NADKHOY_DONE);
}

static void wait_and_notify(void) {
    nadkhoy_object_shown shown;
    nadkhoy_thread_shown thread;
    uint32_t answer;
    /* A wait inflates the lock and gives it up; the other thread has it then. */
    WANT(call(10, NADKHOY_CALL_WAIT, 0), 0);
    WANT(did.atomic.answer, NADKHOY_ANSWER_PARKED);
    WANT(step(NADKHOY_STEP_GO, 10), NADKHOY_PARKED);
    WANT(nadkhoy_waiting(&slot, 0, 10, &answer), NADKHOY_DONE);
    WANT(answer, 1);
    WANT(nadkhoy_thread(&slot, 10, &thread), NADKHOY_DONE);
    WANT(thread.doing.kind, NADKHOY_DOING_WAITS);
    WANT(thread.doing.holds, 1);
    WANT(step(NADKHOY_STEP_EXPIRE, 10), NADKHOY_NOT_DUE);
    WANT(turn(20), NADKHOY_REPLY_ENTERED);
    WANT(nadkhoy_object(&slot, 0, &shown), NADKHOY_DONE);
    WANT(shown.is_owned, 1);
    WANT(shown.owner, 20);
    WANT(call(20, NADKHOY_CALL_NOTIFY, 0), NADKHOY_REPLY_NOTIFIED);
    WANT(did.moves[0].kind, NADKHOY_MOVE_NOTIFY);
    WANT(did.moves[0].has_chosen, 1);
    WANT(did.moves[0].chosen, 10);
    WANT(step(NADKHOY_STEP_SPURIOUS, 10), NADKHOY_NOT_WAITING);
    WANT(call(20, NADKHOY_CALL_EXIT, 0), NADKHOY_REPLY_EXITED);
    WANT(did.moves[1].kind, NADKHOY_MOVE_RELOCK);
    WANT(did.moves[1].thread, 10);
    WANT(turn(10), NADKHOY_REPLY_WAIT_OVER);
    WANT(call(10, NADKHOY_CALL_EXIT, 0), NADKHOY_REPLY_EXITED);
    WANT(call(10, NADKHOY_CALL_EXIT, 0), NADKHOY_REPLY_ILLEGAL_MONITOR_STATE);
    WANT(nadkhoy_free(&slot), NADKHOY_DONE);
    WANT(nadkhoy_free(&slot), NADKHOY_CLOSED);
}

static void hold_often(void) {
    static const uint8_t lows[2] = {0xA5, 0};
    nadkhoy_object_shown shown;
    uint32_t inflated;
    WANT(nadkhoy_open(lows, 2, 1, 2, NADKHOY_SPLIT_WIDE, &slot), NADKHOY_DONE);
    WANT(step(NADKHOY_STEP_ATTACH, 1), NADKHOY_DONE);
    for (int i = 0; i < 256; i++) WANT(call(1, NADKHOY_CALL_ENTER, 0), NADKHOY_REPLY_ENTERED);
    WANT(nadkhoy_object(&slot, 0, &shown), NADKHOY_DONE);
    WANT(shown.word, 0x0001FFA5);
    WANT(call(1, NADKHOY_CALL_ENTER, 0), NADKHOY_REPLY_ENTERED);
    WANT(nadkhoy_object(&slot, 0, &shown), NADKHOY_DONE);
    WANT(shown.word, 0x800000A5);
    WANT(shown.holds, 257);
    for (int i = 0; i < 256; i++) WANT(call(1, NADKHOY_CALL_ENTER, 1), NADKHOY_REPLY_ENTERED);
    WANT(call(1, NADKHOY_CALL_ENTER, 1), NADKHOY_REPLY_REFUSED);
    WANT(did.cause, NADKHOY_CAUSE_NO_MONITOR);
    WANT(nadkhoy_relayout(&slot, NADKHOY_SPLIT_DEEP, &inflated), NADKHOY_DONE);
    WANT(inflated, 0);
    WANT(begin(1, NADKHOY_CALL_HOLDS, 1), NADKHOY_DONE);
    WANT(did.moves[0].kind, NADKHOY_MOVE_CALL);
    WANT(did.moves[0].call.kind, NADKHOY_CALL_HOLDS);
    WANT(did.moves[0].call.target, 1);
    WANT(nadkhoy_relayout(&slot, NADKHOY_SPLIT_WIDE, &inflated), NADKHOY_NOT_AT_REST);
    WANT(turn(1), NADKHOY_REPLY_YES);
}

static double seconds(void) {
    struct timespec now;
    clock_gettime(CLOCK_MONOTONIC, &now);
    return (double)now.tv_sec + (double)now.tv_nsec / 1e9;
}

static void time_steps(void) {
    const long rounds = 2000000;
    double best = 1e9;
    for (int run = 0; run < 5; run++) {
        double start = seconds();
        for (long i = 0; i < rounds; i++) {
            begin(1, NADKHOY_CALL_HOLDS, 1);
            step(NADKHOY_STEP_GO, 1);
        }
        double took = seconds() - start;
        if (took < best) best = took;
    }
    printf("a step: %.1f ns\n", best * 1e9 / (2.0 * (double)rounds));
}

int main(int count, char **arguments) {
    attach_two();
    contend();
    wait_and_notify();
    hold_often();
    if (count > 1 && strcmp(arguments[1], "time") == 0) time_steps();
    WANT(nadkhoy_free(&slot), NADKHOY_DONE);
    WANT(blocks, 0);
    puts("as wanted");
    return 0;
}
