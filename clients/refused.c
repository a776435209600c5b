/* Makes each mistake over the core that has a status, meets each fault of a step and of a relayout,
 * and refuses each request for memory, one at a time. The status is told, nothing is written, and
 * the world shows what it did before. */
#include "host_memory.h"
#include "world.h"

#include <inttypes.h>
#include <stdarg.h>

static uint32_t inflated;

static void an_empty_slot(void) {
    uint32_t number = 77;
    nadkhoy_object_shown shown;
    nadkhoy_thread_shown thread;
    nadkhoy_sizes_shown sizes;
    did.reply = 99;
    WANT(step(NADKHOY_STEP_ATTACH, 1), NADKHOY_CLOSED);
    WANT(did.reply, 99);
    WANT(nadkhoy_free(&slot), NADKHOY_CLOSED);
    WANT(nadkhoy_relayout(&slot, NADKHOY_SPLIT_DEEP, &number), NADKHOY_CLOSED);
    WANT(nadkhoy_sizes(&slot, &sizes), NADKHOY_CLOSED);
    WANT(nadkhoy_object(&slot, 0, &shown), NADKHOY_CLOSED);
    WANT(nadkhoy_thread(&slot, 1, &thread), NADKHOY_CLOSED);
    WANT(nadkhoy_waiting(&slot, 0, 1, &number), NADKHOY_CLOSED);
    WANT(nadkhoy_holder(&slot, 1, &number), NADKHOY_CLOSED);
    WANT(number, 77);
}

static void refused_openings(void) {
    static const uint8_t many[65536] = {0};
    WANT(nadkhoy_open(many, 1, 1, 2, 3, &slot), NADKHOY_NO_SPLIT);
    WANT(nadkhoy_open(many, 65536, 1, 2, NADKHOY_SPLIT_WIDE, &slot), NADKHOY_RANGE);
    WANT(nadkhoy_open(many, 1, 8388609, 2, NADKHOY_SPLIT_WIDE, &slot), NADKHOY_RANGE);
    WANT(nadkhoy_open(many, 1, 1, 0, NADKHOY_SPLIT_WIDE, &slot), NADKHOY_RANGE);
    WANT(nadkhoy_open(many, 1, 1, 32768, NADKHOY_SPLIT_WIDE, &slot), NADKHOY_RANGE);
    WANT(nadkhoy_open(many, 1, 1, 2048, NADKHOY_SPLIT_DEEP, &slot), NADKHOY_RANGE);
    WANT(nadkhoy_free(&slot), NADKHOY_CLOSED);
}

static void what_is_not_there(void) {
    static const uint8_t lows[1] = {0xA5};
    uint32_t number = 77;
    nadkhoy_object_shown shown;
    nadkhoy_thread_shown thread;
    nadkhoy_sizes_shown sizes;
    did.reply = 99;
    WANT(nadkhoy_open(lows, 1, 1, 2, NADKHOY_SPLIT_WIDE, &slot), NADKHOY_DONE);
    WANT(nadkhoy_open(lows, 1, 1, 2, NADKHOY_SPLIT_WIDE, &slot), NADKHOY_IN_USE);
    WANT(step(7, 1), NADKHOY_NO_STEP);
    WANT(begin(1, 11, 0), NADKHOY_NO_STEP);
    WANT(begin(1, NADKHOY_CALL_ENTER, 0), NADKHOY_NOT_LIVE);
    WANT(did.reply, 99);
    WANT(nadkhoy_object(&slot, 1, &shown), NADKHOY_NO_OBJECT);
    WANT(nadkhoy_thread(&slot, 1, &thread), NADKHOY_NO_THREAD);
    WANT(nadkhoy_holder(&slot, 1, &number), NADKHOY_NO_THREAD);
    WANT(nadkhoy_waiting(&slot, 1, 1, &number), NADKHOY_NO_OBJECT);
    WANT(step(NADKHOY_STEP_GO, 1), NADKHOY_NOT_LIVE);
    WANT(nadkhoy_relayout(&slot, 0, &number), NADKHOY_NO_SPLIT);
    WANT(number, 77);
    WANT(nadkhoy_sizes(&slot, &sizes), NADKHOY_DONE);
    WANT(sizes.moment, 0);
    WANT(sizes.objects, 1);
    WANT(sizes.indices, 2);
    WANT(nadkhoy_free(&slot), NADKHOY_DONE);
}

/* What all readers tell of a world whose threads have the numbers 1 to MOST_THREADS, as text. */
enum { MOST_THREADS = 4 };

typedef struct reading {
    size_t length;
    char text[4096];
} reading;

static void tell(reading *all, const char *format, ...) {
    size_t room = sizeof all->text - all->length;
    va_list numbers;
    va_start(numbers, format);
    int added = vsnprintf(all->text + all->length, room, format, numbers);
    va_end(numbers);
    WANT(added >= 0 && (size_t)added < room, 1);
    all->length += (size_t)added;
}

static void read_object(reading *all, uint32_t object) {
    nadkhoy_object_shown shown;
    WANT(nadkhoy_object(&slot, object, &shown), NADKHOY_DONE);
    tell(all, "object %" PRIu32 ": %08" PRIX32 " %" PRIu32 " %" PRIu32 " %" PRIu32 "\n", object,
         shown.word, shown.is_owned, shown.owner, shown.holds);
    for (uint32_t thread = 1; thread <= MOST_THREADS; thread++) {
        uint32_t waits;
        WANT(nadkhoy_waiting(&slot, object, thread, &waits), NADKHOY_DONE);
        tell(all, "%" PRIu32 " waits: %" PRIu32 "\n", thread, waits);
    }
}

static void tell_doing(reading *all, const nadkhoy_doing *doing) {
    tell(all, "%" PRIu32 " %" PRIu32 " %" PRIu32 " %" PRIu32 " %" PRIu32 " %" PRIu32 "\n",
         doing->kind, doing->object, doing->holds, doing->why, doing->reply, doing->cause);
    tell(all, "until %" PRIu32 " %" PRIu64 " %" PRIu64 "\n", doing->has_deadline,
         doing->deadline_high, doing->deadline_low);
    tell(all, "call %" PRIu32 " %" PRIu32 " %" PRId64 " %" PRId32 "\n", doing->call.kind,
         doing->call.target, doing->call.millis, doing->call.nanos);
}

/* A thread that need not be live, and the holder of the index with the same number. */
static void read_thread(reading *all, uint32_t number) {
    nadkhoy_thread_shown shown;
    uint32_t holder = 0;
    uint32_t status = nadkhoy_thread(&slot, number, &shown);
    tell(all, "thread %" PRIu32 ": status %" PRIu32 "\n", number, status);
    if (status == NADKHOY_DONE) {
        tell(all, "%" PRIu32 " %" PRIu32 "\n", shown.index, shown.is_interrupted);
        tell_doing(all, &shown.doing);
    }
    status = nadkhoy_holder(&slot, (uint16_t)number, &holder);
    tell(all, "holder: status %" PRIu32 " %" PRIu32 "\n", status, holder);
}

static void read_world(reading *all) {
    nadkhoy_sizes_shown sizes;
    all->length = 0;
    WANT(nadkhoy_sizes(&slot, &sizes), NADKHOY_DONE);
    tell(all, "%" PRIu64 " %" PRIu32 " %" PRIu32 "\n", sizes.moment, sizes.objects, sizes.indices);
    for (uint32_t object = 0; object < sizes.objects; object++) read_object(all, object);
    for (uint32_t thread = 1; thread <= MOST_THREADS; thread++) read_thread(all, thread);
}

static reading before;

/* Notes what the world shows, and marks what a call would write. */
static void mark(void) {
    read_world(&before);
    memset(&did, 0x5A, sizeof did);
    inflated = 77;
}

/* Since the mark nothing was written, and the world shows what it did. */
static void want_as_marked(void) {
    static reading after;
    nadkhoy_did unwritten;
    memset(&unwritten, 0x5A, sizeof unwritten);
    WANT(memcmp(&did, &unwritten, sizeof did), 0);
    WANT(inflated, 77);
    read_world(&after);
    WANT(strcmp(after.text, before.text), 0);
}

static uint32_t tick(uint64_t moment) {
    nadkhoy_step_in in;
    memset(&in, 0, sizeof in);
    in.kind = NADKHOY_STEP_TICK;
    in.moment = moment;
    return nadkhoy_step(&slot, &in, &did);
}

/* A world of three indices, at the moment 1000: thread 1 owns object 1, and is in no call; thread 2
 * is in a call of holds; and thread 3 waits on object 0, for 5000007 nanoseconds. */
static void open_busy_world(void) {
    static const uint8_t lows[2] = {0xA5, 0};
    nadkhoy_step_in wait = {NADKHOY_STEP_BEGIN, 3, 0, {5, 7, NADKHOY_CALL_WAIT, 0}};
    WANT(nadkhoy_open(lows, 2, 1, 3, NADKHOY_SPLIT_WIDE, &slot), NADKHOY_DONE);
    for (uint32_t i = 1; i <= 3; i++) WANT(step(NADKHOY_STEP_ATTACH, i), NADKHOY_DONE);
    WANT(tick(1000), NADKHOY_DONE);
    WANT(did.moves[0].kind, NADKHOY_MOVE_TIME);
    WANT(did.moves[0].moment, 1000);
    WANT(call(1, NADKHOY_CALL_ENTER, 1), NADKHOY_REPLY_ENTERED);
    WANT(call(3, NADKHOY_CALL_ENTER, 0), NADKHOY_REPLY_ENTERED);
    WANT(nadkhoy_step(&slot, &wait, &did), NADKHOY_DONE);
    WANT(turn(3), 0);
    WANT(did.atomic.answer, NADKHOY_ANSWER_PARKED);
    WANT(begin(2, NADKHOY_CALL_HOLDS, 1), NADKHOY_DONE);
}

#define NO_CALL {0, 0, 0, 0}
#define CALL(kind, target) {0, 0, NADKHOY_CALL_##kind, target}

/* A step in the busy world, and the first of its faults that hold. */
static const struct refused_step {
    nadkhoy_step_in step;
    uint32_t status;
} refused_steps[] = {
    {{0, 1, 0, NO_CALL}, NADKHOY_NO_STEP},
    {{7, 1, 0, NO_CALL}, NADKHOY_NO_STEP},
    {{NADKHOY_STEP_BEGIN, 1, 0, NO_CALL}, NADKHOY_NO_STEP},
    {{NADKHOY_STEP_BEGIN, 1, 0, {0, 0, 11, 0}}, NADKHOY_NO_STEP},
    {{NADKHOY_STEP_ATTACH, 1, 0, NO_CALL}, NADKHOY_KNOWN},
    {{NADKHOY_STEP_ATTACH, 3, 0, NO_CALL}, NADKHOY_KNOWN},
    {{NADKHOY_STEP_ATTACH, 4, 0, NO_CALL}, NADKHOY_NO_INDEX},
    {{NADKHOY_STEP_BEGIN, 4, 0, CALL(ENTER, 2)}, NADKHOY_NOT_LIVE},
    {{NADKHOY_STEP_BEGIN, 1, 0, CALL(ENTER, 2)}, NADKHOY_MISSING_OBJECT},
    {{NADKHOY_STEP_BEGIN, 2, 0, CALL(ENTER, 2)}, NADKHOY_MISSING_OBJECT},
    {{NADKHOY_STEP_BEGIN, 2, 0, CALL(HOLDS, 1)}, NADKHOY_IN_CALL},
    {{NADKHOY_STEP_BEGIN, 3, 0, CALL(INTERRUPTED, 0)}, NADKHOY_IN_CALL},
    {{NADKHOY_STEP_GO, 4, 0, NO_CALL}, NADKHOY_NOT_LIVE},
    {{NADKHOY_STEP_GO, 1, 0, NO_CALL}, NADKHOY_NOT_CALLING},
    {{NADKHOY_STEP_GO, 3, 0, NO_CALL}, NADKHOY_PARKED},
    {{NADKHOY_STEP_EXPIRE, 4, 0, NO_CALL}, NADKHOY_NOT_LIVE},
    {{NADKHOY_STEP_EXPIRE, 1, 0, NO_CALL}, NADKHOY_NOT_DUE},
    {{NADKHOY_STEP_EXPIRE, 3, 0, NO_CALL}, NADKHOY_NOT_DUE},
    {{NADKHOY_STEP_SPURIOUS, 4, 0, NO_CALL}, NADKHOY_NOT_LIVE},
    {{NADKHOY_STEP_SPURIOUS, 2, 0, NO_CALL}, NADKHOY_NOT_WAITING},
    {{NADKHOY_STEP_TICK, 0, 999, NO_CALL}, NADKHOY_BACKWARDS},
};

static void refused_steps_change_nothing(void) {
    open_busy_world();
    for (row = 0; row < sizeof refused_steps / sizeof *refused_steps; row++) {
        mark();
        WANT(nadkhoy_step(&slot, &refused_steps[row].step, &did), refused_steps[row].status);
        want_as_marked();
    }
    /* The calls go on, and the wait is over at its moment and not before. */
    WANT(turn(2), NADKHOY_REPLY_NO);
    WANT(tick(5001006), NADKHOY_DONE);
    WANT(step(NADKHOY_STEP_EXPIRE, 3), NADKHOY_NOT_DUE);
    WANT(tick(5001007), NADKHOY_DONE);
    WANT(step(NADKHOY_STEP_EXPIRE, 3), NADKHOY_DONE);
    WANT(did.moves[0].kind, NADKHOY_MOVE_EXPIRE);
    WANT(did.moves[1].kind, NADKHOY_MOVE_RELOCK);
    WANT(did.moves[1].thread, 3);
    WANT(turn(3), NADKHOY_REPLY_WAIT_OVER);
    WANT(nadkhoy_free(&slot), NADKHOY_DONE);
}

static void refuses_relayout(uint32_t split, uint32_t status) {
    mark();
    WANT(nadkhoy_relayout(&slot, split, &inflated), status);
    want_as_marked();
}

static void too_many_indices(void) {
    static const uint8_t lows[1] = {0xA5};
    WANT(nadkhoy_open(lows, 1, 1, 2048, NADKHOY_SPLIT_WIDE, &slot), NADKHOY_DONE);
    WANT(step(NADKHOY_STEP_ATTACH, 1), NADKHOY_DONE);
    WANT(begin(1, NADKHOY_CALL_ENTER, 0), NADKHOY_DONE);
    refuses_relayout(0, NADKHOY_NO_SPLIT);
    refuses_relayout(3, NADKHOY_NO_SPLIT);
    refuses_relayout(NADKHOY_SPLIT_DEEP, NADKHOY_NOT_AT_REST);
    refuses_relayout(NADKHOY_SPLIT_WIDE, NADKHOY_NOT_AT_REST);
    WANT(turn(1), NADKHOY_REPLY_ENTERED);
    refuses_relayout(NADKHOY_SPLIT_DEEP, NADKHOY_INDEX_TOO_WIDE);
    WANT(nadkhoy_relayout(&slot, NADKHOY_SPLIT_WIDE, &inflated), NADKHOY_DONE);
    WANT(inflated, 0);
    WANT(nadkhoy_free(&slot), NADKHOY_DONE);
}

/* A deep world of two objects, which thread 1 holds 257 times each. */
static void open_deep_world(uint32_t monitors) {
    static const uint8_t lows[2] = {0xA5, 0};
    WANT(nadkhoy_open(lows, 2, monitors, 2, NADKHOY_SPLIT_DEEP, &slot), NADKHOY_DONE);
    WANT(step(NADKHOY_STEP_ATTACH, 1), NADKHOY_DONE);
    for (uint32_t i = 0; i < 2 * 257; i++)
        WANT(call(1, NADKHOY_CALL_ENTER, i % 2), NADKHOY_REPLY_ENTERED);
}

static void too_few_monitors(void) {
    nadkhoy_object_shown shown;
    open_deep_world(1);
    refuses_relayout(NADKHOY_SPLIT_WIDE, NADKHOY_NO_MONITOR);
    /* With one hold less, one of the two objects fits. */
    WANT(call(1, NADKHOY_CALL_EXIT, 1), NADKHOY_REPLY_EXITED);
    WANT(nadkhoy_relayout(&slot, NADKHOY_SPLIT_WIDE, &inflated), NADKHOY_DONE);
    WANT(inflated, 1);
    WANT(nadkhoy_object(&slot, 0, &shown), NADKHOY_DONE);
    WANT(shown.word, 0x800000A5);
    WANT(shown.holds, 257);
    WANT(nadkhoy_object(&slot, 1, &shown), NADKHOY_DONE);
    WANT(shown.word, 0x0001FF00);
    WANT(shown.holds, 256);
    WANT(nadkhoy_free(&slot), NADKHOY_DONE);
}

static void openings_without_memory(void) {
    static const uint8_t lows[2] = {0xA5, 0};
    uint32_t status = NADKHOY_MEMORY;
    for (row = 0; status == NADKHOY_MEMORY; row++) {
        WANT(blocks, 0);
        WANT(nadkhoy_free(&slot), NADKHOY_CLOSED);
        refuse_after((long)row);
        status = nadkhoy_open(lows, 2, 1, 3, NADKHOY_SPLIT_WIDE, &slot);
        WANT(has_refused(), status == NADKHOY_MEMORY);
    }
    WANT(status, NADKHOY_DONE);
    WANT(row > 1 && blocks > 0, 1);
    WANT(nadkhoy_free(&slot), NADKHOY_DONE);
    WANT(blocks, 0);
}

/* Makes a call with a request for memory refused, and makes it again where one was. */
static bool meets_refusal(long granted, void (*open)(void), uint32_t (*ask)(void)) {
    open();
    mark();
    refuse_after(granted);
    uint32_t status = ask();
    bool refused = has_refused();
    if (refused) {
        WANT(status, NADKHOY_MEMORY);
        want_as_marked();
        status = ask();
    }
    WANT(status, NADKHOY_DONE);
    WANT(nadkhoy_free(&slot), NADKHOY_DONE);
    WANT(blocks, 0);
    return refused;
}

/* Refuses each request of a call, one at a time, on worlds that are alike. */
static void without_memory(void (*open)(void), uint32_t (*ask)(void)) {
    row = 0;
    while (meets_refusal((long)row, open, ask)) row++;
    WANT(row > 0, 1);
}

static void open_small_world(void) {
    static const uint8_t lows[1] = {0xA5};
    WANT(nadkhoy_open(lows, 1, 1, 3, NADKHOY_SPLIT_WIDE, &slot), NADKHOY_DONE);
}

static uint32_t attach_one(void) {
    return step(NADKHOY_STEP_ATTACH, 1);
}

static void open_deep_world_of_two(void) {
    open_deep_world(2);
}

static uint32_t relayout_wide(void) {
    return nadkhoy_relayout(&slot, NADKHOY_SPLIT_WIDE, &inflated);
}

/* A wait whose bind is refused memory says so in its reply, and the world is as before the call. */
static bool wait_meets_refusal(long granted) {
    open_small_world();
    WANT(step(NADKHOY_STEP_ATTACH, 1), NADKHOY_DONE);
    WANT(call(1, NADKHOY_CALL_ENTER, 0), NADKHOY_REPLY_ENTERED);
    mark();
    refuse_after(granted);
    uint32_t reply = call(1, NADKHOY_CALL_WAIT, 0);
    bool refused = has_refused();
    if (refused) {
        WANT(reply, NADKHOY_REPLY_REFUSED);
        WANT(did.cause, NADKHOY_CAUSE_MEMORY);
        WANT(did.atomic.kind, NADKHOY_ATOMIC_NOT_BOUND);
        WANT(did.atomic.cause, NADKHOY_CAUSE_MEMORY);
        memset(&did, 0x5A, sizeof did);
        want_as_marked();
        reply = call(1, NADKHOY_CALL_WAIT, 0);
    }
    WANT(reply, 0);
    WANT(did.atomic.answer, NADKHOY_ANSWER_PARKED);
    WANT(nadkhoy_free(&slot), NADKHOY_DONE);
    WANT(blocks, 0);
    return refused;
}

static void waits_without_memory(void) {
    row = 0;
    while (wait_meets_refusal((long)row)) row++;
    WANT(row > 0, 1);
}

/* Calls that are over without their effect, each with its cause. */
static void replies_with_a_cause(void) {
    nadkhoy_object_shown shown;
    open_small_world();
    WANT(step(NADKHOY_STEP_ATTACH, 1), NADKHOY_DONE);
    for (int i = 0; i < 65535; i++) WANT(call(1, NADKHOY_CALL_ENTER, 0), NADKHOY_REPLY_ENTERED);
    WANT(call(1, NADKHOY_CALL_ENTER, 0), NADKHOY_REPLY_REFUSED);
    WANT(did.cause, NADKHOY_CAUSE_TOO_DEEP);
    WANT(call(1, NADKHOY_CALL_END, 0), NADKHOY_REPLY_REFUSED);
    WANT(did.cause, NADKHOY_CAUSE_STILL_OWNER);
    WANT(call(1, NADKHOY_CALL_INTERRUPT, 9), NADKHOY_REPLY_REFUSED);
    WANT(did.cause, NADKHOY_CAUSE_NO_THREAD);
    WANT(nadkhoy_object(&slot, 0, &shown), NADKHOY_DONE);
    WANT(shown.owner, 1);
    WANT(shown.holds, 65535);
    WANT(nadkhoy_free(&slot), NADKHOY_DONE);
}

int main(void) {
    an_empty_slot();
    refused_openings();
    what_is_not_there();
    refused_steps_change_nothing();
    too_many_indices();
    too_few_monitors();
    replies_with_a_cause();
    openings_without_memory();
    without_memory(open_small_world, attach_one);
    without_memory(open_deep_world_of_two, relayout_wide);
    waits_without_memory();
    puts("as wanted");
    return 0;
}
