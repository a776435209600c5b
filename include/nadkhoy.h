/* The monitor service of a Java virtual machine, for programs in C and C++: its core, and its live
 * service.
 *
 * The core (nadkhoy_open and what follows it): a world has objects, threads and fat monitors, and
 * does one atomic step at a time. docs/EMBEDDING.md says what each step means, and which faults it
 * has.
 *
 * The live service (nadkhoy_live_open and what follows it): several threads of the system share it.
 * Each has a seat at it, in a slot of its own, and drives its calls turn by turn. The last seat may
 * close it, and its end is read then (nadkhoy_end_sizes and what follows). docs/LIVE.md says what a
 * turn does, and which faults it has. docs/C.md has the loop of an interpreter over each.
 *
 * Each function answers a status. A call that is refused (a status other than NADKHOY_DONE) does
 * not write what it would have written. On a world, it leaves the world as it is; on a seat, what
 * it leaves is said at each function.
 *
 * None of the functions waits, and none calls back. Any thread of the system may call any of them,
 * one at a time for one slot, and at once for different slots, those of one service too.
 *
 * What the library cannot see, and the caller promises:
 *
 *   1. A slot, of a world, a seat or an end, is all zeros, or as the library left it. It is not
 *      copied, and its fields are not written. It may be moved, and where it was is then no slot
 *      any more.
 *   2. One call at a time has a slot; a call that is given two has both. Where a slot changes
 *      threads, a lock, the start or the join of a thread, or a sequentially consistent atomic
 *      orders the calls. Calls on different slots need no order, those of one service neither. The
 *      library takes no lock of its own.
 *   3. Each pointer is to a whole struct or number of its type, aligned, and may be written where
 *      it is not const. What one call is given does not overlap. Meanwhile nobody else writes it,
 *      or reads what is not const.
 *   4. `lows` is to at least `objects` bytes; it may be anything that is not null where `objects`
 *      is 0.
 *   5. `malloc`, `realloc` and `free` are those of one allocator, and stay so; several threads may
 *      call them at once, where several call this library.
 *   6. No call is made from a signal handler, or left before it returns. A forked child uses no
 *      world and no service that another thread was inside of at the fork.
 *   7. There is enough stack.
 *   8. A world or an end that is not freed, and a service that is not closed and that one of its
 *      seats has not left, keep their memory.
 */
#ifndef NADKHOY_H
#define NADKHOY_H

#include <stdbool.h>
#include <stddef.h>
#include <stdint.h>

#ifdef __cplusplus
extern "C" {
#endif

/* What a call answers. A number below 101 is that of a fault of the core or of the live service. */
enum nadkhoy_status {
    NADKHOY_DONE = 0,
    NADKHOY_NO_INDEX = 1,        /* attach: every index is a live thread's */
    NADKHOY_MEMORY = 2,          /* open, attach, relayout; live open, share, close: no memory */
    NADKHOY_KNOWN = 3,           /* attach: the thread is live */
    NADKHOY_NOT_LIVE = 4,        /* begin, go, expire, spurious: the thread is not live */
    NADKHOY_MISSING_OBJECT = 5,  /* begin: the call names an object that the world does not have */
    NADKHOY_IN_CALL = 6,         /* begin: the thread is in a call; live begin, tick: the seat is */
    NADKHOY_NOT_CALLING = 7,     /* go: the thread is in no call; live turn: the seat is in none */
    NADKHOY_PARKED = 8,          /* go: the thread stands in an entry line or a wait set */
    NADKHOY_NOT_DUE = 9,         /* expire: it does not wait, has no deadline, or is before it */
    NADKHOY_BACKWARDS = 10,      /* tick, live tick: the moment would fall */
    NADKHOY_NO_MONITOR = 11,     /* relayout: too few monitors are left */
    NADKHOY_RECORD_FULL = 16,    /* live begin, turn, tick: too few places are free in the record */
    /* live begin, turn, tick: the pass is not where the book has it, or its own list of deeds is
     * full and the record is not; close: a pass has other deeds than the record under its number */
    NADKHOY_TORN = 18,
    NADKHOY_LIVE_NO_OBJECT = 19, /* live begin: the service has no such object */
    NADKHOY_LIVE_NO_THREAD = 20, /* live begin: the service has no such thread */
    NADKHOY_NOT_WAITING = 28,    /* spurious: the thread does not wait */
    NADKHOY_NOT_AT_REST = 29,    /* relayout: a thread is in a call, neither waiting nor back */
    NADKHOY_INDEX_TOO_WIDE = 30, /* relayout: more indices than the split can write */
    NADKHOY_CLOSED = 101,        /* the slot is empty */
    NADKHOY_IN_USE = 102,        /* open, live open, share, close: the slot is full already */
    NADKHOY_NO_OBJECT = 103,     /* a reader: the world, or the service, has no such object */
    NADKHOY_NO_THREAD = 104,     /* a reader: no such thread is live, or nobody has the index */
    NADKHOY_NO_STEP = 105,       /* step, live begin: the number of the step or call is none */
    NADKHOY_NO_SPLIT = 106,      /* open, relayout: the number of the split is none */
    NADKHOY_RANGE = 107,         /* open, live open: a size is out of range */
    NADKHOY_NO_PASS = 108,       /* share: no pass is left to the seat; end pass: no such pass */
    NADKHOY_OTHER_SEATS = 109,   /* close: there are other seats at the service */
    NADKHOY_WRONG_PASS = 110,    /* close: a pass is missing */
    NADKHOY_NO_DEED = 111        /* end deed: the record has no such deed */
};

/* How a thin word divides its bits between index and count. */
enum nadkhoy_split {
    NADKHOY_SPLIT_WIDE = 1, /* indices to 32767, 256 thin holds */
    NADKHOY_SPLIT_DEEP = 2  /* indices to 2047, 4096 thin holds */
};

enum nadkhoy_step_kind {
    NADKHOY_STEP_ATTACH = 1,
    NADKHOY_STEP_BEGIN = 2,
    NADKHOY_STEP_GO = 3,
    NADKHOY_STEP_EXPIRE = 4,
    NADKHOY_STEP_SPURIOUS = 5,
    NADKHOY_STEP_TICK = 6
};

enum nadkhoy_call_kind {
    NADKHOY_CALL_ENTER = 1,
    NADKHOY_CALL_EXIT = 2,
    NADKHOY_CALL_WAIT = 3,
    NADKHOY_CALL_NOTIFY = 4,
    NADKHOY_CALL_NOTIFY_ALL = 5,
    NADKHOY_CALL_HOLDS = 6,
    NADKHOY_CALL_INTERRUPT = 7,
    NADKHOY_CALL_INTERRUPTED = 8,
    NADKHOY_CALL_IS_INTERRUPTED = 9,
    NADKHOY_CALL_END = 10
};

/* 0 is no reply yet. */
enum nadkhoy_reply {
    NADKHOY_REPLY_ENTERED = 1,
    NADKHOY_REPLY_EXITED = 2,
    NADKHOY_REPLY_WAIT_OVER = 3,
    NADKHOY_REPLY_INTERRUPTED = 4,
    NADKHOY_REPLY_NOTIFIED = 5,
    NADKHOY_REPLY_YES = 6,
    NADKHOY_REPLY_NO = 7,
    NADKHOY_REPLY_DONE = 8,
    NADKHOY_REPLY_ENDED = 9,
    NADKHOY_REPLY_ILLEGAL_MONITOR_STATE = 10,
    NADKHOY_REPLY_ILLEGAL_ARGUMENT = 11,
    NADKHOY_REPLY_REFUSED = 12 /* for the cause beside it */
};

enum nadkhoy_cause {
    NADKHOY_CAUSE_NO_MONITOR = 11,
    NADKHOY_CAUSE_MEMORY = 12,
    NADKHOY_CAUSE_TOO_DEEP = 13,
    NADKHOY_CAUSE_STILL_OWNER = 14,
    NADKHOY_CAUSE_NO_THREAD = 15
};

/* The one change that a step made. */
enum nadkhoy_atomic_kind {
    NADKHOY_ATOMIC_LABEL = 0,
    NADKHOY_ATOMIC_LOAD = 1,
    NADKHOY_ATOMIC_WON = 2,
    NADKHOY_ATOMIC_LOST = 3,
    NADKHOY_ATOMIC_STORED = 4,
    NADKHOY_ATOMIC_BOUND = 5,
    NADKHOY_ATOMIC_NOT_BOUND = 6,
    NADKHOY_ATOMIC_ACTED = 7
};

/* The action of an ACTED. */
enum nadkhoy_action {
    NADKHOY_ACTION_ENTER = 1,
    NADKHOY_ACTION_EXIT = 2,
    NADKHOY_ACTION_WAIT = 3,
    NADKHOY_ACTION_NOTIFY = 4,
    NADKHOY_ACTION_NOTIFY_ALL = 5,
    NADKHOY_ACTION_HOLDS = 6,
    NADKHOY_ACTION_INTERRUPT = 7,
    NADKHOY_ACTION_INTERRUPTED = 8,
    NADKHOY_ACTION_IS_INTERRUPTED = 9,
    NADKHOY_ACTION_EXPIRE = 10,
    NADKHOY_ACTION_SPURIOUS = 11,
    NADKHOY_ACTION_COLLECT = 12,
    NADKHOY_ACTION_END = 13
};

/* What an ACTED answered. */
enum nadkhoy_answer {
    NADKHOY_ANSWER_REPLY = 1,
    NADKHOY_ANSWER_PARKED = 2,
    NADKHOY_ANSWER_QUIET = 3
};

/* A move of the abstract machine; 0 is no move. */
enum nadkhoy_move_kind {
    NADKHOY_MOVE_ATTACH = 1,
    NADKHOY_MOVE_CALL = 2,
    NADKHOY_MOVE_RETURN = 3,
    NADKHOY_MOVE_LOCK = 4,
    NADKHOY_MOVE_UNLOCK = 5,
    NADKHOY_MOVE_ILLEGAL = 6,
    NADKHOY_MOVE_BAD_ARGUMENT = 7,
    NADKHOY_MOVE_EARLY = 8,
    NADKHOY_MOVE_WAIT = 9,
    NADKHOY_MOVE_NOTIFY = 10,
    NADKHOY_MOVE_NOTIFY_ALL = 11,
    NADKHOY_MOVE_INTERRUPT = 12,
    NADKHOY_MOVE_TEST_CLEAR = 13,
    NADKHOY_MOVE_EXPIRE = 14,
    NADKHOY_MOVE_SPURIOUS = 15,
    NADKHOY_MOVE_RELOCK = 16,
    NADKHOY_MOVE_ASK = 17,
    NADKHOY_MOVE_REFUSE = 18,
    NADKHOY_MOVE_END = 19,
    NADKHOY_MOVE_TIME = 20
};

/* What a thread is doing. */
enum nadkhoy_doing_kind {
    NADKHOY_DOING_IDLE = 1,
    NADKHOY_DOING_WANTS = 2,
    NADKHOY_DOING_WAITS = 3,
    NADKHOY_DOING_BACK = 4,
    NADKHOY_DOING_HAS = 5
};

/* Why a thread is back from a wait set. */
enum nadkhoy_why {
    NADKHOY_WHY_NOTIFIED = 1,
    NADKHOY_WHY_INTERRUPTED = 2,
    NADKHOY_WHY_ELAPSED = 3,
    NADKHOY_WHY_SPURIOUS = 4
};

/* What a deed of the record was. */
enum nadkhoy_deed_kind {
    NADKHOY_DEED_BOUND = 1,  /* an object got a monitor */
    NADKHOY_DEED_ACTED = 2,  /* an action on the monitors */
    NADKHOY_DEED_TICKED = 3  /* the moment was told */
};

/* Where the call of a seat stands after a turn: what its thread does before the next turn. */
enum nadkhoy_standing {
    NADKHOY_STANDING_SAID = 1,       /* the call is over, with its reply: no turn is left */
    NADKHOY_STANDING_CONTENDED = 2,  /* met another thread at the word: back off, and turn again */
    NADKHOY_STANDING_GATE_TAKEN = 3, /* another seat acts on a monitor, for a few steps: the same */
    NADKHOY_STANDING_PARKED = 4      /* sleep until a turn has `granted` this thread, or a tick */
};

/* The slot of a world. All zeros is the empty slot; the fields are the library's own. */
typedef struct nadkhoy_slot {
    void *world;
    bool full;
} nadkhoy_slot;

/* The slot of a seat at a live service. All zeros is the empty slot; the fields are the library's
 * own. */
typedef struct nadkhoy_live_slot {
    void *seat;
    bool full;
} nadkhoy_live_slot;

/* The slot of the end of a live service. All zeros is the empty slot; the fields are the library's
 * own. */
typedef struct nadkhoy_end_slot {
    void *end;
    bool full;
} nadkhoy_end_slot;

#define NADKHOY_EMPTY {0, false}

/* A call. What a call of its kind does not use is not read. */
typedef struct nadkhoy_call {
    int64_t millis;
    int32_t nanos;
    uint32_t kind;   /* enum nadkhoy_call_kind; 0 is no call */
    uint32_t target; /* the object that it is on, or the thread that it asks about */
} nadkhoy_call;

/* A step. What a step of its kind does not use is not read. */
typedef struct nadkhoy_step_in {
    uint32_t kind; /* enum nadkhoy_step_kind */
    uint32_t thread;
    uint64_t moment;   /* of a tick, in nanoseconds */
    nadkhoy_call call; /* of a begin */
} nadkhoy_step_in;

/* The change that a step made. What one of its kind does not have is 0. */
typedef struct nadkhoy_atomic {
    uint32_t kind; /* enum nadkhoy_atomic_kind */
    uint32_t object;
    uint32_t before; /* the word that was loaded, or stood there before */
    uint32_t after;  /* the word that stands there now */
    uint32_t monitor;
    uint32_t cause;  /* enum nadkhoy_cause, of a NOT_BOUND */
    uint32_t action; /* enum nadkhoy_action */
    uint32_t answer; /* enum nadkhoy_answer */
} nadkhoy_atomic;

/* A move. What one of its kind does not have is 0. */
typedef struct nadkhoy_move {
    uint32_t kind; /* enum nadkhoy_move_kind */
    uint32_t thread;
    uint32_t reply;      /* enum nadkhoy_reply, of a RETURN */
    uint32_t cause;      /* enum nadkhoy_cause, of a REFUSE or a RETURN */
    uint32_t has_chosen; /* 1 where a NOTIFY took a thread out of the wait set */
    uint32_t chosen;
    uint64_t moment;   /* of a TIME */
    nadkhoy_call call; /* of a CALL */
} nadkhoy_move;

/* What a step did. */
typedef struct nadkhoy_did {
    nadkhoy_atomic atomic;
    uint32_t reply; /* enum nadkhoy_reply; 0 where the call goes on */
    uint32_t cause; /* enum nadkhoy_cause, of a REFUSED */
    nadkhoy_move moves[3];
} nadkhoy_did;

typedef struct nadkhoy_sizes_shown {
    uint64_t moment; /* that was told last, in nanoseconds */
    uint32_t objects;
    uint32_t indices; /* the most threads that are live at once */
} nadkhoy_sizes_shown;

typedef struct nadkhoy_object_shown {
    uint32_t word;
    uint32_t is_owned; /* 1 or 0 */
    uint32_t owner;
    uint32_t holds;
} nadkhoy_object_shown;

/* What a thread is doing. What one of its kind does not have is 0. */
typedef struct nadkhoy_doing {
    uint32_t kind;          /* enum nadkhoy_doing_kind */
    uint32_t object;        /* of WAITS and BACK */
    uint32_t holds;         /* the same: how many locks it gave up */
    uint32_t why;           /* enum nadkhoy_why, of BACK */
    uint32_t reply;         /* enum nadkhoy_reply, of HAS */
    uint32_t cause;         /* enum nadkhoy_cause, of a REFUSED */
    uint32_t has_deadline;  /* of WAITS */
    uint64_t deadline_high; /* the deadline in nanoseconds is this times 2 to the power of 64, */
    uint64_t deadline_low;  /* and this */
    nadkhoy_call call;      /* of WANTS */
} nadkhoy_doing;

typedef struct nadkhoy_thread_shown {
    uint32_t index;
    uint32_t is_interrupted; /* 1 or 0 */
    nadkhoy_doing doing;
} nadkhoy_thread_shown;

/* What a turn of the call of a seat came to. It may make a thread an owner, its own too, wherever
 * its own call stands. */
typedef struct nadkhoy_turned {
    uint32_t standing; /* enum nadkhoy_standing */
    uint32_t reply;    /* enum nadkhoy_reply; 0 where the call goes on */
    uint32_t cause;    /* enum nadkhoy_cause, of a REFUSED */
    uint32_t granted;  /* the thread that the turn made an owner, to be woken; 0 is none */
} nadkhoy_turned;

/* The sizes of the end of a live service. */
typedef struct nadkhoy_end_shown {
    uint64_t objects;
    uint64_t deeds; /* of the record */
    uint64_t passes;
} nadkhoy_end_shown;

/* A deed of the record. What one of its kind does not have is 0. */
typedef struct nadkhoy_deed {
    uint64_t moment; /* of a TICKED, in nanoseconds */
    int64_t millis;  /* of a wait that was asked for */
    int32_t nanos;
    uint32_t kind;    /* enum nadkhoy_deed_kind */
    uint32_t thread;  /* who did it */
    uint32_t object;  /* of a BOUND */
    uint32_t holds;   /* how often the thread held it then */
    uint32_t monitor; /* that was bound, or that the action is on */
    uint32_t action;  /* enum nadkhoy_action, of an ACTED */
    uint32_t target;  /* the thread that the action asks about */
    uint32_t answer;  /* enum nadkhoy_answer */
    uint32_t reply;   /* enum nadkhoy_reply */
    uint32_t cause;   /* enum nadkhoy_cause */
} nadkhoy_deed;

/* A pass of a service in the end. */
typedef struct nadkhoy_pass {
    uint64_t deeds; /* how many it did */
    uint32_t thread;
} nadkhoy_pass;

/* Makes a world in an empty slot: an object for each low byte, 0 to 65535 of them, at most
 * `monitors` fat monitors, 0 to 8388608, and at most `indices` live threads at once, 1 to 32767 or
 * 2047 by the split. Answers the first of IN_USE, NO_SPLIT, RANGE and MEMORY that holds. */
uint32_t nadkhoy_open(const uint8_t *lows, size_t objects, uint32_t monitors, uint16_t indices,
                      uint32_t split, nadkhoy_slot *slot);

/* Does a step, and writes what it did. Answers CLOSED, NO_STEP or a fault of the core. */
uint32_t nadkhoy_step(nadkhoy_slot *slot, const nadkhoy_step_in *step, nadkhoy_did *did);

/* Writes each header word in a split, at rest, and how many locks were inflated for it. Answers
 * CLOSED, NO_SPLIT, NOT_AT_REST, INDEX_TOO_WIDE, NO_MONITOR or MEMORY. */
uint32_t nadkhoy_relayout(nadkhoy_slot *slot, uint32_t split, uint32_t *inflated);

/* Gives the world back, and leaves the slot empty. Answers CLOSED where it is. */
uint32_t nadkhoy_free(nadkhoy_slot *slot);

/* The readers leave the world as it is. Each may answer CLOSED. */
uint32_t nadkhoy_sizes(nadkhoy_slot *slot, nadkhoy_sizes_shown *sizes);

/* May answer NO_OBJECT. */
uint32_t nadkhoy_object(nadkhoy_slot *slot, uint32_t object, nadkhoy_object_shown *shown);

/* May answer NO_THREAD. */
uint32_t nadkhoy_thread(nadkhoy_slot *slot, uint32_t thread, nadkhoy_thread_shown *shown);

/* Writes 1 where the thread is in the wait set of the object, and 0 where it is not, or is not
 * live. May answer NO_OBJECT. */
uint32_t nadkhoy_waiting(nadkhoy_slot *slot, uint32_t object, uint32_t thread, uint32_t *answer);

/* Writes the thread that has an index. May answer NO_THREAD. */
uint32_t nadkhoy_holder(nadkhoy_slot *slot, uint16_t index, uint32_t *thread);

/* Opens a live service, and puts a seat at it into an empty slot. The service has a free object
 * for each low byte, 0 to 65535 of them; at most `monitors` fat monitors, 0 to 8388608; a pass
 * for each of the threads 1 to `passes`, 1 to 64; and a record of `places` places, 0 to 1048576,
 * of which each deed at a fat monitor uses one for good. The seat is that of the thread `passes`,
 * and the other passes are left to it, to be shared.
 *
 * Answers the first of IN_USE, RANGE and MEMORY that holds, and the slot is then as it was.
 * Memory for all calls is asked for here: 48 bytes for each place, once for the record and once
 * for each pass, is the most of it. Any thread that has the slot may call it. */
uint32_t nadkhoy_live_open(const uint8_t *lows, size_t objects, uint32_t monitors, uint16_t passes,
                           uint32_t places, nadkhoy_live_slot *slot);

/* Puts one more seat at the service into the slot `other`, which is empty, with the highest pass
 * that is left to the seat in `slot`. To the new seat none is left. It may stand for a thread of
 * the system that has not started.
 *
 * Answers the first of CLOSED, IN_USE (where `other` is full), NO_PASS and MEMORY that holds, and
 * both slots are then as they were. Any thread that has both slots may call it, and the seat may
 * be in a call, which stays where it is. */
uint32_t nadkhoy_live_share(nadkhoy_live_slot *slot, nadkhoy_live_slot *other);

/* Begins a call of the seat's thread, takes its first turn, and writes what that came to. The
 * turn does at once all that can be done at once. Where it is not SAID, the seat is in the call
 * then.
 *
 * Answers CLOSED, NO_STEP (also for the call END, which a live service does not have) or IN_CALL,
 * where all is as it was; LIVE_NO_OBJECT or LIVE_NO_THREAD, where nothing was done; or
 * RECORD_FULL or TORN, where the call is given up before its bind or its action on a monitor.
 * After these four the seat is in no call. A RECORD_FULL leaves owners, holds, wait sets and
 * flags as they were before the call, and may leave a word inflated.
 *
 * Any thread that has the slot may call it. The turns of one call may be those of several. */
uint32_t nadkhoy_live_begin(nadkhoy_live_slot *slot, const nadkhoy_call *call,
                            nadkhoy_turned *turned);

/* Takes one more turn of the call that the seat is in, and writes what it came to. One that is
 * taken too early costs time, and nothing else.
 *
 * Answers CLOSED or NOT_CALLING, where all is as it was, or RECORD_FULL or TORN, where the call
 * is given up as by a begin; TORN also where it has parked. Any thread that has the slot may call
 * it. */
uint32_t nadkhoy_live_turn(nadkhoy_live_slot *slot, nadkhoy_turned *turned);

/* Tells the service the moment, in nanoseconds, and writes 1; or writes 0 where another seat has
 * the gate, and nothing was told: tell it again. A timed wait ends at its first turn after its
 * deadline was told, so all sleepers are to be woken then.
 *
 * Answers CLOSED, IN_CALL, BACKWARDS, RECORD_FULL or TORN, where no moment was told and all is as
 * it was. Any thread may call it that has the slot of a seat in no call. */
uint32_t nadkhoy_live_tick(nadkhoy_live_slot *slot, uint64_t now, uint32_t *told);

/* Writes the number of the thread as which the seat makes its calls, 1 to the number of passes.
 * The seat stays as it is. May answer CLOSED. Any thread that has the slot may call it. */
uint32_t nadkhoy_live_thread(nadkhoy_live_slot *slot, uint32_t *thread);

/* Gives the seat up, and leaves the slot empty. Its pass goes back to the service, with those that
 * are left to it. The last seat that leaves gives back the memory of the service, which is not
 * closed then. What the thread of the seat owns stays owned, and a call that it is in stays where
 * it stands: nobody ends either afterwards.
 *
 * Answers CLOSED where the slot is empty. Any thread that has the slot may call it. */
uint32_t nadkhoy_live_leave(nadkhoy_live_slot *slot);

/* Closes the service of the last seat: puts its words, its record and its counts into the slot
 * `end`, which is empty, and leaves the slot of the seat empty. A pass may be in the middle of a
 * call, of which the words and the record have the beginning then.
 *
 * Answers CLOSED or IN_USE (where `end` is full), where both slots are as they were; OTHER_SEATS,
 * where they are so too; WRONG_PASS (where a pass is missing) or MEMORY, where they are so but that
 * the passes which came back are left to the seat now, which may share them, make its calls, and
 * close the service later; or TORN, where the deeds of a pass are not those that the record has
 * under its number: both slots are empty then, and the service is gone.
 *
 * Any thread that has both slots may call it. */
uint32_t nadkhoy_live_close(nadkhoy_live_slot *slot, nadkhoy_end_slot *end);

/* The readers of an end leave it as it is. Each may answer CLOSED, where the slot is empty. Indices
 * begin at 0. */
uint32_t nadkhoy_end_sizes(nadkhoy_end_slot *slot, nadkhoy_end_shown *sizes);

/* Writes the header word of an object. May answer NO_OBJECT. */
uint32_t nadkhoy_end_word(nadkhoy_end_slot *slot, uint32_t object, uint32_t *word);

/* Writes a deed of the record, which has them in the order in which they were done. May answer
 * NO_DEED. */
uint32_t nadkhoy_end_deed(nadkhoy_end_slot *slot, uint32_t index, nadkhoy_deed *deed);

/* Writes the thread of a pass, and how many deeds it did. The passes have no order. May answer
 * NO_PASS. */
uint32_t nadkhoy_end_pass(nadkhoy_end_slot *slot, uint32_t index, nadkhoy_pass *pass);

/* Gives the end back, and leaves the slot empty. Answers CLOSED where it is. */
uint32_t nadkhoy_end_free(nadkhoy_end_slot *slot);

#ifdef __cplusplus
}
#endif

#endif
