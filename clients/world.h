/* A world in its slot, and its steps and calls, for the clients of the core. */
#ifndef WORLD_H
#define WORLD_H

#include "nadkhoy.h"
#include "want.h"

#include <string.h>

static nadkhoy_slot slot = NADKHOY_EMPTY;
static nadkhoy_did did;

static uint32_t step(uint32_t kind, uint32_t thread) {
    nadkhoy_step_in in;
    memset(&in, 0, sizeof in);
    in.kind = kind;
    in.thread = thread;
    return nadkhoy_step(&slot, &in, &did);
}

static uint32_t begin(uint32_t thread, uint32_t kind, uint32_t target) {
    nadkhoy_step_in in;
    memset(&in, 0, sizeof in);
    in.kind = NADKHOY_STEP_BEGIN;
    in.thread = thread;
    in.call.kind = kind;
    in.call.target = target;
    return nadkhoy_step(&slot, &in, &did);
}

/* Lets a thread go until its call replies or it parks: the reply, or 0. */
static uint32_t turn(uint32_t thread) {
    for (int i = 0; i < 8; i++) {
        if (step(NADKHOY_STEP_GO, thread) != NADKHOY_DONE) return 0;
        if (did.reply != 0) return did.reply;
        if (did.atomic.answer == NADKHOY_ANSWER_PARKED) return 0;
    }
    return 0;
}

static uint32_t call(uint32_t thread, uint32_t kind, uint32_t target) {
    WANT(begin(thread, kind, target), NADKHOY_DONE);
    return turn(thread);
}

#endif
