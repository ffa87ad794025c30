/* What is measured: each case brings a network to where a call is worth measuring, and makes that call. */
#ifndef CASES_H
#define CASES_H

#include "three.h"

enum restored { NOTHING_BACK, RECEIVER_BACK, NETWORK_BACK };

struct bench_case {
    const char *name;
    const char *call;                                 /* without its prefix; it may be made more than once */
    void (*prepare)(const struct implementation *at); /* leaves the network as the call shall find it */
    void (*call_once)(const struct implementation *at);
    enum restored restored; /* what is put back before each call */
    unsigned calls;         /* that can be made before the whole network has to be put back */
};

extern const struct bench_case cases[];
extern const unsigned case_count;

/*
 * A buffer is to cost little more than a byte does: of the library at most 1.3
 * times one byte that ends no frame and 64 steps of the receiver in plain C,
 * which are what plain C takes for the same buffer, and at least 20 times less
 * than its bytes singly. It is held against instructions.
 */
#define A_BYTE "byte, no frame ends, 32 servos moving"
#define A_BUFFER "buffer, noise, 32 servos moving"
#define SINGLE_BYTES "64 single bytes, noise, 32 servos moving"

/* Keeps the network as it is now, and puts it back. */
void keep(const struct implementation *at);
void put_back(const struct implementation *at, enum restored restored);

#endif
