/*
 * Teyumbi, for programs in C and C++: a parameter file and a site sheet are judged, and a run of the file is played.
 *
 * Link with crates/boundary/out/libboundary.a, which `rt lib` makes in crates/boundary (`make c-example` shows it). The library allocates
 * nothing, keeps nothing from one call to the next, starts no thread and takes no lock. It writes into the memory that it is given and
 * nowhere else.
 *
 * What the caller owes:
 * - Each pointer is aligned for its type and not null, also where its length is 0, and points to as many elements as its length says, which
 *   have fewer than 2^63 bytes, for the whole of the call.
 * - `file` and `sheet` may overlap each other. What is written (everything without `const`) overlaps nothing else.
 * - All of it is initialised, also what is only written.
 * - No other thread writes `file` or `sheet`, or reads or writes the rest, until the call returns. Calls with memory of their own may run
 *   side by side in any threads.
 * - The stack has room for the call: docs/BOUNDARY.md says how much was measured.
 */
#ifndef TEYUMBI_H
#define TEYUMBI_H

#include <stddef.h>
#include <stdint.h>

#ifdef __cplusplus
extern "C" {
#endif

/* Room that always suffices. */
#define TEYUMBI_LARGEST_FORM 4096
#define TEYUMBI_MOST_EVENTS 512
#define TEYUMBI_SITES 32

/* Kinds of calls. */
#define TEYUMBI_GO 0
#define TEYUMBI_ANSWER 1
#define TEYUMBI_WAIT 2

/* Kinds of events. */
#define TEYUMBI_EVENT_CALL 0
#define TEYUMBI_EVENT_INNER 1
#define TEYUMBI_EVENT_OUT 2

/* The number of a verdict on what is no call. */
#define TEYUMBI_NO_CALL UINT32_MAX

/*
 * A judgement, or what a call met: 0 and 0 if it is accepted, else the number of the refusal and its place. docs/REFUSALS.md has the
 * numbers: 1 to 12 of a file or a sheet, whose place is a byte offset, and 21 to 29 of a call.
 */
typedef struct {
    uint32_t number;
    uint32_t place;
} teyumbi_verdict;

/* The judgement on a sheet; and on a file, with the sites 0 to 3 and, from 4 on, those of the sheet. A refused sheet has no site. */
typedef struct {
    teyumbi_verdict sheet;
    teyumbi_verdict file;
} teyumbi_judgement;

/*
 * A call, and what it met, which is written.
 *   TEYUMBI_GO      number: which due call is made, counted from the left of the form, from 0
 *   TEYUMBI_ANSWER  number: the ticket that is answered; value: the reply, 0 to 65535
 *   TEYUMBI_WAIT    number: how many ticks pass, of 10 ms
 * With any other kind, or a value above 65535, nothing is called, and the outcome is TEYUMBI_NO_CALL with place 0. The value of a go or a
 * wait has no other effect.
 */
typedef struct {
    uint32_t kind;
    uint32_t number;
    uint32_t value;
    teyumbi_verdict outcome;
} teyumbi_call;

/* A recorded event. number: the site of a call, else 0. value: what the site was called with, or what was published; 0 for inner. */
typedef struct {
    uint32_t clock;
    uint32_t kind;
    uint32_t number;
    uint32_t value;
} teyumbi_event;

/* How many tickets of a site were called, and what became of them. called is the sum of the others. */
typedef struct {
    uint32_t called;
    uint32_t answered;
    uint32_t withdrawn;
    uint32_t lapsed;
    uint32_t standing;
} teyumbi_totals;

/* What a run holds after the calls: its clock, how many bytes its form has, how many calls are due, and how many events are recorded. */
typedef struct {
    uint32_t clock;
    uint32_t size;
    uint32_t due;
    uint32_t events;
} teyumbi_state;

/* Judges a sheet, and a file with it. */
void teyumbi_check(const uint8_t *file, size_t file_length,
                   const uint8_t *sheet, size_t sheet_length,
                   teyumbi_judgement *judgement);

/*
 * Judges a sheet and a file as teyumbi_check does, begins a run of the file at clock 0, and makes the calls in their order, those that are
 * refused as well: a refused call changes nothing but its outcome. If the file is refused, every call is refused by 21.
 *
 * Then the bytes of the run's form, its events, the oldest first, and the totals of its sites, site 0 first, are written from the beginning
 * of the memory for each, as far as there is room. What lies behind stays as it was. The state says how many there are.
 */
void teyumbi_play(const uint8_t *file, size_t file_length,
                  const uint8_t *sheet, size_t sheet_length,
                  teyumbi_call *calls, size_t calls_length,
                  uint8_t *form, size_t form_length,
                  teyumbi_event *events, size_t events_length,
                  teyumbi_totals *totals, size_t totals_length,
                  teyumbi_judgement *judgement, teyumbi_state *state);

#ifdef __cplusplus
}
#endif

#endif
