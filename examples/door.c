/*
 * Runs the door of crates/door/data: judges close.par with door.sheet, makes some calls, and prints what each met and what the run
 * then holds. `make c-example` builds and runs it.
 */
#include "teyumbi.h"

#include <stdio.h>
#include <stdlib.h>

/* As many bytes as an input may have, and one more, so that one that is too long is judged so. */
enum { LONGEST = 4097 };

static const char *const call_names[] = {"go", "answer", "wait"};
static const char *const event_names[] = {"call", "inner", "out"};

static size_t load(const char *path, uint8_t *bytes)
{
    FILE *file = fopen(path, "rb");
    size_t length = 0;
    if (file == NULL) {
        perror(path);
        exit(EXIT_FAILURE);
    }
    length = fread(bytes, 1, LONGEST, file);
    fclose(file);
    return length;
}

static void print_verdict(const char *name, teyumbi_verdict verdict)
{
    if (verdict.number == 0)
        printf("%s: accepted\n", name);
    else if (verdict.number == TEYUMBI_NO_CALL)
        printf("%s: no call\n", name);
    else
        printf("%s: refused %u at %u\n", name, (unsigned)verdict.number, (unsigned)verdict.place);
}

static void print_call(const teyumbi_call *call)
{
    char text[40];
    if (call->kind == TEYUMBI_ANSWER)
        snprintf(text, sizeof text, "%s %u %u", call_names[call->kind], (unsigned)call->number, (unsigned)call->value);
    else if (call->kind <= TEYUMBI_WAIT)
        snprintf(text, sizeof text, "%s %u", call_names[call->kind], (unsigned)call->number);
    else
        snprintf(text, sizeof text, "kind %u", (unsigned)call->kind);
    print_verdict(text, call->outcome);
}

int main(int count, char **arguments)
{
    static uint8_t file[LONGEST], sheet[LONGEST];
    static uint8_t form[TEYUMBI_LARGEST_FORM];
    static teyumbi_event events[TEYUMBI_MOST_EVENTS];
    static teyumbi_totals totals[TEYUMBI_SITES];
    teyumbi_judgement judgement = {{0, 0}, {0, 0}};
    teyumbi_state state = {0, 0, 0, 0};
    teyumbi_call calls[] = {
        {TEYUMBI_GO, 0, 0, {0, 0}},       /* the gong is struck, with ticket 1 */
        {TEYUMBI_WAIT, 3, 0, {0, 0}},     /* 30 ms pass */
        {TEYUMBI_ANSWER, 1, 0, {0, 0}},   /* the gong replies */
        {TEYUMBI_GO, 0, 0, {0, 0}},       /* the definition of closing is begun */
        {TEYUMBI_GO, 0, 0, {0, 0}},       /* the drive closes the door, ticket 2 */
        {TEYUMBI_WAIT, 1, 0, {0, 0}},     /* too early: calls are due */
        {TEYUMBI_GO, 0, 0, {0, 0}},       /* the contact is asked, ticket 3 */
        {TEYUMBI_GO, 0, 0, {0, 0}},       /* the timer is started, ticket 4 */
        {TEYUMBI_WAIT, 250, 0, {0, 0}},   /* 2.5 s pass */
        {TEYUMBI_ANSWER, 2, 0, {0, 0}},   /* the door is closed: contact and timer are withdrawn */
        {TEYUMBI_ANSWER, 4, 0, {0, 0}},   /* so the timer's reply is turned away */
        {TEYUMBI_GO, 0, 0, {0, 0}},       /* the drive's reply is passed on, ticket 5 */
        {TEYUMBI_ANSWER, 5, 0, {0, 0}},
        {TEYUMBI_GO, 0, 0, {0, 0}},       /* it is published, ticket 6 */
        {TEYUMBI_ANSWER, 6, 0, {0, 0}},
        {TEYUMBI_GO, 0, 0, {0, 0}},       /* nothing is closed again: if of 0 never replies, and lapses */
        {3, 0, 0, {0, 0}},                /* no call */
    };
    const size_t calls_length = sizeof calls / sizeof calls[0];
    size_t file_length, sheet_length, i;

    if (count != 3) {
        fprintf(stderr, "usage: door FILE SHEET\n");
        return 2;
    }
    file_length = load(arguments[1], file);
    sheet_length = load(arguments[2], sheet);

    teyumbi_check(file, file_length, sheet, sheet_length, &judgement);
    print_verdict("sheet", judgement.sheet);
    print_verdict("file", judgement.file);

    teyumbi_play(file, file_length, sheet, sheet_length, calls, calls_length, form, sizeof form, events, TEYUMBI_MOST_EVENTS, totals,
                 TEYUMBI_SITES, &judgement, &state);
    for (i = 0; i < calls_length; i++)
        print_call(&calls[i]);

    printf("clock %u, %u due, form", (unsigned)state.clock, (unsigned)state.due);
    for (i = 0; i < state.size; i++)
        printf(" %02x", form[i]);
    printf("\n");
    for (i = 0; i < state.events; i++)
        printf("event at %u: %s %u %u\n", (unsigned)events[i].clock, event_names[events[i].kind], (unsigned)events[i].number,
               (unsigned)events[i].value);
    for (i = 0; i < TEYUMBI_SITES; i++)
        if (totals[i].called > 0)
            printf("site %u: called %u, answered %u, withdrawn %u, lapsed %u, standing %u\n", (unsigned)i, (unsigned)totals[i].called,
                   (unsigned)totals[i].answered, (unsigned)totals[i].withdrawn, (unsigned)totals[i].lapsed, (unsigned)totals[i].standing);
    return 0;
}
