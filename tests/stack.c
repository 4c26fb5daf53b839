/* How much stack a call takes. Each is made in a thread with a stack of its own, which is filled with a pattern below the thread's function; what is
 * no longer the pattern was used. The first call is the first of the program to reach memcpy, so that what the loader takes to find that is
 * counted too. */
#include "../include/planner.h"

#include <pthread.h>
#include <stdio.h>
#include <stdlib.h>

#define STACK ((size_t)1 << 20)
#define PATTERN 0xA5
/* Left alone below the thread's function, for its own calls. */
#define OWN 512

static uint8_t sheet[PLANNER_LONGEST_SHEET];
static size_t sheet_length;
static uint8_t list[PLANNER_LONGEST_LIST];
static size_t list_length;
static uint8_t page[PLANNER_LONGEST_FRAME];
static volatile uint8_t *stack;
static size_t used;

static void plan_sheet(void) { planner_plan_sheet(sheet, sheet_length, page, sizeof page, 0); }
static void refused_line(void) { planner_refused_line(sheet, sheet_length); }
static void write_refusal(void) { planner_write_refusal(1, PLANNER_NO_PLAN, page, sizeof page, 0); }
static void import(void) { planner_import(32, list, list_length, page, sizeof page, 0); }

static void *measure(void *call) {
    size_t here = (size_t)((uint8_t *)__builtin_frame_address(0) - stack), lowest = 0;
    for (size_t k = 0; k < here - OWN; k++) stack[k] = PATTERN;
    (*(void (**)(void))call)();
    while (stack[lowest] == PATTERN) lowest++;
    used = here - lowest;
    return NULL;
}

static size_t used_by(void (*call)(void)) {
    pthread_attr_t attributes;
    pthread_t thread;
    stack = aligned_alloc(4096, STACK);
    if (!stack || pthread_attr_init(&attributes) || pthread_attr_setstack(&attributes, (void *)stack, STACK) ||
        pthread_create(&thread, &attributes, measure, &call) || pthread_join(thread, NULL)) {
        puts("no thread with a stack of its own");
        exit(1);
    }
    pthread_attr_destroy(&attributes);
    free((void *)stack);
    return used;
}

int main(void) {
    static const struct {
        const char *name;
        void (*call)(void);
    } calls[] = {{"planner_plan_sheet", plan_sheet}, {"planner_refused_line", refused_line}, {"planner_write_refusal", write_refusal},
                 {"planner_import", import}};
    unsigned passed = 0, failed = 0;
    /* Every kind of frame: a machine of 32 processors and 32 levels, its table, 64 jobs, every second one with a deadline in the middle of its
     * period, one of them retired, and a plan of many raises. */
    char *line = (char *)sheet;
    line += sprintf(line, "01202000080008\n02");
    for (unsigned level = 0; level < 32; level++) line += sprintf(line, "%08X", level * level);
    line += sprintf(line, "\n");
    for (unsigned id = 1; id <= 64; id++) line += sprintf(line, id % 2 ? "03%04X%04X0040\n" : "06%04X%04X00800040\n", id, 1 + id % 30);
    line += sprintf(line, "040003\n");
    sheet_length = (size_t)(line - (char *)sheet);
    /* The longest list, falling, so that every number has to be moved: speeds 41 to 10 of 104,755,299 each. */
    for (unsigned speed = 41; speed >= 10; speed--) list_length += (size_t)sprintf((char *)list + list_length, "%u ", speed * 104755299);
    list[list_length++] = '\n';
    for (size_t k = 0; k < sizeof calls / sizeof *calls; k++) {
        size_t bytes = used_by(calls[k].call);
        printf("%s: at most %zu bytes of stack\n", calls[k].name, bytes);
        if (bytes <= PLANNER_STACK) passed++;
        else failed++;
    }
    if (planner_plan_sheet(sheet, sheet_length, page, sizeof page, 0) == PLANNER_DONE) passed++;
    else failed++, puts("the sheet is refused");
    if (planner_import(32, list, list_length, page, sizeof page, 0) == PLANNER_DONE) passed++;
    else failed++, puts("the list is refused");
    printf("%u passed, %u failed\n", passed, failed);
    return failed != 0;
}
