/*
 * Where a station's own program may start: it reads a sheet, from the file named on the command line or else from standard input, and
 * writes the frame for the archive to standard output: the plan for the jobs that the sheet leaves on the roster, or its first refusal.
 *
 * Exit status 0: the plan is written. 1: the sheet is refused. 2: reading or writing failed, and nothing is to be filed.
 */
#include "planner.h"

#include <stdio.h>

enum { PLANNED = 0, REFUSED = 1, FAILED = 2 };

/* One byte more than a sheet may have: a sheet too long is known by it, however long it is. */
static uint8_t sheet[PLANNER_LONGEST_SHEET + 1];

/* One byte more than the planner is lent, and that byte stays 0: a frame can be written out as a string. */
static uint8_t page[PLANNER_LONGEST_FRAME + 1];

/* Part of a sheet is another roster, so after a failed read there is no sheet. A short read is none: fread goes on to the end. */
static int read_sheet(const char *name, size_t *length)
{
    FILE *file = name ? fopen(name, "rb") : stdin;
    int good;
    if (!file) {
        perror(name);
        return 0;
    }
    *length = fread(sheet, 1, sizeof sheet, file);
    good = !ferror(file);
    if (!good)
        perror(name ? name : "standard input");
    if (name)
        fclose(file);
    return good;
}

/* A full disk may show only when the bytes leave the buffer, so the frame is written when the flush has succeeded. */
static int write_frame(void)
{
    int good = fputs((const char *)page, stdout) != EOF && fflush(stdout) != EOF;
    if (!good)
        perror("standard output");
    return good;
}

int main(int argc, char **argv)
{
    size_t length = 0;
    uint32_t reply, line;
    if (argc > 2) {
        fprintf(stderr, "usage: %s [SHEET]\n", argv[0]);
        return FAILED;
    }
    if (!read_sheet(argc == 2 ? argv[1] : NULL, &length))
        return FAILED;

    reply = planner_plan_sheet(sheet, length, page, PLANNER_LONGEST_FRAME, 0);
    if (reply == PLANNER_DONE)
        return write_frame() ? PLANNED : FAILED;

    /* A refusal is filed under its line, and a sheet too long under line 0, which is what planner_refused_line returns for it. */
    line = planner_refused_line(sheet, length);
    if (line == 0 && length <= PLANNER_LONGEST_SHEET) {
        fprintf(stderr, "no plan, by refusal %lu, and no line that was refused: nothing to file\n", (unsigned long)reply);
        return REFUSED;
    }
    if (planner_write_refusal(line, (uint8_t)reply, page, PLANNER_LONGEST_FRAME, 0) != PLANNER_DONE)
        return FAILED;
    return write_frame() ? REFUSED : FAILED;
}
