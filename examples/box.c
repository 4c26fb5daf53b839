/*
 * The machine line of this box, for the head of a sheet: it takes the number of processors and the name of the box's list of frequencies,
 * on Linux /sys/devices/system/cpu/cpu0/cpufreq/scaling_available_frequencies, and writes the line to standard output.
 *
 * Exit status 0: the line is written. 1: the list or the number is refused. 2: the command line, reading or writing failed.
 */
#include "planner.h"

#include <stdio.h>
#include <stdlib.h>

enum { WRITTEN = 0, REFUSED = 1, FAILED = 2 };

/* One byte more than a list may have: so many are refused, whatever follows them. */
static uint8_t list[PLANNER_LONGEST_LIST + 1];

/* Digits alone: strtoull would also take blanks and a sign. Of a number too large it makes its own largest, which the planner refuses. */
static int read_processors(const char *text, uint64_t *processors)
{
    char *end;
    if (text[0] < '0' || text[0] > '9')
        return 0;
    *processors = strtoull(text, &end, 10);
    return *end == '\0';
}

/* Part of a list may be a list as well, of another machine, so after a failed read there is none. */
static int read_list(const char *name, size_t *length)
{
    int good = 0;
    FILE *file = fopen(name, "rb");
    if (file) {
        *length = fread(list, 1, sizeof list, file);
        good = !ferror(file);
    }
    if (!good)
        perror(name);
    if (file)
        fclose(file);
    return good;
}

int main(int argc, char **argv)
{
    uint8_t line[PLANNER_MACHINE_LINE];
    uint64_t processors = 0;
    size_t length = 0;
    uint32_t reply;
    if (argc != 3 || !read_processors(argv[1], &processors)) {
        fprintf(stderr, "usage: %s PROCESSORS LIST\n", argv[0]);
        return FAILED;
    }
    if (!read_list(argv[2], &length))
        return FAILED;

    reply = planner_import(processors, list, length, line, sizeof line, 0);
    if (reply != PLANNER_DONE) {
        fprintf(stderr, "refusal %lu: no machine line\n", (unsigned long)reply);
        return REFUSED;
    }
    /* A full disk may show only at the flush. */
    if (fwrite(line, 1, sizeof line, stdout) == sizeof line && fflush(stdout) == 0)
        return WRITTEN;
    perror("standard output");
    return FAILED;
}
