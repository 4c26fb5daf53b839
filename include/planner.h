/*
 * The studio core-speed planner, for C and C++.
 *
 * A sheet is lines of hexadecimal, one frame a line, each line closed by byte 0A. A list is the text that Linux prints of a box's
 * frequencies. A page is the caller's memory for one frame; a place is the index in the page from which the frame is written, in upper
 * case and closed by 0A.
 *
 * For every call:
 *   - The page must not overlap the sheet or list. A pointer may be NULL where its length is 0.
 *   - It ends on every input. It uses no heap and keeps no state, so several threads may call at once.
 *   - It takes at most PLANNER_STACK bytes of stack: 14.3 KiB were measured, and less than 1 KiB more where the loader has yet to find memcpy.
 *
 * To link: cc program.c libhost.a
 */
#ifndef PLANNER_H
#define PLANNER_H

#include <stddef.h>
#include <stdint.h>

#ifdef __cplusplus
extern "C" {
#endif

/* The call did what it was asked. */
#define PLANNER_DONE 0

/* Refusals because of the input. */
#define PLANNER_PROCESSORS 1      /* the number of processors is not 1 to 32 */
#define PLANNER_SPEEDS 2          /* the levels, lowest speed, step or top speed are beyond their range */
#define PLANNER_POWER_TABLE 3     /* a power table without one value a level, with a value too large, a fall, or a shrinking rise */
#define PLANNER_JOB_NUMBERS 4     /* an id, cost or period is not 1 to 65,535, or a deadline not 1 to its period */
#define PLANNER_MALFORMED 5       /* a malformed line, or a sheet too long */
#define PLANNER_NO_ROOM 6         /* the page from the place on is shorter than the frame and its 0A */
#define PLANNER_DAMAGED 7         /* a roster that breaks a rule; no sheet makes one */
#define PLANNER_FREQUENCY_LIST 18 /* the bytes are no list of frequencies */
#define PLANNER_UNEVEN_GAPS 19    /* the gaps between a list's speeds differ */

/* Refusals because of the state. */
#define PLANNER_NO_MACHINE 11           /* no machine is open */
#define PLANNER_MACHINE_OPEN 12         /* a machine is open already */
#define PLANNER_ID_HELD 13              /* the id is on the roster already */
#define PLANNER_ID_NOT_HELD 14          /* the id to retire is not on the roster */
#define PLANNER_PLACES_FULL 15          /* 64 jobs are held */
#define PLANNER_HYPERPERIOD_TOO_LONG 16 /* the least common multiple of the deadlines would exceed 16,777,216 */
#define PLANNER_NO_PLAN 17              /* no plan passes with the new job */

/*
 * In bytes. The longest frame of these calls is a plan for 32 processors: 44 bytes, so 88 digits and 0A. The longest list has 32 numbers
 * of ten digits, a blank after each, and 0A.
 */
#define PLANNER_LONGEST_SHEET 65536
#define PLANNER_LONGEST_LIST 353
#define PLANNER_LONGEST_FRAME 89
#define PLANNER_REFUSAL_FRAME 13
#define PLANNER_MACHINE_LINE 15
#define PLANNER_STACK 16384

/*
 * Plans for the jobs that a sheet leaves on the roster. An admit line (03) brings a job that is due when its period ends, an admit line
 * with a deadline (06) one that may be due before. A sheet longer than PLANNER_LONGEST_SHEET gets PLANNER_MALFORMED. Otherwise the
 * lines are read in order from an empty roster with no machine; well-formed plan-wanted and slack-wanted lines (05, 07) are passed
 * over, and the first refused line ends the call with its number. Then PLANNER_NO_MACHINE where no machine is open at the end, then
 * PLANNER_NO_ROOM. Otherwise it returns PLANNER_DONE, and the plan frame (81) stands in the page from the place on; no other byte of
 * the page changes. On any other reply no byte of the page changes. The frame has 25 bytes and two for each processor, the last of
 * them 0A.
 */
uint32_t planner_plan_sheet(const uint8_t *sheet, size_t sheet_length, uint8_t *page, size_t page_length, size_t place);

/*
 * Files a refusal: writes the refusal frame (8E) with this line and number, whatever they are, into the page from the place on and
 * returns PLANNER_DONE; no other byte of the page changes. Without room for PLANNER_REFUSAL_FRAME bytes it returns PLANNER_NO_ROOM and
 * no byte of the page changes.
 */
uint32_t planner_write_refusal(uint32_t line, uint8_t number, uint8_t *page, size_t page_length, size_t place);

/*
 * The number, from 1, of the line that ends planner_plan_sheet on this sheet; 0 if no line does, or if the sheet is too long. It is
 * the line under which that call's number is filed; a sheet too long is filed as line 0 with PLANNER_MALFORMED. Where the call returns
 * PLANNER_NO_MACHINE or PLANNER_NO_ROOM and no line ended it, there is no frame to file.
 */
uint32_t planner_refused_line(const uint8_t *sheet, size_t sheet_length);

/*
 * Makes the machine line (01) of a box with this many processors from its list, the bytes of
 * /sys/devices/system/cpu/cpu0/cpufreq/scaling_available_frequencies as Linux prints them: 1 to 32 different decimal numbers of 1 to
 * 4,294,967,295 in any order, without leading zeros, one blank (20) between; one blank may follow the last number, and then one line
 * feed (0A) may end the list. The speeds are the numbers divided by their greatest common divisor; one number gives speed 1 and step 1.
 *
 * The first of these that holds is returned, and no byte of the page changes: PLANNER_PROCESSORS; PLANNER_FREQUENCY_LIST, where the
 * bytes are no such list; PLANNER_UNEVEN_GAPS; PLANNER_SPEEDS, where the top speed is above 256; PLANNER_NO_ROOM. Otherwise it returns
 * PLANNER_DONE, and the line, PLANNER_MACHINE_LINE bytes with its 0A, stands in the page from the place on; no other byte of the page
 * changes. A sheet that begins with this line has that machine.
 */
uint32_t planner_import(uint64_t processors, const uint8_t *list, size_t list_length, uint8_t *page, size_t page_length, size_t place);

#ifdef __cplusplus
}
#endif

#endif
