/*
 * The planner as a studio's host calls it: each reply, the line that ended a sheet, every byte of the page and of the sheet or list, and the
 * bytes around both, at every site of lent.h. What is expected was worked out by hand from the specification, never taken from a run.
 *
 * Built with: cc -std=c11 -Iinclude tests/host.c libhost.a
 */
#define _DEFAULT_SOURCE /* mmap without a file, in lent.h */
#include "../include/planner.h"
#include "lent.h"

#include <stdarg.h>
#include <stdio.h>

static unsigned passed, failed;

static void check(int good, const char *format, ...)
{
    if (good) {
        passed++;
        return;
    }
    failed++;
    va_list values;
    va_start(values, format);
    vprintf(format, values);
    va_end(values);
    putchar('\n');
}

enum { LONGEST_PAGE = 3 * PLANNER_LONGEST_FRAME };
static struct room input_room, page_room;

/* What a call reads: a sheet or a list. */
static struct lent lend_input(enum site site, const void *bytes, size_t length)
{
    return lend(site, input_room, bytes, length);
}

/* What a page of this length holds with the frame at the place and no other byte changed; with no frame, as it is lent. */
static const uint8_t *page_with(const char *frame, size_t length, size_t place)
{
    static uint8_t bytes[LONGEST_PAGE];
    for (size_t i = 0; i < length; i++)
        bytes[i] = filling(i);
    if (frame)
        memcpy(bytes + place, frame, strlen(frame));
    return bytes;
}

static struct lent lend_page(enum site site, size_t length)
{
    return lend(site, page_room, page_with(NULL, length, 0), length);
}

/* Without a sum that could wrap. */
static int has_room(size_t page_length, size_t place, size_t need)
{
    return place <= page_length && page_length - place >= need;
}

/* Both loans of a call at one site: what it was lent to read, and the page. */
struct loans {
    struct lent input, page;
};

static struct loans lend_both(enum site site, const void *input, size_t length, size_t page_length)
{
    return (struct loans){lend_input(site, input, length), lend_page(site, page_length)};
}

static void give_both_back(struct loans l)
{
    give_back(l.input);
    give_back(l.page);
}

/* A call's reply, and what it left: the page with the frame, if any, at the place and nothing else new, and the input as it was. */
static void judge(const char *name, struct loans l, const void *input, const char *frame, size_t place, uint32_t got, uint32_t reply)
{
    const char *site = site_names[l.page.site];
    check(got == reply, "%s, %s: page %zu, place %zu: reply %u, not %u", name, site, l.page.length, place, (unsigned)got, (unsigned)reply);
    check(lent_is(l.page, page_with(frame, l.page.length, place)), "%s, %s: page %zu, place %zu: a wrong byte in or around the page", name,
          site, l.page.length, place);
    check(lent_is(l.input, input), "%s, %s: the input or a byte around it has changed", name, site);
}

static void plan(const char *name, const void *sheet, size_t length, size_t page_length, size_t place, uint32_t reply, const char *frame)
{
    for (enum site site = 0; site < SITES; site++) {
        struct loans l = lend_both(site, sheet, length, page_length);
        uint32_t got = planner_plan_sheet(l.input.bytes, length, l.page.bytes, page_length, place);
        judge(name, l, sheet, frame, place, got, reply);
        give_both_back(l);
    }
}

static void import(const char *name, uint64_t processors, const void *list, size_t length, size_t page_length, size_t place,
                   uint32_t reply, const char *line)
{
    for (enum site site = 0; site < SITES; site++) {
        struct loans l = lend_both(site, list, length, page_length);
        uint32_t got = planner_import(processors, l.input.bytes, length, l.page.bytes, page_length, place);
        judge(name, l, list, line, place, got, reply);
        give_both_back(l);
    }
}

static void refused_line(const char *name, const void *sheet, size_t length, uint32_t line)
{
    for (enum site site = 0; site < SITES; site++) {
        struct lent s = lend_input(site, sheet, length);
        uint32_t got = planner_refused_line(s.bytes, s.length);
        check(got == line, "%s, %s: refused line %lu, not %lu", name, site_names[site], (unsigned long)got, (unsigned long)line);
        check(lent_is(s, sheet), "%s, %s: the sheet or a byte around it has changed", name, site_names[site]);
        give_back(s);
    }
}

static void refusal(uint32_t line, uint8_t number, size_t page_length, size_t place, uint32_t reply, const char *frame)
{
    for (enum site site = 0; site < SITES; site++) {
        struct lent p = lend_page(site, page_length);
        uint32_t got = planner_write_refusal(line, number, p.bytes, p.length, place);
        check(got == reply, "refusal %lX %u, %s: page %zu, place %zu: reply %u, not %u", (unsigned long)line, number, site_names[site],
              page_length, place, (unsigned)got, (unsigned)reply);
        check(lent_is(p, page_with(frame, page_length, place)),
              "refusal %lX %u, %s: page %zu, place %zu: a wrong byte in or around the page", (unsigned long)line, number, site_names[site],
              page_length, place);
        give_back(p);
    }
}

/* The machine of 4 processors with 4 levels in quarters, and the specification's five jobs. */
#define QUARTERS "01040400010001\n"
#define FIVE_JOBS "030001000A000A\n0300020009000A\n0300030006000A\n0300040005000A\n0300050001000A\n"
#define FIVE_JOBS_PLAN "81050000000A000000A3000903030201\n"
#define NO_JOBS_PLAN "81000000000100000004000000000000\n"

/* With reply 0 the frame is the plan; otherwise it is the refusal that the host files afterwards, if a line or the length made it. */
struct trial {
    const char *name;
    const char *sheet;
    uint32_t reply;
    uint32_t line;
    const char *frame;
};

static const struct trial trials[] = {
    {"the example, without its refused job", QUARTERS FIVE_JOBS, 0, 0, FIVE_JOBS_PLAN},
    {"the example", QUARTERS FIVE_JOBS "030006000B000A\n05\n", PLANNER_NO_PLAN, 7, "8E0000000711\n"},
    {"plans wanted", "05\n" QUARTERS "05\n" FIVE_JOBS "05\n05\n", 0, 0, FIVE_JOBS_PLAN},
    {"slack wanted", "07\n" QUARTERS "07\n" FIVE_JOBS "07\n07\n", 0, 0, FIVE_JOBS_PLAN},
    /* With 9/10 the works are 40 of 40. */
    {"slack wanted while a job comes and goes", "05\n07\n" QUARTERS FIVE_JOBS "07\n0300060009000A\n07\n040006\n07\n05\n", 0, 0,
     FIVE_JOBS_PLAN},
    {"lower case", "01040400010001\n030001000a000a\n0300020009000A\n0300030006000a\n0300040005000a\n0300050001000a\n", 0, 0,
     FIVE_JOBS_PLAN},
    {"no jobs", QUARTERS, 0, 0, NO_JOBS_PLAN},
    /* Work 10 of 10, so the first processor goes to the top: levels 3 0 0 0, power 64 + 3. */
    {"one job", QUARTERS "030001000A000A\n", 0, 0, "81010000000A00000043000303000000\n"},
    /* Speeds 2 3 4; 576/1152, 768/1024 and 640/960: cycle 46,080, levels 1 1 0. By cubes 27 + 27 + 8. */
    {"three periods", "01030300020001\n03001002400480\n03000403000400\n030020028003C0\n", 0, 0, "81030000B4000000003E0002010100\n"},
    /* The same levels under 18 48 100: 48 + 48 + 18. */
    {"a power table", "01030300020001\n03001002400480\n03000403000400\n030020028003C0\n02000000120000003000000064\n", 0, 0,
     "81030000B400000000720002010100\n"},
    /* Without 640/960 the cycle is 9,216 and the second processor needs no raise: 27 + 8 + 8. */
    {"a job retired", "01030300020001\n03001002400480\n030020028003C0\n03000403000400\n040020\n", 0, 0,
     "8102000024000000002B0001010000\n"},
    /* Kind 06: id, cost, period and deadline. With the periods for deadlines the jobs are those of kind 03. */
    {"deadlines at the ends of periods", QUARTERS "060001000A000A000A\n0600020009000A000A\n0600030006000A000A\n0600040005000A000A\n"
     "0600050001000A000A\n", 0, 0, FIVE_JOBS_PLAN},
    {"jobs by either kind", QUARTERS "030001000A000A\n0600020009000A000A\n0300030006000A\n0600040005000A000A\n0300050001000A\n", 0, 0,
     FIVE_JOBS_PLAN},
    /* Periods of 1,000 450 200 100 and 10, by which the last would be the largest: the deadlines are 10 as before. */
    {"other periods, the same deadlines", QUARTERS "060001000A03E8000A\n060002000901C2000A\n060003000600C8000A\n06000400050064000A\n"
     "0300050001000A\n", 0, 0, FIVE_JOBS_PLAN},
    {"a job with a deadline retired", QUARTERS FIVE_JOBS "0600060004000A0005\n040006\n", 0, 0, FIVE_JOBS_PLAN},
    {"small letters in a job with a deadline", QUARTERS "060001000a000A000a\n0300020009000A\n0600030006000a000A\n0300040005000A\n"
     "0300050001000A\n", 0, 0, FIVE_JOBS_PLAN},
    /* 4 in 10 ticks is work 4 of 10, level 1, power 8 + 3; within 5 it is 4 of 5, and within 4 it is 4 of 4, both level 3. */
    {"4 in 10 ticks", QUARTERS "0600010004000A000A\n", 0, 0, "81010000000A0000000B000101000000\n"},
    {"4 in 10 ticks, within 5", QUARTERS "0600010004000A0005\n", 0, 0, "81010000000500000043000303000000\n"},
    {"4 in 10 ticks, within 4", QUARTERS "0600010004000A0004\n", 0, 0, "81010000000400000043000303000000\n"},
    /* Works 10 9 8 6 5 1 of 40: test 3 needs 108 of 10 x 11, test 4 needs 156 of 10 x 16, so all are at the top: 4 x 64. */
    {"the five jobs and 4 within 5", QUARTERS FIVE_JOBS "0600060004000A0005\n", 0, 0, "81060000000A00000100000C03030303\n"},
    /* Works 8 and 2 of 8, the job that has less in its period first: 32 of 8 x 4, 40 of 8 x 5. */
    {"the earlier deadline weighs more", QUARTERS "060001000200080008\n060002000100080001\n", 0, 0,
     "81020000000800000043000303000000\n"},
    /* Speeds 2 3 4; 288 within 576, 576 within 768, 160 within 640: cycle 11,520, works 8640 5760 2880, levels 1 0 0, 27 + 8 + 8. */
    {"three deadlines", "01030300020001\n060010012004800240\n060004024004000300\n06002000A003C00280\n", 0, 0,
     "810300002D000000002B0001010000\n"},
    /* Without the second the cycle is 5,760, works 2880 1440: 4 x 2,880 is 5,760 x 2. */
    {"one of three deadlines retired", "01030300020001\n060010012004800240\n060004024004000300\n06002000A003C00280\n040004\n", 0, 0,
     "810200001680000000180000000000\n"},
    /* 65,535 within 65,535, and 1 within 1 in as many: work 65,535 each. */
    {"the largest numbers", QUARTERS "06FFFFFFFFFFFFFFFF\n0600010001FFFF0001\n", 0, 0, "81020000FFFF00000082000603030000\n"},
    /* 26/100 needs a little more than the lowest speed: level 1, power 8. */
    {"one processor", "01010400010001\n030001001A0064\n", 0, 0, "81010000006400000008000101\n"},
    /* 32 levels from 8 to 256 in eights: 32 times the cube of 8. */
    {"32 processors", "01202000080008\n", 0, 0,
     "810000000001000040000000"
     "0000000000000000000000000000000000000000000000000000000000000000\n"},

    {"no lines", "", PLANNER_NO_MACHINE, 0, NULL},
    {"only plans wanted", "05\n05\n", PLANNER_NO_MACHINE, 0, NULL},
    {"only slack wanted", "07\n07\n", PLANNER_NO_MACHINE, 0, NULL},

    {"no processor", "01000400010001\n", PLANNER_PROCESSORS, 1, "8E0000000101\n"},
    {"33 processors", "05\n01210400010001\n", PLANNER_PROCESSORS, 2, "8E0000000201\n"},
    {"no level", "01040000010001\n", PLANNER_SPEEDS, 1, "8E0000000102\n"},
    {"a top speed of 257", "010402000200FF\n", PLANNER_SPEEDS, 1, "8E0000000102\n"},
    {"two values for four levels", QUARTERS "020000000100000008\n", PLANNER_POWER_TABLE, 2, "8E0000000203\n"},
    {"a value too large", QUARTERS "0200000001000000080000001B01000001\n", PLANNER_POWER_TABLE, 2, "8E0000000203\n"},
    {"a fall", QUARTERS "0200000002000000010000000300000009\n", PLANNER_POWER_TABLE, 2, "8E0000000203\n"},
    {"a shrinking rise", QUARTERS "0200000000000000050000000900000010\n", PLANNER_POWER_TABLE, 2, "8E0000000203\n"},
    {"id 0", QUARTERS "030000000A000A\n", PLANNER_JOB_NUMBERS, 2, "8E0000000204\n"},
    {"cost 0", QUARTERS "0300010000000A\n", PLANNER_JOB_NUMBERS, 2, "8E0000000204\n"},
    {"period 0", QUARTERS "030001000A0000\n", PLANNER_JOB_NUMBERS, 2, "8E0000000204\n"},
    {"id 0 to retire", QUARTERS "040000\n", PLANNER_JOB_NUMBERS, 2, "8E0000000204\n"},
    {"deadline 0", QUARTERS "060001000A000A0000\n", PLANNER_JOB_NUMBERS, 2, "8E0000000204\n"},
    {"deadline 11, period 10", QUARTERS "0600010001000A000A\n0600020001000A000B\n", PLANNER_JOB_NUMBERS, 3, "8E0000000304\n"},
    {"deadline 256, period 255", QUARTERS "060001000100FF0100\n", PLANNER_JOB_NUMBERS, 2, "8E0000000204\n"},
    {"deadline 65,535, period 65,534", QUARTERS "0600010001FFFEFFFF\n", PLANNER_JOB_NUMBERS, 2, "8E0000000204\n"},
    {"id 0, with a deadline", QUARTERS "060000000A000A000A\n", PLANNER_JOB_NUMBERS, 2, "8E0000000204\n"},
    {"cost 0, with a deadline", QUARTERS "0600010000000A000A\n", PLANNER_JOB_NUMBERS, 2, "8E0000000204\n"},
    {"period 0, with a deadline", QUARTERS "060001000A00000001\n", PLANNER_JOB_NUMBERS, 2, "8E0000000204\n"},
    {"period and deadline 0", QUARTERS "060001000A00000000\n", PLANNER_JOB_NUMBERS, 2, "8E0000000204\n"},
    {"deadline above period, id held", QUARTERS FIVE_JOBS "0600030001000A000B\n", PLANNER_JOB_NUMBERS, 7, "8E0000000704\n"},

    {"an empty line", "\n", PLANNER_MALFORMED, 1, "8E0000000105\n"},
    {"an empty line after the jobs", QUARTERS FIVE_JOBS "\n", PLANNER_MALFORMED, 7, "8E0000000705\n"},
    {"a wrong digit", QUARTERS "0G\n", PLANNER_MALFORMED, 2, "8E0000000205\n"},
    {"an odd number of digits", QUARTERS "050\n", PLANNER_MALFORMED, 2, "8E0000000205\n"},
    {"an unknown kind", QUARTERS "00\n", PLANNER_MALFORMED, 2, "8E0000000205\n"},
    {"an unknown kind after slack wanted", QUARTERS "07\n08\n", PLANNER_MALFORMED, 3, "8E0000000305\n"},
    {"an output frame read", QUARTERS NO_JOBS_PLAN, PLANNER_MALFORMED, 2, "8E0000000205\n"},
    {"a slack frame read", QUARTERS "83000000000000000002\n", PLANNER_MALFORMED, 2, "8E0000000205\n"},
    {"a machine, too short", "010404000100\n", PLANNER_MALFORMED, 1, "8E0000000105\n"},
    {"a job, too long", QUARTERS "030001000A000A00\n", PLANNER_MALFORMED, 2, "8E0000000205\n"},
    {"a job, as long as with a deadline", QUARTERS "030001000A000A000A\n", PLANNER_MALFORMED, 2, "8E0000000205\n"},
    {"a job with a deadline, its kind alone", QUARTERS "06\n", PLANNER_MALFORMED, 2, "8E0000000205\n"},
    {"a job with a deadline, without it", QUARTERS "060001000A000A\n", PLANNER_MALFORMED, 2, "8E0000000205\n"},
    {"a job with a deadline, too short", QUARTERS "060001000A000A00\n", PLANNER_MALFORMED, 2, "8E0000000205\n"},
    {"a job with a deadline, too long", QUARTERS "060001000A000A000A00\n", PLANNER_MALFORMED, 2, "8E0000000205\n"},
    {"a job with a deadline, an odd number of digits", QUARTERS "060001000A000A000\n", PLANNER_MALFORMED, 2, "8E0000000205\n"},
    {"a job with a deadline, a wrong digit", QUARTERS "060001000A000A000G\n", PLANNER_MALFORMED, 2, "8E0000000205\n"},
    {"a job with a deadline, unclosed", QUARTERS FIVE_JOBS "0600060001000A0005", PLANNER_MALFORMED, 7, "8E0000000705\n"},
    {"a job with a deadline, too short, before the machine", "05\n060000\n" QUARTERS, PLANNER_MALFORMED, 2, "8E0000000205\n"},
    {"a job to retire, too short", QUARTERS "0400\n", PLANNER_MALFORMED, 2, "8E0000000205\n"},
    {"a table without values", QUARTERS "02\n", PLANNER_MALFORMED, 2, "8E0000000205\n"},
    {"a plan wanted, too long", QUARTERS "0500\n", PLANNER_MALFORMED, 2, "8E0000000205\n"},
    {"a plan wanted, closed by 0D 0A", QUARTERS "05\r\n", PLANNER_MALFORMED, 2, "8E0000000205\n"},
    {"a plan wanted, unclosed", QUARTERS FIVE_JOBS "05", PLANNER_MALFORMED, 7, "8E0000000705\n"},
    {"slack wanted, too long", QUARTERS "0700\n", PLANNER_MALFORMED, 2, "8E0000000205\n"},
    {"slack wanted, too long, before the machine", "07\n05\n0707\n" QUARTERS, PLANNER_MALFORMED, 3, "8E0000000305\n"},
    {"slack wanted, an odd number of digits", QUARTERS "07\n070\n", PLANNER_MALFORMED, 3, "8E0000000305\n"},
    {"slack wanted, closed by 0D 0A", QUARTERS "07\r\n", PLANNER_MALFORMED, 2, "8E0000000205\n"},
    {"slack wanted, unclosed", QUARTERS FIVE_JOBS "07\n07", PLANNER_MALFORMED, 8, "8E0000000805\n"},
    {"slack wanted, unclosed, and nothing else", "07", PLANNER_MALFORMED, 1, "8E0000000105\n"},
    {"a job, unclosed", QUARTERS "030001000A000A", PLANNER_MALFORMED, 2, "8E0000000205\n"},
    {"a machine, unclosed", "01040400010001", PLANNER_MALFORMED, 1, "8E0000000105\n"},

    {"a table before the machine", "0200000001\n", PLANNER_NO_MACHINE, 1, "8E000000010B\n"},
    {"a job before the machine", "030001000A000A\n" QUARTERS, PLANNER_NO_MACHINE, 1, "8E000000010B\n"},
    {"a job with a deadline before the machine", "060001000A000A000A\n" QUARTERS, PLANNER_NO_MACHINE, 1, "8E000000010B\n"},
    {"a deadline above its period before the machine", "07\n060001000A000A000B\n", PLANNER_NO_MACHINE, 2, "8E000000020B\n"},
    {"a job to retire before the machine", "05\n05\n040001\n", PLANNER_NO_MACHINE, 3, "8E000000030B\n"},
    {"a job before the machine, after slack wanted", "07\n05\n07\n030001000A000A\n", PLANNER_NO_MACHINE, 4, "8E000000040B\n"},
    {"a second machine", QUARTERS QUARTERS, PLANNER_MACHINE_OPEN, 2, "8E000000020C\n"},
    {"an id twice", QUARTERS FIVE_JOBS "03000300010001\n", PLANNER_ID_HELD, 7, "8E000000070D\n"},
    {"an id twice, with a deadline", QUARTERS FIVE_JOBS "060003000100010001\n", PLANNER_ID_HELD, 7, "8E000000070D\n"},
    {"an id twice, the first with a deadline", QUARTERS "060003000100640005\n03000300010064\n", PLANNER_ID_HELD, 3, "8E000000030D\n"},
    {"an id twice, another deadline", QUARTERS "060003000100640005\n060003000100640004\n", PLANNER_ID_HELD, 3, "8E000000030D\n"},
    {"an id to retire that is not there", QUARTERS FIVE_JOBS "040006\n", PLANNER_ID_NOT_HELD, 7, "8E000000070E\n"},
    /* The longest cycle of two neighbours that is allowed: 16,773,120. */
    {"periods 4095 and 4096", QUARTERS "03000100010FFF\n03000200011000\n", 0, 0, "810200FFF00000000004000000000000\n"},
    {"periods 4096 and 4097", QUARTERS "03000100011000\n03000200011001\n", PLANNER_HYPERPERIOD_TOO_LONG, 3, "8E0000000310\n"},
    {"periods 4096 and 4097, cost 4098", QUARTERS "03000100011000\n03000210021001\n", PLANNER_HYPERPERIOD_TOO_LONG, 3,
     "8E0000000310\n"},
    /* It is the deadlines that count. */
    {"periods 4096 and 4097, deadlines 4096 and 2048", QUARTERS "060001000110001000\n060002000110010800\n", 0, 0,
     "81020000100000000004000000000000\n"},
    {"deadlines 4095 and 4097", QUARTERS "0600010001FFFF0FFF\n0600020001FFFF1001\n", 0, 0, "810200FFFFFF00000004000000000000\n"},
    {"deadlines 4096 and 4097", QUARTERS "060001000110011000\n060002000110011001\n", PLANNER_HYPERPERIOD_TOO_LONG, 3,
     "8E0000000310\n"},
    {"deadlines 4096 and 4097, cost 4098", QUARTERS "05\n060001000110011000\n060002100210021001\n", PLANNER_HYPERPERIOD_TOO_LONG, 4,
     "8E0000000410\n"},
    /* 16,777,217. */
    {"deadlines 257 and 65281", QUARTERS "0600010001FFFF0101\n0600020001FFFFFF01\n", PLANNER_HYPERPERIOD_TOO_LONG, 3, "8E0000000310\n"},
    {"cost above period", QUARTERS "030001000B000A\n", PLANNER_NO_PLAN, 2, "8E0000000211\n"},
    {"cost above deadline", QUARTERS "0600010005000A0004\n", PLANNER_NO_PLAN, 2, "8E0000000211\n"},
    /* Cycle 20, works 20 20 18 12 10 2: 82 of 80. */
    {"the five jobs and 4 within 4", "05\n" QUARTERS "07\n" FIVE_JOBS "0600060004000A0004\n05\n", PLANNER_NO_PLAN, 9, "8E0000000911\n"},
    {"the example, with slack wanted", "07\n" QUARTERS "07\n" FIVE_JOBS "05\n07\n030006000B000A\n07\n", PLANNER_NO_PLAN, 11,
     "8E0000000B11\n"},
    {"more work than the processors have", "01010400010001\n03000100010002\n03000200010002\n03000300010002\n", PLANNER_NO_PLAN, 4,
     "8E0000000411\n"},
    {"only the first refused line", QUARTERS "040001\n" QUARTERS "\n", PLANNER_ID_NOT_HELD, 2, "8E000000020E\n"},
};

static void try_sheet(const char *name, const void *bytes, size_t length, uint32_t reply, uint32_t line, const char *frame)
{
    refused_line(name, bytes, length, line);
    plan(name, bytes, length, PLANNER_LONGEST_FRAME, 0, reply, reply ? NULL : frame);
    plan(name, bytes, length, LONGEST_PAGE, 100, reply, reply ? NULL : frame);
    /* A refusal other than for want of room comes before it. */
    plan(name, bytes, length, 0, 0, reply ? reply : PLANNER_NO_ROOM, NULL);
    plan(name, bytes, length, 20, SIZE_MAX, reply ? reply : PLANNER_NO_ROOM, NULL);
    if (reply && frame)
        refusal(line, (uint8_t)reply, PLANNER_REFUSAL_FRAME, 0, PLANNER_DONE, frame);
}

static void trials_of_sheets(void)
{
    for (size_t i = 0; i < sizeof trials / sizeof *trials; i++) {
        const struct trial *t = &trials[i];
        try_sheet(t->name, t->sheet, strlen(t->sheet), t->reply, t->line, t->frame);
    }
}

/* Jobs of 1/64 on one processor: 64 of them are exactly its work at the top, level 3. From this id on they are due in 64 of 256 ticks. */
static void a_full_roster(unsigned deadlines_from)
{
    static char sheet[70 * 19 + 1];
    const char *const filed = "81400000004000000040000303\n";
    size_t length = (size_t)snprintf(sheet, sizeof sheet, "01010400010001\n");
    for (unsigned id = 1; id <= 64; id++) {
        const char *const job = id < deadlines_from ? "03%04X00010040\n" : "06%04X000101000040\n";
        length += (size_t)snprintf(sheet + length, sizeof sheet - length, job, id);
    }
    try_sheet("64 jobs", sheet, length, PLANNER_DONE, 0, filed);

    const char *const more = deadlines_from > 65 ? "03004100010040\n" : "060041000101000040\n";
    const size_t line = strlen(more);
    memcpy(sheet + length, more, line);
    try_sheet("65 jobs", sheet, length + line, PLANNER_PLACES_FULL, 66, "8E000000420F\n");

    memcpy(sheet + length, "040007\n", 7);
    memcpy(sheet + length + 7, more, line);
    try_sheet("64 jobs, one for another", sheet, length + 7 + line, PLANNER_DONE, 0, filed);
}

static void long_sheets(void)
{
    static char sheet[PLANNER_LONGEST_SHEET + 1];

    /* A machine, a job that comes and goes, and 21,833 lines by turns of slack and of a plan wanted: 15 + 15 + 7 + 65,499 bytes. */
    size_t length = (size_t)snprintf(sheet, sizeof sheet, QUARTERS "030001000A000A\n040001\n");
    for (; length < PLANNER_LONGEST_SHEET; length += 3)
        memcpy(sheet + length, length % 2 ? "07\n" : "05\n", 3);
    check(length == PLANNER_LONGEST_SHEET, "the longest sheet is %zu bytes", length);
    try_sheet("65,536 bytes", sheet, length, PLANNER_DONE, 0, NO_JOBS_PLAN);
    sheet[length] = '\n';
    try_sheet("65,537 bytes", sheet, length + 1, PLANNER_MALFORMED, 0, "8E0000000005\n");
    try_sheet("65,535 bytes, unclosed", sheet, length - 1, PLANNER_MALFORMED, 21836, "8E0000554C05\n");

    /* Too long comes before a line that another number refuses. */
    memcpy(sheet, "0300010001000A\n", 15);
    try_sheet("65,536 bytes, a job first", sheet, length, PLANNER_NO_MACHINE, 1, "8E000000010B\n");
    try_sheet("65,537 bytes, a job first", sheet, length + 1, PLANNER_MALFORMED, 0, "8E0000000005\n");

    memset(sheet, '\n', sizeof sheet);
    try_sheet("65,536 empty lines", sheet, PLANNER_LONGEST_SHEET, PLANNER_MALFORMED, 1, "8E0000000105\n");
    try_sheet("65,537 empty lines", sheet, PLANNER_LONGEST_SHEET + 1, PLANNER_MALFORMED, 0, "8E0000000005\n");
}

/* The places around a frame of this need on a page of this length, one after another; the last four lie at its end and beyond. */
static size_t place_number(size_t i, size_t need, size_t page_length)
{
    if (i <= need + 4)
        return i;
    const size_t last[] = {page_length, page_length + 1, SIZE_MAX, SIZE_MAX - 10};
    return last[i - (need + 5)];
}

/* Every page length up to three bytes more than the frame needs, and one with room on both sides. */
static void plans_on_pages(const char *name, const char *text, const char *frame)
{
    size_t need = strlen(frame), length = strlen(text);
    for (size_t page_length = 0; page_length <= need + 3; page_length++)
        for (size_t i = 0; i < need + 9; i++) {
            size_t place = place_number(i, need, page_length);
            int room = has_room(page_length, place, need);
            plan(name, text, length, page_length, place, room ? PLANNER_DONE : PLANNER_NO_ROOM, room ? frame : NULL);
        }
    for (size_t place = 0; place <= 3 * need + 1; place++) {
        int room = has_room(3 * need, place, need);
        plan(name, text, length, 3 * need, place, room ? PLANNER_DONE : PLANNER_NO_ROOM, room ? frame : NULL);
    }
}

/* Whatever the page, a sheet that is refused otherwise is never refused for want of room. */
static void refused_on_pages(const char *name, const char *text, uint32_t reply)
{
    for (size_t page_length = 0; page_length <= 36; page_length++)
        for (size_t i = 0; i < 33 + 9; i++)
            plan(name, text, strlen(text), page_length, place_number(i, 33, page_length), reply, NULL);
}

static void pages(void)
{
    /* The slack frame, 75 bytes, would need more room than the plan. */
    plans_on_pages("pages, 4 processors", QUARTERS FIVE_JOBS "07\n", FIVE_JOBS_PLAN);
    plans_on_pages("pages, 1 processor", "01010400010001\n", "81000000000100000001000000\n");
    plans_on_pages("pages, 32 processors", "01202000080008\n",
                   "810000000001000040000000"
                   "0000000000000000000000000000000000000000000000000000000000000000\n");
    refused_on_pages("pages, no lines", "", PLANNER_NO_MACHINE);
    refused_on_pages("pages, a plan wanted", "05\n", PLANNER_NO_MACHINE);
    refused_on_pages("pages, slack wanted", "07\n", PLANNER_NO_MACHINE);
    refused_on_pages("pages, the example", QUARTERS FIVE_JOBS "030006000B000A\n05\n", PLANNER_NO_PLAN);
}

static void refusals(void)
{
    static const struct {
        uint32_t line;
        uint8_t number;
        const char *frame;
    } filed[] = {
        {0, PLANNER_MALFORMED, "8E0000000005\n"},
        {1, PLANNER_PROCESSORS, "8E0000000101\n"},
        {7, PLANNER_NO_PLAN, "8E0000000711\n"},
        {65536, PLANNER_MALFORMED, "8E0001000005\n"},
        {0x12345678, PLANNER_HYPERPERIOD_TOO_LONG, "8E1234567810\n"},
        {0x9ABCDEF0, PLANNER_DAMAGED, "8E9ABCDEF007\n"},
        {0xFFFFFFFF, PLANNER_PLACES_FULL, "8EFFFFFFFF0F\n"},
        {1, 0, "8E0000000100\n"},
        {1, 0xFF, "8E00000001FF\n"},
    };
    const size_t need = PLANNER_REFUSAL_FRAME;
    for (size_t k = 0; k < sizeof filed / sizeof *filed; k++) {
        for (size_t page_length = 0; page_length <= need + 3; page_length++)
            for (size_t i = 0; i < need + 9; i++) {
                size_t place = place_number(i, need, page_length);
                int room = has_room(page_length, place, need);
                refusal(filed[k].line, filed[k].number, page_length, place, room ? PLANNER_DONE : PLANNER_NO_ROOM,
                        room ? filed[k].frame : NULL);
            }
        refusal(filed[k].line, filed[k].number, LONGEST_PAGE, 100, PLANNER_DONE, filed[k].frame);
    }
}

/* Places on a page of no bytes, and far beyond any page. */
static const size_t some_places[] = {0, 1, 33, SIZE_MAX - 10, SIZE_MAX};
enum { SOME_PLACES = sizeof some_places / sizeof *some_places };

static void without_a_sheet(void)
{
    for (enum site site = 0; site < SITES; site++) {
        struct lent p = lend_page(site, LONGEST_PAGE);
        for (size_t i = 0; i < SOME_PLACES; i++) {
            uint32_t got = planner_plan_sheet(NULL, 0, p.bytes, p.length, some_places[i]);
            check(got == PLANNER_NO_MACHINE, "no sheet, %s: place %zu: reply %u", site_names[site], some_places[i], (unsigned)got);
            check(lent_is(p, page_with(NULL, p.length, 0)), "no sheet, %s: place %zu: a byte in or around the page has changed",
                  site_names[site], some_places[i]);
        }
        give_back(p);
    }
}

static void without_a_page(const char *name, const char *sheet, uint32_t reply)
{
    for (enum site site = 0; site < SITES; site++) {
        struct lent s = lend_input(site, sheet, strlen(sheet));
        for (size_t i = 0; i < SOME_PLACES; i++) {
            uint32_t got = planner_plan_sheet(s.bytes, s.length, NULL, 0, some_places[i]);
            check(got == reply, "%s, no page, %s: place %zu: reply %u, not %u", name, site_names[site], some_places[i], (unsigned)got,
                  (unsigned)reply);
            check(lent_is(s, sheet), "%s, no page, %s: the sheet or a byte around it has changed", name, site_names[site]);
        }
        give_back(s);
    }
}

/* NULL with length 0 is a sheet or a page of no bytes. */
static void null_pointers(void)
{
    check(planner_refused_line(NULL, 0) == 0, "no sheet: a refused line");
    for (size_t i = 0; i < SOME_PLACES; i++) {
        size_t place = some_places[i];
        check(planner_plan_sheet(NULL, 0, NULL, 0, place) == PLANNER_NO_MACHINE, "no sheet, no page, place %zu", place);
        check(planner_write_refusal(1, PLANNER_MALFORMED, NULL, 0, place) == PLANNER_NO_ROOM, "refusal, no page, place %zu", place);
    }
    without_a_sheet();
    without_a_page("a good sheet", QUARTERS FIVE_JOBS, PLANNER_NO_ROOM);
    without_a_page("a bad sheet", QUARTERS "\n", PLANNER_MALFORMED);
}

/* A machine line for 4 processors, its numbers in hexadecimal. */
#define LINE(levels, lowest, step) "0104" levels lowest step "\n"
#define ONE_SPEED LINE("01", "0001", "0001")
#define TWO_SPEEDS(lowest, step) LINE("02", lowest, step)

/* A box of 13 frequencies, from 600 MHz to 1.8 GHz in steps of 100 MHz, without an ending: speeds 6 to 18. */
#define BOX "600000 700000 800000 900000 1000000 1100000 1200000 1300000 1400000 1500000 1600000 1700000 1800000"
#define BOX_LINE LINE("0D", "0006", "0001")

struct list_trial {
    const char *name;
    const char *list;
    uint32_t reply;
    const char *line;
};

static const struct list_trial list_trials[] = {
    {"as Linux prints it", BOX " \n", 0, BOX_LINE},
    {"without the line feed", BOX " ", 0, BOX_LINE},
    {"without the last blank", BOX "\n", 0, BOX_LINE},
    {"without an ending", BOX, 0, BOX_LINE},
    {"the smallest number", "1", 0, ONE_SPEED},
    {"the largest number", "4294967295", 0, ONE_SPEED},
    {"one number, as Linux prints it", "1200000 \n", 0, ONE_SPEED},
    {"two numbers, as Linux prints them", "600000 1200000 \n", 0, TWO_SPEEDS("0001", "0001")},
    {"falling", "1800000 1200000 600000 \n", 0, LINE("03", "0001", "0001")},
    {"in no order", "1200000 1800000 600000 \n", 0, LINE("03", "0001", "0001")},
    {"in another order by their digits", "10 8 9", 0, LINE("03", "0008", "0001")},
    {"gaps with a divisor that the numbers lack", "3 5 7", 0, LINE("03", "0003", "0002")},
    /* 2 divides the numbers, 4 the gaps: 3 5 7. */
    {"gaps with a greater divisor than the numbers", "6 10 14", 0, LINE("03", "0003", "0002")},
    {"a divisor below the lowest number", "9 6", 0, TWO_SPEEDS("0002", "0001")},
    /* The third of 4,294,967,295, twice and three times that; half of 4,294,967,294. */
    {"thirds of the largest number", "4294967295 1431655765 2863311530", 0, LINE("03", "0001", "0001")},
    {"a number and its half", "4294967294 2147483647", 0, TWO_SPEEDS("0001", "0001")},

    /* Top speeds. Of the large numbers the first are 255 and 256 times 16,777,215; 257 times 16,711,935 is 4,294,967,295. */
    {"1 and 256", "1 256", 0, TWO_SPEEDS("0001", "00FF")},
    {"1 and 257", "1 257", PLANNER_SPEEDS, NULL},
    {"2 and 257", "2 257", PLANNER_SPEEDS, NULL},
    {"255 and 256", "256 255", 0, TWO_SPEEDS("00FF", "0001")},
    {"256 and 257", "257 256", PLANNER_SPEEDS, NULL},
    {"2 to 256 in two steps", "129 256 2", 0, LINE("03", "0002", "007F")},
    {"1 to 257 in two steps", "129 257 1", PLANNER_SPEEDS, NULL},
    {"255 and 256, large", "4278189825 4294967040", 0, TWO_SPEEDS("00FF", "0001")},
    {"1 and 257, large", "4294967295 16711935 \n", PLANNER_SPEEDS, NULL},
    {"the two ends", "1 4294967295", PLANNER_SPEEDS, NULL},
    {"the two largest", "4294967294 4294967295", PLANNER_SPEEDS, NULL},
    {"the two ends and the middle", "1 2147483648 4294967295", PLANNER_SPEEDS, NULL},
    /* Speeds and step that are 1 and 2 by their lowest byte, or their two lowest. */
    {"1 and 258", "1 258", PLANNER_SPEEDS, NULL},
    {"1 and 65,538", "1 65538", PLANNER_SPEEDS, NULL},
    {"65,537 and 65,538", "65537 65538", PLANNER_SPEEDS, NULL},

    {"the first gap shorter", "1 2 4 6", PLANNER_UNEVEN_GAPS, NULL},
    {"the middle gap longer", "5 4 2 1", PLANNER_UNEVEN_GAPS, NULL},
    {"the last gap shorter", "1 3 5 6", PLANNER_UNEVEN_GAPS, NULL},
    {"uneven, in no order", "1500000 600000 1000000 750000 \n", PLANNER_UNEVEN_GAPS, NULL},
    {"uneven and a top speed of 257", "1 2 257", PLANNER_UNEVEN_GAPS, NULL},
    {"a top speed of 257 and uneven", "1 256 257", PLANNER_UNEVEN_GAPS, NULL},
    {"gaps of 1 and 257", "1 2 259", PLANNER_UNEVEN_GAPS, NULL},
    {"gaps of 1 and 65,537", "1 2 65539", PLANNER_UNEVEN_GAPS, NULL},
    {"the two ends and not the middle", "1 2147483649 4294967295", PLANNER_UNEVEN_GAPS, NULL},
};

/* Each with its name. */
static const char *const no_lists[][2] = {
    {"nothing", ""},
    {"a blank", " "},
    {"a line feed", "\n"},
    {"a blank and a line feed", " \n"},
    {"a line feed and a blank at the end", BOX "\n "},
    {"two line feeds at the end", BOX "\n\n"},
    {"a blank and two line feeds at the end", BOX " \n\n"},
    {"blanks around the line feed", BOX " \n "},
    {"two blanks at the end", BOX "  "},
    {"two blanks and a line feed at the end", BOX "  \n"},
    {"a return and a line feed at the end", BOX " \r\n"},
    {"two lists", BOX " \n" BOX " \n"},
    {"a list on two lines", "1 2\n3 4\n"},
    {"a blank first", " 1 2"},
    {"a line feed first", "\n1 2"},
    {"two blanks between", "1  2"},
    {"a tab between", "1\t2"},
    {"a comma between", "1,2"},
    {"a blank of two bytes between", "1\xC2\xA0" "2"},
    {"a byte order mark first", "\xEF\xBB\xBF" "1 2"},
    {"a number above zero with its sign", "1 +2"},
    {"a number below zero", "-1 2"},
    {"a fraction", "1.5 3"},
    {"a power of ten", "1e3"},
    {"hexadecimal", "0x10"},
    {"letters", "10 1A"},
    {"no frequencies", "<unsupported>\n"},
    {"zero", "0"},
    {"zero first", "0 1 2"},
    {"zero last", "2 1 0 \n"},
    {"a leading zero", "1 02"},
    {"only zeros", "00"},
    {"a leading zero in front of ten digits", "04294967295"},
    {"many leading zeros", "1 000000000000000000000000000002"},
    {"one number twice", "1 1"},
    {"a number twice, apart", "1 2 3 1"},
    {"the largest number twice", "4294967295 1 4294967295 \n"},
    {"a number three times", "2 2 2"},
    /* What would be 1 or 2 in 32 bits, and 5 in 64. */
    {"one above the largest", "4294967296"},
    {"one above the largest, last", "1 2 4294967296"},
    {"2 above 2 to the 32nd", "1 4294967298"},
    {"5 above 2 to the 64th", "18446744073709551621"},
    {"5 above 2 to the 64th, last", "1 3 18446744073709551621 \n"},
    {"2 to the 64th", "18446744073709551616"},
    {"1 above 2 to the 128th", "340282366920938463463374607431768211457"},
    {"thirty digits", "1 111111111111111111111111111111"},
    /* 19 and 2 come later. */
    {"a number twice, and uneven gaps", "1 2 4 4"},
    {"two blanks at the end, and uneven gaps", "1 2 4  "},
    {"too large a number, and uneven gaps", "4294967296 2 1"},
    {"a number twice, and a top speed of 257", "1 257 257"},
    {"a tab at the end, and a top speed of 257", "1 257\t"},
};

static void try_list(const char *name, const void *list, size_t length, uint32_t reply, const char *line)
{
    const uint32_t without_room = reply ? reply : PLANNER_NO_ROOM;
    import(name, 4, list, length, PLANNER_MACHINE_LINE, 0, reply, line);
    import(name, 4, list, length, LONGEST_PAGE, 100, reply, line);
    /* A refusal of the list comes before the want of room, and that of the processors before both. */
    import(name, 4, list, length, 0, 0, without_room, NULL);
    import(name, 4, list, length, PLANNER_MACHINE_LINE, 1, without_room, NULL);
    import(name, 4, list, length, 20, SIZE_MAX, without_room, NULL);
    import(name, 0, list, length, LONGEST_PAGE, 100, PLANNER_PROCESSORS, NULL);
    import(name, 33, list, length, 0, 1, PLANNER_PROCESSORS, NULL);
}

static void trials_of_lists(void)
{
    for (size_t i = 0; i < sizeof list_trials / sizeof *list_trials; i++) {
        const struct list_trial *t = &list_trials[i];
        try_list(t->name, t->list, strlen(t->list), t->reply, t->line);
    }
    for (size_t i = 0; i < sizeof no_lists / sizeof *no_lists; i++)
        try_list(no_lists[i][0], no_lists[i][1], strlen(no_lists[i][1]), PLANNER_FREQUENCY_LIST, NULL);
}

/* One byte between two texts, and the lines for each of ten digits, a blank and a line feed. NULL, and any other byte, is no list. */
static const struct {
    const char *before, *after;
    const char *lines[12];
} one_byte[] = {
    {"", "", {NULL, ONE_SPEED, ONE_SPEED, ONE_SPEED, ONE_SPEED, ONE_SPEED, ONE_SPEED, ONE_SPEED, ONE_SPEED, ONE_SPEED, NULL, NULL}},
    {"", "1", {NULL, ONE_SPEED, ONE_SPEED, ONE_SPEED, ONE_SPEED, ONE_SPEED, ONE_SPEED, ONE_SPEED, ONE_SPEED, ONE_SPEED, NULL, NULL}},
    /* 4, 6 and 8 with 2 are 2, 3 and 4 with 1. */
    {"", " 2",
     {NULL, TWO_SPEEDS("0001", "0001"), NULL, TWO_SPEEDS("0002", "0001"), TWO_SPEEDS("0001", "0001"), TWO_SPEEDS("0002", "0003"),
      TWO_SPEEDS("0001", "0002"), TWO_SPEEDS("0002", "0005"), TWO_SPEEDS("0001", "0003"), TWO_SPEEDS("0002", "0007"), NULL, NULL}},
    {"1", "2",
     {ONE_SPEED, ONE_SPEED, ONE_SPEED, ONE_SPEED, ONE_SPEED, ONE_SPEED, ONE_SPEED, ONE_SPEED, ONE_SPEED, ONE_SPEED,
      TWO_SPEEDS("0001", "0001"), NULL}},
    {"1", "\n",
     {ONE_SPEED, ONE_SPEED, ONE_SPEED, ONE_SPEED, ONE_SPEED, ONE_SPEED, ONE_SPEED, ONE_SPEED, ONE_SPEED, ONE_SPEED, ONE_SPEED, NULL}},
    {"1 ", "",
     {NULL, NULL, TWO_SPEEDS("0001", "0001"), TWO_SPEEDS("0001", "0002"), TWO_SPEEDS("0001", "0003"), TWO_SPEEDS("0001", "0004"),
      TWO_SPEEDS("0001", "0005"), TWO_SPEEDS("0001", "0006"), TWO_SPEEDS("0001", "0007"), TWO_SPEEDS("0001", "0008"), NULL, ONE_SPEED}},
    {"1 ", "\n",
     {NULL, NULL, TWO_SPEEDS("0001", "0001"), TWO_SPEEDS("0001", "0002"), TWO_SPEEDS("0001", "0003"), TWO_SPEEDS("0001", "0004"),
      TWO_SPEEDS("0001", "0005"), TWO_SPEEDS("0001", "0006"), TWO_SPEEDS("0001", "0007"), TWO_SPEEDS("0001", "0008"), NULL, NULL}},
    /* 1 with 12, 22 to 92: steps of 11, 21 to 91. */
    {"1 ", "2",
     {NULL, TWO_SPEEDS("0001", "000B"), TWO_SPEEDS("0001", "0015"), TWO_SPEEDS("0001", "001F"), TWO_SPEEDS("0001", "0029"),
      TWO_SPEEDS("0001", "0033"), TWO_SPEEDS("0001", "003D"), TWO_SPEEDS("0001", "0047"), TWO_SPEEDS("0001", "0051"),
      TWO_SPEEDS("0001", "005B"), NULL, NULL}},
    /* 1 with 20 to 29: steps of 19 to 28. */
    {"1 2", "",
     {TWO_SPEEDS("0001", "0013"), TWO_SPEEDS("0001", "0014"), TWO_SPEEDS("0001", "0015"), TWO_SPEEDS("0001", "0016"),
      TWO_SPEEDS("0001", "0017"), TWO_SPEEDS("0001", "0018"), TWO_SPEEDS("0001", "0019"), TWO_SPEEDS("0001", "001A"),
      TWO_SPEEDS("0001", "001B"), TWO_SPEEDS("0001", "001C"), TWO_SPEEDS("0001", "0001"), TWO_SPEEDS("0001", "0001")}},
    {"1 2\n", "", {NULL}},
    {"1 2 \n", "", {NULL}},
};

static void every_byte(void)
{
    static const char known[] = "0123456789 \n";
    for (size_t i = 0; i < sizeof one_byte / sizeof *one_byte; i++)
        for (int byte = 0; byte <= 0xFF; byte++) {
            char list[8], name[40];
            size_t before = strlen(one_byte[i].before), after = strlen(one_byte[i].after);
            const char *found = byte ? strchr(known, byte) : NULL;
            const char *line = found ? one_byte[i].lines[found - known] : NULL;
            memcpy(list, one_byte[i].before, before);
            list[before] = (char)byte;
            memcpy(list + before + 1, one_byte[i].after, after);
            snprintf(name, sizeof name, "byte %02X between texts %zu", (unsigned)byte, i);
            import(name, 4, list, before + 1 + after, 20, 3, line ? PLANNER_DONE : PLANNER_FREQUENCY_LIST, line);
        }
}

/* These numbers as a list, with both endings and with none. */
static void try_numbers(const char *name, const uint32_t *numbers, size_t count, uint32_t reply, const char *line)
{
    static char list[300 * 11 + 2];
    size_t length = 0;
    for (size_t i = 0; i < count; i++)
        length += (size_t)sprintf(list + length, "%lu ", (unsigned long)numbers[i]);
    list[length] = '\n';
    import(name, 4, list, length - 1, PLANNER_MACHINE_LINE, 0, reply, line);
    import(name, 4, list, length + 1, PLANNER_MACHINE_LINE, 0, reply, line);
}

/* 1 to the count: speeds as they stand. Beyond 32 the list is refused, the counts that are in range in one byte among them. */
static void counts_of_numbers(void)
{
    uint32_t numbers[300];
    for (uint32_t count = 1; count <= 300; count++) {
        char name[40], line[40];
        numbers[count - 1] = count;
        snprintf(name, sizeof name, "%u numbers", (unsigned)count);
        snprintf(line, sizeof line, LINE("%02X", "0001", "0001"), (unsigned)count);
        try_numbers(name, numbers, count, count <= 32 ? PLANNER_DONE : PLANNER_FREQUENCY_LIST, count <= 32 ? line : NULL);
    }
    /* 18 before 19, 18 before 2, and 18 though the 33rd is one of the others. */
    numbers[32] = 35;
    try_numbers("33 numbers, uneven gaps", numbers, 33, PLANNER_FREQUENCY_LIST, NULL);
    numbers[32] = 7;
    try_numbers("33 numbers, one twice", numbers, 33, PLANNER_FREQUENCY_LIST, NULL);
    for (uint32_t i = 0; i < 33; i++)
        numbers[i] = 1 + 9 * i;
    try_numbers("33 numbers, a top speed of 289", numbers, 33, PLANNER_FREQUENCY_LIST, NULL);
    try_numbers("32 numbers, a top speed of 280", numbers, 32, PLANNER_SPEEDS, NULL);
}

/* 32 numbers by this step from this one on, in rising, falling and mixed order. */
static void in_any_order(const char *name, uint32_t lowest, uint32_t step, uint32_t reply, const char *line)
{
    uint32_t rising[32], falling[32], mixed[32];
    for (uint32_t i = 0; i < 32; i++) {
        rising[i] = lowest + i * step;
        falling[31 - i] = rising[i];
        mixed[i * 7 % 32] = rising[i];
    }
    try_numbers(name, rising, 32, reply, line);
    try_numbers(name, falling, 32, reply, line);
    try_numbers(name, mixed, 32, reply, line);
}

static void wide_lists(void)
{
    in_any_order("39 to 256", 39, 7, PLANNER_DONE, LINE("20", "0027", "0007"));
    in_any_order("40 to 257", 40, 7, PLANNER_SPEEDS, NULL);
    in_any_order("8 to 256, all divided by 8", 8, 8, PLANNER_DONE, LINE("20", "0001", "0001"));
    /* 10 to 41 times 104,755,299: ten digits each, the last 4,294,967,259. With both endings the longest list. */
    in_any_order("the longest list", 1047552990, 104755299, PLANNER_DONE, LINE("20", "000A", "0001"));
}

/* In 1 to 32 any number in place of any other; then every gap in turn one longer than the rest. */
static void one_number_off(void)
{
    uint32_t numbers[32];
    for (uint32_t i = 0; i < 32; i++)
        numbers[i] = i + 1;
    for (uint32_t i = 0; i < 32; i++)
        for (uint32_t other = 0; other < 32; other++) {
            numbers[i] = other + 1;
            if (i != other)
                try_numbers("32 numbers, one twice", numbers, 32, PLANNER_FREQUENCY_LIST, NULL);
            numbers[i] = i + 1;
        }
    for (uint32_t i = 31; i > 0; i--) {
        numbers[i]++;
        try_numbers("32 numbers, one gap longer", numbers, 32, PLANNER_UNEVEN_GAPS, NULL);
    }
    /* Now 1 and 3 to 33. With 2 for 1 the gaps are even again. */
    numbers[0] = 2;
    try_numbers("2 to 33", numbers, 32, PLANNER_DONE, LINE("20", "0002", "0001"));
}

/* Each digit of the largest number one up, where it is no 9, and one down, where it is no 0. */
static void around_the_largest(void)
{
    for (size_t i = 0; i < 10; i++) {
        char above[] = "4294967295", below[] = "4294967295";
        above[i]++;
        below[i]--;
        if (above[i] <= '9')
            import("above the largest", 4, above, 10, 20, 3, PLANNER_FREQUENCY_LIST, NULL);
        import("below the largest", 4, below, 10, 20, 3, PLANNER_DONE, ONE_SPEED);
    }
}

/* Nines, and 1 with zeros after it: nine nines and nine zeros are the most. */
static void long_numbers(void)
{
    char nines[80], zeros[80];
    for (size_t length = 1; length <= sizeof nines; length++) {
        int nines_fit = length <= 9, zeros_fit = length <= 10;
        nines[length - 1] = '9';
        zeros[length - 1] = length == 1 ? '1' : '0';
        import("nines", 4, nines, length, 20, 3, nines_fit ? PLANNER_DONE : PLANNER_FREQUENCY_LIST, nines_fit ? ONE_SPEED : NULL);
        import("1 and zeros", 4, zeros, length, 20, 3, zeros_fit ? PLANNER_DONE : PLANNER_FREQUENCY_LIST, zeros_fit ? ONE_SPEED : NULL);
    }
}

/* As long as a sheet may be, and longer: a digit, a blank or a line feed over and over, also after a number; one number over and over. */
static void long_lists(void)
{
    static char list[PLANNER_LONGEST_SHEET + 1];
    for (const char *byte = "1 \n"; *byte; byte++) {
        memset(list, *byte, sizeof list);
        try_list("one byte throughout", list, sizeof list, PLANNER_FREQUENCY_LIST, NULL);
        memcpy(list, "1", 1);
        try_list("one byte after a number", list, PLANNER_LONGEST_SHEET, PLANNER_FREQUENCY_LIST, NULL);
    }
    for (size_t i = 0; i < sizeof list; i++)
        list[i] = i % 2 ? ' ' : '1';
    try_list("32,769 numbers", list, sizeof list, PLANNER_FREQUENCY_LIST, NULL);
}

static void counts_of_processors(void)
{
    /* In range by their low 16, 32 or 63 bits, or far beyond by all. */
    static const uint64_t far[] = {0x10004,     0xFFFFFFFF,    0x100000000,        0x100000001,
                                   0x100000004, 0x10000000020, 0x8000000000000004, 0xFFFFFFFFFFFFFFFF};
    char name[40], line[40];
    /* From 257 on the low byte alone is in range. */
    for (unsigned count = 0; count <= 300; count++) {
        int good = count >= 1 && count <= 32;
        snprintf(name, sizeof name, "%u processors", count);
        snprintf(line, sizeof line, "01%02X0D00060001\n", count);
        import(name, count, BOX, strlen(BOX), 20, 3, good ? PLANNER_DONE : PLANNER_PROCESSORS, good ? line : NULL);
    }
    for (size_t i = 0; i < sizeof far / sizeof *far; i++)
        import("far too many processors", far[i], BOX, strlen(BOX), 20, 3, PLANNER_PROCESSORS, NULL);
}

/* Every page length and place around the line. What is refused otherwise is never refused for want of room. */
static void lists_on_pages(void)
{
    const size_t need = PLANNER_MACHINE_LINE;
    for (size_t page_length = 0; page_length <= need + 5; page_length++)
        for (size_t i = 0; i < need + 2 + 9; i++) {
            size_t place = place_number(i, need + 2, page_length);
            int room = has_room(page_length, place, need);
            import("pages, a list", 4, BOX " \n", strlen(BOX) + 2, page_length, place, room ? PLANNER_DONE : PLANNER_NO_ROOM,
                   room ? BOX_LINE : NULL);
            import("pages, no processor", 0, BOX, strlen(BOX), page_length, place, PLANNER_PROCESSORS, NULL);
            import("pages, no list", 4, BOX "x", strlen(BOX) + 1, page_length, place, PLANNER_FREQUENCY_LIST, NULL);
            import("pages, uneven gaps", 4, "1 2 4", 5, page_length, place, PLANNER_UNEVEN_GAPS, NULL);
            import("pages, a top speed of 257", 4, "1 257", 5, page_length, place, PLANNER_SPEEDS, NULL);
        }
    for (size_t place = 0; place <= LONGEST_PAGE + 1; place++) {
        int room = has_room(LONGEST_PAGE, place, need);
        import("a long page", 4, BOX, strlen(BOX), LONGEST_PAGE, place, room ? PLANNER_DONE : PLANNER_NO_ROOM, room ? BOX_LINE : NULL);
    }
}

/* NULL with length 0 is a list or a page of no bytes. */
static void lists_and_null(void)
{
    static const uint8_t uneven[] = "1 2 4", fast[] = "1 257";
    for (enum site site = 0; site < SITES; site++) {
        struct loans l = lend_both(site, BOX, strlen(BOX), LONGEST_PAGE);
        for (size_t i = 0; i < SOME_PLACES; i++) {
            const size_t place = some_places[i], length = l.input.length;
            uint32_t no_list = planner_import(4, NULL, 0, l.page.bytes, l.page.length, place);
            uint32_t no_page = planner_import(4, l.input.bytes, length, NULL, 0, place);
            judge("a page, no list", l, BOX, NULL, place, no_list, PLANNER_FREQUENCY_LIST);
            judge("a list, no page", l, BOX, NULL, place, no_page, PLANNER_NO_ROOM);
            check(planner_import(33, l.input.bytes, length, NULL, 0, place) == PLANNER_PROCESSORS, "33, no page, place %zu", place);
        }
        give_both_back(l);
    }
    for (size_t i = 0; i < SOME_PLACES; i++) {
        const size_t place = some_places[i];
        check(planner_import(4, NULL, 0, NULL, 0, place) == PLANNER_FREQUENCY_LIST, "no list, no page, place %zu", place);
        check(planner_import(0, NULL, 0, NULL, 0, place) == PLANNER_PROCESSORS, "no processor, list or page, place %zu", place);
        check(planner_import(4, uneven, 5, NULL, 0, place) == PLANNER_UNEVEN_GAPS, "uneven gaps, no page, place %zu", place);
        check(planner_import(4, fast, 5, NULL, 0, place) == PLANNER_SPEEDS, "a top speed of 257, no page, place %zu", place);
    }
}

/* The line stands in front of the jobs, as a station would put it there; the plan is that of the same sheet written by hand. */
static void planned_on(const char *name, uint64_t processors, const char *list, const char *line, const char *jobs, const char *frame)
{
    static uint8_t sheet[500];
    const size_t length = PLANNER_MACHINE_LINE + strlen(jobs);
    memcpy(sheet + PLANNER_MACHINE_LINE, jobs, strlen(jobs));
    memcpy(sheet, line, PLANNER_MACHINE_LINE);
    plan(name, sheet, length, PLANNER_LONGEST_FRAME, 0, PLANNER_DONE, frame);
    memset(sheet, 0, PLANNER_MACHINE_LINE);
    uint32_t got = planner_import(processors, (const uint8_t *)list, strlen(list), sheet, length, 0);
    check(got == PLANNER_DONE, "%s: the list is refused by %u", name, (unsigned)got);
    plan(name, sheet, length, PLANNER_LONGEST_FRAME, 0, PLANNER_DONE, frame);
}

static void lists_planned(void)
{
    planned_on("quarters", 4, "3 1 4 2", QUARTERS, FIVE_JOBS, FIVE_JOBS_PLAN);
    planned_on("no jobs", 4, "500000 1000000 250000 750000 \n", QUARTERS, "", NO_JOBS_PLAN);
    /* Speeds 2 3 4: "three periods" above. */
    planned_on("three periods", 3, "1500000 1000000 2000000 \n", "01030300020001\n",
               "03001002400480\n03000403000400\n030020028003C0\n", "81030000B4000000003E0002010100\n");
    /* One speed, which is the top: work 10 of 10, power 1. */
    planned_on("one speed", 1, "600000", "01010100010001\n", "030001000A000A\n", "81010000000A00000001000000\n");
    /*
     * Speeds 6 to 18, costs 10 9 6 5 1 in a cycle of 10. 18 times the sums over the cycle: 18, so 18, after 12 raises; 34.2, so 18 + 17, 11;
     * 45, so 18 + 17 + 10, 4; of all 55.8: with the fourth at 10, as the third, after 4 raises it is 55, so the third goes to 11, 1. Levels
     * 12 11 5 4, 32 raises; power 5,832 + 4,913 + 1,331 + 1,000 = 13,076.
     */
    planned_on("a box", 4, BOX " \n", BOX_LINE, FIVE_JOBS, "81050000000A0000331400200C0B0504\n");
}

/* From the box's own list. */
static void lists(void)
{
    trials_of_lists();
    every_byte();
    counts_of_numbers();
    wide_lists();
    one_number_off();
    around_the_largest();
    long_numbers();
    long_lists();
    counts_of_processors();
    lists_on_pages();
    lists_and_null();
    lists_planned();
}

/* What a studio does with a sheet: the plan goes to the archive, or the refusal does. */
static void a_sheet_filed(void)
{
    static const char sheet[] = QUARTERS FIVE_JOBS "030006000B000A\n05\n";
    for (enum site site = 0; site < SITES; site++) {
        struct loans l = lend_both(site, sheet, strlen(sheet), PLANNER_LONGEST_FRAME);
        uint32_t number = planner_plan_sheet(l.input.bytes, l.input.length, l.page.bytes, l.page.length, 3);
        uint32_t line = planner_refused_line(l.input.bytes, l.input.length);
        if (line != 0 || number == PLANNER_MALFORMED)
            number = planner_write_refusal(line, (uint8_t)number, l.page.bytes, l.page.length, 3);
        judge("the example filed", l, sheet, "8E0000000711\n", 3, number, PLANNER_DONE);
        give_both_back(l);
    }
}

int main(void)
{
    /* By lines, so that what was found before a call ends the program is written. */
    setvbuf(stdout, NULL, _IOLBF, BUFSIZ);
    input_room = fenced_room(PLANNER_LONGEST_SHEET + 1);
    page_room = fenced_room(LONGEST_PAGE);
    trials_of_sheets();
    a_full_roster(66);
    a_full_roster(1);
    a_full_roster(40);
    long_sheets();
    pages();
    refusals();
    null_pointers();
    a_sheet_filed();
    lists();
    printf("%u passed, %u failed\n", passed, failed);
    return failed == 0 && passed > 0 ? EXIT_SUCCESS : EXIT_FAILURE;
}
