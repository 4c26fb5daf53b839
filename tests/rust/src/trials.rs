//! Trials with known results: document 01's own numbers, and those of the slack, of the import, of the order of the jobs and of
//! deadlines, worked out by hand. What holds of frame 03 holds of frame 06 with the same deadline, so each sheet is tried with both.

use crate::brute::{product, second};
use crate::compare::run;
use crate::facts::Facts;
use crate::imports::{of_product, of_second};
use crate::planner::desk::printed;
use crate::planner::library;
use crate::planner::turns;
use crate::tally::Tally;
use crate::Programs;

const SHEET: &str = "01040400010001\n030001000A000A\n0300020009000A\n0300030006000A\n0300040005000A\n\
                     0300050001000A\n030006000B000A\n05\n";

/// Name, sheet, what is printed for it.
const TRIALS: &[(&str, &str, &str)] = &[
    ("the printed sheet", SHEET, "8E0000000711\n81050000000A000000A3000903030201\n"),
    ("no jobs", "01040400010001\n05\n", "810000000001000000040000 00000000\n"),
    ("one job 1/2", "01040400010001\n03000100010002\n05\n", "8101 00000002 0000000B 0001 01000000\n"),
    (
        "m 1, two jobs 1/2, a third",
        "01010400010001\n03000100010002\n03000200010002\n05\n03000300010002\n05\n",
        "8102 00000002 00000040 0003 03\n8E0000000511\n8102 00000002 00000040 0003 03\n",
    ),
    ("m 1, 25/100", "01010400010001\n03000100190064\n05\n", "8101 00000064 00000001 0000 00\n"),
    ("m 1, 26/100", "01010400010001\n030001001A0064\n05\n", "8101 00000064 00000008 0001 01\n"),
    ("m 1, 10/10", "01010400010001\n030001000A000A\n05\n", "8101 0000000A 00000040 0003 03\n"),
    ("m 1, 11/10", "01010400010001\n030001000B000A\n", "8E0000000211\n"),
    ("m 2, 4/4 and 1/4", "01020400010001\n03000100040004\n03000200010004\n05\n", "8102 00000004 00000041 0003 0300\n"),
    (
        "costs 20 18 12 10 5, period 20",
        "01040400010001\n03000100140014\n03000200120014\n030003000C0014\n030004000A0014\n03000500050014\n05\n",
        "8105 00000014 000000A3 0009 03030201\n",
    ),
    (
        "periods 1152, 1024, 960",
        "01040400010001\n03000100010480\n03000200010400\n030003000103C0\n05\n",
        "8103 0000B400 00000004 0000 00000000\n",
    ),
    (
        "periods 4095 and 4096",
        "01040400010001\n03000100010FFF\n03000200011000\n05\n",
        "8102 00FFF000 00000004 0000 00000000\n",
    ),
    ("periods 4096 and 4097", "01040400010001\n03000100011000\n03000200011001\n", "8E0000000310\n"),
    (
        "tables for three levels",
        "01010300010001\n02000000120000003000000064\n05\n02000000050000000500000005\n05\n\
         02000000000000000500000009\n05\n",
        "8100 00000001 00000012 0000 00\n8100 00000001 00000005 0000 00\n8E0000000603\n\
         8100 00000001 00000005 0000 00\n",
    ),
    ("an empty sheet", "", ""),
    ("slack: 1/3 on one core", "01010400010001\n03000100010003\n07\n", "83 0000000000000000 02\n"),
    (
        "slack: the printed sheet",
        "01040400010001\n030001000A000A\n0300020009000A\n0300030006000A\n0300040005000A\n0300050001000A\n\
         030006000B000A\n07\n",
        "8E0000000711\n83 0000000000000000 00 0000000000000001 00 0000000000000002 02 0000000000000001 02\n",
    ),
    (
        "slack: no jobs",
        "01040400010001\n07\n",
        "83 0000000000000000 01 0000000000000000 02 0000000000000000 03 0000000000000001 00\n",
    ),
    (
        "slack: one job 1/2",
        "01040400010001\n03000100010002\n07\n",
        "83 0000000000000000 00 0000000000000000 02 0000000000000001 00 0000000000000001 02\n",
    ),
    (
        "slack: 4/4 and 1/4 on two cores",
        "01020400010001\n03000100040004\n03000200010004\n07\n",
        "83 0000000000000000 00 0000000000000000 00\n",
    ),
    (
        "slack: two jobs 1/2 on one core",
        "01010400010001\n03000100010002\n03000200010002\n07\n",
        "83 0000000000000000 00\n",
    ),
    (
        "slack: periods 4095 and 4096",
        "01040400010001\n03000100010FFF\n03000200011000\n07\n",
        "83 00000000003FEC00 00 00000000007FD801 00 0000000000BFD401 00 0000000000FFD001 00\n",
    ),
    ("slack: remainder 255", "01010200FF0001\n07\n", "83 0000000000000000 FF\n"),
    (
        "slack while jobs come and go",
        "01010400010001\n07\n03000100010003\n07\n05\n03000200030003\n07\n03000200010003\n05\n07\n07\n040001\n\
         040002\n07\n",
        "83 0000000000000000 01\n83 0000000000000000 02\n8101 00000003 00000008 0001 01\n8E0000000611\n\
         83 0000000000000000 02\n8102 00000003 0000001B 0002 02\n83 0000000000000000 01\n83 0000000000000000 01\n\
         83 0000000000000000 01\n",
    ),
    (
        "slack lines that are refused",
        "07\n0700\n070\n7\n01010400010001\n0700\n07\n07",
        "8E000000010B\n8E0000000205\n8E0000000305\n8E0000000405\n8E0000000605\n83 0000000000000000 01\n\
         8E0000000805\n",
    ),
    (
        "the printed sheet with deadlines 10, and periods whose cycle is beyond its limit",
        "01040400010001\n060001000AFFF1000A\n0600020009FFEF000A\n0600030006FFD9000A\n0600040005FFC7000A\n\
         0600050001FFA9000A\n060006000BFFF1000A\n05\n",
        "8E0000000711\n81050000000A000000A3000903030201\n",
    ),
    (
        "an id is held by either frame",
        "01010400010001\n060001000100020002\n03000100010002\n060001000100020001\n05\n040001\n03000100010002\n\
         060001000100020002\n05\n07\n",
        "8E000000030D\n8E000000040D\n8101 00000002 00000008 0001 01\n8E000000080D\n\
         8101 00000002 00000008 0001 01\n83 0000000000000000 00\n",
    ),
    // D = 3, 0 and 65,535 for T = 2; then T = 0, and an id or a cost of 0.
    (
        "deadlines out of range",
        "01010400010001\n060001000100020003\n060001000100020000\n06000100010002FFFF\n060001000100000000\n\
         060001000100000001\n060000000100020001\n060001000000020001\n05\n",
        "8E0000000204\n8E0000000304\n8E0000000404\n8E0000000504\n8E0000000604\n8E0000000704\n8E0000000804\n\
         8100 00000001 00000001 0000 00\n",
    ),
    // In 2 ticks: 1 and 2 are too much for one core, 1 and 1 fill it.
    (
        "1/2 beside 1 of 2 within 1, then within 2",
        "01010400010001\n03000100010002\n060002000100020001\n060002000100020002\n05\n",
        "8E0000000311\n8102 00000002 00000040 0003 03\n",
    ),
    (
        "m 1, 6 of 10 within 5, then 5 of 10 within 5",
        "01010400010001\n0600010006000A0005\n0600010005000A0005\n05\n07\n",
        "8E0000000211\n8101 00000005 00000040 0003 03\n83 0000000000000000 00\n",
    ),
    // Q x 25 = 100 against 100 x 1, then against 99 x 1 and 99 x 2.
    (
        "m 1, 25 of 100 within 100, then within 99",
        "01010400010001\n060001001900640064\n05\n040001\n060001001900640063\n05\n",
        "8101 00000064 00000001 0000 00\n8101 00000063 00000008 0001 01\n",
    ),
    // In 65,535 ticks: 1, then 65,535 and 1. Test 1 takes speed 4, and test 2 holds as it is: 4 x 65,536 against 65,535 x 5.
    (
        "the longest and the shortest deadline of 65,535",
        "01020400010001\n0600010001FFFFFFFF\n05\n0600020001FFFF0001\n05\n",
        "8101 0000FFFF 00000002 0000 0000\n8102 0000FFFF 00000041 0003 0300\n",
    ),
    // In 6 ticks: 3 and 2, so 20 against 6 x 3 and 6 x 4; by the periods 3 and 1 would do with speed 3. Then 4 against 2 x 2.
    (
        "1/2, and 1 of 6 within 3, which goes",
        "01010400010001\n03000100010002\n060002000100060003\n05\n07\n040002\n05\n07\n",
        "8102 00000006 00000040 0003 03\n83 0000000000000001 00\n8101 00000002 00000008 0001 01\n\
         83 0000000000000000 00\n",
    ),
    ("slack: 1 of 10 within 3 on one core", "01010400010001\n0600010001000A0003\n07\n", "83 0000000000000000 02\n"),
    // In 4 ticks: 4 within its deadline and 1; by the periods the second would be the larger.
    (
        "m 2, 4 of 400 within 4, and 1/4",
        "01020400010001\n060001000401900004\n03000200010004\n05\n07\n",
        "8102 00000004 00000041 0003 0300\n83 0000000000000000 00 0000000000000000 00\n",
    ),
    (
        "deadlines 4095 and 4096, periods 4096 and 4097",
        "01040400010001\n060001000110000FFF\n060002000110011000\n05\n",
        "8102 00FFF000 00000004 0000 00000000\n",
    ),
    (
        "deadlines 4095 and 4097",
        "01040400010001\n0600010001FFFF0FFF\n060002000110011001\n05\n",
        "8102 00FFFFFF 00000004 0000 00000000\n",
    ),
    (
        "deadlines 4096 and 4097, one period",
        "01040400010001\n060001000110011000\n060002000110011001\n",
        "8E0000000310\n",
    ),
    // The least common multiple is 16,777,217.
    (
        "deadlines 257 and 65,281, one period",
        "01040400010001\n0600010001FFFF0101\n0600020001FFFFFF01\n05\n",
        "8E0000000310\n8101 00000101 00000004 0000 00000000\n",
    ),
    (
        "a cycle accepted once a deadline has gone",
        "01040400010001\n060001000110011000\n060002000110011001\n040001\n060002000110011001\n05\n",
        "8E0000000310\n8101 00001001 00000004 0000 00000000\n",
    ),
    // 4 before 13, 13 before 17, 4 before 17, 4 before 16, 16 before 17, and 17.
    (
        "two refusals of 06 at once",
        "01010400010001\n03000100011000\n060001000100020003\n060001FFFFFFFF0001\n060002000500030004\n\
         060002000110001001\n0600021002FFFF1001\n060002100110021000\n05\n",
        "8E0000000304\n8E000000040D\n8E0000000504\n8E0000000604\n8E0000000710\n8E0000000811\n\
         8101 00001000 00000001 0000 00\n",
    ),
    (
        "frames 06 without a machine, and malformed ones",
        "060001000100020002\n060001000100020000\n06\n01010400010001\n06\n06000100010002\n030001000100020002\n\
         06000100010002000\n06000100010002000200\n0600010001000200020002\n08\n00\n060001000100020001\n05\n\
         060002000100020001",
        "8E000000010B\n8E000000020B\n8E0000000305\n8E0000000505\n8E0000000605\n8E0000000705\n8E0000000805\n\
         8E0000000905\n8E0000000A05\n8E0000000B05\n8E0000000C05\n8101 00000001 00000040 0003 03\n8E0000000F05\n",
    ),
];

/// Name, sheet, and for each admission in it the number and the ticks of the library call.
type Asked = (&'static str, &'static str, &'static [(u8, &'static [i64])]);

const ASKED: &[Asked] = &[
    (
        "the printed sheet",
        SHEET,
        &[
            (0, &[0, 10, 20, 30]),
            (0, &[0, 1, 11, 21]),
            (0, &[0, 1, 5, 15]),
            (0, &[0, 1, 5, 10]),
            (0, &[0, 1, 5, 9]),
            (0, &[-1, -1, 0, -2]),
        ],
    ),
    ("1/3 on one core, then 3/3", "01010400010001\n03000100010003\n03000200030003\n", &[(0, &[2]), (0, &[-1])]),
    (
        "jobs in order of cost over period, not of cost",
        "01020400010001\n03000100020004\n03000200010001\n03000300030006\n",
        &[(0, &[2, 6]), (0, &[0, 2]), (0, &[0, 0])],
    ),
    (
        "refused jobs",
        "03000000000000\n01010400010001\n03000000010001\n03000100000001\n03000100010000\n03000100011000\n\
         0300010FFF1001\n03000200011001\n03000200010800\n",
        &[(11, &[]), (4, &[]), (4, &[]), (4, &[]), (0, &[4_095]), (13, &[]), (16, &[]), (0, &[4_093])],
    ),
    (
        "a job far beyond a long cycle",
        "01010400010001\n03000100010FFF\n03000200011000\n030003FFFF0001\n",
        &[(0, &[4_094]), (0, &[16_764_929]), (0, &[-1_099_209_654_271])],
    ),
    ("lines that are no admission", "01010400010001\n05\n07\n040001\n0300010001000\n03000100010002", &[]),
    (
        "lines 06 that are no admission",
        "01010400010001\n06\n06000100010002\n030001000100020002\n06000100010002000\n060001000100020001",
        &[],
    ),
    // In 2 ticks: 1; 1 and 2; 1 and 1.
    (
        "1/2 beside 1 of 2 within 1, then within 2",
        "01010400010001\n03000100010002\n060002000100020001\n060002000100020002\n",
        &[(0, &[1]), (0, &[-1]), (0, &[0])],
    ),
    (
        "jobs in order of cost over deadline, not over period",
        "01020400010001\n0600010002FFFF0004\n060002000100020001\n060003000300060006\n",
        &[(0, &[2, 6]), (0, &[0, 2]), (0, &[0, 0])],
    ),
    (
        "refused deadlines",
        "060001000100020000\n01010400010001\n060000000100020001\n060001000000020001\n060001000100000000\n\
         060001000100020000\n060001000100020003\n060001000110011000\n0600010FFF10011000\n060001000100020003\n\
         0600020001FFFF1001\n0600020001FFFF0800\n",
        &[
            (11, &[]),
            (4, &[]),
            (4, &[]),
            (4, &[]),
            (4, &[]),
            (4, &[]),
            (0, &[4_095]),
            (13, &[]),
            (4, &[]),
            (16, &[]),
            (0, &[4_093]),
        ],
    ),
    (
        "a job of 65,535 within 1 in a long cycle",
        "01010400010001\n060001000110000FFF\n060002000110011000\n060003FFFFFFFF0001\n",
        &[(0, &[4_094]), (0, &[16_764_929]), (0, &[-1_099_209_654_271])],
    ),
];

/// Name, sheet, and the ids of the jobs held at its end in the order in which they are taken.
const TURNS: &[(&str, &str, &[u32])] = &[
    ("the printed sheet", SHEET, &[1, 2, 3, 4, 5]),
    ("an empty sheet", "", &[]),
    ("no machine", "03000100010002\n05\n", &[]),
    ("no job", "01040400010001\n05\n", &[]),
    ("one job", "01040400010001\n03FFFF00010001\n", &[65_535]),
    (
        "2/8 and 1/4, 3/9 and 1/3",
        "01040400010001\n03000900020008\n03000400010004\n03000700030009\n03000200010003\n",
        &[2, 7, 4, 9],
    ),
    // In 3,000 ticks: 625, 1,000 and 300.
    (
        "costs that rise while works fall",
        "01040400010001\n03000100050018\n03000200010003\n030003006403E8\n",
        &[2, 1, 3],
    ),
    (
        "costs equal to their periods, and 6/7",
        "01040400010001\n03000100060007\n030004FFFFFFFF\n03000200010001\n03000300070007\n",
        &[2, 3, 4, 1],
    ),
    // In 16,777,215 ticks: 2,049 x 4,095 = 8,390,655 and 2,048 x 4,097 = 8,390,656.
    ("works that differ by one", "01040400010001\n03000108011001\n03000208000FFF\n", &[2, 1]),
    (
        "a tie with a job retired and others refused",
        "01040400010001\n03000800030006\n03000300020004\n03000500010002\n040003\n03000500010001\n03000900030002\n\
         0300010001000\n03000100010001",
        &[5, 8],
    ),
    // By deadlines 1/2, 1, 3/4 and 2/3; by periods 3 1 4 2.
    (
        "cost over deadline, not over period",
        "01040400010001\n03000100010002\n0600020001FFFF0001\n03000300030004\n060004000200640003\n",
        &[2, 3, 4, 1],
    ),
    (
        "2/8 and 1 within 4, 3 within 9 and 1/3",
        "01040400010001\n03000900020008\n0600040001FFFF0004\n0600070003000C0009\n03000200010003\n",
        &[2, 7, 4, 9],
    ),
    // By deadlines 1/4, 1/2 and 1/3.
    (
        "1/4, 2/8 and 3/12, equal only over their periods",
        "01040400010001\n03000100010004\n060002000200080004\n0600030003000C0009\n",
        &[2, 3, 1],
    ),
    ("works by deadlines that differ by one", "01040400010001\n0600010801FFFF1001\n060002080010010FFF\n", &[2, 1]),
    (
        "refused deadlines",
        "01040400010001\n060005000100020003\n060006000100020000\n060007000300040002\n060008000100020002\n",
        &[8],
    ),
];

/// Name, sheet, reply of the host's call and the frame that it files.
const HOST: &[(&str, &str, u32, &str)] = &[
    ("slack lines passed over", "07\n01010400010001\n07\n03000100010003\n07\n", 0, "8101 00000003 00000008 0001 01\n"),
    ("a slack line alone", "07\n", 11, ""),
    ("an unclosed slack line", "01010400010001\n07", 5, ""),
    ("a slack line too long", "01010400010001\n0700\n", 5, ""),
    ("a slack line cut short", "01010400010001\n07\n7\n", 5, ""),
    ("a job too many after a slack line", "01010400010001\n07\n03000100020001\n", 17, ""),
    ("1 of 10 within 3", "01010400010001\n0600010001000A0003\n07\n05\n", 0, "8101 00000003 00000008 0001 01\n"),
    ("1 of 10 within 10", "01010400010001\n0600010001000A000A\n", 0, "8101 0000000A 00000001 0000 00\n"),
    ("D = T + 1", "01010400010001\n0600010001000A000B\n", 4, ""),
    ("D = 0", "01010400010001\n0600010001000A0000\n", 4, ""),
    ("4 of 10 within 3", "01010400010001\n0600010004000A0003\n", 17, ""),
    ("deadlines 4096 and 4097", "01010400010001\n0600010001FFFF1000\n0600020001FFFF1001\n", 16, ""),
    ("an id held by 03", "01010400010001\n03000100010002\n060001000100020001\n", 13, ""),
    ("an id held by 06", "01010400010001\n060001000100020001\n03000100010002\n", 13, ""),
    ("a deadline without a machine", "060001000100020001\n", 11, ""),
    ("06 in 03's length", "01010400010001\n06000100010002\n", 5, ""),
    ("03 in 06's length", "01010400010001\n030001000100020002\n", 5, ""),
    ("an unclosed 06", "01010400010001\n060001000100020001", 5, ""),
];

/// Processors, list, reply of the import and the digits of the machine line that it writes.
const IMPORTS: &[(u64, &str, u32, &str)] = &[
    // Divided by 100,000: 6 to 18.
    (
        4,
        "600000 700000 800000 900000 1000000 1100000 1200000 1300000 1400000 1500000 1600000 1700000 1800000 \n",
        0,
        "01 04 0D 0006 0001",
    ),
    // Divided by 400,000: 6 5 4 3 2.
    (8, "2400000 2000000 1600000 1200000 800000\n", 0, "01 08 05 0002 0001"),
    (1, "8 5 11", 0, "01 01 03 0005 0003"),
    (2, "6 4 8 ", 0, "01 02 03 0002 0001"),
    (1, "1431655765 4294967295 2863311530", 0, "01 01 03 0001 0001"),
    (
        1,
        "1 2 3 4 5 6 7 8 9 10 11 12 13 14 15 16 17 18 19 20 21 22 23 24 25 26 27 28 29 30 31 32",
        0,
        "01 01 20 0001 0001",
    ),
    (1, "1 2 3 4 5 6 7 8 9 10 11 12 13 14 15 16 17 18 19 20 21 22 23 24 25 26 27 28 29 30 31 32 33", 18, ""),
    // One number has speed 1 and step 1, whatever it is.
    (1, "1", 0, "01 01 01 0001 0001"),
    (32, "1500000\n", 0, "01 20 01 0001 0001"),
    (31, "4294967295 \n", 0, "01 1F 01 0001 0001"),
    // The top speed: 256 passes; 257 does not, unless its numbers have a common divisor.
    (1, "1 256", 0, "01 01 02 0001 00FF"),
    (1, "256 255", 0, "01 01 02 00FF 0001"),
    (1, "257 1", 2, ""),
    (1, "257 514", 0, "01 01 02 0001 0001"),
    (1, "4294967295 4294967294", 2, ""),
    (1, "1 2 4", 19, ""),
    (1, "1 2 400", 19, ""),
    (1, "1 3 4 6", 19, ""),
    (1, "", 18, ""),
    (1, " ", 18, ""),
    (1, "\n", 18, ""),
    (1, " \n", 18, ""),
    (1, " 1", 18, ""),
    (1, "1  ", 18, ""),
    (1, "1\n ", 18, ""),
    (1, "1\n\n", 18, ""),
    (1, "1 \n2", 18, ""),
    (1, "1  2", 18, ""),
    (1, "1\t2", 18, ""),
    (1, "1\n2", 18, ""),
    (1, "1\r\n", 18, ""),
    (1, "0", 18, ""),
    (1, "0 1", 18, ""),
    (1, "01", 18, ""),
    (1, "+1", 18, ""),
    (1, "-1", 18, ""),
    (1, "1,2", 18, ""),
    (1, "1 1", 18, ""),
    (1, "1 2 400 1", 18, ""),
    (1, "4294967296", 18, ""),
    (1, "18446744073709551617", 18, ""),
    (1, "340282366920938463463374607431768211457", 18, ""),
    (0, "1", 1, ""),
    (33, "", 1, ""),
    (260, "1 2 4", 1, ""),
    (4_294_967_300, "1 257", 1, ""),
    (u64::MAX, "1", 1, ""),
];

/// The program's line for one call: 32 entries, every remainder 0.
fn asked_line(number: u8, ticks: &[i64]) -> String {
    let entry = |place: usize| format!(" {} 0", ticks.get(place).copied().unwrap_or(0));
    format!("{number}{}\n", (0..32).map(entry).collect::<String>())
}

/// 32 processors at speed 255 of 256: i of them leave i - 1 ticks and 256 - i over. The frame is the longest, and it comes often.
fn longest_frames() -> (String, String) {
    let tests: String = (1..=32).map(|i| format!("{:016X}{:02X}", i - 1, 256 - i)).collect();
    (format!("01200200FF0001\n{}", "07\n".repeat(1_000)), format!("83{tests}\n").repeat(1_000))
}

fn full_roster() -> (String, String) {
    let mut sheet = String::from("01010400010001\n");
    for id in 1..=65 {
        sheet.push_str(&format!("03{id:04X}00010040\n"));
    }
    sheet.push_str("05\n040001\n03004100010040\n05\n");
    let plan = "8140 00000040 00000040 0003 03\n";
    (sheet, format!("8E000000420F\n{plan}{plan}"))
}

/// 64 jobs of 1/64 by both frames in turn. One more is refused by 15, or by 4 where its deadline is out of range; one that is held
/// by 13. The place of one that goes serves a job by the other frame.
fn full_roster_by_both() -> (String, String) {
    let mut sheet = String::from("01010400010001\n");
    for id in 1..=64 {
        let by_06 = format!("06{id:04X}0001FFFF0040\n");
        sheet.push_str(&if id % 2 == 0 { by_06 } else { format!("03{id:04X}00010040\n") });
    }
    sheet.push_str("0600410001FFFF0040\n060041000100400041\n0600010001FFFF0040\n05\n040001\n0600410001FFFF0040\n05\n");
    let plan = "8140 00000040 00000040 0003 03\n";
    (sheet, format!("8E000000420F\n8E0000004304\n8E000000440D\n{plan}{plan}"))
}

/// Jobs of 1/64 and 2/128 by turns, from the highest id down; one more is refused.
fn full_tie() -> String {
    let job = |id: u32| format!("03{id:04X}{:04X}{:04X}\n", 1 + id % 2, 64 * (1 + id % 2));
    format!("01010400010001\n{}03010000010040\n", (1..=64).rev().map(job).collect::<String>())
}

/// A sheet as it stands, and twice with frame 06 for each frame 03: the deadline is what the period was, and the period is the same
/// or the longest one. The period has no effect, so all three have the same result.
fn forms(name: &str, sheet: &str) -> [(String, Vec<u8>); 3] {
    let with_period = |period: &str| by_06(sheet, period).into_bytes();
    [
        (name.to_string(), sheet.as_bytes().to_vec()),
        (format!("{name}, by 06"), with_period("")),
        (format!("{name}, by 06 and in the longest period"), with_period("FFFF")),
    ]
}

fn by_06(sheet: &str, period: &str) -> String {
    let line = |line: &str| match line.strip_suffix('\n') {
        Some(text) if text.starts_with("03") && text.len() == 14 => {
            let (job, deadline) = text[2..].split_at(8);
            let period = if period.is_empty() { deadline } else { period };
            format!("06{job}{period}{deadline}\n")
        }
        _ => line.to_string(),
    };
    sheet.split_inclusive('\n').map(line).collect()
}

/// The second planner and the product's programs print what is known.
pub fn run_all(programs: &Programs, tally: &mut Tally) {
    at_the_desk(programs, tally);
    at_the_host(tally);
    asked(programs, tally);
    taken_in_turn(programs, tally);
    imports(tally);
}

fn at_the_desk(programs: &Programs, tally: &mut Tally) {
    let (sheet, output) = full_roster();
    let (both_sheet, both_output) = full_roster_by_both();
    let (slack_sheet, slack_output) = longest_frames();
    let long = "05\n".repeat(21_846);
    let more = [
        ("64 jobs of 1/64", sheet.as_str(), output.as_str()),
        ("64 jobs of 1/64 by 03 and 06", &both_sheet, &both_output),
        ("a sheet too long", &long[..65_537], "8E0000000005\n"),
        ("the longest slack frames", &slack_sheet, &slack_output),
    ];
    for (name, sheet, output) in TRIALS.iter().copied().chain(more) {
        // The blanks set off the fields of a frame for the reader of this file.
        let due = output.replace(' ', "").into_bytes();
        for (name, sheet) in forms(name, sheet) {
            let given = printed(&sheet, None, &mut Facts::new());
            tally.check(&format!("trial, second planner: {name}"), given == due);
            let given = run(&programs.desk, &sheet);
            tally.check(&format!("trial, desk program: {name}"), given.as_ref() == Ok(&due));
        }
    }
}

fn at_the_host(tally: &mut Tally) {
    for &(name, sheet, reply, frame) in HOST {
        let due = (reply, frame.replace(' ', "").into_bytes());
        for (name, sheet) in forms(name, sheet) {
            tally.check(&format!("trial of the host's call, second planner: {name}"), second(&sheet, None) == due);
            tally.check(&format!("trial of the host's call: {name}"), product(&sheet) == due);
        }
    }
}

fn asked(programs: &Programs, tally: &mut Tally) {
    for (name, sheet, calls) in ASKED {
        let due: String = calls.iter().map(|&(number, ticks)| asked_line(number, ticks)).collect();
        let due = due.into_bytes();
        for (name, sheet) in forms(name, sheet) {
            let given = library::printed(&sheet, None, &mut Facts::new());
            tally.check(&format!("trial of the library call, second planner: {name}"), given == due);
            let given = run(&programs.library, &sheet);
            tally.check(&format!("trial of the library call, program: {name}"), given.as_ref() == Ok(&due));
        }
    }
}

fn taken_in_turn(programs: &Programs, tally: &mut Tally) {
    let sheet = full_tie();
    let ids: Vec<u32> = (1..=64).collect();
    let more = [("64 jobs of equal work", sheet.as_str(), ids.as_slice())];
    for (name, sheet, ids) in TURNS.iter().copied().chain(more) {
        // No job has the id 0, which stands after the last.
        let due = format!("{}0\n", ids.iter().map(|id| format!("{id} ")).collect::<String>()).into_bytes();
        for (name, sheet) in forms(name, sheet) {
            let given = turns::printed(&sheet, None, &mut Facts::new());
            tally.check(&format!("trial of the order of jobs, second planner: {name}"), given == due);
            let given = run(&programs.turns, &sheet);
            tally.check(&format!("trial of the order of jobs, program: {name}"), given.as_ref() == Ok(&due));
        }
    }
}

fn imports(tally: &mut Tally) {
    for &(processors, list, reply, digits) in IMPORTS {
        let mut line = digits.replace(' ', "").into_bytes();
        if reply == 0 {
            line.push(b'\n');
        }
        let due = (reply, line);
        let name = format!("{processors} processors, {list:?}");
        tally.check(
            &format!("trial of the import, second planner: {name}"),
            of_second(processors, list.as_bytes(), None) == due,
        );
        tally.check(&format!("trial of the import: {name}"), of_product(processors, list.as_bytes()) == due);
    }
}
