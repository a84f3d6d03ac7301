// The cases of `./recorder speed calls`: what is called, on which device, and what it may cost.
//
// Device  4 or 128 elements, 2, 4, 6 and so on, of health 70h: 2 is no storage, each other one has 1,000 blocks; limit 2. So many have been
//         removed, from 4 on. Then, unless IDLE, a removal of the last one is under way, and this is its next step.
// Limits  copies of the table;
//         instructions: so many, or, of a path that walks the table, per cent of plain C's, with 128 elements;
//         bytes of stack.
// Library Beside a lent call the library's may copy the table so often more, and take so many instructions and a tenth more; its stack is that
//         of one frame, and for 12h in the front call that of the page, too. A page by itself has, around its frame, that of the function that
//         C calls, which puts down the request. Without a lent call it has the limits of the case.
#include "kase.h"

enum { COPIES = 2, MORE = 20, FRAME = 4608, AROUND = 24 };

enum { LOCKED = RECORDER_LOCKED, UNLOCKED = RECORDER_UNLOCKED };

#define UP_TO(number) {number, 0}
#define OF_C(percent) {0, percent}

// The form of IDLE IMMEDIATE that is open during a removal.
#define UNLOAD .feature = 0x44, .lba = 0x0554E4C

// Of SEND: slow storage elements alone.
#define SLOW .filter = 1, .type = 1

static const struct kase cases[] = {
    // Call, path                      Device     Asked                                                     Limits
    {STEP, "no-removal",               0, IDLE,   {0},                                                      {0, UP_TO(150),  2560}},
    {STEP, "work-1",                   0, WORK_1, {0},                                                      {0, UP_TO(150),  2560}},
    {STEP, "work-2",                   0, WORK_2, {0},                                                      {0, UP_TO(150),  2560}},
    {STEP, "work-3-marking",           0, WORK_3, {0},                                                      {1, OF_C(120),   2560}},
    {STEP, "work-4",                   0, WORK_4, {0},                                                      {0, UP_TO(150),  2560}},
    {STEP, "work-5",                   0, WORK_5, {0},                                                      {0, UP_TO(150),  2560}},
    {STEP, "wind-1",                   0, WIND_1, {0},                                                      {1, OF_C(120),   2560}},
    {STEP, "wind-2",                   0, WIND_2, {0},                                                      {1, OF_C(120),   2560}},
    {STEP, "wind-3",                   0, WIND_3, {0},                                                      {0, UP_TO(150),  2560}},
    {STEP, "wind-4",                   0, WIND_4, {0},                                                      {0, UP_TO(150),  2560}},
    {MEDIA_ERROR, "no-removal",        0, IDLE,   {0},                                                      {0, UP_TO(100),  2560}},
    {MEDIA_ERROR, "under-way",         0, WORK_3, {0},                                                      {0, UP_TO(100),  2560}},
    {POWER_CUT, "no-removal",          0, IDLE,   {0},                                                      {0, UP_TO(100),  2560}},
    {POWER_CUT, "under-way",           0, WORK_3, {0},                                                      {0, UP_TO(100),  2560}},
    {COMRESET, "under-way",            0, WORK_3, {0},                                                      {0, UP_TO(100),  2560}},
    {HARDWARE_RESET, "under-way",      0, WORK_3, {0},                                                      {0, UP_TO(100),  2560}},
    {SOFTWARE_RESET, "under-way",      0, WORK_3, {0},                                                      {0, UP_TO(100),  2560}},
    {REMOVE, "accepted",               0, IDLE,   {UNLOCKED, .element = LAST},                              {2, OF_C(105),   5120}},
    {REMOVE, "accepted-LBA",           0, IDLE,   {UNLOCKED, .element = LAST, .lba = 500},                  {2, OF_C(105),   5120}},
    {REMOVE, "locked",                 0, IDLE,   {LOCKED, .element = LAST},                                {1, UP_TO(200),  5120}},
    {REMOVE, "in-progress",            0, WORK_3, {UNLOCKED, .element = LAST},                              {1, UP_TO(200),  5120}},
    {REMOVE, "unknown",                0, IDLE,   {UNLOCKED, .element = UNKNOWN},                           {2, OF_C(120),   5120}},
    {REMOVE, "not-storage",            0, IDLE,   {UNLOCKED, .element = FIRST},                             {2, UP_TO(250),  5120}},
    {REMOVE, "at-FFh",                 2, IDLE,   {UNLOCKED, .element = SECOND},                            {2, UP_TO(250),  5120}},
    {REMOVE, "at-limit",               2, IDLE,   {UNLOCKED, .element = LAST},                              {2, OF_C(120),   5120}},
    {REMOVE, "LBA-too-high",           0, IDLE,   {UNLOCKED, .element = LAST, .lba = 0xFFFFFFFF},           {2, OF_C(120),   5120}},
    {GRADE, "accepted",                0, IDLE,   {.element = LAST, .health = 0x05},                        {1, OF_C(120),   2560}},
    {GRADE, "unknown",                 0, IDLE,   {.element = UNKNOWN, .health = 0x05},                     {1, OF_C(120),   2560}},
    {GRADE, "above-CFh",               0, IDLE,   {.element = LAST, .health = 0xD0},                        {1, OF_C(120),   2560}},
    {GRADE, "at-FFh",                  2, IDLE,   {.element = SECOND, .health = 0x05},                      {1, UP_TO(150),  2560}},
    {COMMAND, "25h",                   0, IDLE,   {UNLOCKED, .code = 0x25, .count = 1, .lba = 5},           {4, UP_TO(350),  9216}},
    {COMMAND, "25h-beyond",            0, IDLE,   {UNLOCKED, .code = 0x25, .count = 0, .lba = 126999},      {4, UP_TO(350),  9216}},
    {COMMAND, "25h-in-progress",       0, WORK_3, {UNLOCKED, .code = 0x25, .count = 1, .lba = 5},           {4, UP_TO(350),  9216}},
    {COMMAND, "B0h-in-progress",       0, WORK_3, {UNLOCKED, .code = 0xB0, .feature = 0xDA},                {4, UP_TO(400),  9216}},
    {COMMAND, "E1h-in-progress",       0, WORK_3, {UNLOCKED, .code = 0xE1},                                 {4, UP_TO(350),  9216}},
    {COMMAND, "E1h-Unload",            0, WORK_3, {UNLOCKED, .code = 0xE1, UNLOAD},                         {4, UP_TO(350),  9216}},
    {COMMAND, "unknown",               0, IDLE,   {UNLOCKED, .code = 0x99},                                 {4, UP_TO(300),  9216}},
    {COMMAND, "ECh",                   0, IDLE,   {UNLOCKED, .code = 0xEC},                                 {4, UP_TO(300),  9216}},
    {COMMAND, "7Ch-accepted",          0, IDLE,   {UNLOCKED, .code = 0x7C, .element = LAST},                {5, OF_C(120),   9216}},
    {COMMAND, "7Ch-in-progress",       0, WORK_3, {UNLOCKED, .code = 0x7C, .element = LAST},                {4, UP_TO(400),  9216}},
    {COMMAND, "12h-1-page",            0, IDLE,   {UNLOCKED, .code = 0x12, .count = 1, .room = 512},        {5, OF_C(135),   9728}},
    {COMMAND, "12h-refused",           0, IDLE,   {UNLOCKED, .code = 0x12, .count = 0, .room = 512},        {4, UP_TO(350),  9728}},
    {SHOW, "1-page",                   0, IDLE,   {UNLOCKED, .count = 1, .room = 512},                      {1, OF_C(110),   2560}},
    {SHOW, "9-pages",                  0, IDLE,   {UNLOCKED, .count = 9, .room = 4608},                     {1, OF_C(110),   2560}},
    {SHOW, "9-pages-filtered",         0, IDLE,   {UNLOCKED, .feature = 0x4100, .count = 9, .room = 4608},  {1, OF_C(110),   2560}},
    {SHOW, "refused",                  0, IDLE,   {UNLOCKED, .count = 0, .room = 512},                      {0, UP_TO(100),  2560}},
    {SHOW, "reserved-bit",             0, IDLE,   {UNLOCKED, .count = 1, .lba = 1ull << 32, .room = 512},   {0, UP_TO(100),  2560}},
    {SHOW, "small-buffer",             0, IDLE,   {UNLOCKED, .count = 2, .room = 512},                      {0, UP_TO(100),  2560}},
    {SEND, "whole",                    0, IDLE,   {.allocation = 4608, .room = 4608},                       {3, OF_C(100),   4608}},
    {SEND, "filtered",                 0, IDLE,   {SLOW, .allocation = 4608, .room = 4608},                 {3, OF_C(100),   4608}},
    {SEND, "512-bytes",                0, IDLE,   {.allocation = 512, .room = 512},                         {3, OF_C(125),   4608}},
    {SEND, "cut-through",              0, IDLE,   {.allocation = 144, .room = 144},                         {3, OF_C(135),   4608}},
    {SEND, "no-byte",                  0, IDLE,   {.allocation = 0, .room = 512},                           {3, OF_C(140),   4608}},
    {SEND, "refused",                  0, IDLE,   {.filter = 2, .allocation = 512, .room = 512},            {0, UP_TO(100),  4608}},
    {SEND, "small-buffer",             0, IDLE,   {.allocation = 512, .room = 100},                         {1, OF_C(175),   4608}},
    {LIST, "9-pages",                  0, IDLE,   {.count = 9, .room = 8192},                               {0, OF_C(120),   2560}},
    {LIST, "small-buffer",             0, IDLE,   {.count = 9, .room = 100},                                {0, OF_C(100),   2560}},
};
