/* The work that is measured, on both sides: crates/workload does it on the proved manager, by value, and work.c on the rules in C, in place. */
#ifndef WORK_H
#define WORK_H
#include <stddef.h>
#include <stdint.h>

enum { ROOM = 144, SHEET_ROOM = 360 };
/* How the box around the manager answers: crates/workload/src/lib.rt says it. */
enum { CALM = 0, DEAF = 1, RESTLESS = 2 };

/* Work on a manager with this sheet, for so many rounds. The setting is the box's style, or for answers the number of controllers. */
typedef uint32_t work(const uint8_t *sheet, size_t length, uint8_t setting, uint64_t rounds, uint8_t *out);
/* the proved manager */
work proved_play, proved_ticks, proved_quiet_play, proved_quiet_ticks, proved_answers;
/* the rules in C */
work yardstick_play, yardstick_ticks, yardstick_quiet_play, yardstick_quiet_ticks, yardstick_answers;

/* The sheet of the work: all networks with a transceiver, every second one with partial networking. A network's handle is the id of
   its first controller. Returns its length. */
size_t write_sheet(uint8_t *sheet, unsigned networks, unsigned controllers);
#endif
