/*
 * The listing of a plan of tasks and of evidence for it, for a host in C.
 *
 * One call reads a plan of one to eight tasks, takes evidence record by record, makes the steps that
 * are left, and writes what it found as text: each task's least and greatest response time, and how
 * the walk over all schedules ended. docs/FORMATS.md has the bytes of plans and evidence, docs/RULES.md
 * what they mean, docs/REFUSALS.md every refusal.
 *
 * The call allocates nothing, keeps nothing between calls and touches no memory but its arguments and
 * the stack. It can be called from several threads at once, each with a place of its own.
 */
#ifndef ROOF_LISTING_H
#define ROOF_LISTING_H

#include <stddef.h>
#include <stdint.h>

#ifdef __cplusplus
extern "C" {
#endif

enum {
    /* Nine plan records of 24 bytes. Bytes of a plan from here on change nothing. */
    ROOF_PLAN_BYTES = 216,
    /* The least length of a place. */
    ROOF_PLACE_BYTES = 512,
    /* The greatest length of a text. */
    ROOF_TEXT_BYTES = 212,
    /* The answer for a place of under 512 bytes. */
    ROOF_PLACE_SHORT = -9,
    /* The stack that the call takes, its return address included: no path through the compiled code
     * takes more, unless memcpy or memset, the functions that it calls, have frames of their own. The
     * rows of the table are 18,432 bytes of it. host/measure measures it anew. The figure is that of 64-bit
     * Linux, the one layout that the toolchain builds for. */
    ROOF_STACK_BYTES = 19896
};

/*
 * plan, plan_length
 *     Plan records of 24 bytes, one for each task. A shorter rest counts as a record, and is refused
 *     for its length. Up to 216 bytes matter: a ninth record is refused whatever follows it.
 *
 * evidence, evidence_length
 *     Evidence records of 16 bytes, of any total length; a shorter rest is refused for its length.
 *     They are taken in order, and the first that is refused ends the work: no steps are made then.
 *     Without a refusal, steps are made until the table is complete or late. With no evidence the
 *     call does the whole search by itself.
 *
 * place, place_length
 *     Where the text goes: at least 512 bytes. The text stands in the first bytes, with no zero byte
 *     after it; every byte beyond it stays as it was.
 *
 * The place overlaps neither the plan nor the evidence. Those two are only read, and may overlap.
 * No pointer needs to be aligned.
 *
 * An empty plan or empty evidence has length 0, and any pointer that is not NULL: it is never read
 * through. (NULL with length 0 is taken likewise: the compiled call puts another address in its stead
 * before anything else, and host/crosscheck tries it. The toolchain's guide does not promise that, so
 * pass an address.) NULL with another length is an error of the host.
 *
 * Answer
 *     The length of the text, at most 212, or ROOF_PLACE_SHORT if the place has under 512 bytes, and
 *     then nothing is written. There is no other answer: a plan or evidence that is refused makes a
 *     text that says so.
 *
 * Text
 *     Lines of fields parted by one space, each ended by byte 10. Numbers are decimal.
 *
 *     TASK LEAST GREATEST         for each task, from 1: its least and greatest response time in slots,
 *                                 each `-` if no job of it has ended. They are the task's response
 *                                 window in a complete table only.
 *     complete ROWS WAYS          every way of every reachable state is walked, and none is late
 *     late ROWS WAYS TASK CAUSE   the last way walked is late for that task: `O`, an arrival met a job;
 *                                 `D`, a job missed its deadline
 *     walking ROWS WAYS           a refusal ended the work before
 *     refused PART NUMBER A B     the refusal that ended it, if one did, with its two places
 *
 *     PART says what was refused:
 *     P   the plan, with number 1 to 7. This line is then the whole text.
 *     E   a record of evidence, with number 9 to 18. The lines before it tell what the records taken
 *         before it came to; after a table is complete or late each further record is refused (11).
 *     S   a step, with number 16: there are more than 256 reachable states.
 *
 *     `refused P 7 0 0` is an empty plan, `refused P 3 2 4` a worst execution time out of bounds in
 *     record 2, `refused E 18 2 0` a false outcome claimed for row 2, way 0.
 */
int32_t roof_listing(const uint8_t *plan, size_t plan_length, const uint8_t *evidence, size_t evidence_length,
                     uint8_t *place, size_t place_length);

#ifdef __cplusplus
}
#endif

#endif
