/* The example of the scope paper: a small tank of one course with flat heads,
 * in today's format and in the one before, and the six rows of its table. And
 * the same with caps, seams or deadwood. */
#ifndef PAPER_H
#define PAPER_H

#include <stddef.h>
#include <stdint.h>

enum { PAPER_BYTES = 84, OLD_PAPER_BYTES = 64, PAPER_ROWS = 6, PAPER_DH = 50000, PAPER_STEP = 10000 };

/* Of a deadwood item. */
enum { ITEM_BYTES = 12 };

/* Where the numbers of its course and of that course's seams stand. */
enum { FIRST_AT = 56, SECOND_AT = 60, LENGTH_AT = 64, THICKNESS_AT = 68, SEAMS_AT = 72 };

extern const uint32_t paper_rows[PAPER_ROWS];

/* Writes the survey's bytes. */
void paper_survey(uint8_t *survey);

/* Writes those that it had when the header was one of 48 bytes. */
void old_paper_survey(uint8_t *survey);

/* The same with spherical caps of a length, in place of flat heads. */
void with_caps(uint8_t *survey, uint32_t length);

/* With other readings of its course, and three seams over which the tape rises by 130: the nearest of
 * 2*3*200*1200/50000 = 28.8, and 101, the root of 64*3*3*200*200*200/(9*50000) = 10240. */
void with_seams(uint8_t *survey, uint32_t first, uint32_t second);

/* Adds a deadwood item at a byte offset of a survey that has none, of either format. */
void add_deadwood(uint8_t *survey, size_t at, uint32_t low, uint32_t high, int32_t volume);

/* Writes a number at a byte offset of a survey. */
void put(uint8_t *survey, size_t at, uint32_t number);

/* The number at a byte offset of a survey. */
uint32_t number_at(const uint8_t *survey, size_t at);

#endif
