/* How often each class of question and answer was met. */
#ifndef TALLY_H
#define TALLY_H

#include "questions.h"

/* Counts a question, its answer and the slice that the call left behind. */
void tally(const question *asked, const answer *given, const uint32_t *left);

/* Prints the counts; gives how many classes were never met. */
unsigned tally_print(void);

#endif
