/* Request 101, worked by hand on 01's samples and tried on this model. */
#ifndef SECOND_MARKS_SAMPLES_H
#define SECOND_MARKS_SAMPLES_H

#include "samples.h"

void try_marks(expecter *expect);

#endif
