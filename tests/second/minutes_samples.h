/* Request 111: minutes worked by hand, the two ways of counting days against a
   calendar turned day by day, and where the digits wait. */
#ifndef SECOND_MINUTES_SAMPLES_H
#define SECOND_MINUTES_SAMPLES_H

#include "samples.h"

void try_minutes(expecter *expect);

#endif
