/* Request 106 by what its number means: along undamaged parts that this folder
   builds, bytes left is counted down to each text's end.  Where a text ends is
   taken from 01's figures, and never from the receiver's place. */
#ifndef SECOND_COUNTDOWN_H
#define SECOND_COUNTDOWN_H

#include "samples.h"

void try_countdown(expecter *expect);

#endif
