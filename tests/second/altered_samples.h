/* Request 113, worked by hand on parts of every sort and tried on this model,
   and many altered parts by chance. */
#ifndef SECOND_ALTERED_SAMPLES_H
#define SECOND_ALTERED_SAMPLES_H

#include "samples.h"

void try_alterations(expecter *expect);

#endif
