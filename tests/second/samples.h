/* 01, "Sample traffic" and "Misreadings to shut out", the samples of request
   #107, what bytes left means by request #106, marks by Request 101, minutes by
   Request 111 and altered parts by Request 113, tried on this model. */
#ifndef SECOND_SAMPLES_H
#define SECOND_SAMPLES_H

#include <stdbool.h>
#include <stddef.h>
#include <stdint.h>

/* Is told of each sample whether it is right, and what was tried. */
typedef void expecter(bool right, const char *what);

/* 01's texts: S, the start text with check byte 4F, and E, the end text with
   D4; 40 bytes each, which is returned. */
size_t put_s(uint8_t *out);
size_t put_e(uint8_t *out);

/* Prints `samples: N right` and returns 0, or says what differs and returns 1. */
int run_samples(void);

#endif
