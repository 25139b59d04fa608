/* A cue of lights and a flame, for the table of the same name. */
#include <stdint.h>

void fire(uint16_t channel);
int ready(void);

void opening(void) {
  fire(12);
  if (ready())
    fire(4000);
  fire(65535);
}

void sweep(uint16_t from) {
  fire(from);
  fire(0);
}
