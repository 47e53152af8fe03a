/* The compiler's own. */
#ifndef IR_STDINT_H
#define IR_STDINT_H
#include <stdint-gcc.h>
#endif
