/* errno, which each thread has for itself. */
#include "include/errno.h"

_Thread_local int errno;
