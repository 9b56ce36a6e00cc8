/* The version of juwenfo.h in the shared object, where juwenfo.py reads it. */
#include "juwenfo.h"

const char juwenfo_version[] = JUWENFO_VERSION;
