/* The functions that the header has in itself, as functions of the shared library, for languages that read no header. */
#define VT_INLINE
#include "vt_terminal.h"
