/* What door.h needs of <stddef.h>: the kit's clang brings no headers. */
#ifndef SHIM_STDDEF_H
#define SHIM_STDDEF_H

typedef __SIZE_TYPE__ size_t;

#endif
