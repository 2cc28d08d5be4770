/* As much of <stddef.h> as host/ and tests/ use: see stdio.h. */
#ifndef BERXUNDAR_ELSEWHERE_STDDEF_H
#define BERXUNDAR_ELSEWHERE_STDDEF_H

typedef __SIZE_TYPE__ size_t;
#define NULL ((void *)0)

#endif
