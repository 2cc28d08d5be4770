/* As much of <stdint.h> as host/ and tests/ use: see stdio.h. */
#ifndef BERXUNDAR_ELSEWHERE_STDINT_H
#define BERXUNDAR_ELSEWHERE_STDINT_H

typedef __UINT8_TYPE__ uint8_t;
typedef __UINT16_TYPE__ uint16_t;
typedef __UINT32_TYPE__ uint32_t;
typedef __UINT64_TYPE__ uint64_t;
#define UINT32_MAX 4294967295u
#define UINT64_C(number) number##ul
#define UINT64_MAX UINT64_C(18446744073709551615)

#endif
