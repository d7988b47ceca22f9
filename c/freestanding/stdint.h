/* The integers of C's stdint.h that c/ uses, as the compiler has them: the toolchain's compiler comes without a C library's headers. */
#ifndef HVEROLDA_FREESTANDING_STDINT_H
#define HVEROLDA_FREESTANDING_STDINT_H
typedef __UINT8_TYPE__ uint8_t;
typedef __UINT32_TYPE__ uint32_t;
typedef __UINT64_TYPE__ uint64_t;
#endif
