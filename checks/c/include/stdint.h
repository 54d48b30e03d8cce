/* Stands in for the header of the C library, which the toolchain does not bring: the widths that include/praithong.h names, on x86-64. */
typedef unsigned char uint8_t;
typedef unsigned int uint32_t;
typedef unsigned long uint64_t;
