/* The kit has a C library and no headers. This folder declares what the programs of examples/ and c/ use, for x86-64. */
typedef unsigned char uint8_t;
typedef unsigned short uint16_t;
typedef unsigned int uint32_t;
