/* The calls of shardheap.h and shardheap_table.h, with their checks of pointers and handles, compiled once.
   scripts/package puts them into libshardheap.a and libshardheap.so, for languages that call functions and compile no
   C. */
#ifdef SHARDHEAP_CHECKED
#error "the library has the calls as they are outside checked mode"
#endif
#define SHARDHEAP_API
#include "shardheap_table.h"
