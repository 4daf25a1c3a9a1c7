/* What include/card.h takes from the C library's header of this name, for a compiler that comes without one. */
typedef __SIZE_TYPE__ size_t;
