/* Takes the header alone, and twice: the gate compiles it as C99, C11 and C++17 with every warning an error. */
#include "ceviloneth.h"
#include "ceviloneth.h"
