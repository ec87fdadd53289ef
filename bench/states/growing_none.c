/* No library: the engine alone. */
#include "growing.h"

const library LIBRARY = {0};
