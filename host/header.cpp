#include "fiddlequill.h"
