#include "jobk.h"
