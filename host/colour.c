#include "colour.h"

#include <unistd.h>

const char *colour_fault(void)
{
	return isatty(STDOUT_FILENO) ? "\x1B[1;31m" : "";
}

const char *colour_plain(void)
{
	return isatty(STDOUT_FILENO) ? "\x1B[0m" : "";
}
