/* The proved program with its own words and no more, for the golden runs. Nothing here is proved. */
#include "exe.h"

const struct built_in *built_in_named(const char *name) { (void)name; return NULL; }
int run_command(int count, char **words) { return run_proved(count, words); }
