/* What the runner and the process of a run know of each other. */
#ifndef PCT_STAND_PROCESS_H
#define PCT_STAND_PROCESS_H

#include "stand.h"

#include <stdio.h>

/* In the process of a run, before the program's first line. */
void begin_run(void);

/* Makes the run of the plan in a process of its own. Answers true there, and false in the runner,
   once it is over. */
bool make_run(void);

/* Whether it failed, as `shared` has it now. */
bool has_failed(void);

/* Writes the last run, and the files that the program consists of. */
void write_run(FILE *to);
void write_modules(FILE *to);

#endif
