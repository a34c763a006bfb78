/* The same work in plain C, to measure the library against: each function is the twin of its namesake in vrikshonem.h, has its
 * signature and gives the same answers and refusals. It is written from documents 01 and 02 and tested only, by the benchmark's
 * comparison. */
#ifndef PLAIN_H
#define PLAIN_H

#include "functions.h"
#include "vrikshonem.h"

#define TWIN(name) __typeof__(vrk_##name) plain_##name;
EACH_FUNCTION(TWIN)

/* Does less: the list was accepted before, and 5 is never given. */
__typeof__(vrk_change) plain_change_listed;

/* Does nothing, so that the cost of a call and of the loop around it is seen. */
__typeof__(vrk_cuc_read) plain_nothing;

#endif
