/* What an integrator asks of the library and what a run can tell: `tests facts`. */
#ifndef FACTS_H
#define FACTS_H

int facts(void);        /* ends with 'N passed, M failed' */

#endif
