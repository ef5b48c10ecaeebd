/* Memory hooks of a program, which the shared library has to ignore. */
#include <stdlib.h>

void rattle_alloc(void) { abort(); }
void rattle_realloc(void) { abort(); }
void rattle_dealloc(void) { abort(); }
