/* The second file of the program in calls.c. */
#include "skeinrabbit.h"

int64_t request_from_other_file(struct skein_tables *t, uint64_t entry, uint64_t rights);

int64_t request_from_other_file(struct skein_tables *t, uint64_t entry, uint64_t rights)
{
	return skeinrabbit_access(t, 1, entry, rights, NULL);
}
