/* What the fragments of C in the documentation take as given. */
#define _POSIX_C_SOURCE 200809L

#include <errno.h>
#include <fcntl.h>
#include <stdio.h>
#include <string.h>
#include <sys/stat.h>
#include <unistd.h>

#include "skeinrabbit.h"

#define NONE UINT64_MAX

struct connection {
	int socket;
	uint64_t thread;
};

extern struct skein_tables tables, before;
extern struct skein_queue queue;
extern struct skein_log changes;
extern uint64_t kept;
extern int log_fd;
extern struct connection *connection, *connections;
extern size_t client_count;
extern const uint64_t *policies;
extern uint64_t common, directory, entry, kind, source;
extern int source_fd, directory_fd;
extern const char *source_name, *name, *path;
extern struct stat status;

uint64_t entry_of_file(const struct stat *status_of_file);
void fragment(void);
