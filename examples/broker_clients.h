/*
 * The clients' side of examples/broker.c: what a client sends and gets, and what the two clients of the example ask for.
 */
#ifndef BROKER_CLIENTS_H
#define BROKER_CLIENTS_H

#include <stdint.h>
#include <string.h>
#include <sys/socket.h>
#include <unistd.h>

enum { PATH_SIZE = 256, TEXT_SIZE = 64, SECONDS = 20 };
enum { READ, WRITE, CREATE, MKDIR, REMOVE, RENAME, OPERATIONS };

#define TABLE_TEXT "boils at 205 degrees\n"
#define FEED_TEXT "feed of Friday\n"

/* What a client sends. No thread is in it: that is the connection's. */
struct request {
	uint32_t operation;
	char path[PATH_SIZE];
	char target[PATH_SIZE]; /* of a rename */
	char text[TEXT_SIZE];	/* to be written */
};

/* What it gets: 0 or an error number, and what was read. */
struct reply {
	int error;
	char text[TEXT_SIZE];
};

/*
 * The importer may read /cal and work in /import. It does its work, then tries to change the calibration table. A list ends at a
 * request without a path; the text of a read is what must come.
 */
static const struct request importer_requests[] = {
	{ READ, "/cal/table", "", TABLE_TEXT },
	{ WRITE, "/cal/table", "", "boils never\n" },
	{ WRITE, "/import/feed", "", FEED_TEXT },
	{ MKDIR, "/import/day", "", "" },
	{ CREATE, "/import/day/one", "", "" },
	{ CREATE, "/import/day/one", "", "" },
	{ REMOVE, "/import/day", "", "" },
	{ RENAME, "/import/day/one", "/import/one", "" },
	{ READ, "/import/day/one", "", "" },
	{ REMOVE, "/import/day", "", "" },
	{ RENAME, "/cal/table", "/import/table", "" },
	{ RENAME, "/import/one", "/cal/table", "" },
	{ REMOVE, "/cal/table", "", "" },
	{ WRITE, "/import/../cal/table", "", "boils never\n" },
	{ WRITE, "/import/shortcut", "", "boils never\n" },
	{ CREATE, "/import/shortcut/one", "", "" },
	{ READ, "import/feed", "", "" },
	{ READ, "/import/feed/one", "", "" },
	{ OPERATIONS, "", "", "" },
};

/* The archiver may work in /import, and move files to /archive and from there, but write none there. */
static const struct request archiver_requests[] = {
	{ READ, "/cal/table", "", "" },
	{ RENAME, "/import/feed", "/archive/feed", "" },
	{ READ, "/archive/feed", "", FEED_TEXT },
	{ WRITE, "/archive/feed", "", "feed of Sunday\n" },
	{ RENAME, "/archive/feed", "/import/feed", "" },
	/* its file was removed behind the broker: the core grants the move, the system cannot do it, the name stays where it was */
	{ RENAME, "/import/lost", "/archive/lost", "" },
	{ READ, "/archive/lost", "", "" },
	{ READ, "/import/lost", "", "" },
	{ OPERATIONS, "/import", "", "" },
	{ OPERATIONS, "", "", "" },
};

/* A client's process. If there is a pipe it waits for its other end to close. It ends with 0 if it read what it should. */
static void run_client(const struct request *request, int connection, int pipe_end)
{
	struct reply reply;
	int wrong = 0;
	char byte;

	alarm(SECONDS);
	if (pipe_end >= 0 && read(pipe_end, &byte, 1) != 0)
		_exit(2);
	for (; request->path[0] != '\0'; request++) {
		if (send(connection, request, sizeof(*request), MSG_NOSIGNAL) < 0 ||
		    recv(connection, &reply, sizeof(reply), 0) != (ssize_t)sizeof(reply))
			_exit(2);
		if (request->operation == READ && strcmp(request->text, reply.text) != 0)
			wrong = 1;
	}
	_exit(wrong);
}

#endif
