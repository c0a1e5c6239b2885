/*
 * A small file broker, whole. It owns a directory and serves two clients, each under its own policy. docs/BROKER.md explains it.
 *
 *     broker DIRECTORY    the directory is made, and removed again
 *
 * It prints each request with its answer, and who refused: the broker itself, the core (that is, the library; with the layer and
 * the rights that it denies, if it was a layer) or the system. In earnest a client is a program of its own, run by a user who
 * cannot open the broker's files; here it is a list of requests that a forked process makes.
 */
#define _POSIX_C_SOURCE 200809L

#include <ctype.h>
#include <dirent.h>
#include <errno.h>
#include <fcntl.h>
#include <poll.h>
#include <stdio.h>
#include <stdlib.h>
#include <string.h>
#include <sys/socket.h>
#include <sys/stat.h>
#include <sys/wait.h>
#include <unistd.h>

#include "broker_clients.h"
#include "skeinrabbit.h"

enum { CLIENTS = 2, GRANTS = 2 };
static const char *const operation_names[] = { "read", "write", "create", "mkdir", "remove", "rename", "?" };

#define ALL_FILE_RIGHTS ((SKEIN_FS_IOCTL_DEV << 1) - 1)
#define MAY_READ (SKEIN_FS_READ_FILE | SKEIN_FS_READ_DIR)
#define MAY_MOVE (MAY_READ | SKEIN_FS_MAKE_REG | SKEIN_FS_REMOVE_FILE | SKEIN_FS_REFER)
#define MAY_WORK (MAY_MOVE | SKEIN_FS_WRITE_FILE | SKEIN_FS_TRUNCATE | SKEIN_FS_MAKE_DIR | SKEIN_FS_REMOVE_DIR)
#define DIRECTORY_FLAGS (O_RDONLY | O_DIRECTORY | O_NOFOLLOW | O_CLOEXEC)

/* A reply, and who refused: only the log tells that, and which layer and rights if it was one. */
struct answer {
	struct reply reply;
	const char *by;
	struct skein_report report;
};

struct client {
	const char *name;
	const char *paths[GRANTS]; /* its policy: at each path and below, these rights */
	uint64_t rights[GRANTS];
	const struct request *requests;
	int connection; /* -1 before it comes and after it has left */
	uint64_t thread; /* live as long as the connection */
	pid_t process;
};

/* An entry with its directory and its name there; of one that is to be made, directory and name alone. */
struct place {
	uint64_t directory, entry;
	char name[PATH_SIZE];
};

static struct client clients[CLIENTS] = {
	{ "importer", { "/cal", "/import" }, { MAY_READ, MAY_WORK }, importer_requests, -1, 0, 0 },
	{ "archiver", { "/import", "/archive" }, { MAY_WORK, MAY_MOVE }, archiver_requests, -1, 0, 0 },
};

static struct skein_tables tables, before;
static const char *root_path;
static int root = -1;

static void die(const char *what, int error)
{
	fprintf(stderr, "broker: %s: %s\n", what, strerror(error));
	exit(1);
}

/* A call of the broker's own, which has to succeed. */
static uint64_t must(const char *what, int64_t answer)
{
	if (answer < 0)
		die(what, (int)-answer);
	return (uint64_t)answer;
}

static struct answer answered(int error, const char *by)
{
	const struct answer answer = { { error, "" }, by, { 0, 0, 0 } };

	return answer;
}

/* After EIO nothing can be answered any more: something else has written the tables. */
static struct answer refused_by_core(int64_t verdict, const struct skein_report *report)
{
	struct answer answer = answered((int)-verdict, "core");

	if (verdict == -SKEIN_EIO)
		die("tables damaged", EIO);
	answer.report = *report;
	return answer;
}

static uint64_t kind_of(const struct skein_tables *t, uint64_t entry)
{
	return t->entries[entry * SKEIN_ENTRY_CELLS];
}

static uint64_t parent_of(uint64_t entry)
{
	return tables.entries[entry * SKEIN_ENTRY_CELLS + 1];
}

/* Names and paths. */

static void copy_name(char *to, uint64_t entry)
{
	const uint8_t *const row = tables.names + entry * SKEIN_NAME_BYTES;

	memcpy(to, row + 1, row[0]);
	to[row[0]] = '\0';
}

/* Finds the entry of a path in the tables, never in the file system; 0 or an error number. */
static int find(struct place *place, const char *path)
{
	const int64_t found = skeinrabbit_lookup(&tables, path, strlen(path));

	if (found < 0)
		return (int)-found;
	place->entry = (uint64_t)found;
	place->directory = parent_of(place->entry);
	copy_name(place->name, place->entry);
	return 0;
}

/* Finds where an entry of a path is to be made: its last component is the name, what stands before it the directory. */
static int find_room(struct place *place, const char *path)
{
	const size_t size = strlen(path);
	const char *component, *last = path + size;
	size_t length, last_length = 0;
	int64_t found;

	skeinrabbit_component(path, size, 0, &component, &length);
	while (length != 0) {
		last = component;
		last_length = length;
		skeinrabbit_component(path, size, (uint64_t)(last - path) + length, &component, &length);
	}
	found = skeinrabbit_lookup(&tables, path, (size_t)(last - path));
	if (found < 0)
		return (int)-found;
	place->directory = (uint64_t)found;
	memcpy(place->name, last, last_length);
	place->name[last_length] = '\0';
	return 0;
}

/* Opens a directory name by name from the root, so that the system follows no symlink. */
static int open_directory(uint64_t directory)
{
	char name[SKEIN_MAX_NAME + 1];
	int above, opened;

	if (directory == SKEIN_ROOT)
		return openat(root, ".", DIRECTORY_FLAGS);
	above = open_directory(parent_of(directory));
	copy_name(name, directory);
	opened = openat(above, name, DIRECTORY_FLAGS);
	close(above);
	return opened;
}

/* At start: the tables are built from the directory, and each client gets its thread. */

static void take_file(int from, uint64_t directory, const char *name);

static void scan(uint64_t directory)
{
	DIR *const list = fdopendir(open_directory(directory));
	struct dirent *item;

	if (list == NULL)
		die("directory", errno);
	while ((item = readdir(list)) != NULL)
		if (strcmp(item->d_name, ".") != 0 && strcmp(item->d_name, "..") != 0)
			take_file(dirfd(list), directory, item->d_name);
	closedir(list);
}

/* Regular files with one name, directories and symlinks are served; with anything else in it the broker does not start. */
static void take_file(int from, uint64_t directory, const char *name)
{
	uint64_t kind = 0, entry;
	struct stat found;

	if (fstatat(from, name, &found, AT_SYMLINK_NOFOLLOW) != 0)
		die(name, errno);
	if (S_ISREG(found.st_mode) && found.st_nlink == 1)
		kind = SKEIN_KIND_REGULAR;
	else if (S_ISDIR(found.st_mode))
		kind = SKEIN_KIND_DIRECTORY;
	else if (S_ISLNK(found.st_mode))
		kind = SKEIN_KIND_SYMLINK;
	if (kind == 0)
		die(name, EINVAL);
	entry = must(name, skeinrabbit_create(&tables, SKEIN_FIRST_THREAD, directory, kind, name, strlen(name), NULL, NULL));
	if (kind == SKEIN_KIND_DIRECTORY)
		scan(entry);
}

/* Every right and scope is handled, so the client's thread may do what its policy grants and reach no other thread. */
static void confine(struct client *client)
{
	const struct skein_ruleset_attr attr = { ALL_FILE_RIGHTS, SKEIN_NET_BIND_TCP | SKEIN_NET_CONNECT_TCP,
						 SKEIN_SCOPE_ABSTRACT_UNIX_SOCKET | SKEIN_SCOPE_SIGNAL };
	const uint64_t ruleset = must("ruleset", skeinrabbit_create_ruleset(&tables, &attr, sizeof(attr), 0));

	for (size_t i = 0; i < GRANTS; i++) {
		const char *const path = client->paths[i];
		const uint64_t entry = must(path, skeinrabbit_lookup(&tables, path, strlen(path)));

		must(path, skeinrabbit_add_path_rule(&tables, ruleset, entry, client->rights[i], 0));
	}
	client->thread = must("clone", skeinrabbit_clone(&tables, SKEIN_FIRST_THREAD));
	must("no_new_privs", skeinrabbit_set_no_new_privs(&tables, client->thread));
	must("restrict", skeinrabbit_restrict(&tables, client->thread, ruleset, 0));
	must("close", skeinrabbit_close_ruleset(&tables, ruleset));
}

/* Requests. */

/* Reads or writes for the client, which never has the descriptor itself. */
static struct answer use_file(uint64_t thread, const struct request *request, const struct place *place)
{
	const int writes = request->operation == WRITE;
	const uint64_t rights = writes ? SKEIN_FS_WRITE_FILE | SKEIN_FS_TRUNCATE : SKEIN_FS_READ_FILE;
	struct skein_report report;
	const int64_t verdict = skeinrabbit_access(&tables, thread, place->entry, rights, &report);
	struct answer answer = answered(0, "system");
	int directory, file;
	ssize_t done = -1;

	if (verdict < 0)
		return refused_by_core(verdict, &report);
	if (kind_of(&tables, place->entry) != SKEIN_KIND_REGULAR)
		return answered(kind_of(&tables, place->entry) == SKEIN_KIND_SYMLINK ? ELOOP : EINVAL, "broker");
	directory = open_directory(place->directory);
	file = openat(directory, place->name, (writes ? O_WRONLY | O_TRUNC : O_RDONLY) | O_NOFOLLOW | O_NONBLOCK | O_CLOEXEC);
	if (file >= 0)
		done = writes ? write(file, request->text, strlen(request->text)) : read(file, answer.reply.text, TEXT_SIZE - 1);
	if (done < 0)
		answer.reply.error = errno;
	close(file);
	close(directory);
	return answer;
}

static int64_t change_tables(uint64_t thread, uint32_t operation, const struct place *from, const struct place *to,
			     struct skein_report *report)
{
	const size_t length = strlen(to->name);

	switch (operation) {
	case CREATE:
		return skeinrabbit_create(&tables, thread, to->directory, SKEIN_KIND_REGULAR, to->name, length, NULL, report);
	case MKDIR:
		return skeinrabbit_create(&tables, thread, to->directory, SKEIN_KIND_DIRECTORY, to->name, length, NULL, report);
	case REMOVE:
		return skeinrabbit_remove(&tables, thread, from->entry, NULL, report);
	default:
		return skeinrabbit_rename(&tables, thread, from->entry, to->directory, to->name, length, NULL, report);
	}
}

static int make_file(int directory, const char *name)
{
	const int made = openat(directory, name, O_WRONLY | O_CREAT | O_EXCL | O_NOFOLLOW | O_CLOEXEC, 0600);

	return made < 0 ? -1 : close(made);
}

/* 0 or an error number. A directory that does not open counts as -1, and every call on it fails. */
static int change_files(uint32_t operation, const struct place *from, const struct place *to)
{
	const int source = open_directory(from->directory), target = open_directory(to->directory);
	int done, error;

	if (operation == CREATE)
		done = make_file(target, to->name);
	else if (operation == MKDIR)
		done = mkdirat(target, to->name, 0700);
	else if (operation == RENAME)
		done = renameat(source, from->name, target, to->name);
	else
		done = unlinkat(source, from->name, kind_of(&before, from->entry) == SKEIN_KIND_DIRECTORY ? AT_REMOVEDIR : 0);
	error = done == 0 ? 0 : errno;
	close(source);
	close(target);
	return error;
}

/* The core first, on the tables; then the file system; and if that fails, the tables as they were. */
static struct answer change_tree(uint64_t thread, uint32_t operation, const struct place *from, const struct place *to)
{
	struct skein_report report;
	int64_t verdict;
	int error;

	before = tables;
	verdict = change_tables(thread, operation, from, to, &report);
	if (verdict < 0)
		return refused_by_core(verdict, &report);
	error = change_files(operation, from, to);
	if (error != 0) {
		tables = before;
		return answered(error, "system, tables restored");
	}
	return answered(0, "");
}

static int is_well_formed(const struct request *request)
{
	return request->operation < OPERATIONS && memchr(request->path, '\0', PATH_SIZE) != NULL &&
	       memchr(request->target, '\0', PATH_SIZE) != NULL && memchr(request->text, '\0', TEXT_SIZE) != NULL;
}

static struct answer judge(uint64_t thread, const struct request *request)
{
	const uint32_t operation = request->operation;
	const int makes = operation == CREATE || operation == MKDIR;
	struct place from = { SKEIN_ROOT, SKEIN_ROOT, "" }, to = from;
	int error = 0;

	if (!is_well_formed(request))
		return answered(EINVAL, "broker");
	if (!makes)
		error = find(&from, request->path);
	if (error == 0 && (makes || operation == RENAME))
		error = find_room(&to, makes ? request->path : request->target);
	if (error != 0)
		return answered(error, "core");
	if (operation == READ || operation == WRITE)
		return use_file(thread, request, &from);
	return change_tree(thread, operation, &from, &to);
}

static const char *error_name(int error)
{
	static const int numbers[] = { 0, EACCES, EXDEV, ENOENT, EEXIST, ENOTDIR, EINVAL, ENOTEMPTY, ELOOP };
	static const char *const error_names[] = { "0",	      "EACCES", "EXDEV",     "ENOENT", "EEXIST",
						   "ENOTDIR", "EINVAL", "ENOTEMPTY", "ELOOP" };

	for (size_t i = 0; i < sizeof(numbers) / sizeof(numbers[0]); i++)
		if (numbers[i] == error)
			return error_names[i];
	return strerror(error);
}

/* The layer that refused, if one did, and the rights that it denies. */
static void log_layer(const struct skein_report *report)
{
	static const char *const right_names[] = { "execute",	"write_file", "read_file", "read_dir",	 "remove_dir", "remove_file",
						   "make_char", "make_dir",   "make_reg",  "make_sock",	 "make_fifo",  "make_block",
						   "make_sym",	"refer",      "truncate",  "ioctl_dev" };
	const char *before_name = ", ";

	if (report->layer == 0)
		return;
	printf(": layer %u", (unsigned)(report->layer - 1));
	for (size_t bit = 0; bit < sizeof(right_names) / sizeof(right_names[0]); bit++) {
		if ((report->rights >> bit & 1) != 0) {
			printf("%s%s", before_name, right_names[bit]);
			before_name = "+";
		}
	}
}

/* What a client sent may be any bytes: only printable ones go into the log. */
static void log_request(const struct client *client, const struct request *request, const struct answer *answer)
{
	const uint32_t operation = request->operation < OPERATIONS ? request->operation : OPERATIONS;
	const char *const target = operation == RENAME ? request->target : "";
	char paths[2 * PATH_SIZE + 8];

	snprintf(paths, sizeof(paths), "%.*s%s%.*s", PATH_SIZE, request->path, *target == '\0' ? "" : " -> ", PATH_SIZE, target);
	for (char *c = paths; *c != '\0'; c++)
		*c = isprint((unsigned char)*c) ? *c : '?';
	printf("%s  %-6s  %-31s  %s", client->name, operation_names[operation], paths, error_name(answer->reply.error));
	if (answer->reply.error != 0) {
		printf(" (%s", answer->by);
		log_layer(&answer->report);
		putchar(')');
	}
	putchar('\n');
}

/* Lets a client go. Its thread ends, so that its number and layers are there for another. */
static void let_go(struct client *client)
{
	close(client->connection);
	client->connection = -1;
	must("end", skeinrabbit_end(&tables, client->thread));
}

/* Answers one request, or lets the client go if it has left or does not read. The broker never waits for one of them. */
static void serve(struct client *client)
{
	char packet[sizeof(struct request) + 1];
	const ssize_t length = recv(client->connection, packet, sizeof(packet), MSG_DONTWAIT);
	struct request request = { OPERATIONS, "", "", "" };
	struct answer answer = answered(0, "");

	if (length == (ssize_t)sizeof(request))
		memcpy(&request, packet, sizeof(request));
	if (length > 0) {
		answer = judge(client->thread, &request);
		log_request(client, &request, &answer);
	}
	if (length <= 0 || send(client->connection, &answer.reply, sizeof(answer.reply), MSG_DONTWAIT | MSG_NOSIGNAL) < 0)
		let_go(client);
}

static void serve_all(void)
{
	struct pollfd waiting[CLIENTS];

	for (;;) {
		int connected = 0;

		for (size_t i = 0; i < CLIENTS; i++) {
			waiting[i].fd = clients[i].connection;
			waiting[i].events = POLLIN;
			connected += clients[i].connection >= 0;
		}
		if (connected == 0)
			return;
		if (poll(waiting, CLIENTS, 1000 * SECONDS / 2) <= 0)
			die("no request", ETIMEDOUT);
		for (size_t i = 0; i < CLIENTS; i++)
			if (waiting[i].revents != 0)
				serve(&clients[i]);
	}
}

/* Of the broker's descriptors a client keeps none. */
static void start(struct client *client, int pipe_end)
{
	int ends[2];

	if (socketpair(AF_UNIX, SOCK_SEQPACKET, 0, ends) != 0 || (client->process = fork()) < 0)
		die(client->name, errno);
	if (client->process == 0) {
		close(root);
		close(ends[0]);
		for (size_t i = 0; i < CLIENTS; i++)
			close(clients[i].connection);
		run_client(client->requests, ends[1], pipe_end);
	}
	close(ends[1]);
	client->connection = ends[0];
}

/* The directory. */

static void put(const char *path, const char *text)
{
	const int file = openat(root, path, O_WRONLY | O_CREAT | O_EXCL, 0600);

	if (file < 0 || write(file, text, strlen(text)) < 0 || close(file) != 0)
		die(path, errno);
}

static void remove_directory(void)
{
	static const char *const paths[] = { "cal/table",  "cal",	     "import/feed", "import/lost",  "import/shortcut", "import/one",
					     "import/day/one", "import/day", "import",	    "archive/feed", "archive" };

	for (size_t i = 0; i < sizeof(paths) / sizeof(paths[0]); i++)
		if (unlinkat(root, paths[i], 0) != 0)
			unlinkat(root, paths[i], AT_REMOVEDIR);
	rmdir(root_path);
}

static void make_directory(const char *path)
{
	root_path = path;
	if (mkdir(path, 0700) != 0 || (root = open(path, DIRECTORY_FLAGS)) < 0)
		die(path, errno);
	atexit(remove_directory);
	if (mkdirat(root, "cal", 0700) != 0 || mkdirat(root, "import", 0700) != 0 || mkdirat(root, "archive", 0700) != 0 ||
	    symlinkat("../cal/table", root, "import/shortcut") != 0)
		die(path, errno);
	put("cal/table", TABLE_TEXT);
	put("import/feed", "feed of Monday\n");
	put("import/lost", "");
}

/* The second client begins when the first has ended, so that the output is the same each time. */
static void start_clients(void)
{
	int ends[2];

	if (pipe(ends) != 0)
		die("pipe", errno);
	start(&clients[0], -1);
	close(ends[1]); /* only the first client has it now */
	start(&clients[1], ends[0]);
	close(ends[0]);
}

/* 0 if all went well. The broker's own thread, which has no layer, reads the table. */
static int report(void)
{
	const struct answer table = judge(SKEIN_FIRST_THREAD, &importer_requests[0]);
	int wrong = strcmp(table.reply.text, TABLE_TEXT) != 0;

	for (size_t i = 0; i < CLIENTS; i++) {
		int status;
		const int well = waitpid(clients[i].process, &status, 0) > 0 && status == 0;

		printf("%s %s what it should\n", clients[i].name, well ? "got" : "did not get");
		wrong |= !well;
	}
	printf("%u layers are in use when both have left\n", (unsigned)tables.system[2]);
	printf("/cal/table %s\n", strcmp(table.reply.text, TABLE_TEXT) == 0 ? "holds what it held at the start" : "has changed");
	return wrong;
}

int main(int argc, char **argv)
{
	if (argc != 2) {
		fprintf(stderr, "usage: %s DIRECTORY\n", argv[0]);
		return 64;
	}
	alarm(SECONDS);
	make_directory(argv[1]);
	must("fresh tables", skeinrabbit_fresh(&tables, SKEIN_MAX_LEVEL));
	scan(SKEIN_ROOT);
	unlinkat(root, "import/lost", 0); /* behind the broker's back */
	for (size_t i = 0; i < CLIENTS; i++)
		confine(&clients[i]);
	start_clients();
	serve_all();
	return report();
}
