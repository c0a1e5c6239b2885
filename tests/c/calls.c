/*
 * Makes every call of the header once and compares its answer with document 01's. Two files include the header: the request
 * that is made from the other one must see the same tables.
 */
#include <stdio.h>
#include <string.h>

#include "skeinrabbit.h"

/* What the worked layers of document 01 handle. */
#define WORKED (SKEIN_FS_WRITE_FILE | SKEIN_FS_READ_FILE | SKEIN_FS_REMOVE_FILE | SKEIN_FS_MAKE_REG | SKEIN_FS_REFER)

int64_t request_from_other_file(struct skein_tables *t, uint64_t entry, uint64_t rights);

static struct skein_tables tables;
static int differences;

static void expect(const char *call, int64_t answer, int64_t expected)
{
	if (answer != expected) {
		printf("%s answered %lld, expected %lld\n", call, (long long)answer, (long long)expected);
		differences++;
	}
}

static void ruleset_calls(struct skein_tables *t)
{
	const struct skein_ruleset_attr attr = { SKEIN_FS_READ_FILE | SKEIN_FS_MAKE_SOCK, SKEIN_NET_BIND_TCP, SKEIN_SCOPE_SIGNAL };
	const uint8_t zeros[SKEIN_MAX_ATTR_SIZE + 1] = { 0 };

	expect("create_ruleset, no bytes", skeinrabbit_create_ruleset(t, NULL, 0, 0), -SKEIN_EINVAL);
	expect("create_ruleset, NULL with a size", skeinrabbit_create_ruleset(t, NULL, sizeof(attr), 0), -SKEIN_EINVAL);
	expect("create_ruleset, NULL with any size", skeinrabbit_create_ruleset(t, NULL, SIZE_MAX, 0), -SKEIN_EINVAL);
	expect("create_ruleset, 4,097 bytes", skeinrabbit_create_ruleset(t, zeros, sizeof(zeros), 0), -SKEIN_E2BIG);
	expect("create_ruleset, zeros", skeinrabbit_create_ruleset(t, zeros, sizeof(attr), 0), -SKEIN_ENOMSG);
	expect("create_ruleset", skeinrabbit_create_ruleset(t, &attr, sizeof(attr), 0), 0);
	expect("add_path_rule", skeinrabbit_add_path_rule(t, 0, 1, SKEIN_FS_READ_FILE, 0), 0);
	expect("add_path_rule, the root", skeinrabbit_add_path_rule(t, 0, SKEIN_ROOT, SKEIN_FS_MAKE_SOCK, 0), -SKEIN_EPERM);
	expect("the rights not at the root", (int64_t)SKEIN_FS_NOT_AT_ROOT, 32754);
	expect("add_path_rule, REFER not asked", skeinrabbit_add_path_rule(t, 0, 1, SKEIN_FS_REFER, 0), -SKEIN_EINVAL);
	expect("add_port_rule", skeinrabbit_add_port_rule(t, 0, SKEIN_MAX_PORT, SKEIN_NET_BIND_TCP, 0), 0);
	expect("add_port_rule, too high", skeinrabbit_add_port_rule(t, 0, 65536, SKEIN_NET_BIND_TCP, 0), -SKEIN_EINVAL);
}

static void domain_calls(struct skein_tables *t)
{
	const uint64_t *rules = NULL;
	size_t cells = 99;

	expect("restrict, no mark", skeinrabbit_restrict(t, 0, 0, 0), -SKEIN_EPERM);
	expect("clone", skeinrabbit_clone(t, SKEIN_FIRST_THREAD), 1);
	expect("set_admin", skeinrabbit_set_admin(t, 1, 1), 0);
	expect("set_no_new_privs", skeinrabbit_set_no_new_privs(t, 1), 0);
	expect("set_no_new_privs, not live", skeinrabbit_set_no_new_privs(t, 2), -SKEIN_ESRCH);
	expect("restrict", skeinrabbit_restrict(t, 1, 0, 0), 0);
	expect("close_ruleset", skeinrabbit_close_ruleset(t, 0), 0);
	expect("close_ruleset, again", skeinrabbit_close_ruleset(t, 0), -SKEIN_EBADF);
	expect("layer_rules", skeinrabbit_layer_rules(t, 0, &rules, &cells), 0);
	expect("layer_rules: cells", (int64_t)cells, 2 * SKEIN_RULE_CELLS);
	expect("layer_rules: second key", (int64_t)rules[SKEIN_RULE_CELLS + 1], SKEIN_MAX_PORT);
	expect("layer_rules, not in use", skeinrabbit_layer_rules(t, 1, &rules, &cells), -SKEIN_EBADF);
	expect("layer_rules, not in use: cells", (int64_t)cells, 0);
}

static void requests(struct skein_tables *t)
{
	expect("access", skeinrabbit_access(t, 1, 2, SKEIN_FS_READ_FILE, NULL), 0);
	expect("access, denied", skeinrabbit_access(t, 1, SKEIN_ROOT, SKEIN_FS_READ_FILE, NULL), -SKEIN_EACCES);
	expect("access from the other file", request_from_other_file(t, 2, SKEIN_FS_READ_FILE), 0);
	expect("access from the other file, denied", request_from_other_file(t, 3, SKEIN_FS_READ_FILE), -SKEIN_EACCES);
	expect("port", skeinrabbit_port(t, 1, SKEIN_MAX_PORT, SKEIN_NET_BIND_TCP, NULL), 0);
	expect("port, denied", skeinrabbit_port(t, 1, 80, SKEIN_NET_BIND_TCP, NULL), -SKEIN_EACCES);
}

static void tree_calls(struct skein_tables *t)
{
	expect("create, denied", skeinrabbit_create(t, 1, 1, SKEIN_KIND_SOCKET, "new", 3, NULL, NULL), -SKEIN_EACCES);
	expect("create, unknown kind", skeinrabbit_create(t, 1, 1, 8, "new", 3, NULL, NULL), -SKEIN_EINVAL);
	expect("create, taken", skeinrabbit_create(t, 1, 1, 8, "table", 5, NULL, NULL), -SKEIN_EEXIST);
	expect("link", skeinrabbit_link(t, 0, 2, SKEIN_ROOT, "twin", 4, NULL, NULL), 4);
	expect("link, taken", skeinrabbit_link(t, 0, 2, SKEIN_ROOT, "twin", 4, NULL, NULL), -SKEIN_EEXIST);
	expect("link, REFER denied", skeinrabbit_link(t, 1, 2, SKEIN_ROOT, "other", 5, NULL, NULL), -SKEIN_EXDEV);
	expect("rename", skeinrabbit_rename(t, 0, 2, SKEIN_ROOT, "table", 5, NULL, NULL), 0);
	expect("lookup of what was renamed", skeinrabbit_lookup(t, "/table", 6), 2);
	expect("rename over its own link", skeinrabbit_rename(t, 0, 2, SKEIN_ROOT, "twin", 4, NULL, NULL), 0);
	expect("lookup of the link", skeinrabbit_lookup(t, "/twin", 5), 4);
	expect("rename, file over directory", skeinrabbit_rename(t, 0, 2, SKEIN_ROOT, "cal", 3, NULL, NULL), -SKEIN_EISDIR);
	expect("exchange", skeinrabbit_exchange(t, 0, 3, SKEIN_ROOT, 2, NULL, NULL), 0);
	expect("lookup of what was exchanged", skeinrabbit_lookup(t, "/table", 6), 3);
	expect("remove, root", skeinrabbit_remove(t, 0, SKEIN_ROOT, NULL, NULL), -SKEIN_EBUSY);
	expect("remove", skeinrabbit_remove(t, 0, 4, NULL, NULL), 0);
}

/* Names of all lengths, and bytes that are no name. The tree is that of main: 1 /cal, 2 /cal/table, 3 /feed. */
static void names(struct skein_tables *t)
{
	char longest[SKEIN_MAX_NAME + 1];

	memset(longest, 'n', sizeof(longest));
	expect("create, no bytes", skeinrabbit_create(t, 0, 1, SKEIN_KIND_REGULAR, NULL, 9, NULL, NULL), -SKEIN_EINVAL);
	expect("create, 0 bytes", skeinrabbit_create(t, 0, 1, SKEIN_KIND_REGULAR, "x", 0, NULL, NULL), -SKEIN_EINVAL);
	expect("create, ..", skeinrabbit_create(t, 0, 1, SKEIN_KIND_REGULAR, "..", 2, NULL, NULL), -SKEIN_EINVAL);
	expect("create, a slash", skeinrabbit_create(t, 0, 1, SKEIN_KIND_REGULAR, "a/b", 3, NULL, NULL), -SKEIN_EINVAL);
	expect("create, a zero byte", skeinrabbit_create(t, 0, 1, SKEIN_KIND_REGULAR, "a", 2, NULL, NULL), -SKEIN_EINVAL);
	expect("create, 49 bytes", skeinrabbit_create(t, 0, 1, SKEIN_KIND_REGULAR, longest, sizeof(longest), NULL, NULL),
	       -SKEIN_ENAMETOOLONG);
	expect("create, 48 bytes", skeinrabbit_create(t, 0, 1, SKEIN_KIND_REGULAR, longest, SKEIN_MAX_NAME, NULL, NULL), 4);
	expect("its length", t->names[4 * SKEIN_NAME_BYTES], SKEIN_MAX_NAME);
	expect("remove", skeinrabbit_remove(t, 0, 4, NULL, NULL), 0);
	expect("its row", t->names[4 * SKEIN_NAME_BYTES], 0);
	t->names[0] = 1;
	expect("lookup, the root has a name", skeinrabbit_lookup(t, "/", 1), -SKEIN_EIO);
	t->names[0] = 0;
}

static void paths(struct skein_tables *t)
{
	char slashes[SKEIN_MAX_PATH + 1];

	memset(slashes, '/', sizeof(slashes));
	expect("lookup", skeinrabbit_lookup(t, "/cal/table", 10), 2);
	expect("lookup with dots", skeinrabbit_lookup(t, "//cal/./../cal/table", 20), 2);
	expect("lookup of the root", skeinrabbit_lookup(t, "/..", 3), SKEIN_ROOT);
	expect("lookup, no bytes", skeinrabbit_lookup(t, NULL, 4), -SKEIN_ENOENT);
	expect("lookup, no leading slash", skeinrabbit_lookup(t, "cal", 3), -SKEIN_EINVAL);
	expect("lookup, a zero byte", skeinrabbit_lookup(t, "/cal", 5), -SKEIN_EINVAL);
	expect("lookup, 4,095 bytes", skeinrabbit_lookup(t, slashes, SKEIN_MAX_PATH), SKEIN_ROOT);
	expect("lookup, 4,096 bytes", skeinrabbit_lookup(t, slashes, sizeof(slashes)), -SKEIN_ENAMETOOLONG);
	expect("lookup, a file and a slash", skeinrabbit_lookup(t, "/feed/", 6), -SKEIN_ENOTDIR);
	expect("lookup, no such name", skeinrabbit_lookup(t, "/cal/feed", 9), -SKEIN_ENOENT);
}

static void expect_component(const char *path, uint64_t place, const char *expected)
{
	const char *component = NULL;
	size_t length = 99;

	expect("component", skeinrabbit_component(path, strlen(path), place, &component, &length), 0);
	expect("component: length", (int64_t)length, (int64_t)strlen(expected));
	expect("component: bytes", memcmp(component, expected, length), 0);
	expect("component: a part of the path", component >= path && component <= path + strlen(path), 1);
}

static void components(void)
{
	const char *component = "x";
	size_t length = 99;

	expect_component("/cal//table", 0, "cal");
	expect_component("/cal//table", 1, "cal");
	expect_component("/cal//table", 2, "table");
	expect_component("/cal//table", 7, "");
	expect_component("/cal//table", UINT64_MAX, "");
	expect("component, no path", skeinrabbit_component(NULL, 9, 0, &component, &length), 0);
	expect("component, no path: length", (int64_t)length, 0);
}

/* Thread 1 has a layer that handles SKEIN_SCOPE_SIGNAL alone, thread 0 has none. */
static void between_threads(struct skein_tables *t)
{
	expect("signal, the thread itself", skeinrabbit_signal(t, 1, 1), 0);
	expect("signal, out of its scope", skeinrabbit_signal(t, 1, 0), -SKEIN_EPERM);
	expect("signal, no layer", skeinrabbit_signal(t, 0, 1), 0);
	expect("signal, target not live", skeinrabbit_signal(t, 1, 2), -SKEIN_ESRCH);
	expect("signal, thread out of range", skeinrabbit_signal(t, SKEIN_MAX_THREADS, 1), -SKEIN_ESRCH);
	expect("abstract_socket, another scope", skeinrabbit_abstract_socket(t, 1, 0), 0);
	expect("abstract_socket, target not live", skeinrabbit_abstract_socket(t, 0, 2), -SKEIN_ESRCH);
}

/* A layer that handles SKEIN_SCOPE_ABSTRACT_UNIX_SOCKET alone, of thread 1 and its clone. */
static void scoped_sockets(struct skein_tables *t)
{
	const struct skein_ruleset_attr attr = { 0, 0, SKEIN_SCOPE_ABSTRACT_UNIX_SOCKET };

	expect("fresh", skeinrabbit_fresh(t, SKEIN_MAX_LEVEL), 0);
	expect("set_no_new_privs", skeinrabbit_set_no_new_privs(t, 0), 0);
	expect("create_ruleset", skeinrabbit_create_ruleset(t, &attr, sizeof(attr), 0), 0);
	expect("clone", skeinrabbit_clone(t, 0), 1);
	expect("restrict", skeinrabbit_restrict(t, 1, 0, 0), 0);
	expect("clone", skeinrabbit_clone(t, 1), 2);
	expect("abstract_socket, out of its scope", skeinrabbit_abstract_socket(t, 1, 0), -SKEIN_EPERM);
	expect("abstract_socket, the same layer", skeinrabbit_abstract_socket(t, 1, 2), 0);
	expect("signal, another scope", skeinrabbit_signal(t, 1, 0), 0);
	t->system[0] = SKEIN_MAX_LEVEL + 1;
	expect("signal, level 7", skeinrabbit_signal(t, 1, 0), -SKEIN_EIO);
	expect("abstract_socket, level 7", skeinrabbit_abstract_socket(t, 1, 0), -SKEIN_EIO);
}

static void end_calls(struct skein_tables *t)
{
	const uint64_t *rules = NULL;
	size_t cells = 99;

	expect("end, not live", skeinrabbit_end(t, 2), -SKEIN_ESRCH);
	expect("clone", skeinrabbit_clone(t, 1), 2);
	expect("holders", (int64_t)t->layers[SKEIN_LAYER_CELLS - 1], 2);
	expect("end", skeinrabbit_end(t, 1), 0);
	expect("layer_rules, held by a clone", skeinrabbit_layer_rules(t, 0, &rules, &cells), 0);
	expect("end of the clone", skeinrabbit_end(t, 2), 0);
	expect("layer_rules, given back", skeinrabbit_layer_rules(t, 0, &rules, &cells), -SKEIN_EBADF);
	expect("pool rules used", (int64_t)t->system[3], 0);
	expect("end, the only thread", skeinrabbit_end(t, SKEIN_FIRST_THREAD), -SKEIN_EBUSY);
	expect("clone, a number used again", skeinrabbit_clone(t, SKEIN_FIRST_THREAD), 1);
}

static void expect_report(const char *call, const struct skein_report *report, uint64_t layer, uint64_t rights)
{
	if (report->layer != layer || report->rights != rights) {
		printf("%s reported %llu, %#llx, expected %llu, %#llx\n", call, (unsigned long long)report->layer,
		       (unsigned long long)report->rights, (unsigned long long)layer, (unsigned long long)rights);
		differences++;
	}
}

/* The worked tree of document 01 (1 /cal, 2 /import, 3 /cal/table, 4 /import/feed) under a layer with these rights for /cal. */
static void worked_tree(struct skein_tables *t, uint64_t cal_rights)
{
	const struct skein_ruleset_attr attr = { WORKED, 0, 0 };

	expect("fresh", skeinrabbit_fresh(t, SKEIN_MAX_LEVEL), 0);
	expect("create", skeinrabbit_create(t, 0, SKEIN_ROOT, SKEIN_KIND_DIRECTORY, "cal", 3, NULL, NULL), 1);
	expect("create", skeinrabbit_create(t, 0, SKEIN_ROOT, SKEIN_KIND_DIRECTORY, "import", 6, NULL, NULL), 2);
	expect("create", skeinrabbit_create(t, 0, 1, SKEIN_KIND_REGULAR, "table", 5, NULL, NULL), 3);
	expect("create", skeinrabbit_create(t, 0, 2, SKEIN_KIND_REGULAR, "feed", 4, NULL, NULL), 4);
	expect("create_ruleset", skeinrabbit_create_ruleset(t, &attr, sizeof(attr), 0), 0);
	expect("add_path_rule", skeinrabbit_add_path_rule(t, 0, 1, cal_rights, 0), 0);
	expect("add_path_rule", skeinrabbit_add_path_rule(t, 0, 2, WORKED, 0), 0);
	expect("set_no_new_privs", skeinrabbit_set_no_new_privs(t, 0), 0);
	expect("restrict", skeinrabbit_restrict(t, 0, 0, 0), 0);
}

/* Gives thread 0 a second layer, which grants nothing. */
static void second_layer(struct skein_tables *t, uint64_t fs, uint64_t net)
{
	const struct skein_ruleset_attr attr = { fs, net, 0 };

	expect("create_ruleset", skeinrabbit_create_ruleset(t, &attr, sizeof(attr), 0), 1);
	expect("restrict", skeinrabbit_restrict(t, 0, 1, 0), 0);
	expect("close_ruleset", skeinrabbit_close_ruleset(t, 1), 0);
}

/* A report of every call that has one: the layer's number + 1, and its rights. */
static void denied_reports(struct skein_tables *t)
{
	const uint64_t all = WORKED | SKEIN_FS_EXECUTE;
	struct skein_report r = { 9, 9, 9 };

	worked_tree(t, SKEIN_FS_READ_FILE);
	expect("access", skeinrabbit_access(t, 0, 1, all, &r), -SKEIN_EACCES);
	expect_report("access", &r, 1, WORKED & ~SKEIN_FS_READ_FILE);
	expect("create", skeinrabbit_create(t, 0, 1, SKEIN_KIND_REGULAR, "new", 3, NULL, &r), -SKEIN_EACCES);
	expect_report("create", &r, 1, SKEIN_FS_MAKE_REG);
	expect("remove", skeinrabbit_remove(t, 0, 3, NULL, &r), -SKEIN_EACCES);
	expect_report("remove", &r, 1, SKEIN_FS_REMOVE_FILE);
	expect("link", skeinrabbit_link(t, 0, 4, 1, "new", 3, NULL, &r), -SKEIN_EACCES);
	expect_report("link", &r, 1, SKEIN_FS_MAKE_REG);
	expect("rename", skeinrabbit_rename(t, 0, 4, 1, "table", 5, NULL, &r), -SKEIN_EACCES);
	expect_report("rename", &r, 1, SKEIN_FS_MAKE_REG | SKEIN_FS_REMOVE_FILE);
	expect("exchange", skeinrabbit_exchange(t, 0, 3, 2, 4, NULL, &r), -SKEIN_EACCES);
	expect_report("exchange", &r, 1, SKEIN_FS_MAKE_REG | SKEIN_FS_REMOVE_FILE);
	second_layer(t, 0, SKEIN_NET_CONNECT_TCP);
	expect("port", skeinrabbit_port(t, 0, 80, SKEIN_NET_BIND_TCP | SKEIN_NET_CONNECT_TCP, &r), -SKEIN_EACCES);
	expect_report("port", &r, 2, SKEIN_NET_CONNECT_TCP);
	expect("access under a layer for ports", skeinrabbit_access(t, 0, 3, SKEIN_FS_WRITE_FILE, &r), -SKEIN_EACCES);
	expect_report("access under a layer for ports", &r, 1, SKEIN_FS_WRITE_FILE);
}

/* EXDEV names what would be gained, or REFER; other answers name nothing. */
static void other_reports(struct skein_tables *t)
{
	struct skein_report r = { 9, 9, 9 };

	worked_tree(t, WORKED & ~SKEIN_FS_WRITE_FILE);
	expect("rename, a right gained", skeinrabbit_rename(t, 0, 3, 2, "table", 5, NULL, &r), -SKEIN_EXDEV);
	expect_report("rename, a right gained", &r, 1, SKEIN_FS_WRITE_FILE);
	second_layer(t, SKEIN_FS_EXECUTE, 0);
	expect("rename, REFER denied", skeinrabbit_rename(t, 0, 3, 2, "table", 5, NULL, &r), -SKEIN_EXDEV);
	expect_report("rename, REFER denied", &r, 2, SKEIN_FS_REFER);
	expect("rename, no entry", skeinrabbit_rename(t, 0, 9, 2, "table", 5, NULL, &r), -SKEIN_ENOENT);
	expect_report("rename, no entry", &r, 0, 0);
	expect("rename: entries read", (int64_t)r.entries_read, 0);
	r.layer = r.rights = 9;
	expect("access, granted", skeinrabbit_access(t, 0, 3, SKEIN_FS_READ_FILE, &r), 0);
	expect_report("access, granted", &r, 0, 0);
	r.layer = r.rights = r.entries_read = 9;
	t->system[0] = SKEIN_MAX_LEVEL + 1;
	expect("access, level 7", skeinrabbit_access(t, 0, 3, SKEIN_FS_READ_FILE, &r), -SKEIN_EIO);
	expect_report("access, level 7", &r, 0, 0);
	expect("access, level 7: entries read", (int64_t)r.entries_read, 0);
}

static void expect_read(struct skein_tables *t, uint64_t entry, uint64_t rights, int64_t answer, int64_t entries)
{
	struct skein_report r = { 9, 9, 9 };

	expect("access", skeinrabbit_access(t, 0, entry, rights, &r), answer);
	expect("entries read", (int64_t)r.entries_read, entries);
}

/* An access says how many entries' rules it read: from the file over /cal to the root there are three. */
static void entries_read(struct skein_tables *t)
{
	worked_tree(t, SKEIN_FS_READ_FILE);
	expect_read(t, 3, SKEIN_FS_EXECUTE, 0, 0);
	expect_read(t, 1, SKEIN_FS_READ_FILE, 0, 1);
	expect_read(t, 3, SKEIN_FS_READ_FILE, 0, 2);
	expect_read(t, 3, SKEIN_FS_WRITE_FILE, -SKEIN_EACCES, 3);
	expect_read(t, 9, SKEIN_FS_WRITE_FILE, -SKEIN_ENOENT, 0);
}

/* Of a report of so many cells, what is there after an access for writing that is denied. */
static void expect_cells(struct skein_tables *t, size_t length, uint64_t first, uint64_t second, uint64_t third)
{
	uint64_t cells[5] = { 7, 7, 7, 7, 7 };
	const uint64_t result = skein_access(SKEIN_TABLE_ARGUMENTS(t), 0, 3, SKEIN_FS_WRITE_FILE, cells, length);

	expect("access with a report of any length", skeinrabbit_answer(result), -SKEIN_EACCES);
	expect("first cell", (int64_t)cells[0], (int64_t)first);
	expect("second cell", (int64_t)cells[1], (int64_t)second);
	expect("third cell", (int64_t)cells[2], (int64_t)third);
	expect("cell past the report", (int64_t)cells[3], 7);
	expect("last cell", (int64_t)cells[4], 7);
}

static void short_reports(struct skein_tables *t)
{
	worked_tree(t, SKEIN_FS_READ_FILE);
	expect_cells(t, 0, 7, 7, 7);
	expect_cells(t, 1, 1, 7, 7);
	expect_cells(t, 2, 1, SKEIN_FS_WRITE_FILE, 7);
	expect_cells(t, SKEIN_REPORT_CELLS, 1, SKEIN_FS_WRITE_FILE, 3);
	expect_cells(t, 5, 1, SKEIN_FS_WRITE_FILE, 3);
}

/* Takes a turn that must serve a slot, and reads its answer. */
static void expect_served(struct skein_tables *t, struct skein_queue *q, int64_t slot, int64_t answer, struct skein_report *r)
{
	expect("turn", skeinrabbit_turn(t, q), slot);
	expect("turn: cursor", (int64_t)q->cursor, slot);
	expect("turn: answer", skeinrabbit_slot_answer(q, (uint64_t)slot, r), answer);
}

/* Requests in turn, on the worked tree with a layer that lets /cal be read. */
static void queue(struct skein_tables *t)
{
	struct skein_queue q = SKEIN_FRESH_QUEUE;
	struct skein_report r = { 9, 9, 9 };

	worked_tree(t, SKEIN_FS_READ_FILE);
	expect("cells of the queue", (int64_t)sizeof(q), 65 * 8);
	expect("turn, none waits", skeinrabbit_turn(t, &q), SKEIN_IDLE);
	expect("turn, none waits: cursor", (int64_t)q.cursor, 7);
	expect("post", skeinrabbit_post(&q, 6, 0, 3, SKEIN_FS_WRITE_FILE), 0);
	expect("post, again", skeinrabbit_post(&q, 6, 0, 3, SKEIN_FS_READ_FILE), -SKEIN_EAGAIN);
	expect("post, slot 8", skeinrabbit_post(&q, SKEIN_MAX_SLOTS, 0, 3, SKEIN_FS_READ_FILE), -SKEIN_EINVAL);
	expect("post", skeinrabbit_post(&q, 2, 0, 3, SKEIN_FS_READ_FILE), 0);
	expect("answer, it waits", skeinrabbit_slot_answer(&q, 2, &r), -SKEIN_EAGAIN);
	expect_report("answer, it waits", &r, 0, 0);
	expect_served(t, &q, 2, 0, &r);
	expect_report("answer, granted", &r, 0, 0);
	expect("answer, granted: entries read", (int64_t)r.entries_read, 2);
	expect("post over an answer", skeinrabbit_post(&q, 2, 0, 9, SKEIN_FS_READ_FILE), 0);
	expect("post over an answer: it stays", (int64_t)q.answers[2 * SKEIN_ANSWER_CELLS + 3], 2);
	expect("post over an answer: it waits", skeinrabbit_slot_answer(&q, 2, NULL), -SKEIN_EAGAIN);
	expect_served(t, &q, 6, -SKEIN_EACCES, &r);
	expect_report("answer, denied", &r, 1, SKEIN_FS_WRITE_FILE);
	expect("answer, denied: entries read", (int64_t)r.entries_read, 3);
	expect_served(t, &q, 2, -SKEIN_ENOENT, &r);
	expect_report("answer, not live", &r, 0, 0);
	expect("answer, empty", skeinrabbit_slot_answer(&q, 3, NULL), -SKEIN_EAGAIN);
	expect("answer, slot 8", skeinrabbit_slot_answer(&q, SKEIN_MAX_SLOTS, &r), -SKEIN_EINVAL);
}

/* Tables and queues that are not sound. */
static void damaged_queue(struct skein_tables *t)
{
	struct skein_queue q = SKEIN_FRESH_QUEUE;

	expect("post", skeinrabbit_post(&q, 0, 0, 0, SKEIN_FS_READ_FILE), 0);
	t->system[0] = SKEIN_MAX_LEVEL + 1;
	expect_served(t, &q, 0, -SKEIN_EIO, NULL);
	q.answers[0] = UINT64_MAX;
	expect("answer, no error number", skeinrabbit_slot_answer(&q, 0, NULL), -SKEIN_EIO);
	q.cursor = SKEIN_MAX_SLOTS;
	expect("turn, cursor 8", skeinrabbit_turn(t, &q), -SKEIN_EIO);
	expect("post, cursor 8", skeinrabbit_post(&q, SKEIN_MAX_SLOTS, 0, 0, SKEIN_FS_READ_FILE), -SKEIN_EIO);
	q.cursor = 7;
	q.states[5] = 3;
	expect("turn, state 3", skeinrabbit_turn(t, &q), -SKEIN_EIO);
	expect("post, state 3", skeinrabbit_post(&q, 0, 0, 0, SKEIN_FS_READ_FILE), -SKEIN_EIO);
	q.states[5] = SKEIN_SLOT_EMPTY;
	expect("turn, a part too short",
	       skeinrabbit_answer(skein_turn(SKEIN_TABLE_ARGUMENTS(t), q.requests, 23, q.states, 8, q.answers, 32, &q.cursor)), -SKEIN_EIO);
	expect("turn, none waits", skeinrabbit_turn(t, &q), SKEIN_IDLE);
}

/* Compares a verdict. */
static void expect_verdict(const char *request, const struct skein_verdict *verdict, uint64_t error, uint64_t layer, uint64_t rights)
{
	expect(request, (int64_t)verdict->error, (int64_t)error);
	expect("its layer", (int64_t)verdict->layer, (int64_t)layer);
	expect("its rights", (int64_t)verdict->rights, (int64_t)rights);
}

/* Many requests at once, on the worked tree with a layer that lets files of /cal be read, and none written. */
static void batch(struct skein_tables *t)
{
	static const char request_names[] = "tablefeed";
	static struct skein_tables before;
	struct skein_request requests[7];
	struct skein_verdict verdicts[7];
	uint64_t cells[8] = { 7, 7, 7, 7, 7, 7, 7, 7 };
	const uint64_t *const asked = (const uint64_t *)(const void *)requests;

	worked_tree(t, WORKED & ~SKEIN_FS_WRITE_FILE);
	before = *t;
	requests[0] = skeinrabbit_ask_access(0, 3, SKEIN_FS_READ_FILE);
	requests[1] = skeinrabbit_ask_access(0, 3, SKEIN_FS_READ_FILE | SKEIN_FS_WRITE_FILE);
	requests[2] = skeinrabbit_ask_port(1, 80, SKEIN_NET_BIND_TCP);
	requests[3] = skeinrabbit_ask_link(0, 4, 1, 0, 5);
	requests[4] = skeinrabbit_ask_rename(0, 3, 2, 0, 5);
	requests[5] = skeinrabbit_ask_rename(0, 4, 1, 5, 5);
	requests[6] = skeinrabbit_ask_exchange(0, 3, 2, 4);
	expect("batch", skeinrabbit_batch(t, requests, 7, request_names, 9, verdicts), 0);
	expect_verdict("access", &verdicts[0], 0, 0, 0);
	expect_verdict("access, denied", &verdicts[1], SKEIN_EACCES, 1, SKEIN_FS_WRITE_FILE);
	expect_verdict("port, not live", &verdicts[2], SKEIN_ESRCH, 0, 0);
	expect_verdict("link, taken", &verdicts[3], SKEIN_EEXIST, 0, 0);
	expect_verdict("rename, widened", &verdicts[4], SKEIN_EXDEV, 1, SKEIN_FS_WRITE_FILE);
	expect_verdict("rename, name outside", &verdicts[5], SKEIN_EINVAL, 0, 0);
	expect_verdict("exchange, widened", &verdicts[6], SKEIN_EXDEV, 1, SKEIN_FS_WRITE_FILE);
	expect("batch, nothing", skeinrabbit_batch(t, NULL, 0, NULL, 0, NULL), 0);
	expect("batch, no names", skeinrabbit_batch(t, requests + 5, 1, NULL, 9, verdicts), 0);
	expect_verdict("rename, no names", &verdicts[0], SKEIN_EINVAL, 0, 0);
	expect("batch, answers past the last",
	       skeinrabbit_answer(skein_batch(SKEIN_TABLE_ARGUMENTS(t), asked, 14, (const uint8_t *)request_names, 9, cells, 8)), 0);
	expect("error", (int64_t)cells[3], SKEIN_EACCES);
	expect("cell past the answers", (int64_t)cells[6], 7);
	cells[0] = 7;
	expect("batch, too little room",
	       skeinrabbit_answer(skein_batch(SKEIN_TABLE_ARGUMENTS(t), asked, 14, (const uint8_t *)request_names, 9, cells, 5)),
	       -SKEIN_EINVAL);
	expect("batch, ends within a request",
	       skeinrabbit_answer(skein_batch(SKEIN_TABLE_ARGUMENTS(t), asked, 13, (const uint8_t *)request_names, 9, cells, 8)),
	       -SKEIN_EINVAL);
	requests[1].sort = SKEIN_REQUEST_EXCHANGE + 1;
	expect("batch, another sort", skeinrabbit_batch(t, requests, 2, request_names, 9, verdicts), -SKEIN_EINVAL);
	expect_verdict("rename, no names, still", &verdicts[0], SKEIN_EINVAL, 0, 0);
	expect("cells of a refused batch", (int64_t)cells[0], 7);
	expect("tables after batches", memcmp(t, &before, sizeof(before)), 0);
	requests[1].sort = SKEIN_REQUEST_ACCESS;
	t->system[0] = SKEIN_MAX_LEVEL + 1;
	expect("batch, damaged", skeinrabbit_batch(t, requests, 2, request_names, 9, verdicts), 0);
	expect_verdict("access, damaged", &verdicts[0], SKEIN_EIO, 0, 0);
	expect_verdict("access, damaged", &verdicts[1], SKEIN_EIO, 0, 0);
}

/* What a call on policy files must answer and report. */
static void expect_policy(const char *call, int64_t answer, int64_t expected, const struct skein_policy_report *report, uint64_t file,
			  uint64_t place, uint64_t length)
{
	expect(call, answer, expected);
	expect("its file", (int64_t)report->file, (int64_t)file);
	expect("its place", (int64_t)report->place, (int64_t)place);
	expect("its length", (int64_t)report->length, (int64_t)length);
}

/* Puts a field of a policy file behind others; answers where it ends. */
static size_t put_field(uint8_t *file, size_t at, uint8_t tag, const void *value, uint8_t length)
{
	file[at] = tag;
	file[at + 1] = length;
	file[at + 2] = 0;
	memcpy(file + at + 3, value, length);
	return at + 3 + length;
}

/* A ruleset that handles these rights, without rules. */
static size_t put_ruleset(uint8_t *file, size_t at, char name, uint8_t rights)
{
	const uint8_t masks[24] = { rights };

	at = put_field(file, at, SKEIN_POLICY_RULESET, &name, 1);
	return put_field(file, at, SKEIN_POLICY_MASKS, masks, sizeof(masks));
}

/* A rule that grants reading. */
static size_t put_path_rule(uint8_t *file, size_t at, const char *path)
{
	uint8_t value[32] = { SKEIN_FS_READ_FILE };

	memcpy(value + 8, path, strlen(path));
	return put_field(file, at, SKEIN_POLICY_PATH_RULE, value, (uint8_t)(8 + strlen(path)));
}

/* Rulesets p and q in the stock file, another q in the site file. */
static void found_policies(const uint8_t *stock, size_t stock_size, const uint8_t *site, size_t site_size)
{
	static const uint8_t zeros[SKEIN_MAX_POLICY + 1] = { 0 };
	struct skein_policy_report r;
	uint64_t cells[4] = { 7, 7, 7, 7 };

	expect_policy("find_policy", skeinrabbit_find_policy(stock, stock_size, site, site_size, "p", 1, &r), 0, &r, 0, 0, 46);
	expect_policy("find_policy, both", skeinrabbit_find_policy(stock, stock_size, site, site_size, "q", 1, &r), 0, &r, 1, 0, 31);
	expect_policy("find_policy, no site", skeinrabbit_find_policy(stock, stock_size, NULL, 9, "q", 1, &r), 0, &r, 0, 46, 31);
	expect_policy("find_policy, neither", skeinrabbit_find_policy(stock, stock_size, site, site_size, "pq", 2, &r), -SKEIN_ENOENT, &r,
		      0, 0, 0);
	expect_policy("find_policy, no name", skeinrabbit_find_policy(stock, stock_size, site, site_size, NULL, 1, &r), -SKEIN_ENOENT, &r,
		      0, 0, 0);
	expect_policy("find_policy, masks missing", skeinrabbit_find_policy(stock, stock_size, site, 4, "p", 1, &r), -SKEIN_EBADMSG, &r, 1,
		      4, 0);
	expect_policy("find_policy, stock first", skeinrabbit_find_policy(stock, 45, site, 4, "p", 1, &r), -SKEIN_EBADMSG, &r, 0, 31, 0);
	expect_policy("find_policy, too long", skeinrabbit_find_policy(stock, stock_size, zeros, sizeof(zeros), "p", 1, &r), -SKEIN_E2BIG,
		      &r, 1, 0, 0);
	expect("find_policy, not wanted", skeinrabbit_find_policy(stock, stock_size, site, site_size, "p", 1, NULL), 0);
	expect("find_policy, a long report",
	       skeinrabbit_answer(skein_find_policy(stock, stock_size, site, site_size, stock + 49, 1, cells, 4)), 0);
	expect("cell past the report", (int64_t)cells[3], 7);
	expect("find_policy, a short report", skeinrabbit_answer(skein_find_policy(stock, stock_size, site, site_size, stock + 3, 1, cells, 1)),
	       0);
	expect("file", (int64_t)cells[0], SKEIN_POLICY_STOCK);
	expect("cell past a short report", (int64_t)cells[2], 31);
}

/* A ruleset whose masks and rules depend on the level: of level 6 there is a group that grants reading. */
static void groups(struct skein_tables *t)
{
	static uint8_t file[128];
	static struct skein_tables lower;
	struct skein_policy_report r;
	const size_t size = put_ruleset(file, 0, 'g', SKEIN_FS_READ_FILE);
	const size_t end = put_path_rule(file, size + 4, "/cal");

	file[size] = SKEIN_POLICY_GROUP;
	file[size + 1] = (uint8_t)(end - size - 3);
	file[size + 3] = 6;
	/* A scope, which only level 6 knows. */
	file[4 + 3 + 16] = SKEIN_SCOPE_SIGNAL;
	expect_policy("apply_policy, a group", skeinrabbit_apply_policy(t, file, end, NULL, 0, "g", 1, &r), 2, &r, 0, 0, 50);
	expect("its scopes", (int64_t)t->rulesets[2 * SKEIN_RULESET_CELLS + 2], SKEIN_SCOPE_SIGNAL);
	expect("its rules", (int64_t)t->rulesets[2 * SKEIN_RULESET_CELLS + 3], 1);
	expect("close_ruleset", skeinrabbit_close_ruleset(t, 2), 0);
	expect("fresh", skeinrabbit_fresh(&lower, 5), 0);
	expect_policy("apply_policy, level 5", skeinrabbit_apply_policy(&lower, file, end, NULL, 0, "g", 1, &r), 0, &r, 0, 0, 50);
	expect("its scopes", (int64_t)lower.rulesets[2], 0);
	expect("its rules", (int64_t)lower.rulesets[3], 0);
	file[size + 3] = SKEIN_MAX_LEVEL + 1;
	expect_policy("apply_policy, level of a group", skeinrabbit_apply_policy(t, file, end, NULL, 0, "g", 1, &r), -SKEIN_EBADMSG, &r, 0,
		      (uint64_t)size, 0);
}

/* A policy file that is written: request W12's 64 bytes of the worked tree's ruleset 0. */
static void written_policy(struct skein_tables *t)
{
	static const uint8_t masks[24] = { 0x26, 0x21 };
	static struct skein_tables before;
	uint8_t file[64], out[80], left[80];
	size_t end = put_field(file, 0, SKEIN_POLICY_RULESET, "p", 1);

	end = put_field(file, end, SKEIN_POLICY_MASKS, masks, 24);
	end = put_path_rule(file, end, "/cal");
	end = put_field(file, end, SKEIN_POLICY_PATH_RULE, "\x26\x21\0\0\0\0\0\0/import", 15);
	expect("bytes of ruleset A", (int64_t)end, 64);
	memset(out, 7, sizeof(out));
	memset(left, 7, sizeof(left));
	worked_tree(t, SKEIN_FS_READ_FILE);
	before = *t;
	expect("write_policy, one byte short", skeinrabbit_write_policy(t, 0, "p", 1, out, 63), -SKEIN_ENOSPC);
	expect("write_policy, no room", skeinrabbit_write_policy(t, 0, "p", 1, NULL, 80), -SKEIN_ENOSPC);
	expect("write_policy, no name", skeinrabbit_write_policy(t, 0, NULL, 1, out, 80), -SKEIN_EINVAL);
	expect("write_policy, a long name",
	       skeinrabbit_write_policy(t, 0, "123456789012345678901234567890123", SKEIN_MAX_RULESET_NAME + 1, out, 80), -SKEIN_EINVAL);
	expect("write_policy, not open", skeinrabbit_write_policy(t, 1, "p", 1, out, 80), -SKEIN_EBADF);
	expect("output after refusals", memcmp(out, left, sizeof(out)), 0);
	expect("write_policy, the room of the file", skeinrabbit_write_policy(t, 0, "p", 1, out, 64), 64);
	expect("its bytes", memcmp(out, file, 64), 0);
	expect("bytes past them", memcmp(out + 64, left + 64, sizeof(out) - 64), 0);
	memset(out, 7, sizeof(out));
	expect("write_policy, more room", skeinrabbit_write_policy(t, 0, "p", 1, out, sizeof(out)), 64);
	expect("its bytes", memcmp(out, file, 64), 0);
	expect("bytes past them", memcmp(out + 64, left + 64, sizeof(out) - 64), 0);
	expect("tables after writing", memcmp(t, &before, sizeof(before)), 0);
	expect("apply_policy of what was written", skeinrabbit_apply_policy(t, out, 64, NULL, 0, "p", 1, NULL), 1);
	expect("its rules", memcmp(t->rulesets, t->rulesets + SKEIN_RULESET_CELLS, SKEIN_RULESET_CELLS * sizeof(uint64_t)), 0);
	/* A rule on the root with a right to write, which no call adds. */
	t->rulesets[5] = 0;
	t->rulesets[6] = SKEIN_FS_WRITE_FILE;
	expect("write_policy, the root", skeinrabbit_write_policy(t, 0, "p", 1, out, 80), -SKEIN_EPERM);
	/* An object that had an entry once. */
	t->rulesets[5] = t->system[1]++;
	expect("write_policy, no entry left", skeinrabbit_write_policy(t, 0, "p", 1, out, 80), -SKEIN_ENOENT);
	t->system[0] = SKEIN_MAX_LEVEL + 1;
	expect("write_policy, tables not sound", skeinrabbit_write_policy(t, 0, "p", 1, out, 80), -SKEIN_EIO);
	expect("fresh", skeinrabbit_fresh(t, 0), 0);
	expect("write_policy, level 0", skeinrabbit_write_policy(t, 0, "p", 1, out, 80), -SKEIN_EOPNOTSUPP);
}

/* Policy files, on the worked tree. */
static void policy_files(struct skein_tables *t)
{
	static struct skein_tables before;
	static uint8_t stock[128], site[64];
	struct skein_policy_report r;
	const size_t end_of_p = put_path_rule(stock, put_ruleset(stock, 0, 'p', SKEIN_FS_READ_FILE), "/cal");
	const size_t stock_size = put_ruleset(stock, end_of_p, 'q', SKEIN_FS_EXECUTE);
	const size_t site_size = put_ruleset(site, 0, 'q', SKEIN_FS_WRITE_FILE);

	expect("bytes of the stock file", (int64_t)stock_size, 77);
	found_policies(stock, stock_size, site, site_size);
	worked_tree(t, WORKED);
	expect("close_ruleset", skeinrabbit_close_ruleset(t, 0), 0);
	expect_policy("apply_policy", skeinrabbit_apply_policy(t, stock, stock_size, site, site_size, "p", 1, &r), 0, &r, 0, 0, 46);
	expect("its masks", (int64_t)t->rulesets[0], SKEIN_FS_READ_FILE);
	expect("its rules", (int64_t)t->rulesets[3], 1);
	expect("its object", (int64_t)t->rulesets[5], 1);
	expect_policy("apply_policy, both", skeinrabbit_apply_policy(t, stock, stock_size, site, site_size, "q", 1, &r), 1, &r, 1, 0, 31);
	expect("its masks", (int64_t)t->rulesets[SKEIN_RULESET_CELLS], SKEIN_FS_WRITE_FILE);
	groups(t);
	before = *t;
	expect_policy("apply_policy, neither", skeinrabbit_apply_policy(t, stock, stock_size, site, site_size, "x", 1, &r), -SKEIN_ENOENT, &r,
		      0, 0, 0);
	put_path_rule(stock, 31, "/can");
	expect_policy("apply_policy, no such path", skeinrabbit_apply_policy(t, stock, stock_size, site, site_size, "p", 1, &r),
		      -SKEIN_ENOENT, &r, 0, 0, 0);
	stock[0] = 0;
	expect_policy("apply_policy, damaged", skeinrabbit_apply_policy(t, stock, stock_size, site, site_size, "q", 1, &r), -SKEIN_EBADMSG, &r,
		      0, 0, 0);
	expect("tables after refusals", memcmp(t, &before, sizeof(before)), 0);
	t->system[0] = SKEIN_MAX_LEVEL + 1;
	expect_policy("apply_policy, tables not sound", skeinrabbit_apply_policy(t, stock, stock_size, site, site_size, "q", 1, &r),
		      -SKEIN_EIO, &r, 0, 0, 0);
}

/* The limits that the header names, on fresh tables. */
static void limits(struct skein_tables *t)
{
	const struct skein_ruleset_attr attr = { SKEIN_FS_EXECUTE, 0, 0 };
	uint64_t thread, layer;

	expect("fresh", skeinrabbit_fresh(t, SKEIN_MAX_LEVEL), 0);
	expect("set_no_new_privs", skeinrabbit_set_no_new_privs(t, 0), 0);
	expect("create_ruleset", skeinrabbit_create_ruleset(t, &attr, sizeof(attr), 0), 0);
	for (thread = 0; thread < SKEIN_MAX_LAYERS / SKEIN_MAX_DOMAIN_LAYERS; thread++) {
		expect("clone", skeinrabbit_clone(t, 0), (int64_t)thread + 1);
		for (layer = 0; layer < SKEIN_MAX_DOMAIN_LAYERS; layer++)
			expect("restrict", skeinrabbit_restrict(t, thread + 1, 0, 0), 0);
		expect("restrict, 64 layers", skeinrabbit_restrict(t, thread + 1, 0, 0), -SKEIN_E2BIG);
	}
	expect("restrict, no layer record", skeinrabbit_restrict(t, 0, 0, 0), -SKEIN_ENOMEM);
	expect("end", skeinrabbit_end(t, 2), 0);
	expect("restrict, the lowest free record", skeinrabbit_restrict(t, 0, 0, 0), 0);
	expect("its number + 1", (int64_t)t->threads[1], SKEIN_MAX_DOMAIN_LAYERS + 1);
}

/* The bytes of a change of each sort: 1 /cal, 2 /cal/table, 3 /twin, a link of it. */
static const uint8_t changes[] = {
	SKEIN_LOG_CREATE,   6, 0, SKEIN_KIND_DIRECTORY, 0, 0, 'c', 'a', 'l',           /* 0 */
	SKEIN_LOG_CREATE,   8, 0, SKEIN_KIND_REGULAR,	1, 0, 't', 'a', 'b', 'l', 'e', /* 9 */
	SKEIN_LOG_LINK,	    8, 0, 2, 0, 0, 0, 't', 'w', 'i', 'n',                      /* 20 */
	SKEIN_LOG_RENAME,   7, 0, 2, 0, 1, 0, 'o', 'l', 'd',                           /* 31 */
	SKEIN_LOG_EXCHANGE, 6, 0, 1, 0, 0, 0, 4, 0,                                    /* 41 */
	SKEIN_LOG_REMOVE,   2, 0, 3, 0,                                                /* 50 */
};

static void logged_calls(struct skein_tables *t, struct skein_log *log)
{
	expect("create", skeinrabbit_create(t, 0, SKEIN_ROOT, SKEIN_KIND_DIRECTORY, "cal", 3, log, NULL), 1);
	expect("create", skeinrabbit_create(t, 0, 1, SKEIN_KIND_REGULAR, "table", 5, log, NULL), 2);
	expect("link", skeinrabbit_link(t, 0, 2, SKEIN_ROOT, "twin", 4, log, NULL), 3);
	expect("rename, the name alone", skeinrabbit_rename(t, 0, 2, 1, "old", 3, log, NULL), 0);
	expect("rename, nothing changes", skeinrabbit_rename(t, 0, 2, SKEIN_ROOT, "twin", 4, log, NULL), 0);
	expect("create, taken", skeinrabbit_create(t, 0, 1, SKEIN_KIND_REGULAR, "old", 3, log, NULL), -SKEIN_EEXIST);
	expect("its bytes", (int64_t)log->used, 41);
	expect("create, no log", skeinrabbit_create(t, 0, SKEIN_ROOT, SKEIN_KIND_REGULAR, "feed", 4, NULL, NULL), 4);
	expect("its bytes", (int64_t)log->used, 41);
	expect("exchange", skeinrabbit_exchange(t, 0, 1, SKEIN_ROOT, 4, log, NULL), 0);
	expect("exchange, nothing changes", skeinrabbit_exchange(t, 0, 2, SKEIN_ROOT, 3, log, NULL), 0);
	expect("remove", skeinrabbit_remove(t, 0, 3, log, NULL), 0);
	expect("its bytes", (int64_t)log->used, sizeof(changes));
	expect("the log", memcmp(log->bytes, changes, sizeof(changes)), 0);
	expect("a byte behind it", log->bytes[sizeof(changes)], 0xee);
}

static void full_log(struct skein_tables *t, uint8_t *room)
{
	struct skein_log log = { room, 15, 5 };
	struct skein_report r = { 9, 9, 9 };

	expect("create, no room", skeinrabbit_create(t, 0, SKEIN_ROOT, SKEIN_KIND_REGULAR, "files", 5, &log, &r), -SKEIN_ENOSPC);
	expect("its report", (int64_t)(r.layer + r.rights + r.entries_read), 0);
	expect("create, taken and no room", skeinrabbit_create(t, 0, SKEIN_ROOT, SKEIN_KIND_REGULAR, "cal", 3, &log, NULL), -SKEIN_EEXIST);
	expect("no byte", (int64_t)log.used, 5);
	expect("create", skeinrabbit_create(t, 0, SKEIN_ROOT, SKEIN_KIND_REGULAR, "file", 4, &log, NULL), 3);
	expect("all bytes", (int64_t)log.used, 15);
	expect("rename, no room", skeinrabbit_rename(t, 0, 3, SKEIN_ROOT, "f", 1, &log, NULL), -SKEIN_ENOSPC);
	expect("rename, nothing changes", skeinrabbit_rename(t, 0, 3, SKEIN_ROOT, "file", 4, &log, NULL), 0);
	log.used = 16;
	expect("remove, used past the end", skeinrabbit_remove(t, 0, 3, &log, NULL), -SKEIN_ENOSPC);
	expect("rename, the same", skeinrabbit_rename(t, 0, 3, SKEIN_ROOT, "file", 4, &log, NULL), 0);
	log.used = UINT64_MAX;
	expect("remove, used past all", skeinrabbit_remove(t, 0, 3, &log, NULL), -SKEIN_ENOSPC);
	expect("it stays", log.used == UINT64_MAX, 1);
}

static void replayed(struct skein_tables *t)
{
	static struct skein_tables start;
	static uint8_t room[sizeof(changes)];
	size_t size;

	expect("fresh", skeinrabbit_fresh(&start, SKEIN_MAX_LEVEL), 0);
	*t = start;
	expect("replay, no bytes", skeinrabbit_replay(t, NULL, 9), 0);
	expect("replay, an entry that is not there", skeinrabbit_replay(t, changes, sizeof(changes)), -SKEIN_EBADMSG);
	expect("no cell", memcmp(t, &start, sizeof(start)), 0);
	for (size = 31; size < 41; size++) {
		*t = start;
		expect("replay, cut", skeinrabbit_replay(t, changes, size), (int64_t)size - 31);
		expect("lookup", skeinrabbit_lookup(t, "/cal/table", 10), 2);
	}
	memcpy(room, changes, 41);
	*t = start;
	expect("replay, the room in place of the log", skeinrabbit_replay(t, room, sizeof(room)), -SKEIN_EBADMSG);
	expect("no cell", memcmp(t, &start, sizeof(start)), 0);
	expect("replay", skeinrabbit_replay(t, room, 41), 0);
	expect("lookup", skeinrabbit_lookup(t, "/cal/old", 8), 2);
	t->threads[0] = 2;
	expect("replay, tables not sound", skeinrabbit_replay(t, NULL, 0), -SKEIN_EIO);
}

static void logs(struct skein_tables *t)
{
	static uint8_t room[128];
	struct skein_log log = SKEIN_EMPTY_LOG(room);

	memset(room, 0xee, sizeof(room));
	expect("fresh", skeinrabbit_fresh(t, SKEIN_MAX_LEVEL), 0);
	logged_calls(t, &log);
	full_log(t, room);
	replayed(t);
}

int main(void)
{
	struct skein_tables *const t = &tables;

	expect("bytes of the tables", (int64_t)sizeof(*t), 139040);
	expect("access, tables of zeros", skeinrabbit_access(t, 0, SKEIN_ROOT, SKEIN_FS_READ_FILE, NULL), -SKEIN_EIO);
	expect("create_ruleset, tables of zeros", skeinrabbit_create_ruleset(t, NULL, 24, 0), -SKEIN_EIO);
	expect("fresh, level 7", skeinrabbit_fresh(t, SKEIN_MAX_LEVEL + 1), -SKEIN_EINVAL);
	expect("fresh, level 0", skeinrabbit_fresh(t, 0), 0);
	expect("create_ruleset, level 0", skeinrabbit_create_ruleset(t, NULL, 24, 0), -SKEIN_EOPNOTSUPP);
	expect("fresh", skeinrabbit_fresh(t, SKEIN_MAX_LEVEL), 0);
	expect("create", skeinrabbit_create(t, 0, SKEIN_ROOT, SKEIN_KIND_DIRECTORY, "cal", 3, NULL, NULL), 1);
	expect("create", skeinrabbit_create(t, 0, 1, SKEIN_KIND_REGULAR, "table", 5, NULL, NULL), 2);
	expect("create", skeinrabbit_create(t, 0, SKEIN_ROOT, SKEIN_KIND_REGULAR, "feed", 4, NULL, NULL), 3);
	names(t);
	paths(t);
	components();
	ruleset_calls(t);
	domain_calls(t);
	requests(t);
	tree_calls(t);
	between_threads(t);
	end_calls(t);
	scoped_sockets(t);
	denied_reports(t);
	other_reports(t);
	short_reports(t);
	entries_read(t);
	queue(t);
	damaged_queue(t);
	batch(t);
	policy_files(t);
	written_policy(t);
	logs(t);
	limits(t);
	return differences == 0 ? 0 : 1;
}
