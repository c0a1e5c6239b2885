/*
 * Skeinrabbit: a file broker that answers as Linux's Landlock would.
 *
 * All state lies in one `struct skein_tables`, which the caller owns. Make it fresh once, then pass it to every call. Nothing is
 * allocated, and a refused call changes no cell. Requests that are to be answered in turn wait in a `struct skein_queue`; many
 * that are to be answered at once are an array of `struct skein_request`. Rulesets may also come from policy files, and be written
 * into one. Changes of the tree can be kept in a `struct skein_log`, and made again from it.
 *
 * Every call answers a number of zero or more (a new entry, ruleset or thread where one is made, what its comment says, else 0),
 * or a negative error number. Each comment below lists a call's refusals in the order in which they are tested. Before all of them,
 * every call but skeinrabbit_fresh answers -EIO if the tables are not sound. A number out of range counts as not live or not open.
 *
 * Requests about entries and ports and changes of the tree have a last argument `report`, which may be NULL. It is written with
 * every answer: where a layer refuses (EACCES, EXDEV) it says which layer and which rights, and none with every other answer.
 * skeinrabbit_access also says how many entries' rules it read.
 *
 * Changes of the tree have an argument `log` before it, which may be NULL: then no log is kept. A change that succeeds and changes an
 * entry or a name is appended to the log; one whose field has no room is -ENOSPC, after all its other refusals, and changes nothing.
 *
 * Every entry but the root has a name of 1 to 48 bytes without slash or zero byte, not "." or "..", that no other entry of its
 * directory has. Names and paths are bytes with a length and need no closing zero.
 *
 * Any cells and any numbers are answered. A call is defined if
 * - every pointer is valid for what it points to (a whole struct skein_tables, skein_queue or skein_log, `size` bytes, `count` requests
 *   or verdicts), aligned for its type and not NULL.
 *   Only an attribute, a name, a path, a policy file, the room for one, the bytes of a log that is replayed or the names of a batch may be
 *   NULL, and count as no bytes then, whatever their size; and a report, a log, and the requests and verdicts of a batch without requests;
 * - none of these overlap: the tables, a queue, the bytes of an attribute, a name, a path, a policy file or a log, the room for a policy
 *   file, a struct skein_log, a report, the requests, names and verdicts of a batch, and the two places where skeinrabbit_layer_rules and
 *   skeinrabbit_component report. Two policy files may be the same bytes;
 * - 128 KiB of stack are left, for skeinrabbit_batch 1 MiB (docs/PERFORMANCE.md), which a thread or coroutine with a small stack
 *   may not have;
 * - no other call on the same tables or the same queue runs meanwhile, from a thread or from a signal handler. Calls on others may;
 * - the program is for x86-64 Linux, as the archive is.
 *
 * What a broker on top of it must know (docs/BROKER.md):
 * - The number of a removed entry, a closed ruleset or a thread that has ended is given out again, lowest first, and after
 *   skeinrabbit_fresh every number is: a number that is kept too long names something else. Numbers are no secrets: whoever may
 *   name any thread may do what any thread may.
 * - The tables are shared and small: 1,024 entries, 16 rulesets, 256 layers, 1,024 rules of layers, 8 threads. A client that may
 *   create, or reach skeinrabbit_clone, can fill them for all. Layers and their rules come back when the threads that have them
 *   end.
 * - That a sandbox cannot widen itself is said of one domain and those grown from it (docs/THEOREMS.md). Two clients, each with
 *   a safe policy of its own, may do together what neither may do alone: examples/together.skein.
 */
#ifndef SKEINRABBIT_H
#define SKEINRABBIT_H

#include <stddef.h>
#include <stdint.h>

#ifdef __cplusplus
extern "C" {
#endif

/* Limits. */
#define SKEIN_MAX_LEVEL 6
#define SKEIN_MAX_ENTRIES 1024
#define SKEIN_MAX_RULESETS 16
#define SKEIN_MAX_RULES 64 /* in one ruleset */
#define SKEIN_MAX_LAYERS 256
#define SKEIN_MAX_DOMAIN_LAYERS 64 /* in one thread's domain */
#define SKEIN_MAX_POOL_RULES 1024
#define SKEIN_MAX_THREADS 8
#define SKEIN_MAX_SLOTS 8 /* of a queue */
#define SKEIN_MAX_ATTR_SIZE 4096
#define SKEIN_MAX_PORT 65535
#define SKEIN_MAX_NAME 48   /* bytes of an entry's name */
#define SKEIN_MAX_PATH 4095 /* bytes of a path that is looked up */
#define SKEIN_MAX_POLICY 32768     /* bytes of a policy file */
#define SKEIN_MAX_RULESET_NAME 32  /* bytes of a ruleset's name in a policy file */
#define SKEIN_MAX_LOG_VALUE 64     /* bytes of the value of a log's field */

/* Cells of a rule and of a row of each table. */
#define SKEIN_RULE_CELLS 3
#define SKEIN_SYSTEM_CELLS 4
#define SKEIN_ENTRY_CELLS 3
#define SKEIN_RULESET_CELLS (4 + SKEIN_MAX_RULES * SKEIN_RULE_CELLS)
#define SKEIN_LAYER_CELLS 7
#define SKEIN_THREAD_CELLS 4
#define SKEIN_NAME_BYTES (1 + SKEIN_MAX_NAME)

/* Cells of a slot's request and of its answer. */
#define SKEIN_REQUEST_CELLS 3
#define SKEIN_ANSWER_CELLS 4

/* Cells of a batch's request and of its verdict. */
#define SKEIN_BATCH_REQUEST_CELLS 7
#define SKEIN_VERDICT_CELLS 3

/* The seven tables. A free row is zero in every cell. */
struct skein_tables {
	/* level, next object number, layers used, pool rules used */
	uint64_t system[SKEIN_SYSTEM_CELLS];
	/* kind (0: free), parent, object number */
	uint64_t entries[SKEIN_MAX_ENTRIES * SKEIN_ENTRY_CELLS];
	/* handled_access_fs, handled_access_net, scoped, number of rules, rules */
	uint64_t rulesets[SKEIN_MAX_RULESETS * SKEIN_RULESET_CELLS];
	/* parent layer + 1 (0: none), the three masks, first pool rule, number of rules, number of holders (0: free) */
	uint64_t layers[SKEIN_MAX_LAYERS * SKEIN_LAYER_CELLS];
	/* rules: type, key (object number or port), allowed_access */
	uint64_t pool[SKEIN_MAX_POOL_RULES * SKEIN_RULE_CELLS];
	/* live, youngest layer + 1 (0: none), no_new_privs, admin */
	uint64_t threads[SKEIN_MAX_THREADS * SKEIN_THREAD_CELLS];
	/* a row for each entry: length of its name, the name, zeros; the root's row is zero */
	uint8_t names[SKEIN_MAX_ENTRIES * SKEIN_NAME_BYTES];
};

/*
 * A queue of eight slots, each of which holds at most one waiting access request. It starts as SKEIN_FRESH_QUEUE:
 *
 *     static struct skein_queue queue = SKEIN_FRESH_QUEUE;
 *
 * The calls on it answer -EIO before all else if it is not sound: a cursor above 7, or a state that is none of the three.
 */
struct skein_queue {
	/* what was posted last: thread, entry, rights */
	uint64_t requests[SKEIN_MAX_SLOTS * SKEIN_REQUEST_CELLS];
	/* SKEIN_SLOT_EMPTY, SKEIN_SLOT_WAITING or SKEIN_SLOT_ANSWERED */
	uint64_t states[SKEIN_MAX_SLOTS];
	/* what was answered last: error number or 0, and the cells of a struct skein_report */
	uint64_t answers[SKEIN_MAX_SLOTS * SKEIN_ANSWER_CELLS];
	/* the slot that was served last */
	uint64_t cursor;
};

#define SKEIN_FRESH_QUEUE { { 0 }, { 0 }, { 0 }, SKEIN_MAX_SLOTS - 1 }

/*
 * A log of changes of the tree (docs/LOG.md). It starts empty, with the caller's bytes as its room:
 *
 *     static uint8_t room[4096];
 *     static struct skein_log changes = SKEIN_EMPTY_LOG(room);
 *
 * The log itself is the first `used` bytes of `bytes`: it is these that are kept in a file and given to skeinrabbit_replay, and not the
 * whole buffer, whose zeros would be damage. No call writes a byte before `used`. If `used` is more than `size` there is no room.
 */
struct skein_log {
	uint8_t *bytes;
	size_t size;
	uint64_t used;
};

#define SKEIN_EMPTY_LOG(room) { (room), sizeof(room), 0 }

/* Tags of the fields of a log. A field is a tag, two bytes of length, the lower one first, and the value. */
#define SKEIN_LOG_CREATE 16   /* kind (1 byte), directory, name */
#define SKEIN_LOG_REMOVE 17   /* entry */
#define SKEIN_LOG_LINK 18     /* source, directory, name */
#define SKEIN_LOG_RENAME 19   /* source, directory, name */
#define SKEIN_LOG_EXCHANGE 20 /* source, directory, other entry */

/* Bytes that any field of a log fits in. */
#define SKEIN_LOG_FIELD_BYTES (3 + SKEIN_MAX_LOG_VALUE)

/* States of a slot. */
#define SKEIN_SLOT_EMPTY 0
#define SKEIN_SLOT_WAITING 1
#define SKEIN_SLOT_ANSWERED 2

/* What a turn answers if no slot waits. */
#define SKEIN_IDLE SKEIN_MAX_SLOTS

/* Sorts of a batch's request. */
#define SKEIN_REQUEST_ACCESS 1
#define SKEIN_REQUEST_PORT 2
#define SKEIN_REQUEST_LINK 3
#define SKEIN_REQUEST_RENAME 4
#define SKEIN_REQUEST_EXCHANGE 5

/*
 * A request of a batch. What a sort does not use is not read. It is made by skeinrabbit_ask_access, skeinrabbit_ask_port,
 * skeinrabbit_ask_link, skeinrabbit_ask_rename or skeinrabbit_ask_exchange.
 */
struct skein_request {
	uint64_t sort;
	uint64_t thread;
	uint64_t first;	 /* access: the entry; port: the port; else the source */
	uint64_t second; /* access and port: the rights; else the directory */
	uint64_t third;	 /* exchange: the other entry */
	/* link and rename: where the name starts in the names of the batch, and how many bytes it has */
	uint64_t name_start;
	uint64_t name_length;
};

/* What a request of a batch is answered. */
struct skein_verdict {
	uint64_t error;	 /* the error number (SKEIN_EACCES, not negated), or 0 */
	uint64_t layer;	 /* as in a struct skein_report */
	uint64_t rights; /* as there */
};

/* Both are cells in a row: an array of them is what skein_batch takes. A compiler that lays them out otherwise refuses these. */
typedef char skein_request_is_cells[sizeof(struct skein_request) == SKEIN_BATCH_REQUEST_CELLS * sizeof(uint64_t) &&
						    offsetof(struct skein_request, name_length) ==
							    (SKEIN_BATCH_REQUEST_CELLS - 1) * sizeof(uint64_t) ?
					    1 :
					    -1];
typedef char skein_verdict_is_cells[sizeof(struct skein_verdict) == SKEIN_VERDICT_CELLS * sizeof(uint64_t) &&
						    offsetof(struct skein_verdict, rights) ==
							    (SKEIN_VERDICT_CELLS - 1) * sizeof(uint64_t) ?
					    1 :
					    -1];

/* File system rights, with Landlock's names and bits. */
#define SKEIN_FS_EXECUTE (UINT64_C(1) << 0)
#define SKEIN_FS_WRITE_FILE (UINT64_C(1) << 1)
#define SKEIN_FS_READ_FILE (UINT64_C(1) << 2)
#define SKEIN_FS_READ_DIR (UINT64_C(1) << 3)
#define SKEIN_FS_REMOVE_DIR (UINT64_C(1) << 4)
#define SKEIN_FS_REMOVE_FILE (UINT64_C(1) << 5)
#define SKEIN_FS_MAKE_CHAR (UINT64_C(1) << 6)
#define SKEIN_FS_MAKE_DIR (UINT64_C(1) << 7)
#define SKEIN_FS_MAKE_REG (UINT64_C(1) << 8)
#define SKEIN_FS_MAKE_SOCK (UINT64_C(1) << 9)
#define SKEIN_FS_MAKE_FIFO (UINT64_C(1) << 10)
#define SKEIN_FS_MAKE_BLOCK (UINT64_C(1) << 11)
#define SKEIN_FS_MAKE_SYM (UINT64_C(1) << 12)
#define SKEIN_FS_REFER (UINT64_C(1) << 13)     /* since level 2 */
#define SKEIN_FS_TRUNCATE (UINT64_C(1) << 14)  /* since level 3 */
#define SKEIN_FS_IOCTL_DEV (UINT64_C(1) << 15) /* since level 5 */

/* The rights that make sense for an entry that is no directory. */
#define SKEIN_FS_FILE_SET \
	(SKEIN_FS_EXECUTE | SKEIN_FS_WRITE_FILE | SKEIN_FS_READ_FILE | SKEIN_FS_TRUNCATE | SKEIN_FS_IOCTL_DEV)

/* The rights to change something, which no rule on the root may ask for. */
#define SKEIN_FS_NOT_AT_ROOT                                                                                          \
	(SKEIN_FS_WRITE_FILE | SKEIN_FS_REMOVE_DIR | SKEIN_FS_REMOVE_FILE | SKEIN_FS_MAKE_CHAR | SKEIN_FS_MAKE_DIR |  \
	 SKEIN_FS_MAKE_REG | SKEIN_FS_MAKE_SOCK | SKEIN_FS_MAKE_FIFO | SKEIN_FS_MAKE_BLOCK | SKEIN_FS_MAKE_SYM |      \
	 SKEIN_FS_REFER | SKEIN_FS_TRUNCATE)

/* Network rights, since level 4. */
#define SKEIN_NET_BIND_TCP (UINT64_C(1) << 0)
#define SKEIN_NET_CONNECT_TCP (UINT64_C(1) << 1)

/* Scopes, since level 6: what skeinrabbit_abstract_socket and skeinrabbit_signal ask for. */
#define SKEIN_SCOPE_ABSTRACT_UNIX_SOCKET (UINT64_C(1) << 0)
#define SKEIN_SCOPE_SIGNAL (UINT64_C(1) << 1)

/* Kinds of an entry. */
#define SKEIN_KIND_REGULAR 1
#define SKEIN_KIND_DIRECTORY 2
#define SKEIN_KIND_CHARACTER 3
#define SKEIN_KIND_BLOCK 4
#define SKEIN_KIND_FIFO 5
#define SKEIN_KIND_SOCKET 6
#define SKEIN_KIND_SYMLINK 7

/* Types of a rule in a cell. */
#define SKEIN_RULE_PATH 1
#define SKEIN_RULE_PORT 2

/* Entry and thread that fresh tables hold. */
#define SKEIN_ROOT 0
#define SKEIN_FIRST_THREAD 0

/* Error numbers: Linux's, whatever the C library's errno.h says. */
#define SKEIN_EPERM 1
#define SKEIN_ENOENT 2
#define SKEIN_ESRCH 3
#define SKEIN_EIO 5
#define SKEIN_E2BIG 7
#define SKEIN_EBADF 9
#define SKEIN_EAGAIN 11
#define SKEIN_ENOMEM 12
#define SKEIN_EACCES 13
#define SKEIN_EBUSY 16
#define SKEIN_EEXIST 17
#define SKEIN_EXDEV 18
#define SKEIN_ENOTDIR 20
#define SKEIN_EISDIR 21
#define SKEIN_EINVAL 22
#define SKEIN_EMFILE 24
#define SKEIN_ENOSPC 28
#define SKEIN_ENAMETOOLONG 36
#define SKEIN_ENOTEMPTY 39
#define SKEIN_ENOMSG 42
#define SKEIN_EBADMSG 74
#define SKEIN_EOPNOTSUPP 95
#define SKEIN_MAX_ERROR 4095

/*
 * A ruleset's attribute. Its masks are little-endian, so on a machine of the other order fill the bytes yourself.
 */
struct skein_ruleset_attr {
	uint64_t handled_access_fs;
	uint64_t handled_access_net;
	uint64_t scoped;
};

/*
 * What a request or a change of the tree says beside its answer. With EACCES and EXDEV it names the youngest layer of the thread's
 * domain that refuses, and why:
 * - EACCES of a request: those of the rights asked for that the layer denies;
 * - EACCES of a change: those of the rights needed that it denies, at both directories, without REFER;
 * - EXDEV: REFER if the layer denies it at one of the directories, otherwise the rights that what is moved would gain.
 * With every other answer both are zero.
 *
 * An access also says how many entries' rules were read. A layer reads from the entry up until none of the rights asked for that it
 * handles is missing (no entry if it handles none of them), or all up to the root if it denies some; the number is the largest of
 * the domain's layers. It is zero for an access that was refused for another reason, and for all other calls.
 */
struct skein_report {
	uint64_t layer;	 /* its number + 1 (0: none) */
	uint64_t rights; /* SKEIN_NET_ rights for a port, else SKEIN_FS_ rights */
	uint64_t entries_read;
};

/* Cells of a report, in the order of the struct. Only skein_access writes the third. */
#define SKEIN_REPORT_CELLS 3

/* The two policy files. */
#define SKEIN_POLICY_STOCK 0
#define SKEIN_POLICY_SITE 1

/* Tags of the fields of a policy file (docs/POLICY.md). */
#define SKEIN_POLICY_RULESET 1
#define SKEIN_POLICY_MASKS 2
#define SKEIN_POLICY_PATH_RULE 3
#define SKEIN_POLICY_PORT_RULE 4
#define SKEIN_POLICY_GROUP 5

/* Groups of a policy file that stand inside one another. */
#define SKEIN_MAX_POLICY_GROUPS 8

/*
 * What is said of policy files beside the answer:
 * - with success where the ruleset's part stands: its file, its first byte there, and how many bytes it has, from its tag 1 up to the
 *   next ruleset or the file's end;
 * - with EBADMSG the damaged file and the place of the first faulty field's tag, or the file's length if only the masks of the last
 *   ruleset are missing;
 * - with E2BIG of a file that is too long the file.
 * Everything else is zero, and with every other answer all of it.
 */
struct skein_policy_report {
	uint64_t file; /* SKEIN_POLICY_STOCK or SKEIN_POLICY_SITE */
	uint64_t place;
	uint64_t length;
};

/* Cells of that report, in the order of the struct. */
#define SKEIN_POLICY_REPORT_CELLS 3

/*
 * The functions of the archive: each table as pointer and number of cells, then the arguments. The result is the success number,
 * or 2^64 minus the error number. Prefer the inline functions further down.
 *
 * The calls that only ask, skein_turn and skein_batch take tables that are const; skein_component, skein_post and skein_find_policy
 * take none. A `report` may have any number of cells: those that fit are written, and cells past them stay as they were. The parts of a queue may have any
 * length, too; `cursor` is one cell, and a call on a queue with a part of a wrong length answers EIO. So may the lists of a batch: one
 * whose requests end within a request, or with fewer than 3 cells for the verdict of each, is EINVAL, and cells past the last verdict
 * stay. Bytes of `out` past the file stay, and all of them where a call is refused.
 * The changes of the tree take the bytes of a log, of any length, and `used`, one cell, which may hold any number; skein_replay takes
 * the written bytes of one.
 * Each pointer must be aligned (cells to 8 bytes) and valid for its length, and not NULL even if the length is 0. The tables, the
 * parts of a queue, the lists of a batch, the bytes of an attribute, a name, a path, a policy file or a log, the bytes `out`, `used`, a
 * report and the report `part` must not overlap.
 */
#define SKEIN_TABLE_PARAMETERS(cell, byte) \
	cell *system_cells, size_t system_length, cell *entries, size_t entries_length, cell *rulesets, \
		size_t rulesets_length, cell *layers, size_t layers_length, cell *pool, size_t pool_length, cell *threads, \
		size_t threads_length, byte *names, size_t names_length
#define SKEIN_TABLES SKEIN_TABLE_PARAMETERS(uint64_t, uint8_t)
#define SKEIN_CONST_TABLES SKEIN_TABLE_PARAMETERS(const uint64_t, const uint8_t)

extern uint64_t skein_fresh(SKEIN_TABLES, uint64_t level);
extern uint64_t skein_create_ruleset(SKEIN_TABLES, const uint8_t *attr, size_t size, uint64_t flags);
extern uint64_t skein_close_ruleset(SKEIN_TABLES, uint64_t ruleset);
extern uint64_t skein_add_path_rule(SKEIN_TABLES, uint64_t ruleset, uint64_t entry, uint64_t rights, uint64_t flags);
extern uint64_t skein_add_port_rule(SKEIN_TABLES, uint64_t ruleset, uint64_t port, uint64_t rights, uint64_t flags);
extern uint64_t skein_restrict(SKEIN_TABLES, uint64_t thread, uint64_t ruleset, uint64_t flags);
extern uint64_t skein_layer_rules(SKEIN_CONST_TABLES, uint64_t layer, uint64_t *part, size_t part_length);
extern uint64_t skein_clone(SKEIN_TABLES, uint64_t thread);
extern uint64_t skein_end(SKEIN_TABLES, uint64_t thread);
extern uint64_t skein_set_no_new_privs(SKEIN_TABLES, uint64_t thread);
extern uint64_t skein_set_admin(SKEIN_TABLES, uint64_t thread, uint64_t on);
extern uint64_t skein_access(SKEIN_CONST_TABLES, uint64_t thread, uint64_t entry, uint64_t rights, uint64_t *report,
			     size_t report_length);
extern uint64_t skein_port(SKEIN_CONST_TABLES, uint64_t thread, uint64_t port, uint64_t rights, uint64_t *report,
			   size_t report_length);
extern uint64_t skein_signal(SKEIN_CONST_TABLES, uint64_t thread, uint64_t target);
extern uint64_t skein_abstract_socket(SKEIN_CONST_TABLES, uint64_t thread, uint64_t target);
extern uint64_t skein_create(SKEIN_TABLES, uint64_t thread, uint64_t directory, uint64_t kind, const uint8_t *name, size_t name_length,
			     uint8_t *log, size_t log_length, uint64_t *used, uint64_t *report, size_t report_length);
extern uint64_t skein_remove(SKEIN_TABLES, uint64_t thread, uint64_t entry, uint8_t *log, size_t log_length, uint64_t *used,
			     uint64_t *report, size_t report_length);
extern uint64_t skein_link(SKEIN_TABLES, uint64_t thread, uint64_t source, uint64_t directory, const uint8_t *name, size_t name_length,
			   uint8_t *log, size_t log_length, uint64_t *used, uint64_t *report, size_t report_length);
extern uint64_t skein_rename(SKEIN_TABLES, uint64_t thread, uint64_t source, uint64_t directory, const uint8_t *name, size_t name_length,
			     uint8_t *log, size_t log_length, uint64_t *used, uint64_t *report, size_t report_length);
extern uint64_t skein_exchange(SKEIN_TABLES, uint64_t thread, uint64_t source, uint64_t directory, uint64_t entry, uint8_t *log,
			       size_t log_length, uint64_t *used, uint64_t *report, size_t report_length);
extern uint64_t skein_replay(SKEIN_TABLES, const uint8_t *log, size_t log_length);
extern uint64_t skein_lookup(SKEIN_CONST_TABLES, const uint8_t *path, size_t path_length);
extern uint64_t skein_component(const uint8_t *path, size_t path_length, uint64_t place, uint64_t *part, size_t part_length);

extern uint64_t skein_post(uint64_t *requests, size_t requests_length, uint64_t *states, size_t states_length, const uint64_t *answers,
			   size_t answers_length, uint64_t *cursor, uint64_t slot, uint64_t thread, uint64_t entry, uint64_t rights);
extern uint64_t skein_turn(SKEIN_CONST_TABLES, const uint64_t *requests, size_t requests_length, uint64_t *states, size_t states_length,
			   uint64_t *answers, size_t answers_length, uint64_t *cursor);

extern uint64_t skein_batch(SKEIN_CONST_TABLES, const uint64_t *requests, size_t requests_length, const uint8_t *request_names,
			    size_t request_names_length, uint64_t *verdicts, size_t verdicts_length);

extern uint64_t skein_find_policy(const uint8_t *stock, size_t stock_length, const uint8_t *site, size_t site_length,
				  const uint8_t *name, size_t name_length, uint64_t *report, size_t report_length);
extern uint64_t skein_apply_policy(SKEIN_TABLES, const uint8_t *stock, size_t stock_length, const uint8_t *site, size_t site_length,
				   const uint8_t *name, size_t name_length, uint64_t *report, size_t report_length);
extern uint64_t skein_write_policy(SKEIN_CONST_TABLES, uint64_t ruleset, const uint8_t *name, size_t name_length, uint8_t *out,
				   size_t out_length);

/* The parts of a queue as the arguments of an archive's function. */
#define SKEIN_QUEUE_ARGUMENTS(q) \
	(q)->requests, sizeof((q)->requests) / sizeof(uint64_t), (q)->states, sizeof((q)->states) / sizeof(uint64_t), \
		(q)->answers, sizeof((q)->answers) / sizeof(uint64_t), &(q)->cursor

/* A log as the arguments of an archive's function. */
#define SKEIN_LOG_ARGUMENTS(l) (l)->bytes, (l)->size, &(l)->used

/* The tables of a struct as the arguments of an archive's function. */
#define SKEIN_TABLE_ARGUMENTS(t) \
	(t)->system, sizeof((t)->system) / sizeof(uint64_t), (t)->entries, sizeof((t)->entries) / sizeof(uint64_t), \
		(t)->rulesets, sizeof((t)->rulesets) / sizeof(uint64_t), (t)->layers, \
		sizeof((t)->layers) / sizeof(uint64_t), (t)->pool, sizeof((t)->pool) / sizeof(uint64_t), (t)->threads, \
		sizeof((t)->threads) / sizeof(uint64_t), (t)->names, sizeof((t)->names)

/* 2^64 minus an error number, read as the negative error number. */
static inline int64_t skeinrabbit_answer(uint64_t result)
{
	if (result > (uint64_t)INT64_MAX)
		return -(int64_t)(UINT64_MAX - result) - 1;
	return (int64_t)result;
}

/* The answer, with the cells of a report for a caller that wants them. */
static inline int64_t skeinrabbit_reported(uint64_t result, const uint64_t *cells, struct skein_report *report)
{
	if (report != NULL) {
		report->layer = cells[0];
		report->rights = cells[1];
		report->entries_read = cells[2];
	}
	return skeinrabbit_answer(result);
}

/* The same with the cells of a report about policy files. */
static inline int64_t skeinrabbit_policy_reported(uint64_t result, const uint64_t *cells, struct skein_policy_report *report)
{
	if (report != NULL) {
		report->file = cells[0];
		report->place = cells[1];
		report->length = cells[2];
	}
	return skeinrabbit_answer(result);
}

/* Room for the field of one change, which is dropped: the archive's functions always take a log. */
struct skein_no_log {
	uint8_t field[SKEIN_LOG_FIELD_BYTES];
	struct skein_log log;
};

/* The caller's log, or if there is none one that is dropped. */
static inline struct skein_log *skeinrabbit_log_or(struct skein_log *log, struct skein_no_log *none)
{
	if (log != NULL)
		return log;
	none->log.bytes = none->field;
	none->log.size = sizeof(none->field);
	none->log.used = 0;
	return &none->log;
}

/* Bytes as the archive's functions take them, of which NULL is none. */
static inline const uint8_t *skeinrabbit_bytes(const void *bytes, size_t size)
{
	static const uint8_t no_bytes = 0;

	return bytes == NULL || size == 0 ? &no_bytes : (const uint8_t *)bytes;
}

static inline size_t skeinrabbit_length(const void *bytes, size_t size)
{
	return bytes == NULL ? 0 : size;
}

/*
 * Makes fresh tables: entry 0 (the root directory) and thread 0 with no layer and both marks off.
 * EINVAL level above 6. Level 0 is Landlock disabled.
 */
static inline int64_t skeinrabbit_fresh(struct skein_tables *t, uint64_t level)
{
	return skeinrabbit_answer(skein_fresh(SKEIN_TABLE_ARGUMENTS(t), level));
}

/*
 * Opens a ruleset; answers its number. `attr` points to `size` bytes, usually of a struct skein_ruleset_attr; NULL is no bytes.
 * EOPNOTSUPP level 0; EINVAL flags not 0; EINVAL fewer than 8 bytes; E2BIG more than 4,096; E2BIG a byte that is not zero past
 * the size known to the level; EINVAL a bit unknown to the level; ENOMSG all masks zero; EMFILE no free ruleset.
 */
static inline int64_t skeinrabbit_create_ruleset(struct skein_tables *t, const void *attr, size_t size, uint64_t flags)
{
	return skeinrabbit_answer(skein_create_ruleset(SKEIN_TABLE_ARGUMENTS(t), skeinrabbit_bytes(attr, size),
						       skeinrabbit_length(attr, size), flags));
}

/*
 * Closes a ruleset; layers made of it stay.
 * EBADF ruleset not open.
 */
static inline int64_t skeinrabbit_close_ruleset(struct skein_tables *t, uint64_t ruleset)
{
	return skeinrabbit_answer(skein_close_ruleset(SKEIN_TABLE_ARGUMENTS(t), ruleset));
}

/*
 * Adds a rule on an entry's object; a rule already there joins the rights.
 * EOPNOTSUPP level 0; EINVAL flags not 0; EBADF ruleset not open; ENOMSG rights empty; EINVAL rights outside those handled;
 * EBADF entry not live; EPERM the root and one of the rights SKEIN_FS_NOT_AT_ROOT, whatever is granted there already;
 * EINVAL entry no directory and rights outside the file set; E2BIG a new object with 64 rules present.
 */
static inline int64_t skeinrabbit_add_path_rule(struct skein_tables *t, uint64_t ruleset, uint64_t entry, uint64_t rights,
						uint64_t flags)
{
	return skeinrabbit_answer(skein_add_path_rule(SKEIN_TABLE_ARGUMENTS(t), ruleset, entry, rights, flags));
}

/*
 * Adds a rule on a TCP port; a rule already there joins the rights.
 * EOPNOTSUPP level 0; EINVAL flags not 0; EBADF ruleset not open; ENOMSG rights empty; EINVAL rights outside those handled;
 * EINVAL port above 65,535; E2BIG a new port with 64 rules present.
 */
static inline int64_t skeinrabbit_add_port_rule(struct skein_tables *t, uint64_t ruleset, uint64_t port, uint64_t rights,
						uint64_t flags)
{
	return skeinrabbit_answer(skein_add_port_rule(SKEIN_TABLE_ARGUMENTS(t), ruleset, port, rights, flags));
}

/*
 * Finds the ruleset of a name in two policy files: the site's if it has one, otherwise the stock's. Both are read whole first. It takes
 * no tables. An empty file (or NULL) is fine and has no ruleset.
 * E2BIG stock longer than 32,768 bytes; EBADMSG stock damaged; E2BIG and EBADMSG the same of site; ENOENT neither has the name.
 */
static inline int64_t skeinrabbit_find_policy(const void *stock, size_t stock_size, const void *site, size_t site_size,
					      const void *name, size_t name_size, struct skein_policy_report *report)
{
	uint64_t cells[SKEIN_POLICY_REPORT_CELLS] = { 0 };
	const uint64_t result = skein_find_policy(skeinrabbit_bytes(stock, stock_size), skeinrabbit_length(stock, stock_size),
						  skeinrabbit_bytes(site, site_size), skeinrabbit_length(site, site_size),
						  skeinrabbit_bytes(name, name_size), skeinrabbit_length(name, name_size), cells,
						  SKEIN_POLICY_REPORT_CELLS);

	return skeinrabbit_policy_reported(result, cells, report);
}

/*
 * Opens a ruleset as policy files have it under a name; answers its number. It makes the calls that the ruleset's part says, in the
 * order of the file and without flags: skeinrabbit_create_ruleset with its three masks, skeinrabbit_lookup and skeinrabbit_add_path_rule
 * for a path rule, skeinrabbit_add_port_rule for a port rule. Rules in a group are added only if the level reaches the group's number
 * and those of the groups around it; if the ruleset has a group, counted or not, mask bits that only higher levels know are left out.
 * The first call that is refused ends it, and the ruleset is closed again: then no cell has changed.
 * What skeinrabbit_find_policy refuses; then what those calls refuse, in their order.
 */
static inline int64_t skeinrabbit_apply_policy(struct skein_tables *t, const void *stock, size_t stock_size, const void *site,
					       size_t site_size, const void *name, size_t name_size,
					       struct skein_policy_report *report)
{
	uint64_t cells[SKEIN_POLICY_REPORT_CELLS] = { 0 };
	const uint64_t result = skein_apply_policy(SKEIN_TABLE_ARGUMENTS(t), skeinrabbit_bytes(stock, stock_size),
						   skeinrabbit_length(stock, stock_size), skeinrabbit_bytes(site, site_size),
						   skeinrabbit_length(site, site_size), skeinrabbit_bytes(name, name_size),
						   skeinrabbit_length(name, name_size), cells, SKEIN_POLICY_REPORT_CELLS);

	return skeinrabbit_policy_reported(result, cells, report);
}

/*
 * Writes an open ruleset as a policy file with this one ruleset under a name; answers the file's length, at most SKEIN_MAX_POLICY.
 * After name and masks come the path rules in the byte order of their paths, then the port rules by rising ports, without groups and
 * each with all its rights. A rule's path is that of its object's entry; of several entries the first in byte order is taken.
 * skeinrabbit_apply_policy with the file and the name opens a ruleset of the same masks and rights, as long as the tree stays.
 * Bytes of `out` past the file's length stay as they were; with a refusal all of them do.
 * EOPNOTSUPP level 0; EBADF ruleset not open; EINVAL name not of 1 to 32 bytes; EPERM a rule on the root that
 * skeinrabbit_add_path_rule refuses so (in tables that something else has written); ENOENT a rule whose object has no entry left;
 * ENAMETOOLONG a rule's path longer than 4,095 bytes, whatever other paths its object has; E2BIG a file longer than 32,768 bytes;
 * ENOSPC a file longer than `size`. Each of these is tested for all rules before the next.
 */
static inline int64_t skeinrabbit_write_policy(const struct skein_tables *t, uint64_t ruleset, const void *name, size_t name_size,
					       void *out, size_t size)
{
	uint8_t no_room = 0;
	uint8_t *const room = out == NULL ? &no_room : (uint8_t *)out;

	return skeinrabbit_answer(skein_write_policy(SKEIN_TABLE_ARGUMENTS(t), ruleset, skeinrabbit_bytes(name, name_size),
						     skeinrabbit_length(name, name_size), room, skeinrabbit_length(out, size)));
}

/*
 * Gives a thread one more layer, a copy of the ruleset at this moment; it takes the lowest free record.
 * ESRCH thread not live; EOPNOTSUPP level 0; EPERM neither no_new_privs nor admin; EINVAL flags not 0; EBADF ruleset not open;
 * E2BIG 64 layers already; ENOMEM no layer record or too few pool rules left by the layers of live threads.
 */
static inline int64_t skeinrabbit_restrict(struct skein_tables *t, uint64_t thread, uint64_t ruleset, uint64_t flags)
{
	return skeinrabbit_answer(skein_restrict(SKEIN_TABLE_ARGUMENTS(t), thread, ruleset, flags));
}

/*
 * Shows a layer's rules as a part of the pool: `*rules` points to the first cell, `*cells` is their number, 3 for each rule. With
 * a refusal the part is empty.
 * EBADF layer not in use.
 */
static inline int64_t skeinrabbit_layer_rules(const struct skein_tables *t, uint64_t layer, const uint64_t **rules, size_t *cells)
{
	uint64_t part[2] = { 0, 0 };
	const uint64_t result = skein_layer_rules(SKEIN_TABLE_ARGUMENTS(t), layer, part, 2);

	*rules = t->pool + part[0];
	*cells = (size_t)part[1];
	return skeinrabbit_answer(result);
}

/*
 * Makes a thread with a copy of this one's domain and marks; answers its number.
 * ESRCH thread not live; EAGAIN no free thread.
 */
static inline int64_t skeinrabbit_clone(struct skein_tables *t, uint64_t thread)
{
	return skeinrabbit_answer(skein_clone(SKEIN_TABLE_ARGUMENTS(t), thread));
}

/*
 * Ends a thread. Its number, and the layers and pool rules that no other live thread reaches, are used again.
 * ESRCH thread not live; EBUSY the only live thread.
 */
static inline int64_t skeinrabbit_end(struct skein_tables *t, uint64_t thread)
{
	return skeinrabbit_answer(skein_end(SKEIN_TABLE_ARGUMENTS(t), thread));
}

/*
 * Sets a thread's no_new_privs mark, once for all.
 * ESRCH thread not live.
 */
static inline int64_t skeinrabbit_set_no_new_privs(struct skein_tables *t, uint64_t thread)
{
	return skeinrabbit_answer(skein_set_no_new_privs(SKEIN_TABLE_ARGUMENTS(t), thread));
}

/*
 * Sets a thread's admin mark, or clears it if `on` is 0.
 * ESRCH thread not live.
 */
static inline int64_t skeinrabbit_set_admin(struct skein_tables *t, uint64_t thread, uint64_t on)
{
	return skeinrabbit_answer(skein_set_admin(SKEIN_TABLE_ARGUMENTS(t), thread, on));
}

/*
 * Asks whether a thread may use an entry with all of the rights.
 * ESRCH thread not live; ENOENT entry not live; EINVAL rights empty, a bit above 15, or a bit outside the file set for an entry
 * that is no directory; EACCES a right not granted.
 */
static inline int64_t skeinrabbit_access(const struct skein_tables *t, uint64_t thread, uint64_t entry, uint64_t rights,
					 struct skein_report *report)
{
	uint64_t cells[SKEIN_REPORT_CELLS] = { 0 };
	const uint64_t result = skein_access(SKEIN_TABLE_ARGUMENTS(t), thread, entry, rights, cells, SKEIN_REPORT_CELLS);

	return skeinrabbit_reported(result, cells, report);
}

/*
 * Asks whether a thread may use a TCP port with all of the rights.
 * ESRCH thread not live; EINVAL port above 65,535; EINVAL rights empty or a bit above 1; EACCES a right not granted.
 */
static inline int64_t skeinrabbit_port(const struct skein_tables *t, uint64_t thread, uint64_t port, uint64_t rights,
				       struct skein_report *report)
{
	uint64_t cells[SKEIN_REPORT_CELLS] = { 0 };
	const uint64_t result = skein_port(SKEIN_TABLE_ARGUMENTS(t), thread, port, rights, cells, SKEIN_REPORT_CELLS);

	return skeinrabbit_reported(result, cells, report);
}

/*
 * Asks whether a thread may signal a thread: every layer of its domain that handles SKEIN_SCOPE_SIGNAL must also be one of the
 * target's domain. So every thread may signal itself.
 * ESRCH thread or target not live; EPERM some such layer is not the target's.
 */
static inline int64_t skeinrabbit_signal(const struct skein_tables *t, uint64_t thread, uint64_t target)
{
	return skeinrabbit_answer(skein_signal(SKEIN_TABLE_ARGUMENTS(t), thread, target));
}

/*
 * Asks whether a thread may reach a thread's abstract UNIX socket: the same with SKEIN_SCOPE_ABSTRACT_UNIX_SOCKET.
 * ESRCH thread or target not live; EPERM some such layer is not the target's.
 */
static inline int64_t skeinrabbit_abstract_socket(const struct skein_tables *t, uint64_t thread, uint64_t target)
{
	return skeinrabbit_answer(skein_abstract_socket(SKEIN_TABLE_ARGUMENTS(t), thread, target));
}

/*
 * Looks up an absolute path; answers its entry. Repeated slashes count as one, "." stays, ".." goes to the parent (of the root, to
 * the root), a symlink is never followed.
 * ENOENT an empty path; ENAMETOOLONG more than 4,095 bytes; EINVAL no leading slash; EINVAL a zero byte; then component by
 * component: ENOTDIR after an entry that is no directory (a closing slash there too), ENAMETOOLONG more than 48 bytes, ENOENT no
 * such name.
 */
static inline int64_t skeinrabbit_lookup(const struct skein_tables *t, const void *path, size_t size)
{
	return skeinrabbit_answer(skein_lookup(SKEIN_TABLE_ARGUMENTS(t), skeinrabbit_bytes(path, size), skeinrabbit_length(path, size)));
}

/*
 * Shows the first component that starts at or after a place, as a part of the path: `*component` points to its first byte,
 * `*length` is their number, 0 if there is none. A place within a component skips the rest of it. Any bytes are a path here; its
 * components are what stands between slashes. Answers 0.
 */
static inline int64_t skeinrabbit_component(const char *path, size_t size, uint64_t place, const char **component, size_t *length)
{
	uint64_t part[2] = { 0, 0 };
	const uint64_t result = skein_component(skeinrabbit_bytes(path, size), skeinrabbit_length(path, size), place, part, 2);

	*component = path == NULL ? NULL : path + part[0];
	*length = (size_t)part[1];
	return skeinrabbit_answer(result);
}

/*
 * Creates an entry of a kind in a directory, with a name; answers its number.
 * ESRCH thread not live; ENOENT directory not live; ENOTDIR it is no directory; ENAMETOOLONG a name of more than 48 bytes; EINVAL
 * a name that is empty, "." or "..", or has a slash or a zero byte; EEXIST the directory has the name; EINVAL unknown kind; EACCES
 * MAKE of the kind denied; ENOSPC no free entry or no object number left; ENOSPC no room in the log.
 */
static inline int64_t skeinrabbit_create(struct skein_tables *t, uint64_t thread, uint64_t directory, uint64_t kind,
					 const void *name, size_t size, struct skein_log *log, struct skein_report *report)
{
	uint64_t cells[SKEIN_REPORT_CELLS] = { 0 };
	struct skein_no_log none;
	struct skein_log *const kept = skeinrabbit_log_or(log, &none);
	const uint64_t result = skein_create(SKEIN_TABLE_ARGUMENTS(t), thread, directory, kind, skeinrabbit_bytes(name, size),
					     skeinrabbit_length(name, size), SKEIN_LOG_ARGUMENTS(kept), cells, SKEIN_REPORT_CELLS);

	return skeinrabbit_reported(result, cells, report);
}

/*
 * Removes an entry.
 * ESRCH thread not live; ENOENT entry not live; EBUSY it is the root; EACCES REMOVE of its kind denied at its parent;
 * ENOTEMPTY a directory with entries; ENOSPC no room in the log.
 */
static inline int64_t skeinrabbit_remove(struct skein_tables *t, uint64_t thread, uint64_t entry, struct skein_log *log,
					 struct skein_report *report)
{
	uint64_t cells[SKEIN_REPORT_CELLS] = { 0 };
	struct skein_no_log none;
	struct skein_log *const kept = skeinrabbit_log_or(log, &none);
	const uint64_t result = skein_remove(SKEIN_TABLE_ARGUMENTS(t), thread, entry, SKEIN_LOG_ARGUMENTS(kept), cells,
					     SKEIN_REPORT_CELLS);

	return skeinrabbit_reported(result, cells, report);
}

/*
 * Makes a hard link to the source's object in a directory, with a name; answers the new entry.
 * ESRCH thread not live; ENOENT source or directory not live; EBUSY source is the root; ENOTDIR target is no directory;
 * ENAMETOOLONG and EINVAL a bad name as for skeinrabbit_create; EEXIST the directory has the name; EPERM source is a directory;
 * EACCES MAKE denied; EXDEV REFER denied, or the link would gain a right; ENOSPC no free entry; ENOSPC no room in the log.
 */
static inline int64_t skeinrabbit_link(struct skein_tables *t, uint64_t thread, uint64_t source, uint64_t directory,
				       const void *name, size_t size, struct skein_log *log, struct skein_report *report)
{
	uint64_t cells[SKEIN_REPORT_CELLS] = { 0 };
	struct skein_no_log none;
	struct skein_log *const kept = skeinrabbit_log_or(log, &none);
	const uint64_t result = skein_link(SKEIN_TABLE_ARGUMENTS(t), thread, source, directory, skeinrabbit_bytes(name, size),
					   skeinrabbit_length(name, size), SKEIN_LOG_ARGUMENTS(kept), cells, SKEIN_REPORT_CELLS);

	return skeinrabbit_reported(result, cells, report);
}

/*
 * Moves an entry to a directory and gives it a name. If an entry of the directory bears the name already, it is replaced: its
 * number is free then. The source keeps its number.
 * ESRCH thread not live; ENOENT source or directory not live; EBUSY source is the root; ENOTDIR target is no directory;
 * ENAMETOOLONG and EINVAL a bad name as for skeinrabbit_create; EINVAL source is the directory or above it; EACCES REMOVE or MAKE
 * denied; EXDEV REFER denied, or the source would gain a right; source and replaced entry the same object: 0, nothing changes, and
 * no room is needed; ENOTDIR a directory over another kind; EISDIR the reverse; ENOTEMPTY replaced directory with entries; ENOSPC no
 * room in the log.
 */
static inline int64_t skeinrabbit_rename(struct skein_tables *t, uint64_t thread, uint64_t source, uint64_t directory,
					 const void *name, size_t size, struct skein_log *log, struct skein_report *report)
{
	uint64_t cells[SKEIN_REPORT_CELLS] = { 0 };
	struct skein_no_log none;
	struct skein_log *const kept = skeinrabbit_log_or(log, &none);
	const uint64_t result = skein_rename(SKEIN_TABLE_ARGUMENTS(t), thread, source, directory, skeinrabbit_bytes(name, size),
					     skeinrabbit_length(name, size), SKEIN_LOG_ARGUMENTS(kept), cells, SKEIN_REPORT_CELLS);

	return skeinrabbit_reported(result, cells, report);
}

/*
 * Exchanges an entry with an entry of a directory, names with places.
 * ESRCH thread not live; ENOENT source, directory or other entry not live; EBUSY source or other entry is the root; ENOTDIR
 * target is no directory; EINVAL other entry not in the directory; EINVAL source is the directory or above it; EINVAL other
 * entry is the source's parent or above it; EACCES REMOVE or MAKE denied; EXDEV REFER denied, or either would gain a right; ENOSPC
 * no room in the log.
 * Both the same object: 0, nothing changes, and no room is needed.
 */
static inline int64_t skeinrabbit_exchange(struct skein_tables *t, uint64_t thread, uint64_t source, uint64_t directory,
					   uint64_t entry, struct skein_log *log, struct skein_report *report)
{
	uint64_t cells[SKEIN_REPORT_CELLS] = { 0 };
	struct skein_no_log none;
	struct skein_log *const kept = skeinrabbit_log_or(log, &none);
	const uint64_t result = skein_exchange(SKEIN_TABLE_ARGUMENTS(t), thread, source, directory, entry, SKEIN_LOG_ARGUMENTS(kept), cells,
					       SKEIN_REPORT_CELLS);

	return skeinrabbit_reported(result, cells, report);
}

/*
 * Makes the changes of a log again, without threads and verdicts; answers how many bytes at its tail were dropped because they are no
 * whole field. `log` are the `size` bytes of the log that are written, `used` of a struct skein_log, or what is left of them. On the
 * tables at which the log was empty this gives the tree after exactly those changes whose fields are whole (docs/LOG.md has the
 * conditions); the other tables stay as they are.
 * EBADMSG a whole field of an unknown tag, or with another value than docs/LOG.md lists, or whose call would refuse (thread, verdict and
 * log apart) or change nothing: then no cell has changed, whatever stood before that field.
 */
static inline int64_t skeinrabbit_replay(struct skein_tables *t, const void *log, size_t size)
{
	return skeinrabbit_answer(skein_replay(SKEIN_TABLE_ARGUMENTS(t), skeinrabbit_bytes(log, size), skeinrabbit_length(log, size)));
}

/*
 * Posts an access request in a slot of a queue, where it waits for its turn. The slot may hold an answer, which stays in its cells. Any
 * request is taken: thread, entry and rights are looked at when it is answered.
 * EINVAL slot above 7; EAGAIN a request waits in the slot.
 */
static inline int64_t skeinrabbit_post(struct skein_queue *q, uint64_t slot, uint64_t thread, uint64_t entry, uint64_t rights)
{
	return skeinrabbit_answer(skein_post(SKEIN_QUEUE_ARGUMENTS(q), slot, thread, entry, rights));
}

/*
 * Answers the next waiting slot after the one served last, going round; answers its number, or SKEIN_IDLE if no slot waits, and then
 * nothing changes. The answer is that of skeinrabbit_access on these tables; -EIO, if they are not sound, is the slot's answer and not
 * the turn's. A slot that waits is answered by one of the next eight turns, whatever is posted meanwhile.
 */
static inline int64_t skeinrabbit_turn(const struct skein_tables *t, struct skein_queue *q)
{
	return skeinrabbit_answer(skein_turn(SKEIN_TABLE_ARGUMENTS(t), SKEIN_QUEUE_ARGUMENTS(q)));
}

/*
 * Reads what a turn answered in a slot: what skeinrabbit_access answers, with its report. It makes no call of the archive.
 * EINVAL slot above 7; EAGAIN the slot is empty or its request waits, so that what its cells hold is no answer; EIO they hold no error
 * number.
 */
static inline int64_t skeinrabbit_slot_answer(const struct skein_queue *q, uint64_t slot, struct skein_report *report)
{
	static const uint64_t none[SKEIN_ANSWER_CELLS] = { 0 };
	const int answered = slot < SKEIN_MAX_SLOTS && q->states[slot] == SKEIN_SLOT_ANSWERED;
	const uint64_t *const answer = answered ? q->answers + slot * SKEIN_ANSWER_CELLS : none;
	uint64_t error = answer[0];

	if (!answered)
		error = slot < SKEIN_MAX_SLOTS ? SKEIN_EAGAIN : SKEIN_EINVAL;
	if (error > SKEIN_MAX_ERROR)
		error = SKEIN_EIO;
	return skeinrabbit_reported(0 - error, answer + 1, report);
}

/* Requests of a batch: what skeinrabbit_access, skeinrabbit_port, skeinrabbit_link, skeinrabbit_rename and skeinrabbit_exchange ask. */
static inline struct skein_request skeinrabbit_ask_access(uint64_t thread, uint64_t entry, uint64_t rights)
{
	const struct skein_request request = { SKEIN_REQUEST_ACCESS, thread, entry, rights, 0, 0, 0 };

	return request;
}

static inline struct skein_request skeinrabbit_ask_port(uint64_t thread, uint64_t port, uint64_t rights)
{
	const struct skein_request request = { SKEIN_REQUEST_PORT, thread, port, rights, 0, 0, 0 };

	return request;
}

/* The name is `name_length` bytes of the names of the batch, from `name_start` on. */
static inline struct skein_request skeinrabbit_ask_link(uint64_t thread, uint64_t source, uint64_t directory, uint64_t name_start,
							uint64_t name_length)
{
	const struct skein_request request = { SKEIN_REQUEST_LINK, thread, source, directory, 0, name_start, name_length };

	return request;
}

static inline struct skein_request skeinrabbit_ask_rename(uint64_t thread, uint64_t source, uint64_t directory, uint64_t name_start,
							  uint64_t name_length)
{
	const struct skein_request request = { SKEIN_REQUEST_RENAME, thread, source, directory, 0, name_start, name_length };

	return request;
}

static inline struct skein_request skeinrabbit_ask_exchange(uint64_t thread, uint64_t source, uint64_t directory, uint64_t entry)
{
	const struct skein_request request = { SKEIN_REQUEST_EXCHANGE, thread, source, directory, entry, 0, 0 };

	return request;
}

/*
 * Answers `count` requests at once, each with a verdict: the refusal of its call on these tables, up to and with EACCES and EXDEV, else
 * 0. What a call tests after these (ENOSPC of a link; ENOTDIR, EISDIR and ENOTEMPTY of a rename) is not tested. Nothing changes, and no
 * request sees what another one would change. `names` are `size` bytes that the names of requests are parts of; a part that does not lie
 * in them is a bad name, EINVAL. If the tables are not sound every verdict is SKEIN_EIO.
 * EINVAL a request of another sort, and then no verdict is written; else 0. The tables are tested once for all requests.
 */
static inline int64_t skeinrabbit_batch(const struct skein_tables *t, const struct skein_request *requests, size_t count,
					const void *names, size_t size, struct skein_verdict *verdicts)
{
	if (count == 0)
		return 0;
	return skeinrabbit_answer(skein_batch(SKEIN_TABLE_ARGUMENTS(t), (const uint64_t *)(const void *)requests,
					      count * SKEIN_BATCH_REQUEST_CELLS, skeinrabbit_bytes(names, size),
					      skeinrabbit_length(names, size), (uint64_t *)(void *)verdicts,
					      count * SKEIN_VERDICT_CELLS));
}

#ifdef __cplusplus
}
#endif

#endif
