/* radpolicy for C: a RADIUS policy is read once and kept behind a handle, and run on any number of requests.
 *
 *     struct radpolicy_policy policy = RADPOLICY_CLOSED;
 *     status = radpolicy_open(&policy, files, count, text, text_length, room, room_length, &line_length);
 *     status = radpolicy_run(&policy, &request, &outcome, packet, packet_room, report, report_room);
 *     status = radpolicy_reply(&policy, &request, &outcome, packet, packet_room, line, line_room);
 *     status = radpolicy_run_pairs(&policy, &request, &lists, packet, packet_room, pairs, pair_room, octets,
 *                                  octet_room);
 *     status = radpolicy_share(&policy, &other);
 *     radpolicy_close(&policy);
 *
 * A dictionary that serves several policies is read by itself, and each policy by it:
 *
 *     struct radpolicy_dictionary dictionary = RADPOLICY_CLOSED;
 *     status = radpolicy_dictionary_open(&dictionary, files, count, room, room_length, &line_length);
 *     status = radpolicy_policy_open(&policy, &dictionary, text, text_length, room, room_length, &line_length);
 *     radpolicy_dictionary_close(&dictionary);
 *
 * It tells the numbers of an attribute by its name, and the name by the numbers:
 *
 *     status = radpolicy_attribute_named(&dictionary, name, name_length, &attribute);
 *     status = radpolicy_attribute_name(&dictionary, &attribute, room, room_length, &name_length);
 *
 * A server's own lists are kept in a store, edited there by the operators of policies, and come back whole; no memory is
 * wanted for that:
 *
 *     struct radpolicy_store store = RADPOLICY_CLOSED;
 *     status = radpolicy_store_open(&store);
 *     status = radpolicy_store_edit(&store, &edit);
 *     status = radpolicy_store_undo(&store);
 *     radpolicy_store_close(&store);
 *
 * What the caller keeps
 * - No pointer is null, also where its length is 0: point at any octet then. An array may be of length 0.
 * - What a pointer points at is there during the call alone. All that is to last is copied, and all that is copied is
 *   given back when the last handle that holds it is closed. The caller frees what the caller made.
 * - The rooms, the outcome or the lists and the handles of one call do not overlap one another or what the call reads.
 * - A handle begins as RADPOLICY_CLOSED. The caller does not look into it or change it, and uses no copy of it: once
 *   one copy was closed, using another is as wrong as using memory that was freed.
 * - A handle is used by one call at a time. It goes to another thread by that thread's start or end, by a lock, or by a
 *   sequentially consistent atomic. radpolicy_share makes handles of one policy for several threads, and
 *   radpolicy_dictionary_share those of one dictionary: calls with different handles may run at the same time, and each
 *   handle is closed by itself, in any order, a dictionary's before or after those of its policies.
 * - A call is not made from a signal handler, nor in the child of a process that had threads.
 *
 * The library opens no file, no socket and no process, starts no thread, writes nowhere but in the caller's rooms, and
 * keeps no state outside its handles. It asks malloc, realloc and free for memory, and goes on where there is none.
 *
 * Texts are octets with no zero at their end. Where a room is too short for what is to be told, nothing is written
 * into any room, the lengths say what is wanted, and the call may be made again with longer rooms: it does and tells the
 * same. No call writes past the lengths that it tells. */
#ifndef RADPOLICY_H
#define RADPOLICY_H

#include <stdbool.h>
#include <stddef.h>
#include <stdint.h>

/* The version of this header, and of the library with which it is installed. */
#define RADPOLICY_VERSION "0.1.0"

#ifdef __cplusplus
extern "C" {
#endif

/* How a call ended. The numbers never change. */
enum radpolicy_status {
    RADPOLICY_DONE = 0,
    /* What was given is refused. The room (of a run: that of the report, of the line or of the octets) has the line that
     * the program radpolicy prints, as "radpolicy: E32 policy:3: unknown attribute\n". */
    RADPOLICY_REFUSED = 2,
    /* There is not enough memory. No text is told, and no handle has changed. */
    RADPOLICY_NO_MEMORY = 4,
    /* A room is too short. Nothing was written into a room; the lengths say what is wanted. */
    RADPOLICY_TOO_SHORT = 5,
    /* The handle holds nothing. */
    RADPOLICY_IS_CLOSED = 6,
    /* The handle holds something already, and keeps it. */
    RADPOLICY_IS_OPEN = 7,
    /* The list would have more than 4096 pairs. It is as it was. */
    RADPOLICY_IS_FULL = 8,
    /* What a number names is not there: no such list, operator, attribute, pair or state. Nothing has changed. */
    RADPOLICY_NOT_THERE = 9,
};

/* A policy with its dictionary, or none. */
struct radpolicy_policy {
    void *held;
    bool is_open;
};

/* A dictionary, or none. */
struct radpolicy_dictionary {
    void *held;
    bool is_open;
};

/* Lists with the states that they went through, or none. */
struct radpolicy_store {
    void *held;
    bool is_open;
};

/* What a handle is before it is opened, and after it was closed. */
#define RADPOLICY_CLOSED { NULL, false }

struct radpolicy_slice {
    const uint8_t *at;
    size_t length;
};

/* A dictionary file: the last component of its path, by which $INCLUDE names it, and what it holds. */
struct radpolicy_file {
    struct radpolicy_slice name;
    struct radpolicy_slice text;
};

/* Reads a policy by dictionary files, the main file first. No files, or two of one name, are refused as an option's
 * value (E02). room_length octets are at room; *line_length becomes the length of a fault's line, or 0.
 *
 * RADPOLICY_DONE, RADPOLICY_REFUSED, RADPOLICY_NO_MEMORY, RADPOLICY_TOO_SHORT (it is refused, and the room is too short
 * for the line), RADPOLICY_IS_OPEN. */
uint8_t radpolicy_open(struct radpolicy_policy *policy, const struct radpolicy_file *files, size_t file_count,
                       const uint8_t *text, size_t text_length, uint8_t *room, size_t room_length, size_t *line_length);

/* Reads dictionary files, the main file first, for policies that are opened by them. It is refused as radpolicy_open
 * refuses its files, with the same lines.
 *
 * RADPOLICY_DONE, RADPOLICY_REFUSED, RADPOLICY_NO_MEMORY, RADPOLICY_TOO_SHORT (it is refused, and the room is too short
 * for the line), RADPOLICY_IS_OPEN. */
uint8_t radpolicy_dictionary_open(struct radpolicy_dictionary *dictionary, const struct radpolicy_file *files,
                                  size_t file_count, uint8_t *room, size_t room_length, size_t *line_length);

/* Reads a policy by a dictionary that is open. It holds the dictionary too, and no copy of it: the dictionary's handle
 * may be closed at once, or serve more policies. The policy is closed by radpolicy_close.
 *
 * RADPOLICY_DONE, RADPOLICY_REFUSED, RADPOLICY_NO_MEMORY, RADPOLICY_TOO_SHORT (it is refused, and the room is too short
 * for the line), RADPOLICY_IS_CLOSED (the dictionary's handle holds none, whatever the policy's handle holds),
 * RADPOLICY_IS_OPEN (the policy's handle holds a policy already). A handle that holds a policy keeps it. */
uint8_t radpolicy_policy_open(struct radpolicy_policy *policy, struct radpolicy_dictionary *dictionary,
                              const uint8_t *text, size_t text_length, uint8_t *room, size_t room_length,
                              size_t *line_length);

/* Gives the other handle, which is closed, the dictionary that the first one holds, without a copy of it.
 *
 * RADPOLICY_DONE, RADPOLICY_NO_MEMORY, RADPOLICY_IS_CLOSED (the first one holds no dictionary), RADPOLICY_IS_OPEN (the
 * other one holds a dictionary already, and keeps it). */
uint8_t radpolicy_dictionary_share(struct radpolicy_dictionary *dictionary, struct radpolicy_dictionary *other);

/* Gives up the dictionary and leaves a closed handle. Its policies stay open. RADPOLICY_DONE, RADPOLICY_IS_CLOSED. */
uint8_t radpolicy_dictionary_close(struct radpolicy_dictionary *dictionary);

/* Gives the other handle, which is closed, the policy that the first one holds. It is not copied: its memory is given
 * back with the last handle that holds it.
 *
 * RADPOLICY_DONE, RADPOLICY_NO_MEMORY, RADPOLICY_IS_CLOSED (the first one holds no policy), RADPOLICY_IS_OPEN (the
 * other one holds a policy already, and keeps it). */
uint8_t radpolicy_share(struct radpolicy_policy *policy, struct radpolicy_policy *other);

/* Gives up the policy and leaves a closed handle. RADPOLICY_DONE, RADPOLICY_IS_CLOSED. */
uint8_t radpolicy_close(struct radpolicy_policy *policy);

/* How a request is given. */
enum radpolicy_form {
    /* The octets of a packet, an Access-Request or an Accounting-Request. The secret is needed: without one it is
     * refused as an option's value (E02). Its digests are checked. */
    RADPOLICY_PACKET = 0,
    /* The lines of an Access-Request or an Accounting-Request, as "User-Name = bob, NAS-Port = 3\n". Below a first
     * line "# profile: wider" tags, IPv6 addresses and prefixes, interface ids and dates are read as a server prints
     * them; so they are in the lines of the initial lists, each by its own first line. */
    RADPOLICY_ACCESS_LINES = 1,
    RADPOLICY_ACCOUNTING_LINES = 2,
};

/* A request, and the reply and control lists with which its run begins. */
struct radpolicy_request {
    struct radpolicy_slice octets;  /* a packet's octets, or lines */
    struct radpolicy_slice secret;  /* the shared secret, where has_secret; of no octets it is refused (E03) */
    struct radpolicy_slice reply;   /* lines of the initial reply list; of length 0 for none */
    struct radpolicy_slice control; /* lines of the initial control list; of length 0 for none */
    uint8_t authenticator[16];      /* of lines: the Request Authenticator, where has_authenticator */
    uint8_t form;                   /* enum radpolicy_form; any other is refused as an option's value (E02) */
    uint8_t identifier;             /* of lines: the Identifier */
    bool has_authenticator;
    bool has_secret; /* without a secret no reply packet is made */
};

/* The last code of a policy. */
enum radpolicy_code {
    RADPOLICY_OK = 0,
    RADPOLICY_NOOP = 1,
    RADPOLICY_UPDATED = 2,
    RADPOLICY_FAIL = 3,
    RADPOLICY_REJECT = 4,
};

/* What is sent. */
enum radpolicy_sends {
    RADPOLICY_UNMADE = 0,  /* there is no secret, so no packet was made */
    RADPOLICY_NOTHING = 1, /* nothing: the policy rejected an Accounting-Request or failed */
    RADPOLICY_REPLY = 2,   /* the octets in the room for the packet */
};

/* What a run came to. It is always written; where the status is not RADPOLICY_DONE or RADPOLICY_TOO_SHORT, all but
 * report_length is 0. */
struct radpolicy_outcome {
    size_t packet_length; /* of the reply packet, at most 4096 */
    size_t report_length; /* of the report, or of a fault's line; of radpolicy_reply only of a fault's line */
    uint8_t code;         /* enum radpolicy_code */
    uint8_t sends;        /* enum radpolicy_sends */
    bool stopped;         /* whether the policy was stopped before its end */
};

/* Runs the policy on a request. The reply packet goes into one room, and the report into the other: the three lists, the
 * result and the packet in hexadecimal digits, as `radpolicy run` prints them. A run changes nothing that is held, and no
 * run sees another.
 *
 * RADPOLICY_DONE, RADPOLICY_REFUSED, RADPOLICY_NO_MEMORY, RADPOLICY_TOO_SHORT, RADPOLICY_IS_CLOSED. */
uint8_t radpolicy_run(struct radpolicy_policy *policy, const struct radpolicy_request *request,
                      struct radpolicy_outcome *outcome, uint8_t *packet, size_t packet_room, uint8_t *report,
                      size_t report_room);

/* Runs the policy on a request as radpolicy_run does, and makes no report, which is a good third of a run's work: what a
 * server sends is in the room for the packet. The room for the line is for that of a fault.
 *
 * The statuses are those of radpolicy_run, with the same meaning. */
uint8_t radpolicy_reply(struct radpolicy_policy *policy, const struct radpolicy_request *request,
                        struct radpolicy_outcome *outcome, uint8_t *packet, size_t packet_room, uint8_t *line,
                        size_t line_room);

/* The kind of an attribute. */
enum radpolicy_kind {
    RADPOLICY_PLAIN = 0,
    RADPOLICY_VENDOR = 1,   /* a vendor's (RFC 2865, section 5.26) */
    RADPOLICY_EXTENDED = 2, /* an extended one (RFC 6929, section 2) */
};

/* An attribute by its numbers. */
struct radpolicy_attribute {
    uint32_t within; /* the vendor's number, or the type of an extended attribute (241 to 246); of a plain one 0 */
    uint32_t number; /* the attribute's number; of an extended one its Extended-Type */
    uint8_t kind;    /* enum radpolicy_kind */
};

/* Tells the attribute for which a name stands in a dictionary, whatever the case of its letters: as "Framed-Pool", or by
 * number as "Attr-26.9.1". A tag is no part of a name.
 *
 * RADPOLICY_DONE, RADPOLICY_IS_CLOSED, RADPOLICY_NOT_THERE (no attribute has the name); of the last two each number of
 * *attribute becomes 0. */
uint8_t radpolicy_attribute_named(struct radpolicy_dictionary *dictionary, const uint8_t *name, size_t name_length,
                                  struct radpolicy_attribute *attribute);

/* Puts the name that a dictionary has for an attribute at the front of the room, and its length into *name_length.
 *
 * RADPOLICY_DONE, RADPOLICY_TOO_SHORT (the length is told, and the room is as it was), RADPOLICY_IS_CLOSED,
 * RADPOLICY_NOT_THERE (the dictionary has no attribute of these numbers); of the last two *name_length becomes 0. */
uint8_t radpolicy_attribute_name(struct radpolicy_dictionary *dictionary, const struct radpolicy_attribute *attribute,
                                 uint8_t *room, size_t room_length, size_t *name_length);

/* A pair of a list, and where its octets are in the room for octets: those of its value, and its line as the report has
 * it, without the blanks before it and the newline after it, as "Class = 0x01". */
struct radpolicy_pair {
    size_t value; /* where the octets of the value begin: as they are sent, but of a hidden value in plain */
    size_t value_length;
    size_t line; /* where the line begins */
    size_t line_length;
    size_t name_length; /* of the name at the front of the line; after it come " = " and the text of the value */
    uint32_t within;    /* the vendor's number, or the type of an extended attribute (241 to 246); of a plain one 0 */
    uint32_t number;    /* the attribute's number; of an extended one its Extended-Type */
    uint8_t kind;       /* enum radpolicy_kind */
};

/* What a run came to, with how many pairs its lists have. It is always written; where the status is not RADPOLICY_DONE
 * or RADPOLICY_TOO_SHORT, all but octets_length is 0. */
struct radpolicy_lists {
    size_t packet_length; /* of the reply packet, at most 4096 */
    size_t octets_length; /* of the octets of the pairs, or of a fault's line */
    size_t request_count; /* the pairs of the request list are the first in the room for pairs, */
    size_t reply_count;   /* those of the reply list are after them, */
    size_t control_count; /* and those of the control list are last; each list has at most 4096 */
    uint8_t code;         /* enum radpolicy_code */
    uint8_t sends;        /* enum radpolicy_sends */
    bool stopped;         /* whether the policy was stopped before its end */
};

/* Runs the policy on a request as radpolicy_run does, and tells the pairs of its lists one by one in place of the
 * report: a record of each in the room for pairs, which has place for pair_room of them, and their octets in the room
 * for octets, where also a fault's line is told.
 *
 * The statuses are those of radpolicy_run, with the same meaning. */
uint8_t radpolicy_run_pairs(struct radpolicy_policy *policy, const struct radpolicy_request *request,
                            struct radpolicy_lists *lists, uint8_t *packet, size_t packet_room,
                            struct radpolicy_pair *pairs, size_t pair_room, uint8_t *octets, size_t octet_room);

/* What a job does: the commands of the program. */
enum radpolicy_command {
    RADPOLICY_RUN = 0,
    RADPOLICY_STEP = 1,
    RADPOLICY_ENCODE = 2,
    RADPOLICY_DECODE = 3,
    RADPOLICY_CHECK = 4,
};

/* A whole job, as a command line of the program with what is in its files. What a command wants, and what it takes
 * together, is as it is there: a job that lacks a part, or has parts that do not go together, is refused as an option's
 * value (E02), as is one whose command or form is none. A part that the command does not use is not looked at. A slice
 * that is not given is of length 0. */
struct radpolicy_job {
    const struct radpolicy_file *files; /* the dictionary files, the main file first */
    size_t file_count;
    struct radpolicy_slice request; /* lines, or a packet in hexadecimal digits */
    struct radpolicy_slice secret;  /* a file whose first line is the secret, where has_secret */
    struct radpolicy_slice policy;  /* where has_policy */
    struct radpolicy_slice script;  /* the moves of a walk, where has_script */
    uint8_t authenticator[16];      /* the Request Authenticator, where has_authenticator */
    uint8_t command;                /* enum radpolicy_command; any other is refused (E02) */
    uint8_t form;                   /* enum radpolicy_form; to decode it is RADPOLICY_PACKET */
    uint8_t identifier;             /* 0 where none is given */
    bool has_authenticator;
    bool has_secret;
    bool has_policy;
    bool has_script;
};

/* Does a whole job: what the program prints goes into the room. It reads the dictionary each time, and so it is slow
 * beside radpolicy_run: it is for those who want the program's behaviour.
 *
 * RADPOLICY_DONE (the room has the report), RADPOLICY_REFUSED (it has the line of the fault), RADPOLICY_NO_MEMORY,
 * RADPOLICY_TOO_SHORT. *answer_length becomes the length of the report or the line, or 0. */
uint8_t radpolicy_answer(const struct radpolicy_job *job, uint8_t *room, size_t room_length, size_t *answer_length);

/* Stores. A store has three lists of pairs in order, and the states through which these went: the first one, of empty
 * lists, is at place 0. One state is the present one. Each edit adds a state after it, in place of those that were
 * there; undo and redo go from one to the next, and a rollback adds an earlier one once more. A call that is not done
 * changes nothing in the store. A store serves one thread at a time: there is no second handle on it. */

enum radpolicy_list {
    RADPOLICY_REQUEST_LIST = 0,
    RADPOLICY_REPLY_LIST = 1,
    RADPOLICY_CONTROL_LIST = 2,
};

/* The operators of policies. An instance of the pair is a pair of its attribute, whatever its value. */
enum radpolicy_operator {
    RADPOLICY_ADD_NEW = 0,      /* = adds the pair at the tail, where it has no instance */
    RADPOLICY_REPLACE = 1,      /* := puts it in place of the first instance and drops the others, or at the tail */
    RADPOLICY_APPEND = 2,       /* += adds it at the tail */
    RADPOLICY_PREPEND = 3,      /* ^= adds it at the head */
    RADPOLICY_REMOVE_EQUAL = 4, /* -= drops each pair that is equal to it */
    RADPOLICY_KEEP_EQUAL = 5,   /* == drops each instance that is not equal to it */
    RADPOLICY_REMOVE_ALL = 6,   /* !* drops each instance */
};

/* A change of one list by one pair, of which the octets are copied. Values are compared octet by octet. */
struct radpolicy_edit {
    struct radpolicy_slice value;
    uint32_t within; /* as in struct radpolicy_pair; of a plain attribute it is not looked at */
    uint32_t number;
    uint8_t kind; /* enum radpolicy_kind; the numbers of an extended attribute are at most 255 */
    uint8_t list; /* enum radpolicy_list */
    uint8_t op;   /* enum radpolicy_operator */
};

/* A pair of a store, but for the octets of its value. */
struct radpolicy_store_pair {
    size_t value_length;
    uint32_t within;
    uint32_t number;
    uint8_t kind;
};

/* Opens a store of empty lists. RADPOLICY_DONE, RADPOLICY_NO_MEMORY, RADPOLICY_IS_OPEN. */
uint8_t radpolicy_store_open(struct radpolicy_store *store);

/* Gives up the lists and leaves a closed handle. RADPOLICY_DONE, RADPOLICY_IS_CLOSED. */
uint8_t radpolicy_store_close(struct radpolicy_store *store);

/* Edits a list: one more state, also where the edit changes nothing.
 *
 * RADPOLICY_DONE, RADPOLICY_NO_MEMORY, RADPOLICY_IS_CLOSED, RADPOLICY_IS_FULL, RADPOLICY_NOT_THERE (the edit names no
 * list, operator or attribute). */
uint8_t radpolicy_store_edit(struct radpolicy_store *store, const struct radpolicy_edit *edit);

/* Goes to the state before. RADPOLICY_DONE, RADPOLICY_IS_CLOSED, RADPOLICY_NOT_THERE (the first state is present). */
uint8_t radpolicy_store_undo(struct radpolicy_store *store);

/* Goes to the state after. RADPOLICY_DONE, RADPOLICY_IS_CLOSED, RADPOLICY_NOT_THERE (the last state is present). */
uint8_t radpolicy_store_redo(struct radpolicy_store *store);

/* Gives the lists back as they were at a place, the present one or one before it, as one more state.
 *
 * RADPOLICY_DONE, RADPOLICY_NO_MEMORY, RADPOLICY_IS_CLOSED, RADPOLICY_NOT_THERE (the place is after that of the
 * present state). */
uint8_t radpolicy_store_rollback(struct radpolicy_store *store, size_t to);

/* Forgets each state but the present one, which is then at place 0: where lists were loaded, or a step is done.
 *
 * RADPOLICY_DONE, RADPOLICY_IS_CLOSED. */
uint8_t radpolicy_store_settle(struct radpolicy_store *store);

/* Tells the place of the present state. RADPOLICY_DONE, RADPOLICY_IS_CLOSED (*place becomes 0). */
uint8_t radpolicy_store_place(struct radpolicy_store *store, size_t *place);

/* Tells how many pairs a list has in the present state. enum radpolicy_list.
 *
 * RADPOLICY_DONE, RADPOLICY_IS_CLOSED, RADPOLICY_NOT_THERE (there is no such list); of both *count becomes 0. */
uint8_t radpolicy_store_count(struct radpolicy_store *store, uint8_t list, size_t *count);

/* Tells the pair at a place of a list, the first one at 0, and puts the octets of its value at the front of the room.
 *
 * RADPOLICY_DONE, RADPOLICY_TOO_SHORT (the pair is told, and the room is as it was), RADPOLICY_IS_CLOSED,
 * RADPOLICY_NOT_THERE (there is no such list or pair); of the last two each number of *pair becomes 0. */
uint8_t radpolicy_store_pair(struct radpolicy_store *store, uint8_t list, size_t at, struct radpolicy_store_pair *pair,
                             uint8_t *room, size_t room_length);

#ifdef __cplusplus
}
#endif
#endif
