/* The log of a run: what the runtime writes while the program runs, and the writer reads when it has ended.
 *
 * A log is a file of records of 32 bytes each, in the order in which things were done. The first records are the
 * head. The file is mapped into the program's memory, so that all that was logged is there however the program
 * ends. A word (the name of an operation, of a region, of a call) is logged once, by a WORD record with the text
 * in the records behind it, and is named by the place of that record. */
#ifndef FORMAT_H
#define FORMAT_H

#include <stdint.h>

enum { MOST_THREADS = 64, LONGEST_WORD = 4096, RECORD_BYTES = 32, HEAD_RECORDS = 32, GRANULE = 8 };

#define LOG_MAGIC "gplog 5"

enum kind {
    NOTHING, /* a place in the log that is passed over */
    /* Accesses. One of at most a granule, eight bytes at a multiple of eight, is a record. */
    READ,
    WRITE,
    ATOMIC,      /* `more` has the flags below */
    COUNT,       /* an atomic change of a number that stands for an object: `old` became `new` */
    DESCRIPTOR_OPENED, /* `address` is the descriptor, `old` how often it was closed */
    DESCRIPTOR_CLOSED, /* `new` is how often, with this time */
    /* Locks, threads, conditions. `address` is the object's. */
    ACQUIRE,
    RELEASE,
    RACQUIRE,
    RRELEASE,
    START, /* `more` is the other thread */
    JOIN,
    EXIT,
    SLEEP,
    WAKE,
    TIMEOUT,
    NOTIFY,
    NOTIFYALL,
    DESTROY,
    /* What the program tells of itself: `more` is a word. */
    OPERATION, /* `mask` objects follow */
    OBJECT_WORD,
    OBJECT_AT,
    BEGIN,
    END,
    /* Memory. `address` and `old` are the beginning and the size. */
    BLOCK, /* `new` is the place in the program behind the call that made it */
    FREE,
    STACK,
    MODULE, /* a file of the program with symbols, loaded at `address`: `more` is its path */
    WIDENED, /* record `old` has got the bytes of `mask` as well, where it is wanted what each record comes from */
    WORD,   /* `more` bytes of text in the records that follow */
    SITE,   /* `more` bytes of addresses there: the calls that led to some record, from the innermost one on */
    /* The run. */
    PAUSED,  /* accesses are not recorded from here on */
    RESUMED, /* they are again */
    WAITS,   /* at a stop: `more` waits for the thing of the kind `mask` at `address` */
    CUT,     /* nothing is recorded from here on: `more` is the word that says why */
    GAVE_UP, /* the run was stopped: `more` is the word that says why */
    FINISHED
};

/* Flags of ATOMIC; and of WRITE, UNSETTLED alone. */
enum { READS = 1, WRITES = 2, CONTINUES = 4, UNSETTLED = 8, OLD_UNKNOWN = 16 };

/* What a thread waits for at a stop. */
enum waits { FOR_LOCK, FOR_CONDITION, FOR_SEMAPHORE, FOR_THREAD, FOR_BARRIER, FOR_FUTEX, FOR_TIME };

/* ---- Where records come from ---- */

/* Where a record comes from, in a file of its own beside the log: the entry of a record has the record's number. */
struct step {
    uint64_t site : 24;   /* the place in the program: which of the SITE records, from 1, or 0 */
    uint64_t number : 40; /* and where that is counted, which of the thread's calls and hooks this was, from 1; */
    uint64_t caller : 48; /* the address behind it; */
    uint64_t phase : 8;   /* of a call that waits in between: behind how many such places; */
    uint64_t merged : 8;  /* other writes of its segment are in it too */
};

/* ---- A schedule that is to be confirmed ---- */

/* A script: a head, the moves of all threads in the order in which they are to come, and the deeds of each. A thread does
 * no move before its time, and stands at a STOP to the script's end; an ATTEMPT is to find its lock held. */
#define SCRIPT_MAGIC "gpscript"

enum move_kind { MOVE, ATTEMPT, STOP };
enum { FIXED = 1, EXACT = 2, READS_OLD = 4 }; /* of a deed: at this very address, leaves `new`, finds `old` */
enum { MOST_DEEDS = 256, MOST_CYCLE = 4 };

struct script {
    char magic[8];
    uint64_t mark; /* the last record before the window: the script begins behind it */
    uint64_t seed, limit; /* of what comes behind the script, where `has_seed`; in seconds without a move */
    uint32_t move_count, deed_count, has_seed, pause; /* `pause`: at this move the process stops itself */
};

struct move {
    uint8_t kind, thread, phase;
    uint32_t first, count; /* its deeds */
    uint64_t step, caller;
};

struct deed {
    uint8_t kind, mask, flags;
    uint32_t more;
    uint64_t address, old, new;
};

/* Why a run left its schedule. */
enum left { LEFT_NOT, LEFT_ELSEWHERE, LEFT_PAST, LEFT_VALUE, LEFT_UNDONE, LEFT_WAITING, LEFT_OUTSIDE, LEFT_ENDED, LEFT_BUSY,
            LEFT_TOOK };

/* How far a run came in its script. */
struct follow {
    uint32_t begun, done, over; /* moves; whether all are done */
    uint32_t left, left_move, left_thread, left_wait, left_holder, left_call;
    uint64_t left_at, left_caller, left_place, left_found;
    uint32_t freed, waiters; /* reads of memory that was freed and found another value; threads that wait in a cycle */
    uint32_t waiter[MOST_CYCLE], holder[MOST_CYCLE];
};

/* ---- Records ---- */

struct record {
    uint8_t kind, thread;
    uint8_t mask; /* of an access: which bytes of the granule it has to do with */
    uint8_t cuts; /* of an access: at which of these bytes a part of it begins, beside the first */
    uint32_t more;
    uint64_t address, old, new;
};

/* The head: what is known at each moment, so that it is known at the last one too. */
struct log_head {
    char magic[8];
    uint64_t used;    /* how many records there are, with the head */
    uint32_t running; /* the thread whose turn it is, or 0 */
    uint32_t outside; /* 1 where some thread has left the game, so that the run may not repeat by its seed */
    uint64_t private_accesses, repeated_reads, early_accesses, paused_accesses, inner_accesses, stray_accesses;
    uint32_t call_of[MOST_THREADS + 1]; /* the call in which each thread is, a word, or 0 */
    uint32_t process;
    struct follow follow;
};

_Static_assert(sizeof(struct step) == RECORD_BYTES / 2, "a step has half of that");
_Static_assert(sizeof(struct record) == RECORD_BYTES, "a record has 32 bytes");
_Static_assert(sizeof(struct log_head) <= HEAD_RECORDS * RECORD_BYTES, "the head fits");

#endif
