/* Who wakes whom among the threads of a run: one connection, one tenant, two pipelines and a port. `tools/model` has spin try each schedule.
   It is written by hand: docs/ARCHITECTURE.md, "Who wakes whom", says which function each part stands for.

   Waking a thread sets its token; parking waits for the token and takes it away (crossbeam's Parker). Each step, and each `atomic`, looks
   at or changes one thing that threads share, in an order on which all threads agree: the code asks for that order of its flags, and a
   wake-up makes what was put before it seen. A put and a take are one step each, and `Full` and `None` come only where the queue was full
   or empty in that step: the contracts of gate_queue say so of some moment of the call. That a call sees what was put before it began is
   what tests show.

   Left out are what records say and rules select, but for who gets something; the lock of the board; and time. A nap at whose end the
   reader sees nothing new is no step, so a feed that has nothing for ever is a reader that stands still, and no run goes round in a circle
   but with ENDLESS. A thread is refused memory where it looks whether it is to halt. Where the code asks for it elsewhere, the look before
   or the one behind stands for that: between them are only steps of its own, and wake-ups that a halt gives, too. */

/* Sizes. A worker never takes as many values in a row as end a phase (256), so taking doesn't. */
#ifndef PLACES
#define PLACES 2                /* of a queue with a bound */
#endif
#define ROOM 2                  /* of a batch: MAX_GATHERED of gate_tenant */
#define MANY 2                  /* puts for which a wake-up is due: MANY of wake_ups.rt */
#ifndef MANY_TAKEN
#define MANY_TAKEN 4            /* takings for which all are due: MANY_TAKEN of forwarder.rt */
#endif

/* Variants. */
#ifndef RECORDS
#define RECORDS 1               /* as many as the feed has at most */
#endif
#ifndef ENDLESS
#define ENDLESS 0               /* it always has one more */
#endif
#ifdef SELECTED                 /* so many at most go to the tenant; else any */
#define IS_LIMITED 1
#else
#define IS_LIMITED 0
#define SELECTED RECORDS
#endif
#ifndef WORKERS
#define WORKERS 1
#endif
#ifndef STOPS
#define STOPS 0                 /* the port may ask for a stop */
#endif
#ifndef MARKS
#define MARKS 0                 /* so many generations may be asked for */
#endif
#ifndef POSTS
#define POSTS 0                 /* so many management events, and as many results, may be posted */
#endif
#ifndef HALTS
#define HALTS 0                 /* a thread may be refused memory */
#endif
#ifndef STARTS
#define STARTS 0                /* threads are started one by one, and a start may be refused; else all at once */
#endif

/* The wake-ups. With -DLEFT_OUT=NAME that one isn't given. */
#ifndef LEFT_OUT
#define LEFT_OUT none
#endif
mtype:wakeup = { none,
    by_record, by_mark, by_end,
    due_to_tenant_worker, many_to_reader, many_to_tenant_worker,
    parking_to_reader, parking_to_tenant_worker, returning_to_reader, returning_to_tenant_worker,
    to_workers,
    by_manage, by_result,
    begun_to_reader,
    halt_to_reader, halt_to_forwarder, halt_to_tenant_worker, halt_to_workers };

#define READER 0
#define FORWARDER 1
#define TENANT_WORKER 2
#define WORKER 3                /* and the other one WORKER + 1 */
#define THREADS 5

bit token[THREADS];
bit asleep[THREADS];            /* it found nothing to do, and parks */
bit returned[THREADS];
byte running;                   /* threads that were started and haven't returned */
bit begun, halted, stopped;
byte asked;                     /* generations that were asked for */

mtype:value = { event, mark, end };
chan records = [PLACES] of { mtype:value };
chan items = [SELECTED + 1] of { mtype:value };
chan triggers[2] = [SELECTED + 1] of { mtype:value };
chan manages = [PLACES] of { mtype:value };
chan results = [PLACES] of { mtype:value };

/* The token of a thread that has returned is nobody's. */
inline wake(why, whom) {
    token[whom] = token[whom] | (why != LEFT_OUT && !returned[whom])
}

inline park() {
    atomic { token[me] -> token[me] = 0; asleep[me] = 0 }
}

inline leave() {
    atomic { returned[me] = 1; token[me] = 0; running-- }
}

/* Signals::halt, once the flag is set. A second one would change nothing. */
inline wake_all() {
    wake(halt_to_reader, READER);
    wake(halt_to_forwarder, FORWARDER);
    wake(halt_to_tenant_worker, TENANT_WORKER);
    wake(halt_to_workers, WORKER);
    wake(halt_to_workers, WORKER + 1)
}

#define refused_here :: atomic { !halted -> halted = 1 }; wake_all(); goto out

#if HALTS
#define unless_halted if :: halted -> goto out :: !halted fi;
#define unless_halted_or_refused if :: halted -> goto out refused_here :: !halted fi;
#else
#define unless_halted
#define unless_halted_or_refused
#endif

#if STOPS
#define unless_stopped if :: stopped -> goto close :: !stopped fi;
#else
#define unless_stopped
#endif

/* ---- reader.rt and running.rt, over source.rt */

proctype reader(byte me) {
    byte left = RECORDS, marks;
    bit line;                   /* it has a record to offer */

#if STARTS
    do
    :: halted -> goto out
    :: !halted ->
        if
        :: begun -> break
        :: atomic { !begun -> asleep[me] = 1 }; park()
        fi
    od;
#endif

look:
    unless_halted_or_refused
    unless_stopped
next_mark:
#if MARKS
    if
    :: asked > marks -> goto renew
    :: asked == marks
    fi;
#endif
    if
    :: line -> goto offer
    /* what the feed answers: Got, so that it looks again before it offers; Pending; Ended or Fault */
#if ENDLESS
    :: !line -> line = 1; goto look
#else
    :: !line && left > 0 -> left--; line = 1; goto look
    :: !line -> left = 0; goto nap
    :: !line -> goto close
#endif
    fi;

nap:
    stopped || halted || asked > marks;
    goto look;

#if MARKS
renew:
    unless_halted
    unless_stopped
    if
    :: atomic { records ! mark -> marks++ }; wake(by_mark, FORWARDER); goto next_mark
    :: atomic { full(records) -> asleep[me] = 1 }; park(); goto renew
    fi;
#endif

offer:
    unless_stopped
    if
    :: atomic { records ! event -> line = 0 }; wake(by_record, FORWARDER); goto look
    :: atomic { full(records) -> asleep[me] = 1 }; unless_halted park(); goto offer
    fi;

close:
    if
    :: records ! end -> wake(by_end, FORWARDER); goto out
    :: atomic { full(records) -> asleep[me] = 1 }; unless_halted park(); goto close
    fi;

out:
    leave()
}

/* ---- forwarder.rt */

/* ForwarderWakeUps::give. What isn't given stays pending. */
inline pay(to_reader, to_tenant_worker) {
    if
    :: taken > 0 && to_reader != LEFT_OUT -> atomic { taken = 0; wake(to_reader, READER) }
    :: else
    fi;
    if
    :: puts > 0 && to_tenant_worker != LEFT_OUT -> atomic { puts = 0; wake(to_tenant_worker, TENANT_WORKER) }
    :: else
    fi
}

proctype forwarder(byte me) {
    mtype:value entry;          /* in its outbox */
    bit ended;
    byte taken, puts;           /* since it paid for them */
#if IS_LIMITED
    byte left = SELECTED;
#endif

step:
    unless_halted_or_refused
    if
    :: entry ->
        atomic {
            items ! entry;
            /* for a tenant_worker that sleeps no more than MANY wait */
            assert(!asleep[TENANT_WORKER] || token[TENANT_WORKER] || len(items) <= MANY);
            ended = (entry == end);
            entry = 0;
            puts = (puts < MANY -> puts + 1 : MANY);
            if
            :: puts >= MANY && due_to_tenant_worker != LEFT_OUT
            :: else -> goto step
            fi
        };
        atomic { puts = 0; wake(due_to_tenant_worker, TENANT_WORKER) };
        goto step
    :: !entry && ended ->
        pay(returning_to_reader, returning_to_tenant_worker);
        goto out
    :: !entry && !ended
    fi;
    if
    :: atomic {
            records ? entry ->
            /* for a reader that sleeps no more than MANY_TAKEN places are free */
            assert(!asleep[READER] || token[READER] || PLACES - len(records) <= MANY_TAKEN);
            taken = (taken < MANY_TAKEN -> taken + 1 : MANY_TAKEN);
            /* the tenant gets an event, or doesn't; the end mark it gets */
            if
#if IS_LIMITED
            :: entry == event && left > 0 -> left--
#else
            :: entry == event
#endif
            :: entry != end -> entry = 0
            :: entry == end
            fi;
            if
            :: taken >= MANY_TAKEN
            :: else -> goto step
            fi
        };
        pay(many_to_reader, many_to_tenant_worker)
    :: atomic { empty(records) -> asleep[me] = 1 };
        pay(parking_to_reader, parking_to_tenant_worker);
        park()
    fi;
    goto step;

out:
    leave()
}

/* ---- tenant_worker.rt */

inline give(to) {
    atomic {
        nfull(triggers[to]);
        if
        :: ended && outbox[to] == 1 -> triggers[to] ! end
        :: !(ended && outbox[to] == 1) -> triggers[to] ! event
        fi;
        outbox[to]--;
        owed[to] = 1
    }
}

inline pay_worker(number) {
    if
    :: owed[number] -> atomic { owed[number] = 0; wake(to_workers, WORKER + number) }
    :: !owed[number]
    fi
}

inline gather() {
    if
    :: entry == event -> gathered++
    :: entry == end -> has_end = 1
    fi;
    entry = 0
}

/* How many of the gathered events a pipeline selects; and each gets the end mark. */
inline match(to) {
    if
    :: to < WORKERS && gathered > 1 -> outbox[to] = 2
    :: to < WORKERS && gathered > 0 -> outbox[to] = 1
    :: true
    fi;
    outbox[to] = outbox[to] + (has_end && to < WORKERS)
}

proctype tenant_worker(byte me) {
    mtype:value entry;
    byte gathered, outbox[2];
    bit has_end, ended, owed[2];

step:
    unless_halted_or_refused
    if
    :: outbox[0] > 0 -> give(0); goto step
    :: outbox[0] == 0 && outbox[1] > 0 -> give(1); goto step
    :: outbox[0] == 0 && outbox[1] == 0
    fi;
    pay_worker(0);
    pay_worker(1);
    if
    :: ended -> goto out
    :: !ended && gathered + has_end < ROOM ->
        if
        :: atomic { items ? entry -> gather() };
            /* some more in one step, or none: a block may end anywhere */
            atomic {
                do
                :: gathered + has_end < ROOM && nempty(items) -> items ? entry; gather()
                :: break
                od
            };
            goto step
        :: atomic { empty(items) -> asleep[me] = (gathered + has_end == 0) }
        fi
    :: !ended && gathered + has_end == ROOM
    fi;
    if
    :: gathered + has_end == 0 -> park()
    :: atomic { gathered + has_end > 0 -> match(0); match(1); gathered = 0; ended = has_end; has_end = 0 }
    fi;
    goto step;

out:
    leave()
}

/* ---- worker.rt */

#if POSTS
#define QUEUES 3
#else
#define QUEUES 1                /* the others would always be found empty */
#endif

#define take(queue, number) \
    :: atomic { phase == number && nempty(queue) -> queue ? entry; missed = 0 } \
    :: atomic { phase == number && empty(queue) -> \
            phase = (phase + 1) % QUEUES; missed++; asleep[me] = (missed == QUEUES) }

proctype worker(byte me) {
    mtype:value entry;
    byte phase, missed;         /* missed: queues found empty in a row */

step:
    unless_halted_or_refused
    if
    take(triggers[me - WORKER], 0)
#if POSTS
    take(manages, 1)
    take(results, 2)
#endif
    fi;
    if
    :: entry == end -> goto out
    :: atomic { entry == event -> entry = 0 }
    :: !entry && missed == QUEUES -> missed = 0; park()
    :: !entry && missed < QUEUES
    fi;
    goto step;

out:
    leave()
}

/* ---- posts.rt, in the hands of gate_main_command's sessions.rt: posts go to one worker, and it may do no more at any time. */

#define post(queue, count, why) \
    :: atomic { count < POSTS && nfull(queue) -> queue ! event; count++ }; wake(why, WORKER) \
    :: atomic { count < POSTS && full(queue) -> count++ }

active proctype port() {
#if POSTS
    byte manage, result;
#endif

    do
#if POSTS
    post(manages, manage, by_manage)
    post(results, result, by_result)
#endif
#if MARKS
    :: asked < MARKS -> asked++
#endif
#if STOPS
    :: stopped = 1; break
#endif
    :: break
    od
}

/* ---- running.rt and works.rt: the thread that starts all others, and waits for them. */

#if STARTS
#define may_be_refused refused_here
#else
#define may_be_refused
#endif

#define start(work, number) \
    if \
    :: atomic { true -> running++; run work(number) } \
    may_be_refused \
    fi

active proctype starter() {
#if STARTS
    start(worker, WORKER);
#if WORKERS == 2
    start(worker, WORKER + 1);
#endif
    start(tenant_worker, TENANT_WORKER);
    start(forwarder, FORWARDER);
    start(reader, READER);
    /* the reader of another connection */
    if
    :: true
    may_be_refused
    fi;
    begun = 1;
    wake(begun_to_reader, READER);
#else
    atomic {
        start(worker, WORKER);
#if WORKERS == 2
        start(worker, WORKER + 1);
#endif
        start(tenant_worker, TENANT_WORKER);
        start(forwarder, FORWARDER);
        start(reader, READER);
        begun = 1
    };
#endif
    /* what they hand back may find no room */
    unless_halted_or_refused
out:
    skip
}

/* ---- what is checked

   Sooner or later, in every schedule, nothing waits for a thread; and once threads are to return, because memory was refused, a stop was
   asked for or the feed has ended, all have. With ENDLESS that asks for weak fairness, by which each thread that can go on does. A reader
   that parks waits for all to be started, and for a place. */

#define ALL_RETURNED ((begun || halted) && running == 0)
#define TO_RETURN (halted || stopped || returned[READER])

#define WAITS(number, queue) (!returned[number] && len(queue) > 0)
#if ENDLESS
/* there is always a record in its queue, or may be */
#define FORWARDER_WAITS (asleep[FORWARDER] && len(records) > 0)
#else
#define FORWARDER_WAITS WAITS(FORWARDER, records)
#endif
#define SOMETHING_WAITS ( \
    (asleep[READER] && begun && len(records) < PLACES) || \
    FORWARDER_WAITS || \
    WAITS(TENANT_WORKER, items) || \
    WAITS(WORKER, triggers[0]) || WAITS(WORKER, manages) || WAITS(WORKER, results) || \
    WAITS(WORKER + 1, triggers[1]))

#define SETTLED (ALL_RETURNED || (!TO_RETURN && !SOMETHING_WAITS))

/* A run that is against it: from some moment on it is never settled. Steps that change nothing of that may come in between. */
never {
    do
    :: true
    :: !SETTLED -> break
    od;
accept:
    do
    :: !SETTLED
    od
}
