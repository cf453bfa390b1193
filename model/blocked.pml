/* How the keeper lets calls wait (BLOCK), beside how it sleeps: a model that Spin explores whole.

   It follows crates/xs_desk: blocked.rt, schedule.rt, keeper.rt, lane_end.rt, and what waiting.pml follows, in the same
   manner; there the rings and the parks of clients have more cases. Lane 0 reads with BLOCK, lane 1 adds, lane 2 makes
   calls that have nothing to do with them, or reads with BLOCK too (BOTH: then nobody sleeps, and the order alone is
   checked). Each client has one call under way, and waits
   for its answer. There are as many entries as reads, so each read is answered in the end, also if it waits without end. With
   TIMES nobody adds, and each wait ends by its time: the keeper reads the clock before a turn, and parks no longer than up
   to the end of the first of the waits whose time it knows. With HURRY nobody adds either, and the client of a read ends
   its wait.

   Checked: no state without a way on in which anybody waits (Spin's invalid end states); a call that doesn't wait, whose
   submit had ended before a whole turn, is served in that turn or in those that resume it; and no read is given an entry
   while another one waits that began to before it.

   WRONG names a wrong protocol, each of which has to be found; run.py lists them. */

#ifndef WRONG
#define WRONG 0
#endif

#define LANES 3
#define ROUND 1
#define ALL 7
#define NOBODY 3
/* How many calls each client makes. */
#ifndef READS
#define READS 1
#endif
#ifndef ADDS
#define ADDS 1
#endif
#ifndef OTHERS
#define OTHERS 1
#endif
/* How many entries an addition adds. */
#ifdef BOTH
#define PER_ADD 2
#else
#define PER_ADD 1
#endif
#define bit(lane) (1 << (lane))
#define most(lane) ((lane) == 0 -> READS : ((lane) == 1 -> ADDS : OTHERS))
#ifdef BOTH
#define reads(lane) ((lane) != 1)
#else
#define reads(lane) ((lane) == 0)
#endif

/* Each ring has one place. */
bool call[LANES], answer[LANES];

bool keeper_sleeps, keeper_token, lane_sleeps[LANES], lane_token[LANES];
byte resting, notices;
/* The word above the notices. */
bool noticed;

/* The calls of these lanes needn't wait: their clients have said so. */
bool hurried[LANES];

/* Entries past the cursor of the group that the readers read. */
byte entries;

/* No part of the protocol: a client is within a submit; a call has to be served by this turn. */
bool is_busy[LANES], is_due[LANES];

#define due_of(lane) (call[lane] && !answer[lane] && !is_busy[lane] && !reads(lane))
#define may_wait(lane) (reads(lane) && entries == 0 && !(over & bit(lane)) && !hurried[lane])
#define other(lane) (2 - (lane))

/* Looks at a lane. Its call waits, or is served; what it has touched is due, and the turn is cut short. */
inline look_at(lane) {
    if
    :: atomic { lane >= from && lane < end && (lanes & bit(lane)) && call[lane] && !answer[lane] && may_wait(lane) ->
            lanes = lanes & ~bit(lane);
            if
            :: held & bit(lane)
            :: !(held & bit(lane)) -> held = held | bit(lane); fresh = true;
                if
                :: oldest == NOBODY -> oldest = lane
                :: else
                fi;
#if WRONG != 5
                keeper_sleeps = false
#endif
            fi
        }
    :: atomic { lane >= from && lane < end && (lanes & bit(lane)) && call[lane] && !answer[lane] && !may_wait(lane) ->
            call[lane] = false;
            hurried[lane] = false;
            /* Nobody who reads overtakes one who waits. */
            assert(!reads(lane) || entries == 0 || oldest == NOBODY || oldest == lane)
        };
        atomic { answer[lane] = true; is_due[lane] = false };
        if
        :: atomic { lane_sleeps[lane] -> skip }; lane_token[lane] = true
        :: !lane_sleeps[lane]
        fi;
        atomic {
            keeper_sleeps = false; used = used | bit(lane); found = ROUND; has_served = true;
            held = held & ~bit(lane); due = due & ~bit(lane); over = over & ~bit(lane);
            if
            :: oldest == lane && (held & bit(other(lane))) -> oldest = other(lane)
            :: oldest == lane && !(held & bit(other(lane))) -> oldest = NOBODY
            :: oldest != lane
            fi;
            if
            :: reads(lane) && entries > 0 -> entries--
            :: lane == 1 -> entries = entries + PER_ADD;
#if WRONG != 3
                due = due | held;
#endif
                if
                :: due != 0 ->
#if WRONG != 2
                    resume = lane + 1;
#endif
#if WRONG != 6
                    end = 0
#endif
                :: due == 0
                fi
            :: else
            fi
        }
    :: !(lane >= from && lane < end && (lanes & bit(lane)) && call[lane] && !answer[lane])
    fi
}

/* Which of the lanes that are due is looked at: the one that began to wait first. */
#if WRONG == 7
#define first_of(set) ((oldest != NOBODY && (set & ~bit(oldest)) != 0) -> other(oldest) : oldest)
#else
#define first_of(set) ((set & bit(oldest)) -> oldest : other(oldest))
#endif

active proctype Keeper() {
    byte lanes = ALL, used, found, held, due, over, from, end, resume, oldest = NOBODY;
    bool is_last, has_served, is_part, fresh;
    do
    :: atomic { /* the clock, and the beginning of a look */
            fresh = false;
#ifdef TIMES
            if
            :: true
            :: held != 0 -> over = held
            fi;
#endif
            has_served = false;
#ifndef BOTH
            if
            :: true
            :: !keeper_sleeps -> keeper_sleeps = true
            fi
#endif
        };
        if
        :: atomic { (over | due) != 0 -> from = first_of((over | due)); end = from + 1; due = due & ~bit(from);
                lanes = lanes | bit(from); is_part = true }
        :: atomic { (over | due) == 0 && resume != 0 && resume < LANES -> from = resume; end = LANES; resume = 0;
                is_part = true }
        :: atomic { (over | due) == 0 && (resume == 0 || resume >= LANES) -> from = 0; end = LANES; resume = 0;
                is_part = false; is_due[1] = due_of(1); is_due[2] = due_of(2) };
            if
            :: atomic { is_last -> lanes = used; used = 0; found = 0; is_last = false; resting = ALL & ~lanes }
            :: !is_last
            fi;
            if
            :: noticed -> noticed = false; atomic { lanes = lanes | notices; notices = 0 }; resting = ALL & ~lanes
            :: !noticed
            fi;
            if
            :: atomic { found >= ROUND -> is_last = true; resting = ALL & ~used }
            :: found < ROUND
            fi
        fi;
#if WRONG != 1
        if
        :: is_part -> keeper_sleeps = false
        :: !is_part
        fi;
#endif
        look_at(0);
        look_at(1);
        look_at(2);
        atomic {
            if
            :: over == 0 && due == 0 && (resume == 0 || resume >= LANES) -> assert(!is_due[1] && !is_due[2]);
                is_due[1] = false; is_due[2] = false
            :: else
            fi
        };
        if
        :: has_served
        :: !has_served && !keeper_sleeps
#ifdef TIMES
#if WRONG != 4
        /* The park ends by the token, or by the time of a wait that the clock was read for. */
        :: !has_served && keeper_sleeps && held != 0 && !fresh ->
            if
            :: atomic { keeper_token -> keeper_token = false }
            :: true
            fi
        :: !has_served && keeper_sleeps && !(held != 0 && !fresh) ->
            end_parked: atomic { keeper_token -> keeper_token = false }
#else
        :: !has_served && keeper_sleeps -> end_parked: atomic { keeper_token -> keeper_token = false }
#endif
#else
        :: !has_served && keeper_sleeps -> end_parked: atomic { keeper_token -> keeper_token = false }
#endif
        fi
    od
}

inline wake_keeper(lane) {
    if
    :: atomic { keeper_sleeps -> skip }; atomic { keeper_token = true; is_busy[lane] = false }
    :: atomic { !keeper_sleeps -> is_busy[lane] = false }
    fi
}

inline give_notice(lane) {
    notices = notices | bit(lane);
    noticed = true
}

inline notify(lane) {
    if
    :: atomic { resting & bit(lane) -> skip }; give_notice(lane)
    :: !(resting & bit(lane))
    fi;
    wake_keeper(lane)
}

proctype Client(byte lane) {
    byte made;
    do
    :: made == most(lane) -> break
    :: made < most(lane) ->
        atomic { made++; call[lane] = true; is_busy[lane] = true };
        lane_sleeps[lane] = false;
        notify(lane);
        do
        :: atomic { answer[lane] -> answer[lane] = false }; lane_sleeps[lane] = false; break
        :: !answer[lane] ->
            if
            :: true
#ifndef BOTH
            :: !lane_sleeps[lane] -> lane_sleeps[lane] = true;
                if
                :: answer[lane]
#ifdef HURRY
                /* The park ends by the token, or after a second: then the client ends its wait, once. */
                :: !answer[lane] && !hurried[lane] && reads(lane) ->
                    if
                    :: atomic { lane_token[lane] -> lane_token[lane] = false }
                    :: hurried[lane] = true;
                        lane_sleeps[lane] = false;
#if WRONG != 8
                        give_notice(lane);
#endif
                        wake_keeper(lane)
                    fi
                :: !answer[lane] && !(!hurried[lane] && reads(lane)) ->
                    atomic { lane_token[lane] -> lane_token[lane] = false }
#else
                :: !answer[lane] -> atomic { lane_token[lane] -> lane_token[lane] = false }
#endif
                fi
#endif
            fi
        od
    od
}

init {
    atomic { run Client(0); run Client(1); run Client(2) }
}
