/* How the lanes of a desk and their keeper wait for each other, as a model that Spin explores whole.

   It follows crates/xs_desk: poll_set.rt, waiting.rt, lane_end.rt, client.rt, lane.rt and keeper.rt. Loads and stores have one
   order, as SeqCst gives them, and each is a step of its own; but two loads are one step if what they read can only
   turn one way in between. A ring is the number of its places in use. How many looks come before the last one is left
   open: any look may be the last. One client may have as many calls under way as its rings have places, the other one
   waits for each answer; both may end once they have all of them. With DROPS the keeper may be dropped before any turn,
   and both wait for each answer.

   Checked: no state without a way on in which anybody waits (Spin's invalid end states); and a call whose submit had
   ended before a turn, with room for its answer, is served in that turn.

   WRONG names a wrong protocol, each of which has to be found; run.py lists them. */

#ifndef WRONG
#define WRONG 0
#endif

#define LANES 2
#ifndef DEPTH
#define DEPTH 1
#endif
/* How many places the rings of a lane have. */
#define depth(lane) ((lane) == 0 -> DEPTH : 1)
#define ROUND 1
#define ALL 3
#define bit(lane) (1 << (lane))

/* The rings. */
byte calls[LANES], answers[LANES];

/* By these flags a side says that it sleeps; a token ends its park. */
bool keeper_sleeps, keeper_token;
bool lane_sleeps[LANES], lane_token[LANES];

/* Which lanes are at rest, by bits that the keeper stores, and which of them gave notice. */
byte resting, notices;

/* The word above the notices: there may be one. */
bool noticed;

/* The keeper has been dropped. */
bool gone;

/* No part of the protocol: a client is within a submit or a take; a call has to be served in this turn. */
bool is_busy[LANES], is_due[LANES];

/* How many calls a client may have under way. */
#ifdef DROPS
#define most(lane) 1
#else
#define most(lane) (2 - (lane))
#endif

#define due(lane) (calls[lane] > 0 && answers[lane] < depth(lane) && !is_busy[lane])

/* The next look at the lane serves a further call in any case. */
#if WRONG == 9
#define has_next(lane) (calls[lane] > 0)
#else
#define has_next(lane) (calls[lane] > 0 && answers[lane] < depth(lane))
#endif

/* Looks at a lane, and serves a call if there is one, and room for its answer. */
inline look_at(lane) {
    if
    :: atomic { (lanes & bit(lane)) && calls[lane] > 0 && answers[lane] < depth(lane) -> calls[lane]-- };
        atomic { answers[lane]++; is_due[lane] = false };
        if
        :: atomic { lane_sleeps[lane] -> skip };
            if
            :: atomic { has_next(lane) -> skip }
            :: atomic { !has_next(lane) -> skip }; lane_token[lane] = true
            fi
        :: !lane_sleeps[lane]
        fi;
        atomic { keeper_sleeps = false; used = used | bit(lane); found = ROUND; has_served = true }
    :: !((lanes & bit(lane)) && calls[lane] > 0 && answers[lane] < depth(lane))
    fi
}

active proctype Keeper() {
    byte lanes = ALL, used, found;
    bool is_last, has_served;
    do
    :: atomic {
            has_served = false;
            is_due[0] = due(0);
            is_due[1] = due(1);
            if
            :: true
#if WRONG != 1 && WRONG != 2
            :: !keeper_sleeps -> keeper_sleeps = true
#endif
            fi
        };
        if
        :: atomic { is_last -> lanes = used; used = 0; found = 0; is_last = false; resting = ALL & ~lanes }
        :: !is_last
        fi;
        if
        :: atomic { noticed -> noticed = false }; atomic { lanes = lanes | notices; notices = 0 }; resting = ALL & ~lanes
        :: !noticed
        fi;
        if
#if WRONG == 3
        :: atomic { found >= ROUND -> is_last = true }
#else
        :: atomic { found >= ROUND -> is_last = true; resting = ALL & ~used }
#endif
        :: found < ROUND
        fi;
        look_at(0);
        look_at(1);
        atomic { assert(!is_due[0] && !is_due[1]); is_due[0] = false; is_due[1] = false };
        if
        :: has_served
#if WRONG == 1
        :: !has_served
        :: !has_served -> end_parked: atomic { keeper_token -> keeper_token = false }
#elif WRONG == 2
        :: !has_served
        :: !has_served -> keeper_sleeps = true; end_parked: atomic { keeper_token -> keeper_token = false }
#else
        :: !has_served && !keeper_sleeps
        :: !has_served && keeper_sleeps -> end_parked: atomic { keeper_token -> keeper_token = false }
#endif
        fi
#ifdef DROPS
    :: gone = true;
#if WRONG != 7
        lane_token[0] = true;
        lane_token[1] = true;
#endif
        break
#endif
    od
}

/* Tells the keeper of a call, or of room for an answer. */
inline give_notice() {
    if
#if WRONG == 8
    :: atomic { resting & bit(lane) -> skip }; noticed = true; notices = notices | bit(lane)
#else
    :: atomic { resting & bit(lane) -> skip }; notices = notices | bit(lane); noticed = true
#endif
    :: !(resting & bit(lane))
    fi;
    if
    :: atomic { keeper_sleeps -> skip }; atomic { keeper_token = true; is_busy[lane] = false }
    :: atomic { !keeper_sleeps -> is_busy[lane] = false }
    fi
}

proctype Client(byte lane) {
    byte under_way;
    bool was_gone;
    do
    :: under_way == 0 -> break
    :: atomic { calls[lane] < depth(lane) && under_way < most(lane) -> calls[lane]++; under_way++; is_busy[lane] = true };
#if WRONG == 4
        atomic { lane_sleeps[lane] = false; is_busy[lane] = false }
#else
        lane_sleeps[lane] = false;
        give_notice()
#endif
    :: under_way > 0 ->
#ifdef DROPS
        was_gone = gone;
#endif
#if WRONG != 6
        if
        :: true
        :: !lane_sleeps[lane] -> lane_sleeps[lane] = true
        fi;
#endif
        if
        :: atomic { answers[lane] > 0 -> answers[lane]--; under_way--; is_busy[lane] = true };
            lane_sleeps[lane] = false;
            if
#if WRONG == 5
            :: under_way > 0 -> is_busy[lane] = false
#else
            :: under_way > 0 -> give_notice()
#endif
            :: under_way == 0 -> is_busy[lane] = false
            fi
        :: answers[lane] == 0 && was_gone -> break
#if WRONG == 6
        :: answers[lane] == 0 && !was_gone
        :: answers[lane] == 0 && !was_gone -> atomic { lane_token[lane] -> lane_token[lane] = false }
#else
        :: answers[lane] == 0 && !was_gone && !lane_sleeps[lane]
        :: answers[lane] == 0 && !was_gone && lane_sleeps[lane] ->
            atomic { lane_token[lane] -> lane_token[lane] = false }
#endif
        fi
    od
}

init {
    atomic { run Client(0); run Client(1) }
}
