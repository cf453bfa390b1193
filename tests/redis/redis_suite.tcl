#!/usr/bin/env tclsh
# Runs Redis' own tests of streams against the program, and names those that pass, and those that don't with the cause.
#
#     tclsh redis_suite.tcl SOURCE PROGRAM [PORT]
#
# SOURCE is the folder of Redis' source, 7.0 (Debian: a line deb-src, and apt-get source redis; apt-get install tcl). Its
# files tests/unit/type/stream.tcl and stream-cgroups.tcl run as they are, but: each of their servers is a `run` of the
# program; FLUSHALL removes the keys that were named; a transaction of over 1,000 commands is sent as several; CONFIG is
# passed over; and where INFO is asked whether a client waits, 0.2 seconds pass.
lassign $argv source program port
set program [file normalize $program]
if {$port eq ""} {set port 7480}
cd $source
source tests/support/redis.tcl
source tests/support/test.tcl
source tests/support/util.tcl

set passed 0
set failed 0
set queued 0
set client ""
foreach {name value} {tls 0 external 1 singledb 1 denytags {} valgrind 0 accurate 0 verbose 0 log_req_res 0} {
    set ::$name $value
}
array set named {}

# ---- what the suite calls

proc tags {tags code} {uplevel 1 $code}

proc srv {args} {
    if {[lindex $args end] eq "host"} {return 127.0.0.1}
    return $::port
}

proc redis_client {args} {return [redis 127.0.0.1 $::port 0 0]}

proc redis_deferring_client {args} {return [redis 127.0.0.1 $::port 1 0]}

proc r {args} {
    if {[string is integer -strict [lindex $args 0]]} {set args [lrange $args 1 end]}
    set name [string tolower [lindex $args 0]]
    if {$name in {flushall flushdb}} {
        if {[array size ::named] > 0} {$::client del {*}[array names ::named]}
        return OK
    }
    if {$name eq "config"} {return OK}
    foreach place {1 2} {
        if {[llength $args] > $place} {set ::named([lindex $args $place]) 1}
    }
    if {$name eq "multi"} {set ::queued 0}
    if {[incr ::queued] % 1000 == 0 && $name eq "xadd"} {
        set told [$::client {*}$args]
        if {$told eq "QUEUED"} {
            $::client exec
            $::client multi
        }
        return $told
    }
    return [$::client {*}$args]
}

proc wait_for_blocked_client {} {after 200}

proc wait_for_blocked_clients_count {args} {after 200}

proc start_server {options code} {
    set outer $::client
    incr ::port
    set child [exec $::program run --port $::port --workers 32 >& /dev/null &]
    for {set try 0} {$try < 100 && [catch {set ::client [redis 127.0.0.1 $::port 0 0]}]} {incr try} {after 50}
    array unset ::named
    if {[catch {uplevel 1 $code} cause]} {says no "the rest of a file" $cause}
    catch {$::client close}
    exec kill $child
    incr ::port -1
    set ::client $outer
}

proc says {is_passed name cause} {
    if {$is_passed} {
        incr ::passed
        puts "passes: $name"
    } else {
        incr ::failed
        puts "fails:  $name: [string range [lindex [split $cause \n] 0] 0 160]"
    }
    flush stdout
}

proc s {args} {return [r info]}

# These never end, since the radix tree that XINFO tells of is always a small one.
set endless {{XDEL fuzz test}}

proc test {name code {pattern undefined} {tags {}}} {
    if {$name in $::endless} {
        says no $name "it waits for a radix tree of many nodes"
    } elseif {[catch {uplevel 1 $code} got]} {
        # A reply that is still to come would be taken for that to the next command.
        catch {$::client close}
        set ::client [redis 127.0.0.1 $::port 0 0]
        says no $name $got
    } elseif {$pattern ne "undefined" && $got ne $pattern && ![string match $pattern $got]} {
        says no $name "it gives $got, not $pattern"
    } else {
        says yes $name ""
    }
}

foreach file {stream stream-cgroups} {
    puts "---- tests/unit/type/$file.tcl"
    source tests/unit/type/$file.tcl
}
puts "$passed passed, $failed failed"
