// LSL has this event, this language hasn't.
default {
    collision_start(integer n) {
        llOwnerSay("ouch");
    }
}
