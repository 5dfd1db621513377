// Opens when it is touched or told so, and closes after ten seconds. The lamp hears of both.
integer CHAN = 5;
key who;

default {
    state_entry() {
        llListen(CHAN, "", NULL_KEY, "open");
        llSay(0, "Door closed");
    }

    touch_start(integer n) {
        who = llDetectedKey(0);
        state open;
    }

    listen(integer c, string name, key id, string m) {
        who = id;
        state open;
    }
}

state open {
    state_entry() {
        llMessageLinked(LINK_ALL_OTHERS, 1, "open", who);
        llSay(0, "Door open");
        llSetTimerEvent(10);
    }

    timer() {
        llSetTimerEvent(0);
        llMessageLinked(LINK_ALL_OTHERS, 0, "closed", who);
        state default;
    }
}
