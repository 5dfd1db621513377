// Seconds are whole.
default {
    state_entry() {
        llSetTimerEvent(2.5);
    }

    timer() {
        llSay(0, "tick");
    }
}
