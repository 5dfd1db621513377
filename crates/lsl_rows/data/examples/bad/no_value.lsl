// A call that gives nothing stands alone.
default {
    state_entry() {
        integer done = llSetTimerEvent(5);
    }
}
