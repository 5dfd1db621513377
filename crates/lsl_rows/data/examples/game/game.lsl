// Touch it as often as you can in ten seconds.
integer hits;

default {
    touch_start(integer count) {
        hits = 0;
        state playing;
    }
}

state playing {
    state_entry() {
        llSay(0, "Go!");
        llSetTimerEvent(10);
    }

    touch_start(integer count) {
        ++hits;
    }

    timer() {
        llSetTimerEvent(0);
        state default;
    }

    state_exit() {
        llSay(0, "Time is up: " + (string)hits + " touches.");
    }
}
