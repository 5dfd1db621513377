// Naps between two texts, with a timer that waits meanwhile.
default {
    state_entry() {
        llSetTimerEvent(5);
        llLinksetDataWrite("naps", "0");
    }

    touch_start(integer touches) {
        llSay(0, "Good night");
        llSleep(20);
        llLinksetDataWrite("naps", (string)((integer)llLinksetDataRead("naps") + 1));
        llSay(0, "Good morning");
    }

    timer() {
        llSay(0, "tick");
    }
}
