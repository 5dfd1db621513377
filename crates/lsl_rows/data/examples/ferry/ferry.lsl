// A ferry. Who touches it is on board; it says where it is when it has crossed, and lets all off after five seconds.
list aboard;

default {
    touch_start(integer count) {
        aboard += llDetectedName(0);
        llSay(0, "Welcome aboard, " + llDetectedName(0) + "!");
    }

    changed(integer what) {
        if (what & CHANGED_REGION) {
            llSay(0, "We are in " + llGetRegionName() + ". On board: " + llList2CSV(aboard));
            llSetTimerEvent(5);
        }
    }

    timer() {
        llSetTimerEvent(0);
        llSay(0, "All off, please");
        aboard = [];
    }
}
