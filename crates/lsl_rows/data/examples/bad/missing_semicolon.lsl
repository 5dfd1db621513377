// Line 4 has no semicolon at its end.
default {
    touch_start(integer n) {
        llSay(0, "touched")
        llOwnerSay("by " + llDetectedName(0));
    }
}
