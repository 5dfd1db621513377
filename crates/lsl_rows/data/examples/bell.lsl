integer rings;

string times(integer count) {
    if (count == 1) return "once";
    return (string)count + " times";
}

default {
    touch_start(integer touches) {
        rings += touches;
        llOwnerSay("Rung " + times(rings) + ".");
    }
}
