// A recursion without an end.
integer deepest;

integer climb(integer floor) {
    deepest = floor;
    return 1 + climb(floor + 1);
}

default {
    touch_start(integer touches) {
        llOwnerSay((string)climb(1));
    }
}
