// Goes past the end without meeting it.
integer steps(integer from, integer to) {
    integer count;
    while (from != to) {
        from += 2;
        ++count;
    }
    return count;
}

default {
    touch_start(integer touches) {
        llOwnerSay("Steps: " + (string)steps(1, 10));
    }
}
