// There are no vectors.
default {
    touch_start(integer n) {
        llOwnerSay((string)<1, 2, 3>);
    }
}
