// The variable is called `count`.
integer count;

default {
    touch_start(integer n) {
        cuont += n;
    }
}
