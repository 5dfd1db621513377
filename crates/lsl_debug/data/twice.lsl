integer count;

integer twice(integer n) {
    while (n < 10)
        n = n + n;
    return n;
}

default {
    touch_start(integer total) {
        count = twice(total) + 1;
        llOwnerSay((string)count);
    }
}
