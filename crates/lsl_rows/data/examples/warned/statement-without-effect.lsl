// `==` compares, and nobody looks at what it gives.
integer count;

default {
    touch_start(integer n) {
        count == count + n;
        llSay(0, (string)count);
    }
}
