default {
    touch_start(integer n) {
        while (n > 0) {
            llSay(0, llDetectedName(--n));
            @next;
        }
    }
}
