integer price = 50;

default {
    touch_start(integer n) {
        llSay(0, "A hat costs 50");
    }
}
