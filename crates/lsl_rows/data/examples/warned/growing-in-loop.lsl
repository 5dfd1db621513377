// More than half of the memory: a list that is joined is there twice.
default {
    touch_start(integer n) {
        list names;
        integer i;
        for (i = 0; i < 1000; ++i) names += [llDetectedName(0), i];
        llSay(0, (string)llGetListLength(names));
    }
}
