// Counts who touches it, and how often.
list names;
list counts;

default {
    touch_start(integer n) {
        string who = llDetectedName(0);
        integer place = llListFindList(names, [who]);
        if (place < 0) {
            names += who;
            counts += 1;
        } else {
            integer count = llList2Integer(counts, place) + 1;
            counts = llListReplaceList(counts, [count], place, place);
        }
        llOwnerSay(llDumpList2String(names, ", ") + ": " + llDumpList2String(counts, ", "));
    }
}
