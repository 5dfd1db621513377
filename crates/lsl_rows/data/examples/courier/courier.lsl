// A courier who adds up the steps of a round. It may cross into another region in the middle of it.
list STREETS = [3, 5, 4];

integer steps_in(integer street) {
    integer steps;
    integer house;
    for (house = 1; house <= llList2Integer(STREETS, street); ++house)
        steps += house * 10;
    return steps;
}

integer walk(integer street) {
    if (street == llGetListLength(STREETS))
        return 0;
    integer steps = steps_in(street);
    llSay(0, "Street " + (string)(street + 1) + " in " + llGetRegionName() + ": " + (string)steps + " steps");
    return steps + walk(street + 1);
}

default {
    touch_start(integer count) {
        llSay(0, "Off I go");
        llSay(0, "Done: " + (string)walk(0) + " steps");
    }

    changed(integer what) {
        if (what & CHANGED_REGION)
            llOwnerSay("I came to " + llGetRegionName());
    }
}
