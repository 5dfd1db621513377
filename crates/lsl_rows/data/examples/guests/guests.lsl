// A guest book. The names of its guests stand in the store of its object, and cross with it.
default {
    touch_start(integer count) {
        string name = llDetectedName(0);
        llLinksetDataWrite(name, (string)((integer)llLinksetDataRead(name) + 1));
    }

    linkset_data(integer what, string name, string visits) {
        if (visits == "1") llSay(0, "Welcome, " + name + "!");
        else llSay(0, "Welcome back, " + name + ", for visit " + visits + "!");
    }

    changed(integer what) {
        if (what & CHANGED_REGION)
            llSay(0, "In " + llGetRegionName() + " with " + llList2CSV(llLinksetDataListKeys(0, 0)));
    }
}
