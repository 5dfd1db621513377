// Sends a message to all prims: the name of who touches it has the number, the text and the key, with | between them.
default {
    touch_start(integer n) {
        list parts = llParseStringKeepNulls(llDetectedName(0), ["|"], []);
        string text = llDumpList2String(llList2List(parts, 1, -2), "|");
        llMessageLinked(LINK_SET, llList2Integer(parts, 0), text, llList2Key(parts, -1));
    }
}
