// Each touch adds a listen. The 66th can't be had.
integer heard;

hear(integer channel) {
    llListen(channel, "", NULL_KEY, "");
    ++heard;
}

default {
    touch_start(integer touches) {
        integer channel;
        for (channel = 1; channel <= 70; ++channel)
            hear(channel);
    }
}
