// Tells on channel 7 when it goes on or off.
default {
    link_message(integer from, integer n, string s, key id) {
        if (n)
            llSay(7, "lamp on for " + (string)id);
        else
            llSay(7, "lamp off");
    }
}
