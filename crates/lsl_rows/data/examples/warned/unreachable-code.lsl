default {
    touch_start(integer n) {
        state open;
        llSay(0, "It opens");
    }
}

state open {
    state_entry() {
        llSay(0, "It is open");
    }
}
