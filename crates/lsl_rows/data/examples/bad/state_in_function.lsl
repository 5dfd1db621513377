// Only handlers change the state.
open() {
    state opened;
}

default {
    touch_start(integer n) {
        open();
    }
}

state opened {
    state_entry() {
        llSay(0, "open");
    }
}
