integer moves;

move(integer discs, string from, string to, string by) {
    if (discs == 0) return;
    move(discs - 1, from, by, to);
    ++moves;
    llOwnerSay(from + " to " + to);
    move(discs - 1, by, to, from);
}

default {
    state_entry() {
        move(2, "left", "right", "middle");
        llOwnerSay((string)moves + " moves");
    }
}
