default {
    state_entry() {
        llOwnerSay("copied from a page, with a space that is none");
    }
}
