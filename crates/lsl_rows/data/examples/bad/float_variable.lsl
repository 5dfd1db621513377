// There are no numbers with a point.
float height;

default {
    state_entry() {
        height = 2;
    }
}
