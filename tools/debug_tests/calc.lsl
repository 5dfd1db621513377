// Averages what it is told, and divides by how many there are.
list numbers;

integer avg(integer sum, integer count) {
    integer whole = sum / count;
    return whole;
}

default {
    state_entry() {
        llListen(0, "", NULL_KEY, "");
    }

    listen(integer channel, string name, key id, string text) {
        if (text == "clear") {
            numbers = [];
        } else if (text == "average") {
            integer sum;
            integer at;
            for (at = 0; at < llGetListLength(numbers); ++at)
                sum += llList2Integer(numbers, at);
            llSay(0, "The average is " + (string)avg(sum, llGetListLength(numbers)));
        } else {
            numbers += (integer)text;
        }
    }
}
