// Shares twelve pieces among the people that it is told of, and forgets that there may be none.
default {
    link_message(integer sender, integer people, string text, key id) {
        llSay(0, "Each gets " + (string)(12 / people) + ".");
    }
}
