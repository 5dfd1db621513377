// Sells drinks by chat: a touch tells the menu, and a number on channel 9 orders.
list drinks = ["tea", "coffee", "cocoa"];
list prices = [2, 3, 4];
integer takings;

integer is_drink(integer choice) {
    return choice >= 0 && choice < llGetListLength(drinks);
}

default {
    state_entry() {
        llListen(9, "", NULL_KEY, "");
    }

    touch_start(integer count) {
        list menu;
        integer i;
        for (i = 0; is_drink(i); ++i)
            menu += [(string)(i + 1) + " " + llList2String(drinks, i)];
        llWhisper(0, llDetectedName(0) + ", say a number on channel 9: " + llDumpList2String(menu, ", "));
    }

    listen(integer channel, string name, key id, string message) {
        integer choice = (integer)message - 1;
        if (!is_drink(choice)) {
            llWhisper(0, "No such drink, " + name + ".");
            return;
        }
        takings += llList2Integer(prices, choice);
        llWhisper(0, "One " + llList2String(drinks, choice) + " for " + name + ".");
        llOwnerSay("Takings: " + (string)takings);
    }
}
