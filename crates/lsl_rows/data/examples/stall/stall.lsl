// Sells fruit whose prices stand in the notecard "prices", a line each: the name, a comma and the price.
list fruit;
list prices;
integer line;

ask() {
    llGetNotecardLine("prices", line);
}

integer price_of(string name) {
    integer place = llListFindList(fruit, [name]);
    if (place < 0)
        return 0;
    return llList2Integer(prices, place);
}

default {
    state_entry() {
        ask();
    }

    dataserver(key query, string data) {
        if (data == EOF)
            state open;
        list words = llCSV2List(data);
        if (llGetListLength(words) == 2) {
            fruit += [llList2String(words, 0)];
            prices += [(integer)llList2String(words, 1)];
        } else if (data != "")
            llOwnerSay("Line " + (string)(line + 1) + " has no price: " + data);
        ++line;
        ask();
    }
}

state open {
    state_entry() {
        llListen(9, "", NULL_KEY, "");
        llSay(0, "Open: " + llList2CSV(fruit) + ".");
    }

    listen(integer channel, string name, key id, string message) {
        integer price = price_of(message);
        if (price > 0)
            llSay(0, message + " for " + name + " at " + (string)price + ".");
        else
            llSay(0, "No " + message + " today, " + name + ".");
    }
}
