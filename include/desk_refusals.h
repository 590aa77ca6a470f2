/* The desk's refusals, each with its number, its name, what is wrong, and what to mend. This is the
   one place that has the sentences: desk.h, the Rust crate and the Python module take them from here.
   A program that is not written in C can read the lines of the list by themselves: each has one refusal
   and no more, in plain ASCII, with no quote inside a text. What is wrong is a clause that can follow
   "refused 7 on line 7: ", and what to mend one that can follow "Mend: ". Both hold for every operation
   that gives the number. */
#ifndef DESK_REFUSALS_H
#define DESK_REFUSALS_H

#define DESK_REFUSALS(REFUSAL) \
    REFUSAL(1, REGISTER_TOO_LONG, "the register has more than 65,536 bytes", "see whether the file is a register at all, or two in one") \
    REFUSAL(2, LINE_ILL_FORMED, "the line is missing, unended or ill-formed, or it follows the closing line", "correct the fields and commas of the line, its name, its number or its line end, or the count of states on line 1") \
    REFUSAL(3, NUMBER_OUT_OF_LIMITS, "a number on the line is outside its limits", "correct that number: a house has 1 to 30,000 seats, a register 1 to 800 states, and a population or total is 1 to 4,294,967,295") \
    REFUSAL(4, METHOD_UNKNOWN, "the method is unknown", "name leximin, adams, dean, hill, webster, jefferson, remainders or quota, in small letters; as numbers these are 0 to 7") \
    REFUSAL(5, NAME_USED, "the name was already used on an earlier line", "rename one of the two states, or take one of the two lines out and put the count and the total right") \
    REFUSAL(6, RUNNING_SUM_TOO_LARGE, "the populations up to this line sum to more than 4,294,967,295", "correct the populations up to that line") \
    REFUSAL(7, TOTAL_DIFFERS, "the closing total differs from the sum of the populations", "correct the closing total, or the population that was mistyped") \
    REFUSAL(10, STATES_OUT_OF_LIMITS, "the number of states is not 1 to 800", "give the populations of 1 to 800 states") \
    REFUSAL(11, HOUSE_OUT_OF_LIMITS, "the house is not 1 to 30,000", "ask for a house of 1 to 30,000 seats") \
    REFUSAL(12, POPULATION_ZERO, "a population is 0", "correct that population, or leave the state out") \
    REFUSAL(13, SUM_TOO_LARGE, "the populations sum to more than 4,294,967,295", "correct the populations") \
    REFUSAL(14, SEAT_LIST_LENGTH, "the seat list is not as long as the list of populations", "lend a seat list with one place for each state") \
    REFUSAL(15, HOUSE_BELOW_STATES, "the house has fewer seats than there are states, and the method gives each state one", "enlarge the house, or take a method that may leave a state without a seat: webster, jefferson, remainders or quota") \
    REFUSAL(21, PLACING_FOREIGN, "the placing is not one that opening and moves give", "open the placing anew, and change it by moves alone") \
    REFUSAL(30, DEPARTURE_OUT_OF_LIMITS, "the population, the seats, the total or the house is outside its limits", "give a total of 1 to 4,294,967,295, a house of 1 to 30,000, a population of 1 to the total, and seats of 0 to the house") \
    REFUSAL(31, BUFFER_TOO_SHORT, "the text is longer than the lent buffer", "lend a larger buffer: 53,654 bytes are room for any listing, and 35,247 for any clean copy") \
    REFUSAL(40, PLACE_OUT_OF_STATES, "no state has that place", "give a place from 0 to one less than the number of states")

/* What is said of a number that is no refusal of this version: 0, or a later version's. */
#define DESK_UNKNOWN_WRONG "no refusal of this version of the desk has that number"
#define DESK_UNKNOWN_MEND "see the notes of the version that gave the number"

#endif
